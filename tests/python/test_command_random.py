"""The command on many lists: against all pairs of keys, against dictionaries of keys, and on 100,000 names."""

import collections
import random
import unicodedata

from command import CommandTest, run

from mundeziwa import Table

SEED = 18
PIECES = ["e", "é", "É", "e\u0301", "E\u0301", "ß", "SS", "ss", "ﬁ", "fi", "ı", "i", "I", "İ", "a\u0323\u0301", "a\u0301\u0323"]
PIECES += [" ", "\u00a0", "한", "\u1112\u1161\u11ab", "하\u11ab", "하", "ㅎㅏ", "ǆ"]
OCTETS = [b"\xc3", b"\xff", b"\xed\xa0\x80", b"\xe2\x82", b"\\", b"\t"]


def random_names(rng, size):
    """Names of few pieces, so that many of them meet, some only look alike, and some are broken."""
    names = []
    for _ in range(size):
        pieces = [piece.encode() for piece in rng.choices(PIECES, k=rng.randint(1, 3))]
        if rng.random() < 0.2:
            pieces.insert(rng.randint(0, len(pieces)), rng.choice(OCTETS))
        names.append(b"".join(pieces))
    return names


def is_valid(name):
    """Whether a name is UTF-8."""
    try:
        name.decode()
    except UnicodeDecodeError:
        return False
    return True


def fold(name):
    """How a name looks to a person, one name at a time; None for a broken one."""
    return unicodedata.normalize("NFKC", name.decode().strip()).casefold() if is_valid(name) else None


def lines_of(names):
    """The lines of the names of an object."""
    return [name["line"] for name in names]


def pairs_of(groups):
    """The lines of all pairs across the lists in some groups."""
    return {(i, j) for group in groups for i in lines_of(group["first"]) for j in lines_of(group["second"])}


class AllPairs(CommandTest):
    """Every answer of the command, found again pair by pair with one key at a time."""

    def setUp(self):
        super().setUp()
        self.table = Table.published()

    def pairs(self, first, second, equal):
        """The lines of all pairs that a test of equality takes."""
        places = [(i, j) for i in range(len(first)) for j in range(len(second))]
        return {(i + 1, j + 1) for i, j in places if equal(first[i], second[j])}

    def check(self, first, second, collation):
        """Compares the report of two lists with what all pairs say."""
        keys = {name: self.table.key(name, collation) for name in first + second}
        met = self.pairs(first, second, lambda a, b: keys[a] == keys[b])
        alike = self.pairs(first, second, lambda a, b: fold(a) is not None and fold(a) == fold(b) and keys[a] != keys[b])
        broken = [sum(not is_valid(name) for name in names) if collation == "unicode" else 0 for names in (first, second)]
        status = 1 if met else 2 if any(broken) else 0
        paths = self.file("first", first), self.file("second", second)
        self.assertEqual(run("shared", *paths, "--collation", collation).returncode, status)
        said = "".join(f"mundeziwa: {path} has no names\n" for path, names in zip(paths, (first, second)) if not names)
        arguments = ["shared", *paths, "--collation", collation, "--allow-invalid"]
        objects, totals = self.objects(int(bool(met)), *arguments, said=said)
        groups = collections.defaultdict(list)
        for found in objects:
            groups[found["type"]].append(found)
        self.assertEqual(pairs_of(groups["shared"]), met)
        self.assertEqual(totals["equal_pairs"], len(met))
        self.assertEqual(totals["with_partner"], len({i for i, _ in met}))
        self.assertEqual(totals["shared_names"], len({keys[first[i - 1]] for i, _ in met}))
        same = {keys[first[i - 1]] for i, j in met if first[i - 1] == second[j - 1]}
        self.assertEqual(totals["other_spelling"], totals["shared_names"] - len(same))
        self.assertEqual([totals["broken_first"], totals["broken_second"]], broken)
        self.assertEqual(len(groups["broken"]), sum(broken))
        self.check_lookalikes(groups["lookalike"], first, second, keys, alike)
        self.check_repeated(groups["repeated"], first, second, keys)

    def check_lookalikes(self, groups, first, second, keys, alike):
        """Every pair that looks alike and doesn't meet is in a group, and every group has such a pair for each of its names."""
        shown = pairs_of(groups)
        self.assertEqual({(i, j) for i, j in shown if keys[first[i - 1]] != keys[second[j - 1]]}, alike)
        self.assertEqual(len({fold(first[i - 1]) for i, _ in alike}), len(groups))
        self.assertTrue(all(fold(first[i - 1]) == fold(second[j - 1]) for i, j in shown))

    def check_repeated(self, groups, first, second, keys):
        """Every name that a list holds more than once is there, once."""
        expected = []
        for number, names in enumerate((first, second), 1):
            lines = collections.defaultdict(list)
            for line, name in enumerate(names, 1):
                lines[keys[name]].append(line)
            expected += [(number, lines[key]) for key in sorted(lines) if len(lines[key]) > 1]
        self.assertEqual([(group["list"], lines_of(group["names"])) for group in groups], expected)

    def test_random_lists(self):
        rng = random.Random(SEED)
        for round_number in range(24):
            collation = rng.choice(["unicode", "unicode", "ascii", "octet"])
            first, second = random_names(rng, rng.randint(0, 40)), random_names(rng, rng.randint(0, 40))
            with self.subTest(round=round_number, collation=collation):
                self.check(first, second, collation)

    def test_plain_lists_with_a_few_others(self):
        plain = [b"Otto", b"OTTO", b"straSSE", b"fi", b"x y", b"a"]
        self.check(plain, [" otto".encode(), "Straße".encode(), "ﬁ".encode(), b"x y ", b"A\x1c", b"\x00a"], "unicode")
        self.check([" otto".encode(), "ﬁ".encode()], plain, "unicode")
        self.check(plain, [b"oTTO", b"FI"], "octet")

    def test_broken_names_are_no_lookalikes(self):
        self.check([b"\xffa", b"b\xc3 ", b"c"], [b"\xffA", b" b\xc3", b" c"], "unicode")


class ManyNames(CommandTest):
    def test_a_hundred_thousand_names(self):
        rng = random.Random(SEED)
        letters = ["e", "É", "e\u0301", "a", "B", "c", "ñ", "N\u0303", "o"]
        lists = [["".join(rng.choices(letters, k=6)).encode() for _ in range(100_000)] for _ in range(2)]
        lists[0][7], lists[1][9] = b"\xff\xfe", b"\xff\xfe"
        table, members = Table.published(), collections.defaultdict(lambda: ([], []))
        for number, names in enumerate(lists):
            for line, (name, key) in enumerate(zip(names, table.keys(names)), 1):
                members[key][number].append(line)
        shared = [(key.hex(), *members[key]) for key in sorted(members) if all(members[key])]
        paths = self.file("first", lists[0]), self.file("second", lists[1])
        objects, totals = self.objects(1, "shared", *paths)
        groups = [group for group in objects if group["type"] == "shared"]
        self.assertEqual([(group["key"], lines_of(group["first"]), lines_of(group["second"])) for group in groups], shared)
        self.assertEqual(totals["shared_names"], len(shared))
        self.assertEqual(totals["equal_pairs"], sum(len(first) * len(second) for _, first, second in shared))
        self.assertEqual(totals["with_partner"], sum(len(first) for _, first, _ in shared))
        self.assertEqual(totals["repeated_first"], sum(len(first) > 1 for first, _ in members.values()))
        self.assertEqual(totals["repeated_second"], sum(len(second) > 1 for _, second in members.values()))
        rows = self.answer(1, "shared", *paths, "--format", "tsv").splitlines()
        self.assertEqual(len(rows), 1 + sum(len(first) + len(second) for _, first, second in shared))
        keys = self.answer(0, "keys", paths[0]).splitlines()
        self.assertEqual([line.split("\t")[0] for line in keys], [key.hex() for key in table.keys(lists[0])])
