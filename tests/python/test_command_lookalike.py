"""Names that only look alike: against the plain definition, and the characters by which most names are passed by."""

import collections
import itertools
import random
import sys
import unicodedata
import unittest
from unittest import mock

from mundeziwa import Table
from mundeziwa.command.lookalike import find_lookalikes
from mundeziwa.command.ordinary import UNCHANGED, Characters, Special

SEED = 18
COLLATIONS = ["unicode", "ascii", "octet"]
NASTY = ["ß", "ẞ", "ss", "SS", "ﬁ", "fi", "İ", "ı", "i", "I", "i\u0307", "ſ", "s", "ς", "σ", "Σ", "ǰ", "j\u030c", "ΐ"]
NASTY += ["ϊ\u0301", "a\u0323\u0301", "a\u0301\u0323", "á\u0323", "ạ\u0301", "á", "a", "A", "\u0301", "\u0345", "ᾳ", "αι"]
NASTY += ["=\u0338", "≠", "´", " ", "\xa0", "\u2003", "\t", "\n", "\x1c", "\x85", "Ａ", "ａ", "１", "1", "²", "µ", "μ"]
NASTY += ["\u212b", "å", "Å", "\u212a", "k", "ǆ", "ǅ", "DŽ", "한", "\u1112\u1161\u11ab", "하\u11ab", "\u0958", "क\u093c"]
NASTY += ["が", "か\u3099", "\u034f", "\u200d", "\x00", "’", "ŉ", "ʼn", "ǟ", "하", "\u1112\u1161", "\u1161", "ㅎㅏ", "가", "\u1100"]
BROKEN = [b"\xc3", b"\xff", b"\xed\xa0\x80", b"\xe2\x82"]
ORDINARY = "aAeEzZ0-' éÉñÑøØłŁčČ\u0301\u030c\u0323αΑάΆςσΣжЖйЙёЁ\u0306\u0308ế’海한하"


def fold(text):
    """How a name looks to a person."""
    return unicodedata.normalize("NFKC", text.strip()).casefold()


def plain_lookalikes(first, second, table, collation):
    """What looks alike and has not all the same key, by a dictionary of all names, folded one at a time."""
    alike = collections.defaultdict(lambda: ([], []))
    for number, names in enumerate((first, second)):
        for place, name in enumerate(names):
            try:
                alike[fold(name.decode())][number].append(place)
            except UnicodeDecodeError:
                pass  # a broken name looks like none
    found = []
    for firsts, seconds in filter(all, alike.values()):
        names = [first[place] for place in firsts] + [second[place] for place in seconds]
        if len({table.key(name, collation) for name in names}) > 1:
            found.append((firsts, seconds))
    return sorted(found)


def nasty_names(rng, size):
    """Names of few pieces, most of which are no ordinary characters; some are broken, and some empty once they are trimmed."""
    pieces = [piece.encode() for piece in NASTY] + BROKEN
    return [b"".join(rng.choices(pieces, k=rng.randint(1, 3))) for _ in range(size)]


def ordinary_names(rng, size, odd=0.0):
    """Names of ordinary characters, and a share of odd ones: with one nasty piece in them."""
    names = []
    for _ in range(size):
        name = "".join(rng.choices(ORDINARY, k=rng.randint(1, 3)))
        names.append((name + rng.choice(NASTY) if rng.random() < odd else name).encode())
    return names


def unchanged():
    """The characters of UNCHANGED."""
    ranges = zip(UNCHANGED[::3], UNCHANGED[2::3])
    return [chr(code) for start, end in ranges for code in range(ord(start), ord(end) + 1)]


def tables():
    """The published table, the empty one, and one that maps a few characters as no edition does."""
    odd = [(0x41, 0x62, 0, 0), (0x61, 0x41, 0, 0), (0xE9, 0x45, 0, 2), (0x301, 0x302, 2, 0)]
    # A jamo with a titlecase has another key than in a syllable, and one that decomposes the same.
    odd += [(0x1112, 0x68, 2, 0), (0x1161, 0x1161, 2, 1)]
    numbers = [number for entry in odd for number in entry]
    return [Table.published(), Table.empty(), Table(numbers, [0x65, 0x301, 0x61], "odd table")]


class Lookalikes(unittest.TestCase):
    def check(self, first, second, table, collation="unicode"):
        """Compares with the plain definition, and gives how many groups were found."""
        found = find_lookalikes(first, second, table, collation)
        self.assertEqual(found, plain_lookalikes(first, second, table, collation))
        return len(found)

    def test_nasty_names(self):
        rng, found = random.Random(SEED), 0
        for number in range(120):
            table, collation = tables()[number % 3], rng.choice(COLLATIONS)
            with self.subTest(number=number, table=table, collation=collation):
                lists = [nasty_names(rng, rng.randint(0, 300)) for _ in range(2)]
                found += self.check(*lists, table, collation)
        self.assertGreater(found, 1000)

    def test_ordinary_names(self):
        rng, found = random.Random(SEED), 0
        for number in range(60):
            table, collation, odd = tables()[number % 3], rng.choice(COLLATIONS), rng.choice([0, 0, 0.01, 0.5])
            with self.subTest(number=number, table=table, collation=collation, odd=odd):
                found += self.check(ordinary_names(rng, 400, odd), ordinary_names(rng, 400, odd), table, collation)
        self.assertGreater(found, 1000)

    def test_parts_of_long_lists(self):
        rng = random.Random(SEED)
        for most in (1, 2, 7):
            with mock.patch("mundeziwa.texts.PART_MOST", most):
                lists = [ordinary_names(rng, 50, 0.1) + nasty_names(rng, 50) for _ in range(2)]
                self.assertGreater(self.check(*lists, Table.published()), 0)

    def test_a_group_has_all_that_look_alike(self):
        names = [["strasse".encode(), "x".encode(), "Straße".encode()], ["STRASSE".encode(), " strasse".encode(), "X".encode()]]
        self.assertEqual(find_lookalikes(*names, Table.published(), "unicode"), [([0, 2], [0, 1])])


class OrdinaryCharacters(unittest.TestCase):
    """What the class Characters says of a rule's characters, found again one by one and two by two."""

    def check_own_keys(self, table, collation, texts):
        """The fold of each text has the text's key."""
        folds = [unicodedata.normalize("NFKC", text).casefold() for text in texts]
        pairs = zip(texts, table.keys(texts, collation), table.keys(folds, collation))
        self.assertEqual([text for text, key, fold_key in pairs if key != fold_key], [])

    def test_every_character_and_every_letter_with_a_mark(self):
        for table, collation in itertools.product(tables(), COLLATIONS):
            with self.subTest(table=table, collation=collation):
                chars = Characters(table, collation)
                self.check_own_keys(table, collation, sorted(chars.letters | chars.marks))
                bare = sorted(chars.letters - chars.ending_in_mark)
                self.check_own_keys(table, collation, [letter + mark for letter in bare for mark in sorted(chars.marks)])

    def test_no_letter_joins_what_stands_before_it(self):
        chars = Characters(Table.published(), "unicode")
        parts = [unicodedata.decomposition(chr(code)).split() for code in range(sys.maxunicode + 1)]
        joining = {chr(int(pair[1], 16)) for pair in parts if len(pair) == 2 and not pair[0].startswith("<")}
        starts = {unicodedata.normalize("NFKD", letter)[0] for letter in [*chars.letters, *unchanged()]}
        self.assertIn("\u0301", joining)
        self.assertEqual([start for start in starts if start in joining or unicodedata.combining(start)], [])
        ends = {letter for letter in chars.letters if unicodedata.combining(unicodedata.normalize("NFKD", letter)[-1])}
        self.assertEqual(chars.ending_in_mark, ends)

    def test_what_is_never_changed(self):
        chars = unchanged()
        self.assertEqual([char for char in chars if fold(char) != char], [])
        self.assertEqual((len(chars), chars[0], chars[-1]), (0xA000 - 0x4E00 + 11172, "一", "힣"))
        for mark in Characters(Table.published(), "unicode").marks:
            text = "".join(char + mark for char in chars)
            self.assertEqual(unicodedata.normalize("NFKC", text), text)
        for table, collation in itertools.product(tables(), COLLATIONS):
            self.check_own_keys(table, collation, chars)

    def test_jamo_are_special_since_a_fold_makes_syllables_of_them(self):
        syllables = [char for char in unchanged() if char >= "가"]
        jamo = [unicodedata.normalize("NFD", char) for char in syllables]
        self.assertEqual(list(map(fold, jamo)), syllables)
        self.check_own_keys(Table.published(), "unicode", jamo)
        for table, collation in itertools.product(tables(), COLLATIONS):
            special = Special(Characters(table, collation))
            self.assertEqual(special.places([text.encode() for text in jamo]), list(range(len(jamo))))
            self.assertEqual(special.places([text.encode() for text in syllables]), [])

    def test_syllables_and_jamo_look_alike_where_the_rule_keeps_them_apart(self):
        first, second = ["한".encode(), b"x"], ["\u1112\u1161\u11ab".encode(), b"x"]
        published, empty, odd = tables()
        apart = [([0], [0])]
        for table in (published, empty):
            self.assertEqual(find_lookalikes(first, second, table, "unicode"), [])
            for collation in ("ascii", "octet"):
                self.assertEqual(find_lookalikes(first, second, table, collation), apart)
        self.assertEqual(find_lookalikes(first, second, odd, "unicode"), apart)

    def test_the_usual_letters_are_ordinary(self):
        special = Special(Characters(Table.published(), "unicode"))
        ordinary = ["José", "Jose\u0301", "D'Arcy 2", "O’Brien", "Łódź", "Việt", "Ελλάς", "Йод", "о\u0308", "x\ny", "海燕", "한"]
        odd = ["Straße", "ﬁ", "á\u0323", "a\u0301\u0323", "x ", "\nx", " ", "\u00a0x", "x\t", "ΐ", "ǆ", "하\u11ab", "\x00"]
        names = [name.encode() for name in ordinary + odd] + [b"x\xc3", b""]
        self.assertEqual(special.places(names), list(range(len(ordinary), len(ordinary + odd))))
        for name in names[len(ordinary) : -2]:
            self.assertEqual(special.places([name]), [0], name)

    def test_names_that_are_not_special_have_the_key_of_their_fold(self):
        rng = random.Random(SEED)
        for table, collation in itertools.product(tables(), COLLATIONS):
            chars = Characters(table, collation)
            special, pool = Special(chars), sorted(chars.letters | chars.marks) + sorted(chars.marks) * 9 + NASTY
            names = ["".join(rng.choices(pool, k=rng.randint(1, 4))) for _ in range(20_000)]
            places = set(special.places([name.encode() for name in names]))
            ordinary = [name for place, name in enumerate(names) if place not in places]
            self.assertGreater(len(ordinary), 1000)
            self.check_own_keys(table, collation, ordinary)


if __name__ == "__main__":
    unittest.main()
