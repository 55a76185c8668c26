"""Reports on lists: against request 3's call, against comparing all pairs, and against dictionaries of keys."""

import ctypes
import json
import pickle
import random
import struct
import unittest
from array import array
from concurrent.futures import ThreadPoolExecutor
from itertools import combinations, product

import mundeziwa
from mundeziwa.library import lent, library

COLLATIONS = ("unicode", "ascii", "octet")
# Spellings that meet and spellings that don't, some of them broken.
PARTS = ["e", "E", "é", "É", "e\u0301", "E\u0301", "ß", "ss", "SS", "ﬁ", "fi", "Ω", "ω", "\u2126", "ё", "İ", "i", "x" * 40, " "]
PARTS += ["한", "하\u11ab", "\u1112\u1161\u11ab"]
BROKEN = [b"\xc3", b"\xff", b"\xed\xa0\x80", b"\xc3\xa9\x80"]
# MZ_PAGES of include/mundeziwa.h.
PAGES = 17408


def random_name(source):
    """A short name as a str or as bytes, now and then broken."""
    octets = b"".join(part.encode() for part in source.choices(PARTS, k=source.randrange(3)))
    if source.random() < 0.2:
        octets += source.choice(BROKEN)
    return octets if source.random() < 0.5 else octets.decode("utf-8", "surrogateescape")


def random_list(source, most):
    """A list of at most so many names."""
    return [random_name(source) for _ in range(source.randrange(most + 1))]


def octets_of(name):
    """A name's octets, found otherwise than by the package."""
    return name if isinstance(name, bytes) else name.encode("utf-8", "surrogateescape")


def find_shared(table, collation, first, second):
    """Request 3's call: equal pairs, names with a partner, partners, and the first list's numbers in the order of the keys."""
    lists = [b"".join(struct.pack("<IH", 2 + len(name), 1) + name for name in map(octets_of, names)) for names in (first, second)]
    store = bytearray(128 * sum(map(len, lists)))
    partners, positions = array("I", [0]) * len(first), array("I", [0]) * len(first)
    presence, ranks = array("Q", [0]) * PAGES, array("Q", [0]) * PAGES
    octets, slices = [ctypes.c_char_p, ctypes.c_size_t], [ctypes.c_void_p, ctypes.c_size_t]
    call, answer = library().mz_find_shared, (ctypes.c_uint64 * 7)()
    call.restype, call.argtypes = None, [ctypes.c_uint32] + octets * 2 + slices * 7 + [ctypes.c_void_p]
    texts = [argument for records in lists for argument in (records, len(records))]
    tables = (*lent(table.entries), *lent(table.pool), *lent(presence), *lent(ranks))
    call(COLLATIONS[::-1].index(collation) + 1, *texts, *tables, *lent(store), *lent(partners), *lent(positions), answer)
    assert answer[0] == 0 and list(answer[3:5]) == [len(first), len(second)], list(answer)
    return (*answer[5:], partners, positions)


class AgainstOthers(unittest.TestCase):
    """The same answers by other ways."""

    @classmethod
    def setUpClass(cls):
        cls.table = mundeziwa.Table.published()

    def test_request_3(self):
        source = random.Random(18)
        shared = 0
        for _ in range(200):
            collation, first, second = source.choice(COLLATIONS), random_list(source, 30), random_list(source, 30)
            report = self.table.shared(first, second, collation)
            order = array("I", (index + 1 for group in report.groups() for index in group.first))
            answered = (report.equal_pairs, report.with_partner, report.partners, order)
            self.assertEqual(answered, find_shared(self.table, collation, first, second))
            shared += bool(report)
        self.assertGreater(shared, 100)

    def test_all_pairs(self):
        source = random.Random(19)
        for _ in range(60):
            collation, first, second = source.choice(COLLATIONS), random_list(source, 8), random_list(source, 8)
            report = self.table.shared(first, second, collation)
            equal = [[self.table.equal(a, b, collation) for b in second] for a in first]
            self.assertEqual(report.equal_pairs, sum(map(sum, equal)))
            self.assertEqual(report.with_partner, sum(map(any, equal)))
            self.assertEqual(list(report.partners), [row.index(True) + 1 if any(row) else 0 for row in equal])
            met = {pair for group in report for pair in product(group.first, group.second)}
            self.assertEqual(met, {(i, j) for i, row in enumerate(equal) for j, yes in enumerate(row) if yes})

    def test_all_pairs_within_a_list(self):
        source = random.Random(20)
        for _ in range(60):
            collation, names = source.choice(COLLATIONS), random_list(source, 9)
            report = self.table.duplicates(names, collation)
            places = combinations(range(len(names)), 2)
            pairs = {(i, j) for i, j in places if self.table.equal(names[i], names[j], collation)}
            met = {pair for group in report for pair in combinations(group.first, 2)}
            self.assertEqual(met, pairs)
            self.assertEqual((bool(report), len(report)), (bool(pairs), sum(1 for _ in report)))

    def test_dictionaries_of_keys(self):
        source = random.Random(21)
        parts = [part.encode() for part in PARTS] + BROKEN
        lists = [[b"".join(source.choices(parts, k=source.randrange(1, 6))) for _ in range(100_000)] for _ in range(2)]
        filed = {}
        for place, names in enumerate(lists):
            for index, name in enumerate(names):
                filed.setdefault(self.table.key(name), ([], []))[place].append(index)
        report = self.table.shared(*lists)
        self.assertEqual([(group.key, (group.first, group.second)) for group in report.groups()], sorted(filed.items()))
        both = {key: found for key, found in filed.items() if all(found)}
        self.assertEqual([group.key for group in report], sorted(both))
        self.assertEqual(report.shared_names, len(both))
        self.assertEqual(report.equal_pairs, sum(len(a) * len(b) for a, b in both.values()))
        self.assertEqual(report.with_partner, sum(len(a) for a, _ in both.values()))
        spelled = [[{lists[place][index] for index in found[place]} for place in (0, 1)] for found in both.values()]
        other = sum(first.isdisjoint(second) for first, second in spelled)
        self.assertTrue(0 < other < len(both))
        self.assertEqual(report.other_spelling, other)
        repeated = [(place + 1, key) for key in sorted(filed) for place in (0, 1) if len(filed[key][place]) > 1]
        self.assertEqual([(place, group.key) for place, group in report.repeated()], repeated)

    def test_threads(self):
        source = random.Random(22)
        lists = [[random_name(source) for _ in range(2000)] for _ in range(2)]
        with ThreadPoolExecutor(4) as pool:
            answers = list(pool.map(lambda _: self.table.shared(*lists).to_dict(), range(8)))
        self.assertEqual(answers, [self.table.shared(*lists).to_dict()] * 8)


class OneReport(unittest.TestCase):
    """Every part of a report on two lists."""

    FIRST = ["JOSÉ", "Irene", b"Jos\xc3", "beryl", "Jose\u0301", "irene"]
    SECOND = ["Otto", "José", "BERYL", "Jos\udcc3", "OTTO", "otto", "beryl"]

    def setUp(self):
        self.report = mundeziwa.shared(self.FIRST, self.SECOND)

    def test_totals(self):
        report = self.report
        self.assertEqual((report.first_names, report.second_names), (6, 7))
        self.assertEqual((report.equal_pairs, report.with_partner), (5, 4))
        self.assertEqual(report.partners, array("I", [2, 0, 4, 3, 2, 0]))
        self.assertEqual((report.shared_names, len(report), report.other_spelling), (3, 3, 1))
        self.assertEqual((report.edition, report.collation), ("Unicode 15.0.0", "unicode"))
        self.assertIs(bool(report), True)
        self.assertEqual(repr(report), "<mundeziwa.Report: 3 names, Unicode 15.0.0, unicode>")

    def test_names_are_those_that_were_given(self):
        for given, kept in ((self.FIRST, self.report.first), (self.SECOND, self.report.second)):
            self.assertIsInstance(kept, list)
            self.assertTrue(all(a is b for a, b in zip(given, kept)) and len(given) == len(kept))

    def test_groups(self):
        found = [(group.key, group.first, group.second, group.is_shared, len(group)) for group in self.report.groups()]
        expected = [
            (b"BERYL", [3], [2, 6], True, 3),
            (b"IRENE", [1, 5], [], False, 2),
            (b"JOSE\xcc\x81", [0, 4], [1], True, 3),
            (b"Jos\xc3", [2], [3], True, 2),
            (b"OTTO", [], [0, 4, 5], False, 3),
        ]
        self.assertEqual(found, expected)
        self.assertEqual([group.key for group in self.report], [b"BERYL", b"JOSE\xcc\x81", b"Jos\xc3"])
        self.assertEqual([group.key for group in self.report.shared()], [b"BERYL", b"JOSE\xcc\x81", b"Jos\xc3"])
        repeated = [(place, group.key) for place, group in self.report.repeated()]
        self.assertEqual(repeated, [(2, b"BERYL"), (1, b"IRENE"), (1, b"JOSE\xcc\x81"), (2, b"OTTO")])

    def test_spellings(self):
        spelled = [group.spellings for group in self.report]
        jose = [name.encode() for name in ("JOSÉ", "Jose\u0301", "José")]
        self.assertEqual(spelled, [[b"beryl", b"BERYL"], jose, [b"Jos\xc3"]])

    def test_invalid(self):
        self.assertEqual((self.report.invalid_first, self.report.invalid_second), ([2], [3]))
        report = mundeziwa.shared(self.FIRST, self.SECOND, "octet")
        self.assertEqual((report.invalid_first, report.invalid_second), ([], []))

    def test_rows(self):
        rows = list(self.report.rows())
        self.assertEqual(rows[0], (1, 1, 3, "beryl", b"BERYL"))
        expected = [(1, 1, 3), (1, 2, 2), (1, 2, 6), (2, 1, 0), (2, 1, 4), (2, 2, 1), (3, 1, 2), (3, 2, 3)]
        self.assertEqual([row[:3] for row in rows], expected)
        self.assertEqual((rows[-1].name, rows[-1].key), ("Jos\udcc3", b"Jos\xc3"))

    def test_to_dict(self):
        report = json.loads(json.dumps(self.report.to_dict(), ensure_ascii=False).encode())
        groups = report.pop("groups")
        names = {"first_names": 6, "second_names": 7, "invalid_first": [2], "invalid_second": [3]}
        totals = {"equal_pairs": 5, "with_partner": 4, "shared_names": 3, "other_spelling": 1}
        self.assertEqual(report, {**names, **totals, "edition": "Unicode 15.0.0", "collation": "unicode"})
        beryl = {"key": "424552594c", "first": [{"index": 3, "name": "beryl"}]}
        self.assertEqual(groups[0], {**beryl, "second": [{"index": 2, "name": "BERYL"}, {"index": 6, "name": "beryl"}]})
        broken = {"name": "Jos\\xc3", "hex": "4a6f73c3"}
        self.assertEqual(groups[2], {"key": "4a6f73c3", "first": [{"index": 2, **broken}], "second": [{"index": 3, **broken}]})

    def test_nothing_shared(self):
        for first, second in (([], []), (["a"], []), ([], ["a"]), (["a"], ["b"])):
            report = mundeziwa.shared(first, second)
            self.assertIs(bool(report), False)
            self.assertEqual((len(report), list(report), report.equal_pairs, report.other_spelling), (0, [], 0, 0))
            self.assertEqual(sum(map(len, report.groups())), len(first) + len(second))

    def test_empty_names_are_names(self):
        report = mundeziwa.shared(["", "a"], ["b", ""])
        self.assertIs(bool(report), True)
        self.assertEqual([(group.key, group.first, group.second) for group in report], [(b"", [0], [1])])

    def test_duplicates(self):
        report = mundeziwa.duplicates(self.SECOND)
        found = [(group.key, group.first, group.second) for group in report]
        self.assertEqual(found, [(b"BERYL", [2, 6], []), (b"OTTO", [0, 4, 5], [])])
        self.assertEqual((bool(report), len(report), report.other_spelling, report.second), (True, 2, 0, []))
        self.assertEqual([row[:3] for row in report.rows()], [(1, 1, 2), (1, 1, 6), (2, 1, 0), (2, 1, 4), (2, 1, 5)])
        self.assertEqual(report.to_dict()["groups"][0]["second"], [])
        self.assertEqual((report.with_partner, report.shared_names, list(report.shared())), (0, 0, []))
        self.assertIs(bool(mundeziwa.duplicates(["a", "b"])), False)
        self.assertIs(bool(mundeziwa.duplicates(["a", "A"], "octet")), False)

    def test_sharing_is_shared_made_later(self):
        first, second = list(self.FIRST), list(self.SECOND)
        call = mundeziwa.Table.published().sharing(first, second)
        first.clear()
        second.clear()
        self.assertEqual(call().to_dict(), self.report.to_dict())

    def test_a_report_can_be_pickled(self):
        again = pickle.loads(pickle.dumps(self.report))
        self.assertEqual(again.to_dict(), self.report.to_dict())


if __name__ == "__main__":
    unittest.main()
