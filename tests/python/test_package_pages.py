"""The pages by which the library finds entries: those of a table, and those that calls on many texts fill.

Pages are compared with == and not by assertEqual, which would look for minutes for the least difference of such long lists.
"""

import ctypes
import unittest
from concurrent.futures import ThreadPoolExecutor
from itertools import accumulate
from pathlib import Path
from threading import Barrier

import mundeziwa
from mundeziwa import errors, library, many, pages

HEADER = Path(__file__).parents[2] / "include" / "mundeziwa.h"
UNICODE = 3
# Code points at both ends of pages, the first and the last of all among them, and beside syllables and surrogates.
LATIN, LAST = (0x3F, 0x40, 0x7F, 0x80), (0, 0x10FFBF, 0x10FFC0, 0x10FFFF)
EDGES = ((), (0,), LATIN, range(0x80, 0xC0), (0xABFF, 0xD7A4, 0xD7FF, 0xE000), LAST)


def table_of(code_points):
    """A table in which each of these code points has a titlecase."""
    return mundeziwa.Table([number for code_point in code_points for number in (code_point, 0x41, 0, 0)], [], "mine")


def defined(table):
    """The two slices of a table's pages, by the header's definition of them."""
    presence, counts = [0] * pages.PAGES, [0] * pages.PAGES
    for code_point in table.entries[::4]:
        presence[code_point // 64] |= 1 << code_point % 64
        counts[code_point // 64] += 1
    return [presence, list(accumulate(counts, initial=0))[:-1]]


def address(pointer):
    """Where a lent slice begins."""
    return ctypes.addressof(pointer._obj)


def held(lent):
    """The numbers of both slices that are lent."""
    slices = ((lent[0], lent[1]), (lent[2], lent[3]))
    return [list((ctypes.c_uint64 * length).from_address(address(pointer))) for pointer, length in slices]


def spoil(lent):
    """Writes numbers that no table's pages have."""
    for pointer, length in ((lent[0], lent[1]), (lent[2], lent[3])):
        ctypes.memset(address(pointer), 0xA5, 8 * length)


class OfTables(unittest.TestCase):
    """The pages that a table keeps, which the calls on one text and on two read."""

    def test_they_are_those_of_the_entries(self):
        for table in (*map(table_of, EDGES), mundeziwa.Table.published(), mundeziwa.Table.empty()):
            with self.subTest(table):
                self.assertTrue(held(table._pages) == defined(table))

    def test_calls_on_many_texts_fill_others(self):
        table = table_of(LATIN)
        before = held(table._pages)
        spoil(table._pages)
        spoiled = held(table._pages)
        spoil(many._ROOM.slices)
        self.assertEqual(list(table.keys(["@?", "b"])), [b"AA", b"b"])
        self.assertTrue(held(many._ROOM.slices) == before)
        self.assertTrue(held(table._pages) == spoiled)

    def test_every_code_point_beside_an_edge(self):
        table = mundeziwa.Table.published()
        near = {code_point + step for code_point in table.entries[::4] for step in (-1, 0, 1)}
        near.update(64 * page + bit for page in range(pages.PAGES) for bit in (0, 63))
        texts = [chr(code_point) for code_point in sorted(near) if not 0xD800 <= code_point <= 0xDFFF]
        self.assertEqual([hex(ord(text)) for text, key in zip(texts, table.keys(texts)) if key != table.key(text)], [])


class Threads(unittest.TestCase):
    """Python's lock is free during a call, so that calls of several threads are made at once."""

    def test_each_has_room_of_its_own(self):
        together = Barrier(4)

        def place(_):
            together.wait()
            return address(many._ROOM.slices[0])

        with ThreadPoolExecutor(4) as pool:
            places = [*pool.map(place, range(4)), address(many._ROOM.slices[0]), address(mundeziwa.Table.published()._pages[0])]
        self.assertEqual(len(set(places)), 6)

    def test_calls_over_two_tables_at_once(self):
        # é has another key over each, so that pages of the wrong table, or half filled, are seen.
        tables = [mundeziwa.Table.published(), mundeziwa.Table([0x65, 0x78, 0, 0, 0xE9, 0x79, 0, 1], [0x7A], "mine")]
        expected = [[b"E\xcc\x81", b"E"] * 500, [b"y", b"E"] * 500]

        def right(index):
            table, keys = tables[index % 2], expected[index % 2]
            return list(table.keys(["é", "E"] * 500)) == keys and table.key("é") == keys[0] and table.equal("é", keys[0])

        with ThreadPoolExecutor(4) as pool:
            self.assertTrue(all(pool.map(right, range(200))))


class TooShort(unittest.TestCase):
    """No call of the package lends pages that are too short, so the library is asked itself."""

    def prepare(self, presence, ranks):
        """What preparing the empty text leaves in slices of these lengths: the answer row, and both slices."""
        slices = [(ctypes.c_uint64 * length)(*[7] * length) for length in (presence, ranks)]
        lent = [*library.lent(slices[0]), *library.lent(slices[1])]
        table = table_of(LATIN)
        row = library.answer("mz_prepare", 7, UNICODE, b"", 0, *table._numbers, *lent, *library.lent(bytearray()))
        return row, [list(numbers) for numbers in slices]

    def test_they_are_refused_and_stay(self):
        for lengths in ((pages.PAGES - 1, pages.PAGES), (pages.PAGES, pages.PAGES - 1), (0, 0)):
            row, left = self.prepare(*lengths)
            self.assertEqual(row, [15, 0, 0, 0, 0, 0, 0])
            self.assertTrue(left == [[7] * length for length in lengths])
        self.assertEqual(str(mundeziwa.Refused(*row[:3])), "a page slice has under 17408 numbers (refused 15)")

    def test_what_lies_beyond_stays(self):
        row, left = self.prepare(pages.PAGES + 1, pages.PAGES + 2)
        self.assertEqual(row[0], 0)
        presence, ranks = defined(table_of(LATIN))
        self.assertTrue(left == [[*presence, 7], [*ranks, 7, 7]])

    def test_the_number_is_the_headers(self):
        self.assertIn(f"\n#define MZ_PAGES {pages.PAGES} ", HEADER.read_text())
        self.assertIn(str(pages.PAGES), errors.sentence(15))


if __name__ == "__main__":
    unittest.main()
