"""The package's calls on single texts and on many, and its tables: what they answer and what they raise."""

import copy
import doctest
import pickle
import tempfile
import tracemalloc
import unittest
from array import array
from pathlib import Path
from unittest import mock

import mundeziwa
from mundeziwa import errors, many, unicode_data

COMBINING_ACUTE = "\u0301"
HEADER = Path(__file__).parents[2] / "include" / "mundeziwa.h"
LONG = "a" * 4097
# A character of 3 octets whose key has 33.
ARABIC_LIGATURE = "\ufdfa"


class Answers(unittest.TestCase):
    """What the calls on texts answer, over the table that comes with the package."""

    def test_key(self):
        self.assertEqual(mundeziwa.key("José"), b"JOSE\xcc\x81")
        self.assertEqual(mundeziwa.key("José", "ascii"), b"JOS\xc3\xa9")
        self.assertEqual(mundeziwa.key("José", "octet"), b"Jos\xc3\xa9")
        self.assertEqual(mundeziwa.key(""), b"")
        self.assertEqual(mundeziwa.key(b"Jos\xc3"), b"Jos\xc3")

    def test_collations_by_number(self):
        for name, number in (("octet", 1), ("ascii", 2), ("unicode", 3)):
            self.assertEqual(mundeziwa.key("José", number), mundeziwa.key("José", name))

    def test_equal(self):
        self.assertIs(mundeziwa.equal("José", "JOSE" + COMBINING_ACUTE), True)
        self.assertIs(mundeziwa.equal("José", "Jose"), False)
        self.assertIs(mundeziwa.equal("José", "JOSÉ", "ascii"), False)
        self.assertIs(mundeziwa.equal("Otto", "OTTO", "ascii"), True)
        self.assertIs(mundeziwa.equal("Otto", "OTTO", "octet"), False)

    def test_order(self):
        self.assertEqual(mundeziwa.order("Beryl", "alex"), 1)
        self.assertEqual(mundeziwa.order("Beryl", "alex", "octet"), -1)
        self.assertEqual(mundeziwa.order("beryl", "BERYL"), 0)

    def test_find(self):
        self.assertEqual(mundeziwa.find("SÉ", "Ño José y"), (7, 11, 6, 9, 5, 7))
        self.assertIsNone(mundeziwa.find("x", "José"))
        self.assertEqual(mundeziwa.find("", "José"), (0, 0, 0, 0, 0, 0))

    def test_find_slices_the_str(self):
        text = "Ho\u0302tel Jose\u0301 Ñandú"
        hit = mundeziwa.find("josé", text)
        self.assertEqual(text[hit.char_start : hit.char_end], "Jose\u0301")
        self.assertEqual(text.encode()[hit.start : hit.end].decode(), "Jose\u0301")

    def test_find_has_no_characters_where_there_are_none(self):
        self.assertEqual(mundeziwa.find("é", "José".encode()), (3, 6, 3, 5, None, None))
        # the second octet of é alone
        self.assertEqual(mundeziwa.find(b"\xa9", "José", "octet"), (4, 5, 4, 5, None, None))
        # an escaped octet is a character of the str
        self.assertEqual(mundeziwa.find(b"\xc3", "Jos\udcc3", "octet"), (3, 4, 3, 4, 3, 4))

    def test_keys(self):
        texts = ["José", b"Jos\xc3", bytearray(b"otto"), memoryview(b"x"), "", "Jos\udcc3"]
        keys = mundeziwa.keys(texts)
        self.assertEqual(list(keys), [mundeziwa.key(text) for text in texts])
        self.assertEqual(keys.valid, bytes([1, 0, 1, 1, 1, 0]))
        self.assertEqual(keys.octets, b"".join(keys))
        self.assertEqual(list(keys.ends), [6, 10, 14, 15, 15, 19])
        self.assertEqual((len(keys), keys[0], keys[-1], keys[1:3]), (6, b"JOSE\xcc\x81", b"Jos\xc3", [b"Jos\xc3", b"OTTO"]))
        self.assertEqual(keys[::-2], [b"Jos\xc3", b"X", b"Jos\xc3"])
        self.assertIn(b"OTTO", keys)
        self.assertRaises(IndexError, lambda: keys[6])

    def test_keys_of_nothing(self):
        self.assertEqual(list(mundeziwa.keys([])), [])
        self.assertEqual(list(mundeziwa.keys(["", ""])), [b"", b""])
        self.assertEqual(list(mundeziwa.Table.empty().keys([b"", "é"])), [b"", "é".encode()])

    def test_keys_under_the_other_collations_are_valid(self):
        for collation in ("ascii", "octet"):
            self.assertEqual(mundeziwa.keys([b"Jos\xc3"], collation).valid, b"\1")

    def test_keys_much_longer_than_their_texts(self):
        texts = [ARABIC_LIGATURE * 10] * 10_000
        octets = sum(len(text.encode()) for text in texts)
        # else the first store that is lent is long enough, and the second is not tried
        self.assertGreater(many.KEY_PER_OCTET_MOST * octets, many.STORE_MOST_AT_FIRST)
        keys = mundeziwa.keys(texts)
        self.assertGreater(len(keys.octets), 3 * octets)
        self.assertEqual(set(keys), {mundeziwa.key(texts[0])})

    def test_keys_of_an_iterable(self):
        self.assertEqual(list(mundeziwa.keys(c for c in "ab")), [b"A", b"B"])
        self.assertEqual(list(mundeziwa.keys({"a": 1})), [b"A"])

    def test_longest_text(self):
        self.assertEqual(mundeziwa.key(LONG[1:]), b"A" * 4096)
        self.assertEqual(len(mundeziwa.key(ARABIC_LIGATURE * 1365)), 33 * 1365)


class LongLists(unittest.TestCase):
    """Lists are taken in parts, which no answer shows."""

    NAMES = ["a", "é", b"\xff", "Jos\udcc3", "b", bytearray(b"c"), "", "\ud800", "e\u0301", b"", "z"]

    def test_kinds_of_names_in_every_part(self):
        keys = [mundeziwa.key(name) for name in self.NAMES]
        for most in range(1, len(self.NAMES) + 1):
            with mock.patch("mundeziwa.texts.PART_MOST", most):
                self.assertEqual(list(mundeziwa.keys(self.NAMES)), keys)

    def test_the_number_of_a_name_counts_through_all_parts(self):
        for most in (1, 2, 5):
            with mock.patch("mundeziwa.texts.PART_MOST", most):
                with self.assertRaisesRegex(TypeError, "^name 12 of the second list is missing"):
                    mundeziwa.shared(self.NAMES, [*self.NAMES, None])


class Documentation(unittest.TestCase):
    def test_the_examples(self):
        results = doctest.testmod(mundeziwa)
        self.assertGreater(results.attempted, 0)
        self.assertEqual(results.failed, 0)

    def test_every_public_name_is_there_and_explained(self):
        for name in mundeziwa.__all__:
            self.assertTrue(getattr(mundeziwa, name).__doc__, name)


class Surrogates(unittest.TestCase):
    """Texts that UTF-8 has no octets for."""

    def test_escaped_octets_are_themselves(self):
        octets = bytes(range(256))
        escaped = octets.decode("utf-8", "surrogateescape")
        self.assertEqual(mundeziwa.key(escaped), octets)
        self.assertEqual(list(mundeziwa.keys([escaped, "é"])), [octets, b"E\xcc\x81"])

    def test_other_lone_surrogates_make_an_invalid_text(self):
        text = "é\ud800\udc7f\udcff"
        octets = b"\xc3\xa9\xed\xa0\x80\xed\xb1\xbf\xff"
        self.assertEqual(mundeziwa.key(text), octets)
        self.assertEqual(mundeziwa.keys([text]).valid, b"\0")

    def test_two_escaped_octets_may_be_a_character(self):
        self.assertTrue(mundeziwa.equal("\udcc3\udca9", "É"))


class Errors(unittest.TestCase):
    """What is raised, with its sentence."""

    def raises(self, kind, sentence, call, *arguments):
        with self.assertRaises(kind) as caught:
            call(*arguments)
        self.assertEqual(str(caught.exception), sentence)
        return caught.exception

    def test_text_too_long(self):
        error = self.raises(
            mundeziwa.Refused, "the text has 4097 octets, and at most 4096 are taken (refused 2)", mundeziwa.key, LONG
        )
        self.assertEqual((error.number, error.place, error.detail), (2, 1, 4097))
        sentence = "the {} text has 4097 octets, and at most 4096 are taken (refused 2)"
        for call in (mundeziwa.equal, mundeziwa.order, mundeziwa.find):
            self.raises(mundeziwa.Refused, sentence.format("first"), call, LONG, "a")
            error = self.raises(mundeziwa.Refused, sentence.format("second"), call, "a", LONG)
            self.assertEqual((error.number, error.place, error.detail), (2, 2, 4097))

    def test_a_text_that_is_far_too_long_takes_no_memory(self):
        text = b"a" * 1_000_000
        tracemalloc.start()
        self.addCleanup(tracemalloc.stop)
        for call, arguments in ((mundeziwa.key, [text]), (mundeziwa.equal, [text, text])):
            self.assertRaises(mundeziwa.Refused, call, *arguments)
        self.assertLess(tracemalloc.get_traced_memory()[1], 4_000_000)

    def test_name_too_long(self):
        sentence = "name {} has 5000 octets, and at most 4096 are taken (refused 2)"
        long = "é" * 2500
        error = self.raises(mundeziwa.Refused, sentence.format("2 of the list"), mundeziwa.keys, ["a", long, long])
        self.assertEqual((error.number, error.place, error.detail), (2, 1, 1))
        self.raises(mundeziwa.Refused, sentence.format("1 of the list"), mundeziwa.duplicates, [long])
        first = sentence.format("3 of the first list")
        self.raises(mundeziwa.Refused, first, mundeziwa.shared, ["a", "b", long], [long])
        error = self.raises(mundeziwa.Refused, sentence.format("1 of the second list"), mundeziwa.shared, ["a", "b"], [long])
        self.assertEqual(error.detail, 2)

    def test_collation(self):
        for wrong in ("UNICODE", 0, 4, None, True, [3]):
            sentence = f"the collation is {wrong!r}, and must be 'unicode', 'ascii' or 'octet' (or 3, 2, 1)"
            self.raises(ValueError, sentence, mundeziwa.key, "a", wrong)
            self.raises(ValueError, sentence, mundeziwa.shared, [], [], wrong)

    def test_what_is_no_text(self):
        sentence = "a text is a str, bytes, bytearray or memoryview, not {}"
        self.raises(TypeError, sentence.format("NoneType"), mundeziwa.key, None)
        self.raises(TypeError, sentence.format("int"), mundeziwa.equal, "a", 1)
        self.raises(TypeError, "name 2 of the list is of type int, and must be a str or bytes", mundeziwa.keys, ["a", 1])

    def test_what_is_missing(self):
        sentence = "name 2 of the {} is missing ({}): leave missing names out first"
        self.raises(TypeError, sentence.format("first list", "None"), mundeziwa.shared, ["a", None], [])
        self.raises(TypeError, sentence.format("second list", "nan"), mundeziwa.shared, [], ["a", float("nan")])
        self.raises(TypeError, sentence.format("list", "None"), mundeziwa.duplicates, [b"a", None])

    def test_what_is_no_list(self):
        sentence = "the {} is a single {}, and must be a list of texts"
        self.raises(TypeError, sentence.format("first list", "str"), mundeziwa.shared, "José", [])
        self.raises(TypeError, sentence.format("second list", "bytes"), mundeziwa.shared, [], b"Otto")
        self.raises(TypeError, sentence.format("list", "bytearray"), mundeziwa.keys, bytearray(b"Otto"))
        self.raises(TypeError, "the list is of type int, and must be a list of texts", mundeziwa.keys, 7)

    def test_an_error_of_the_iterable_comes_through(self):
        def names():
            yield "a"
            raise TypeError("its own")

        self.raises(TypeError, "its own", mundeziwa.keys, names())

    def test_every_refusal_of_the_header_has_a_sentence(self):
        lines = HEADER.read_text().splitlines()
        numbers = {int(line.split()[2]) for line in lines if line.startswith("#define MZ_REFUSED_")}
        self.assertIn(36, numbers)
        for number in numbers:
            self.assertNotIn("no words", errors.sentence(number, 1, 5))
        unknown = "this package has no words for the reason; place 1, detail 5 (refused 99)"
        self.assertEqual(str(mundeziwa.Refused(99, 1, 5)), unknown)

    def test_kinds(self):
        self.assertTrue(issubclass(mundeziwa.TableError, mundeziwa.Refused))
        for kind in (mundeziwa.Refused, mundeziwa.LibraryError):
            self.assertTrue(issubclass(kind, mundeziwa.Error))

    def test_errors_can_be_pickled(self):
        for error in (mundeziwa.Refused(2, 1, 5000, "a sentence"), mundeziwa.TableError(21, 0, 0, "words", 7)):
            again = pickle.loads(pickle.dumps(error))
            self.assertEqual((str(again), vars(again)), (str(error), vars(error)))


class Tables(unittest.TestCase):
    """Where tables come from."""

    def file(self, data):
        folder = tempfile.TemporaryDirectory()
        self.addCleanup(folder.cleanup)
        path = Path(folder.name) / "lines.txt"
        path.write_bytes(data)
        return path

    def test_published(self):
        table = mundeziwa.Table.published()
        self.assertIs(table, mundeziwa.Table.published())
        self.assertEqual(table.edition, "Unicode 15.0.0")
        self.assertEqual(len(table), len(table.entries) // 4)
        self.assertEqual(repr(table), f"<mundeziwa.Table: Unicode 15.0.0, {len(table)} entries>")
        self.assertEqual(table.entries[:4], array("I", [0x61, 0x41, 0, 0]))

    def test_empty(self):
        table = mundeziwa.Table.empty()
        self.assertEqual((len(table), bool(table), table.edition), (0, True, "empty table"))
        self.assertFalse(table.equal("a", "A"))
        self.assertTrue(table.equal("a", "A", "ascii"))

    def test_from_lines(self):
        table = mundeziwa.Table.from_unicode_data(self.file(b"0061;;;;;;;;;;;;;;0041\n00E9;;;;;0065 0301;;;;;;;;;"))
        self.assertEqual((table.edition, table.pool), ("table lines.txt", array("I", [0x65, 0x301])))
        self.assertTrue(table.equal("aé", "Ae\u0301"))
        self.assertFalse(table.equal("b", "B"))
        self.assertEqual(len(mundeziwa.Table.from_unicode_data(str(self.file(b"")))), 0)

    def test_no_file(self):
        self.assertRaises(FileNotFoundError, mundeziwa.Table.from_unicode_data, "no such file")

    def test_lines_that_are_refused(self):
        cases = {
            20: b"0061;%s;;;;;;;;;;;;;0041" % (b"N" * 500),
            21: b"0061",
            22: b"61;;;;;;;;;;;;;;",
            23: b"00E9;;;;;65;;;;;;;;;",
            24: b"0061;;;;;;;;;;;;;;0041\r",
            25: b"0061;;;;;;;;;;;;;;D800",
            26: b"0041;;;;;;;;;;;;;;",
            29: b"0061;;;;;;;;;;;;41;;0041",
        }
        for number, line in cases.items():
            with self.subTest(number), self.assertRaises(mundeziwa.TableError) as caught:
                mundeziwa.Table.from_unicode_data(self.file(b"0041;;;;;;;;;;;;;;\n" + line + b"\n"))
            self.assertEqual((caught.exception.number, caught.exception.line), (number, 2))
            self.assertEqual(str(caught.exception), f"line 2 of lines.txt: {errors.sentence(number)} (refused {number})")

    def test_too_many_entries(self):
        lines = b"".join(b"%05X;;;;;;;;;;;;;;0041\n" % (0x10000 + index) for index in range(16385))
        with self.assertRaises(mundeziwa.TableError) as caught:
            mundeziwa.Table.from_unicode_data(self.file(lines))
        self.assertEqual((caught.exception.number, caught.exception.line), (27, 16385))

    def test_lines_whose_table_is_refused(self):
        with self.assertRaises(mundeziwa.TableError) as caught:
            mundeziwa.Table.from_unicode_data(self.file(b"0041;;;;;0041;;;;;;;;;\n"))
        sentence = "table lines.txt: entry 0 does not unfold within 8 levels into at most 32 code points (refused 7)"
        self.assertEqual((str(caught.exception), caught.exception.line), (sentence, None))

    def test_numbers_that_are_refused(self):
        cases = {3: ([0x61], []), 4: ([0xD800, 0x41, 0, 0], []), 5: ([0x61, 0x61, 0, 0], []), 6: ([0x61, 0x41, 0, 1], [0xD800])}
        for number, (entries, pool) in cases.items():
            with self.subTest(number), self.assertRaises(mundeziwa.TableError) as caught:
                mundeziwa.Table(entries, pool, "mine")
            self.assertEqual((caught.exception.number, caught.exception.line), (number, None))

    def test_a_file_that_is_cut_off(self):
        data = (unicode_data.DATA / "UnicodeData-15.0.0.txt").read_bytes()
        self.assertEqual(len(mundeziwa.Table.from_unicode_data(self.file(data), whole=True)), len(mundeziwa.Table.published()))
        last = len(data.splitlines(keepends=True)[-1])
        for length in (0, len(data) // 2, len(data) - last, len(data) - 3, len(data) - 1):
            with self.subTest(length), self.assertRaisesRegex(mundeziwa.Error, "is cut off"):
                mundeziwa.Table.from_unicode_data(self.file(data[:length]), whole=True)

    def test_what_is_done_to_the_numbers_changes_no_answer(self):
        table = mundeziwa.Table([0xE9, 0xE9, 0, 2], [0x65, 0x301], "mine")
        table.entries[2] = 1000
        del table.pool[:]
        self.assertEqual(table.key("é"), b"e\xcc\x81")

    def test_a_table_can_be_pickled_and_copied(self):
        table = mundeziwa.Table([0xE9, 0xE9, 0, 2], [0x65, 0x301], "mine")
        for again in (pickle.loads(pickle.dumps(table)), copy.deepcopy(table)):
            self.assertEqual((again.key("é"), again.edition), (b"e\xcc\x81", "mine"))


if __name__ == "__main__":
    unittest.main()
