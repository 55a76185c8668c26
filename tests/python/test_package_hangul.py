"""Korean names: Hangul syllables decompose by rule into their jamo, whatever the table, and no table may say otherwise."""

import tempfile
import unittest
from pathlib import Path
from unicodedata import normalize

import mundeziwa
from mundeziwa import Table, many

NAME, JAMO = "한글", "\u1112\u1161\u11ab\u1100\u1173\u11af"
SYLLABLES = [chr(code) for code in range(0xAC00, 0xD7A4)]
# Its entries are 11A8, a final consonant of 30 parts or one more, and a letter before it.
FINAL_CONSONANT = [0x41, 0x42, 0, 0, 0x11A8, 0x11A8, 0]


class Answers(unittest.TestCase):
    def check_keys(self, keys, texts):
        """The keys are these texts, one by one."""
        self.assertEqual(len(keys), len(texts))
        self.assertEqual([text for key, text in zip(keys, texts) if key != text.encode()][:5], [])

    def test_every_syllable_has_the_key_of_its_jamo(self):
        jamo = [normalize("NFD", syllable) for syllable in SYLLABLES]
        self.assertEqual((len(jamo), set(map(len, jamo))), (11172, {2, 3}))
        for table in (Table.published(), Table.empty()):
            self.check_keys(table.keys(SYLLABLES), jamo)
            self.check_keys(table.keys(jamo), jamo)
            for collation in ("ascii", "octet"):
                self.check_keys(table.keys(SYLLABLES, collation), SYLLABLES)

    def test_a_name_in_syllables_is_the_name_in_jamo(self):
        self.assertEqual(normalize("NFD", NAME), JAMO)
        self.assertEqual((mundeziwa.key(NAME), mundeziwa.order(NAME, JAMO)), (JAMO.encode(), 0))
        self.assertTrue(mundeziwa.equal(NAME, JAMO))
        self.assertTrue(mundeziwa.equal("한", "하\u11ab"))
        self.assertFalse(mundeziwa.equal("한", "하"))
        self.assertFalse(mundeziwa.equal(NAME, JAMO, "ascii") or mundeziwa.equal(NAME, JAMO, "octet"))

    def test_other_letters_of_korean(self):
        # Those of a keyboard are vowels and first consonants, so one at the end of a syllable is another letter.
        self.assertTrue(mundeziwa.equal("하", "ㅎㅏ"))
        self.assertTrue(mundeziwa.equal("하", "\uffbe\uffc2"))
        self.assertFalse(mundeziwa.equal("한", "ㅎㅏㄴ"))
        self.assertTrue(mundeziwa.equal("㈎", "(가)"))

    def test_a_hit_is_the_whole_syllable(self):
        self.assertEqual(mundeziwa.find("글", NAME), (9, 18, 3, 6, 1, 2))
        self.assertEqual(mundeziwa.find("\u1173", NAME), (12, 15, 3, 6, 1, 2))
        self.assertEqual(mundeziwa.find("\u11ab\u1100", NAME), (6, 12, 0, 6, 0, 2))
        self.assertEqual(mundeziwa.find("글", JAMO), (9, 18, 9, 18, 3, 6))
        self.assertIsNone(mundeziwa.find("한", "하글"))

    def test_lists_share_a_name_in_either_spelling(self):
        report = mundeziwa.shared(["Otto", NAME], [JAMO, "Irene", NAME])
        self.assertEqual([(group.first, group.second, group.key) for group in report], [([1], [0, 2], JAMO.encode())])
        self.assertEqual((report.shared_names, report.other_spelling, report.equal_pairs), (1, 0, 2))
        self.assertEqual(mundeziwa.shared([NAME], [JAMO]).other_spelling, 1)
        self.assertEqual([group.first for group in mundeziwa.duplicates([JAMO, "한", NAME])], [[0, 2]])
        self.assertFalse(mundeziwa.shared([NAME], [JAMO], "ascii"))

    def test_many_names_have_room_at_once(self):
        texts = [NAME * 40] * 1000
        octets = "".join(texts).encode()
        # else the store would be as long as any keys may be
        self.assertGreater(many.KEY_PER_OCTET_MOST * len(octets), many.STORE_MOST_AT_FIRST)
        keys = mundeziwa.keys(texts)
        self.assertEqual(len(keys.octets), 3 * len(octets))
        self.assertEqual(many._store_at_first(octets), len(keys.octets))
        self.assertEqual(set(keys), {JAMO.encode() * 40})


class Tables(unittest.TestCase):
    def refused(self, call, *arguments):
        """The number, place and detail of the error that a call raises, and its sentence."""
        with self.assertRaises(mundeziwa.TableError) as caught:
            call(*arguments)
        error = caught.exception
        return error.number, error.place, error.detail, str(error)

    def from_line(self, line):
        """The table of one line."""
        with tempfile.TemporaryDirectory() as folder:
            path = Path(folder) / "lines.txt"
            path.write_text(line + "\n")
            return Table.from_unicode_data(path)

    def test_an_entry_for_a_syllable(self):
        words = "mine: entry 1 has a code point or titlecase that is no Unicode scalar value, is for a Hangul syllable (these "
        words += "map by rule), or is not above the one before (refused 4)"
        for syllable in (0xAC00, 0xD55C, 0xD7A3):
            for entry, pool in (((syllable, syllable, 0, 2), (0x1100, 0x1161)), ((syllable, 0x41, 0, 0), ())):
                self.assertEqual(self.refused(Table, [0x61, 0x41, 0, 0, *entry], pool, "mine"), (4, 0, 1, words))

    def test_a_syllable_that_others_map_to(self):
        table = Table([0x41, 0x41, 0, 1, 0x61, 0xD55C, 1, 0], [0xD55C], "mine")
        self.assertEqual([table.key(text) for text in ("A", "a", "한")], ["\u1112\u1161\u11ab".encode()] * 3)

    def test_jamo_that_decompose(self):
        # The vowel's titlecase is for characters of a text alone, and not for the parts of another.
        table = Table([0x1100, 0x1100, 0, 2, 0x1161, 0x61, 2, 0], [0x41, 0x42], "mine")
        self.assertEqual((table.key("가"), table.key("\u1100\u1161")), ("AB\u1161".encode(), b"ABa"))

    def test_syllables_that_unfold_too_far(self):
        self.assertEqual(len(Table([*FINAL_CONSONANT, 30], [0x43] * 30, "mine").key("각")), 6 + 30)
        words = "mine: a Hangul syllable whose jamo decompose does not unfold within 8 levels into at most 32 code points "
        words += "(refused 7)"
        self.assertEqual(self.refused(Table, [*FINAL_CONSONANT, 31], [0x43] * 31, "mine"), (7, 0, 2, words))
        words = "mine: entry 0 does not unfold within 8 levels into at most 32 code points (refused 7)"
        self.assertEqual(self.refused(Table, [0x1100, 0x1100, 0, 1], [0xAC00], "mine"), (7, 0, 0, words))

    def test_a_pool_that_is_too_long(self):
        words = "mine: the pool is longer than the counts of all entries together (refused 5)"
        self.assertEqual(self.refused(Table, [0x61, 0x41, 0, 0], [0x41], "mine"), (5, 0, 1, words))
        # The same detail of another number is no entry's.
        words = "mine: pool number 1 is no Unicode scalar value: a surrogate, or above 10FFFF (refused 6)"
        self.assertEqual(self.refused(Table, [0x61, 0x41, 0, 2], [0x41, 0xD800], "mine"), (6, 0, 1, words))

    def test_lines(self):
        for code in ("AC00", "D7A3"):
            self.assertEqual(len(self.from_line(f"{code};<Hangul Syllable, First>;Lo;0;L;;;;;N;;;;;")), 0)
        words = "line 1 of lines.txt: a line with a mapping is for a Hangul syllable (these map by rule), or has a surrogate in "
        words += "field 0, 5 or 14, or in 12 where 14 is empty (refused 25)"
        for line in ("AC00;;;;;1100 1161;;;;;;;;;", "D55C;;;;;;;;;;;;;;0041", "D7A3;;;;;;;;;;;;0041;;"):
            self.assertEqual(self.refused(self.from_line, line), (25, 0, 0, words))
        self.assertEqual(self.from_line("0041;;;;;AC00;;;;;;;;;").key("A"), "\u1100\u1161".encode())


if __name__ == "__main__":
    unittest.main()
