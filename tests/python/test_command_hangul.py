"""The command on Korean names, in syllables and in jamo."""

from unicodedata import normalize

from command import CommandTest

NAMES = ["한글", "루사", "매미"]
JAMO = [normalize("NFD", name) for name in NAMES]
KEY = "e18492e185a1e186abe18480e185b3e186af"
# A name in jamo would look like the one in syllables, so its vowels and final consonants are written out.
SPELLED = f"{JAMO[0]} (ᄒ\\u1161\\u11ABᄀ\\u1173\\u11AF)"


def lines(names):
    """Names as a list, one a line."""
    return "".join(name + "\n" for name in names)


def column(row, text):
    """The column of a terminal where a text begins in a row: a syllable takes two, and so do its jamo, all by the first."""
    return sum(0 if "\u1160" <= char <= "\u11ff" else 1 if char.isascii() else 2 for char in row[: row.rindex(text)])


class Korean(CommandTest):
    def test_one_shared_name_met_by_another_spelling(self):
        first, second = self.file("a", lines(["Otto", NAMES[0]])), self.file("b", lines(["Irene", JAMO[0]]))
        objects, totals = self.objects(1, "shared", first, second)
        names = {"first": [{"line": 2, "name": NAMES[0]}], "second": [{"line": 2, "name": JAMO[0]}]}
        self.assertEqual(objects, [{"type": "shared", "group": 1, "key": KEY, **names}])
        self.assertEqual((totals["shared_names"], totals["other_spelling"]), (1, 1))

    def test_the_rules_that_read_no_table_keep_them_apart(self):
        first, second = self.file("a", lines(NAMES)), self.file("b", lines([*JAMO[:2], NAMES[2]]))
        for collation in ("ascii", "octet"):
            objects, totals = self.objects(1, "shared", first, second, "--collation", collation)
            self.assertEqual((totals["shared_names"], totals["other_spelling"]), (1, 0))
            alike = [(found["first"], found["second"]) for found in objects if found["type"] == "lookalike"]
            rows = [([{"line": row, "name": NAMES[row - 1]}], [{"line": row, "name": JAMO[row - 1]}]) for row in (1, 2)]
            self.assertEqual(alike, rows)

    def test_the_report_is_aligned_and_tells_the_spellings_apart(self):
        first, second = self.file("a", lines(NAMES)), self.file("b", lines(JAMO))
        shown = self.answer(1, "shared", first, second)
        self.assertIn("Shared names: 3 (3 met only by another spelling)\n", shown)
        self.assertNotIn("Also look at", shown)
        rows = shown.splitlines()
        head = next(row for row in rows if row.endswith("line in second"))
        [composed] = [row for row in rows if row[5:].startswith(NAMES[0])]
        [decomposed] = [row for row in rows if row[5:].startswith(SPELLED)]
        self.assertEqual(column(composed, "1"), head.index("line in first"))
        self.assertEqual(column(decomposed, "1"), head.index("line in second"))

    def test_duplicates(self):
        names = self.file("a", lines([JAMO[0], "Otto", NAMES[0], "하\u11ab글"]))
        shown = self.answer(1, "duplicates", names)
        self.assertIn(f"  1  {SPELLED}  line 1\n", shown)
        self.assertIn("Total: 1 name held more than once, of 4 names\n", shown)
        self.assertIn("하\u11ab글 (하\\u11AB글) ", shown)
        self.answer(0, "duplicates", names, "--collation", "octet")

    def test_keys(self):
        names = self.file("a", lines([NAMES[0], JAMO[0]]))
        self.assertEqual(self.answer(0, "keys", names), f"{KEY}\t{NAMES[0]}\n{KEY}\t{JAMO[0]}\n")
        empty = self.file("empty", "")
        self.assertEqual(self.answer(0, "keys", names, "--table", empty), self.answer(0, "keys", names))
        octets = [name.encode().hex() for name in (NAMES[0], JAMO[0])]
        rows = [row.split("\t")[0] for row in self.answer(0, "keys", names, "--collation", "ascii").splitlines()]
        self.assertEqual(rows, octets)

    def test_a_table_with_a_line_for_a_syllable(self):
        table = self.file("t", "AC00;;;;;1100 1161;;;;;;;;;\n")
        words = "line 1 of t: a line with a mapping is for a Hangul syllable (these map by rule), or has a surrogate in field 0, "
        words += "5 or 14, or in 12 where 14 is empty (refused 25)"
        self.assert_fails(words, "keys", self.file("a", "x\n"), "--table", table)

    def test_explain(self):
        shown = self.answer(0, "explain", NAMES[0], JAMO[0])
        self.assertIn(
            "\n한글\n"
            "  한  U+D55C  HANGUL SYLLABLE HAN   becomes ᄒ U+1161 U+11AB  E1 84 92 E1 85 A1 E1 86 AB\n"
            "  글  U+AE00  HANGUL SYLLABLE GEUL  becomes ᄀ U+1173 U+11AF  E1 84 80 E1 85 B3 E1 86 AF\n",
            shown,
        )
        self.assertIn(f"\n{SPELLED}\n  ᄒ  U+1112  HANGUL CHOSEONG HIEUH   stays  E1 84 92\n", shown)
        self.assertRegex(shown, r"\n  \u11ab    U\+11AB  HANGUL JONGSEONG NIEUN  stays  E1 86 AB\n")
        self.assertTrue(shown.endswith("They meet: both have the key E1 84 92 E1 85 A1 E1 86 AB E1 84 80 E1 85 B3 E1 86 AF\n"))

        parted = self.answer(1, "explain", "한글", "한국")
        place = "the first has B3 there, of 글 (its character 2); the second has AE there, of 국 (its character 2)"
        self.assertIn(f"They part at octet 14 of their keys, counted from 0: {place}\n", parted)
        self.assertNotIn("look alike", parted)
        parted = self.answer(1, "explain", NAMES[0], JAMO[0], "--collation", "ascii")
        self.assertIn("  한  U+D55C  HANGUL SYLLABLE HAN   stays  ED 95 9C\n", parted)
        self.assertIn("look alike", parted)
