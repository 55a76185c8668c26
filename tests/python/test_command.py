"""The command as a program: exit statuses, formats, and what it says of errors."""

import json
import re

from command import SAMPLE, CommandTest, run

BROKEN = b"Jos\xc3"


class Statuses(CommandTest):
    def test_nothing_shared(self):
        first, second = self.file("a", "José\nOtto\n"), self.file("b", "Irene\n")
        words = self.answer(0, "shared", first, second)
        self.assertIn("Total: 0 shared names, 0 equal pairs; 0 of 2 names of the first list met\n", words)

    def test_something_shared(self):
        first, second = self.file("a", "José\nOtto\n"), self.file("b", "JOSE\u0301\n")
        words = self.answer(1, "shared", first, second)
        self.assertIn("Total: 1 shared name, 1 equal pair; 1 of 2 names of the first list met\n", words)

    def test_a_broken_name_fails_closed(self):
        first, second = self.file("a", [BROKEN]), self.file("b", "Irene\n")
        for lists in ((first, second), (second, first)):
            ended = run("shared", *lists)
            self.assertEqual(ended.returncode, 2)
            self.assertEqual(
                ended.stderr.decode(), "mundeziwa: nothing is shared, but 1 name is no UTF-8: --allow-invalid lets that pass\n"
            )
            self.answer(0, "shared", *lists, "--allow-invalid")
            self.answer(0, "shared", *lists, "--collation", "ascii")

    def test_a_broken_name_is_shared_with_its_own_octets(self):
        first, second = self.file("a", [BROKEN]), self.file("b", [b"x", BROKEN])
        for options in ([], ["--allow-invalid"], ["--collation", "octet"]):
            self.answer(1, "shared", first, second, *options)

    def test_strict_counts_lookalikes(self):
        first, second = self.file("a", "Straße\n"), self.file("b", "STRASSE\n")
        self.assertIn("Also look at: 1", self.answer(0, "shared", first, second))
        ended = run("shared", first, second, "--strict")
        self.assertEqual(ended.returncode, 1)
        self.assertIn("nothing is shared by the rule, but 1 name looks alike, and --strict counts that", ended.stderr.decode())
        self.answer(0, "shared", first, self.file("c", "Otto\n"), "--strict")

    def test_duplicates(self):
        self.answer(0, "duplicates", self.file("a", "José\nJose\n"))
        words = self.answer(1, "duplicates", self.file("b", "José\nx\nJOSÉ\n"))
        self.assertIn("Total: 1 name held more than once, of 3 names\n", words)
        broken = self.file("c", [BROKEN, b"x"])
        self.assertEqual(run("duplicates", broken).returncode, 2)
        self.answer(0, "duplicates", broken, "--allow-invalid")
        self.answer(1, "duplicates", self.file("d", [BROKEN, BROKEN]))

    def test_keys_are_no_verdict(self):
        self.assertEqual(self.answer(0, "keys", self.file("a", [b"b", BROKEN, b"b"])), "42\tb\n4a6f73c3\tJos\\xC3\n42\tb\n")

    def test_explain(self):
        self.assertIn("They meet: both have the key 4A 4F 53 45 CC 81\n", self.answer(0, "explain", "José", "JOSE\u0301"))
        parted = self.answer(1, "explain", "José", "Jose")
        places = "the first has CC there, of é (its character 4); the second ends there"
        self.assertIn(f"They part at octet 4 of their keys, counted from 0: {places}\n", parted)
        self.assertIn("é  U+00E9  LATIN SMALL LETTER E WITH ACUTE  becomes E U+0301  45 CC 81\n", parted)
        self.assertNotIn("look alike", parted)
        self.assertIn("look alike", self.answer(1, "explain", "Straße", "STRASSE"))
        broken = BROKEN.decode("utf-8", "surrogateescape")
        self.answer(0, "explain", broken, broken)
        self.answer(1, "explain", "José", "JOSÉ", "--collation", "octet")
        self.answer(0, "explain", "", "")

    def test_no_arguments_is_help_and_an_error(self):
        ended = run()
        self.assertEqual(ended.returncode, 2)
        self.assertIn("mundeziwa shared train.csv held.csv --column name && fit", ended.stdout.decode())

    def test_help_and_version(self):
        for part in ([], ["shared"], ["duplicates"], ["keys"], ["explain"]):
            words = self.answer(0, *part, "--help")
            self.assertLessEqual(max(map(len, words.splitlines())), 80)
        self.assertRegex(self.answer(0, "--version"), r"\Amundeziwa \d+\.\d+\.\d+, Unicode 15\.0\.0\n\Z")


class Errors(CommandTest):
    def test_files_that_cannot_be_read(self):
        here, missing = self.file("a", "x\n"), self.folder / "missing"
        self.assert_fails(f"{missing} is not there", "shared", here, missing)
        self.assert_fails(f"{missing} is not there", "duplicates", missing)
        self.assert_fails(f"{self.folder} is a folder, and a list of names is a file", "keys", self.folder)
        self.assert_fails(f"{here}/x can't be read: Not a directory", "keys", here / "x")

    def test_standard_input_is_read_once(self):
        sentence = "standard input can be read once only, and both lists are to be read from it"
        self.assert_fails(sentence, "shared", "-", "-")

    def test_names_that_are_too_long(self):
        most, over = b"x" * 4096, b"y" * 4097
        self.answer(1, "shared", self.file("a", [most]), self.file("b", [b"", most]))
        long = self.file("c", [b"", b"z", over])
        sentence = f"line 3 of {long} has a name of 4097 octets, and at most 4096 are taken (refused 2)"
        self.assert_fails(sentence, "shared", self.file("a", [most]), long)
        self.assert_fails(sentence, "duplicates", long)
        self.assert_fails(sentence, "keys", long)
        self.assertEqual(run("explain", "x", "y" * 4097).returncode, 2)

    def test_options(self):
        first = self.file("a", "x\n")
        cases = [["shared", first], ["shared", first, first, "--format", "xml"], ["nonsense"]]
        cases += [["keys", first, "--collation", "3"]]
        cases += [["shared", first, first, "--explain", "--format", "tsv"], ["keys", first, "--no-header", "--column", "name"]]
        cases += [["keys", first, "--column", "1", "--delimiter", "ab"], ["keys", first, "--column", "1", "--records"]]
        for case in cases:
            ended = run(*case)
            self.assertEqual((ended.returncode, ended.stdout), (2, b""), case)
            self.assertIn("error: ", ended.stderr.decode())

    def test_tables(self):
        names = self.file("a", "é\n")
        self.assertEqual(self.answer(0, "keys", names, "--table", self.file("t", "00E9;;;;;0065 0301;;;;;;;;;\n")), "65cc81\té\n")
        self.assertEqual(self.answer(0, "keys", names, "--table", self.file("empty", "")), "c3a9\té\n")
        self.assertIn("over table t\n", self.answer(0, "shared", names, self.file("b", "x\n"), "--table", self.folder / "t"))
        damaged = self.file("damaged", "00E9;;;;;0065 0301;;;;;;;;;\nnonsense\n")
        sentence = "line 2 of damaged: the line has not exactly 14 semicolons (refused 21)"
        self.assert_fails(sentence, "keys", names, "--table", damaged)
        self.assert_fails(f"the table {self.folder} can't be read: Is a directory", "keys", names, "--table", self.folder)

    def test_no_library(self):
        ended = run("keys", self.file("a", "x\n"), MUNDEZIWA_LIBRARY=str(self.folder / "none.so"))
        self.assertEqual((ended.returncode, ended.stdout), (2, b""))
        self.assertRegex(ended.stderr.decode(), r"\Amundeziwa: [^\n]+\n\Z")


class Formats(CommandTest):
    def test_tsv_of_the_sample(self):
        rows = [line.split("\t") for line in self.answer(1, "shared", *SAMPLE, "--format", "tsv").splitlines()]
        self.assertEqual(rows[0], ["group", "list", "line", "name", "octets", "key"])
        self.assertEqual([row[:4] for row in rows[1:]], [
            ["1", "1", "9", "BERYL"], ["1", "2", "3", "beryl"],
            ["2", "1", "2", "José"], ["2", "2", "1", "JOSÉ"], ["2", "2", "4", "Jose\u0301"],
            ["3", "1", "12", "海燕"], ["3", "2", "7", "海燕"],
        ])  # fmt: skip
        self.assertEqual(rows[3][4:], ["4a6f73c3a9", "4a4f5345cc81"])

    def test_jsonl_of_the_sample(self):
        objects, totals = self.objects(1, "shared", *SAMPLE)
        self.assertEqual([found["type"] for found in objects], ["shared"] * 3 + ["repeated"] * 2 + ["broken", "lookalike"])
        first, second = [{"line": 2, "name": "José"}], [{"line": 1, "name": "JOSÉ"}, {"line": 4, "name": "Jose\u0301"}]
        expected = {"type": "shared", "group": 2, "key": "4a4f5345cc81", "first": first, "second": second}
        self.assertEqual(objects[1], expected)
        names = [{"line": 4, "name": "Otto"}, {"line": 8, "name": "Otto"}]
        self.assertEqual(objects[3], {"type": "repeated", "list": 1, "names": names})
        broken = {"type": "broken", "list": 1, "line": 7, "name": "No\\xEBl", "hex": "4e6feb6c", "octet": 2}
        self.assertEqual(objects[5], broken)
        self.assertEqual((objects[6]["first"][0]["name"], objects[6]["second"][0]["name"]), ("Maria", "Maria "))
        self.assertEqual(totals, {
            "type": "totals", "first": SAMPLE[0], "second": SAMPLE[1], "collation": "unicode", "edition": "Unicode 15.0.0",
            "first_names": 12, "second_names": 8, "shared_names": 3, "other_spelling": 2, "equal_pairs": 4, "with_partner": 3,
            "repeated_first": 1, "repeated_second": 1, "broken_first": 1, "broken_second": 0, "status": 1,
        })  # fmt: skip

    def test_other_spelling_is_what_a_comparison_of_octets_misses(self):
        first, second = self.file("a", "José\nJOSÉ\nOtto\n"), self.file("b", "JOSÉ\notto\n")
        _, totals = self.objects(1, "shared", first, second)
        self.assertEqual((totals["shared_names"], totals["other_spelling"]), (2, 1))

    def test_duplicates(self):
        names = self.file("a", "x\nJosé\nX\n\nJOSÉ\nOtto\nx\n")
        rows = [line.split("\t") for line in self.answer(1, "duplicates", names, "--format", "tsv").splitlines()]
        self.assertEqual([row[:4] for row in rows[1:]], [
            ["1", "1", "2", "José"], ["1", "1", "5", "JOSÉ"], ["2", "1", "1", "x"], ["2", "1", "3", "X"], ["2", "1", "7", "x"],
        ])  # fmt: skip
        self.assertEqual({row[5] for row in rows[1:3]}, {"4a4f5345cc81"})
        objects, totals = self.objects(1, "duplicates", names)
        self.assertEqual([[name["line"] for name in found["names"]] for found in objects], [[2, 5], [1, 3, 7]])
        self.assertEqual((totals["names"], totals["repeated_names"], totals["broken"], totals["status"]), (6, 2, 0, 1))

    def test_keys(self):
        names = self.file("a", [b"e\xcc\x81", b"", b"\xff"])
        rows = self.answer(0, "keys", names, "--format", "tsv").splitlines()
        self.assertEqual(rows, ["key\tline\tname\toctets", "45cc81\t1\te\u0301\t65cc81", "ff\t3\t\\xFF\tff"])
        objects = [json.loads(line) for line in self.answer(0, "keys", names, "--format", "jsonl").splitlines()]
        self.assertEqual(objects[0], {"type": "key", "key": "45cc81", "line": 1, "name": "e\u0301"})
        self.assertEqual(objects[1], {"type": "key", "key": "ff", "line": 3, "name": "\\xFF", "hex": "ff"})

    def test_no_name_can_break_a_line(self):
        octets = '"a\tb\nc\r\u2028d\x1b[2Jé\\xC3"\n'.encode() + b'"\xff"\n'
        names = self.file("a.csv", b"n\n" + octets)
        for part, status in (("shared", 1), ("keys", 0)):
            lists = [names] * (2 if part == "shared" else 1)
            rows = self.answer(status, part, *lists, "--column", "n", "--format", "tsv").split("\n")[1:-1]
            self.assertEqual(len(rows), 2 * len(lists))
            self.assertTrue(all("a\\x09b\\x0Ac\\x0D\\u2028d\\x1B[2Jé\\\\xC3" in row or "\\xFF" in row for row in rows))
        objects, _ = self.objects(1, "shared", names, names, "--column", "n")
        self.assertEqual(objects[0]["first"][0]["name"], "a\tb\nc\r\u2028d\x1b[2Jé\\xC3")
        self.assertNotIn("\x1b", self.answer(1, "shared", names, names, "--column", "n"))

    def test_the_collation_and_edition_are_named(self):
        first, second = self.file("a", "José\n"), self.file("b", "JOSÉ\n")
        self.assertTrue(self.answer(1, "shared", first, second).startswith(
            "Names that two lists share, by i;unicode-casemap over Unicode 15.0.0\n"
        ))  # fmt: skip
        for name in ("ascii", "octet"):
            words = self.answer(0, "shared", first, second, "--collation", name)
            self.assertIn(f"by i;{name}", words)
            self.assertIn("Also look at: 1 ", words)

    def test_explain_stands_under_each_shared_name(self):
        words = self.answer(1, "shared", *SAMPLE, "--explain", "--all")
        self.assertEqual(len(re.findall(r"U\+0301  COMBINING ACUTE ACCENT +stays +CC 81\n", words)), 1)
        self.assertEqual(len(re.findall(r"becomes E U\+0301 +45 CC 81\n", words)), 2)
        self.assertEqual(words.splitlines()[-1], self.answer(1, "shared", *SAMPLE).splitlines()[-1])
