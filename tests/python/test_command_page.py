"""docs/REPORT.md shows what the command prints on the sample."""

import re

from command import ROOT, SAMPLE, CommandTest
from test_command_terminal import COLOUR, show


class Page(CommandTest):
    def setUp(self):
        super().setUp()
        self.page = (ROOT / "docs" / "REPORT.md").read_text(encoding="utf-8")

    def test_the_report_is_what_a_terminal_shows(self):
        [shown] = re.findall(r"^```console\n\$ mundeziwa (.*)\n((?:.*\n)*?)```$", self.page, re.M)
        self.assertEqual(shown[0].split(), ["shared", *SAMPLE])
        self.assertEqual(COLOUR.sub("", show(["shared", *SAMPLE], columns=80)[0]), shown[1])

    def test_the_formats_are_what_it_prints(self):
        tsv, jsonl = re.findall(r"^```text\n((?:.*\n)*?)```$", self.page, re.M)
        self.assertTrue(self.answer(1, "shared", *SAMPLE, "--format", "tsv").startswith(tsv))
        lines = self.answer(1, "shared", *SAMPLE, "--format", "jsonl").splitlines()
        self.assertEqual([line for line in lines if line in jsonl.splitlines()], jsonl.splitlines())
        self.assertEqual({line.split('"')[3] for line in jsonl.splitlines()} | {"totals"}, {line.split('"')[3] for line in lines})
