"""The table that comes with the package is that of the published UnicodeData.txt, edition 15.0.0.

MZ_UNICODE_DATA names another place of the published file. Where it is not installed the comparison is skipped, unless
MZ_REQUIRE_UNICODE_DATA=1 says that it must be there.
"""

import os
import subprocess
import sys
import tempfile
import unittest
from pathlib import Path

import mundeziwa
from mundeziwa import unicode_data

PUBLISHED = Path(os.environ.get("MZ_UNICODE_DATA", "/usr/share/unicode/UnicodeData.txt"))
MAKE_DATA = Path(__file__).parents[2] / "bindings" / "python" / "make_data.py"
STORED = unicode_data.DATA / "UnicodeData-15.0.0.txt"


def make_data(source):
    """What make_data.py makes of a file."""
    with tempfile.TemporaryDirectory() as folder:
        made = Path(folder) / "made.txt"
        subprocess.run([sys.executable, MAKE_DATA, source, made], check=True)
        return made.read_bytes()


class AgainstThePublishedFile(unittest.TestCase):
    def setUp(self):
        if not PUBLISHED.is_file():
            if os.environ.get("MZ_REQUIRE_UNICODE_DATA") == "1":
                self.fail(f"{PUBLISHED} is not there: apt-get install unicode-data")
            self.skipTest(f"{PUBLISHED} is not there (Debian's package unicode-data has it)")

    def test_the_stored_file_is_what_the_script_makes(self):
        self.assertEqual(make_data(PUBLISHED), STORED.read_bytes())

    def test_both_build_the_same_table(self):
        published, stored = mundeziwa.Table.from_unicode_data(PUBLISHED, whole=True), mundeziwa.Table.published()
        self.assertEqual(published.entries, stored.entries)
        self.assertEqual(published.pool, stored.pool)


class Script(unittest.TestCase):
    def test_lines(self):
        lines = {
            "0041;LATIN CAPITAL LETTER A;Lu;0;L;;;;;N;;;;0061;": "",
            "0061;LATIN SMALL LETTER A;Ll;0;L;;;;;N;;;0041;;0041": "0061;;;;;;;;;;;;;;0041",
            "0062;LATIN SMALL LETTER B;Ll;0;L;;;;;N;;;0042;;": "0062;;;;;;;;;;;;;;0042",
            "00A0;NO-BREAK SPACE;Zs;0;CS;<noBreak> 0020;;;;N;NON-BREAKING SPACE;;;;": "00A0;;;;;<noBreak> 0020;;;;;;;;;",
            "01C5;A TITLECASE;Lt;0;L;<compat> 0044 017E;;;;N;;;01C4;01C6;01C5": "01C5;;;;;<compat> 0044 017E;;;;;;;;;",
            "10D0;ITS OWN TITLECASE;Lo;0;L;;;;;N;;;1C90;;10D0": "",
            "10FFFD;<Plane 16 Private Use, Last>;Co;0;L;;;;;N;;;;;": "10FFFD;;;;;;;;;;;;;;",
        }
        with tempfile.TemporaryDirectory() as folder:
            source = Path(folder) / "source.txt"
            source.write_text("".join(line + "\n" for line in lines))
            self.assertEqual(make_data(source).decode(), "".join(line + "\n" for line in lines.values() if line))


if __name__ == "__main__":
    unittest.main()
