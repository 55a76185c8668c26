"""What the command takes for names: lines, columns, records, standard input."""

import os
import unittest

from command import CommandTest, run


class ReadingTest(CommandTest):
    """A test of what is taken for names."""

    def lines_of(self, octets, *options, name="a", status=0):
        """Line and name of each name, as `keys` sees them."""
        path = self.file(name, octets)
        rows = self.answer(status, "keys", path, "--format", "tsv", *options).split("\n")[1:-1]
        return [(int(row.split("\t")[1]), bytes.fromhex(row.split("\t")[3])) for row in rows]


class Lines(ReadingTest):
    def test_line_ends(self):
        expected = [(1, b"a"), (2, b"b"), (3, b"c\rd"), (4, b"\r"), (5, b" e ")]
        self.assertEqual(self.lines_of(b"a\nb\r\nc\rd\n\r\r\n e \n"), expected)
        self.assertEqual(self.lines_of(b"a\nb"), [(1, b"a"), (2, b"b")])

    def test_empty_lines_are_no_names_and_are_counted(self):
        self.assertEqual(self.lines_of(b"\n\r\na\n\n\nb\n\n"), [(3, b"a"), (6, b"b")])
        path = self.file("b", b"\n\nx\n")
        self.assertIn("1 name, one a line (2 without a name left out)", self.answer(0, "duplicates", path))

    def test_empty_files(self):
        empty, some = self.file("a", b""), self.file("b", b"x\n")
        self.assertEqual(self.lines_of(b""), [])
        self.answer(0, "duplicates", empty)
        # Nothing is shared with no names, and that there are none is said.
        for lists in ([empty, some], [some, empty], [empty, empty]):
            said = f"mundeziwa: {empty} has no names\n" * lists.count(empty)
            self.assertIn("Total: 0 shared names", self.answer(0, "shared", *lists, said=said))

    def test_byte_order_mark(self):
        mark = b"\xef\xbb\xbf"
        self.assertEqual(self.lines_of(mark + b"a\n" + mark + b"b\n"), [(1, b"a"), (2, mark + b"b")])
        self.assertEqual(self.lines_of(mark + b"n,m\na,b\n", "--column", "n"), [(2, b"a")])
        self.assertEqual(self.lines_of(mark), [])

    def test_every_octet(self):
        octets = [bytes([octet]) * 2 for octet in range(256) if octet not in b"\r\n"]
        self.assertEqual([name for _, name in self.lines_of(b"\n".join(octets))], octets)

    def test_standard_input(self):
        path = self.file("a", "José\n")
        for lists in (("-", path), (path, "-")):
            self.assertIn("standard input", self.answer(1, "shared", *lists, given="JOSÉ\r\n".encode()))
        self.assertEqual(self.answer(0, "keys", "-", "--column", "2", given=b"x,y\na,b\n"), "42\tb\n")

    @unittest.skipIf(os.getuid() == 0, "root may read any file")
    def test_a_file_that_may_not_be_read(self):
        path = self.file("a", b"x\n")
        path.chmod(0)
        self.assert_fails(f"{path} may not be read: permission is denied", "keys", path)


class Columns(ReadingTest):
    def test_by_name_and_by_number(self):
        octets = "season,name\n2017,José\n2011,Irene\n".encode()
        expected = [(2, "José".encode()), (3, b"Irene")]
        for column in ("name", "2"):
            self.assertEqual(self.lines_of(octets, "--column", column, name="a.csv"), expected)
        # A header that is a number is a name before it is a number.
        self.assertEqual(self.lines_of(b"2,1\na,b\n", "--column", "2"), [(2, b"a")])

    def test_quoting(self):
        octets = b'n,m\r\n"a, b",1\r\n"c ""d""\r\ne",2\r\n\r\nf,3\r\n'
        self.assertEqual(self.lines_of(octets, "--column", "n"), [(2, b"a, b"), (3, b'c "d"\r\ne'), (6, b"f")])

    def test_a_quote_that_is_not_closed_is_an_error(self):
        path = self.file("a.csv", b'n\na\n"b\nc\nd\n')
        sentence = f"{path} can't be read as CSV at the row that begins in line 3: unexpected end of data"
        self.assert_fails(sentence, "shared", path, path, "--column", "n")

    def test_broken_octets_come_back(self):
        octets = b"n,m\nJos\xc3,1\n\xff\xfe,2\n\xed\xa0\x80,3\n"
        self.assertEqual(self.lines_of(octets, "--column", "n"), [(2, b"Jos\xc3"), (3, b"\xff\xfe"), (4, b"\xed\xa0\x80")])

    def test_tsv_and_delimiters(self):
        expected = [(2, b"a,b")]
        self.assertEqual(self.lines_of(b"n\tm\na,b\tc\n", "--column", "n"), expected)
        self.assertEqual(self.lines_of(b"n, o\tm\na,b\tc\n", "--column", "1", name="a.tsv"), expected)
        self.assertEqual(self.lines_of(b"n;m\na,b;c\n", "--column", "n", "--delimiter", ";"), expected)
        self.assertEqual(self.lines_of(b"n,o\tm\na,b\tc\n", "--column", "n,o", "--delimiter", "\\t"), expected)

    def test_no_header(self):
        self.assertEqual(self.lines_of(b"a,b\nc,d\n", "--column", "2", "--no-header"), [(1, b"b"), (2, b"d")])

    def test_rows_without_a_name(self):
        path = self.file("a.csv", b"n,m\n,1\nx,2\n\n3\ny\n")
        self.assertEqual(self.lines_of(path.read_bytes(), "--column", "m"), [(2, b"1"), (3, b"2")])
        self.assertIn("2 names in column 'm' (2 without a name left out)", self.answer(0, "duplicates", path, "--column", "m"))

    def test_columns_that_are_not_there(self):
        path = self.file("a.csv", b"season,name,name\n1,2,3\n")
        columns = "its columns are 'season', 'name', 'name' (--delimiter says what parts them)"
        for column in ("nom", "0", "4", "-1"):
            self.assert_fails(f"{path} has no column {column!r}; {columns}", "keys", path, f"--column={column}")
        sentence = f"{path} has 2 columns named 'name': give the number of one of them (2, 3)"
        self.assert_fails(sentence, "keys", path, "--column", "name")
        empty = self.file("b.csv", b"\n")
        self.assert_fails(f"{empty} is empty, so it has no column 'name'", "keys", empty, "--column", "name")

    def test_whole_lines_of_a_table_are_no_names(self):
        path = self.file("a.csv", b"season,name\n1,2\n")
        sentence = f"{path} has 2 columns ('season', 'name'): say with --column which of them has the names"
        self.assert_fails(sentence, "shared", path, path)
        self.assertEqual(self.lines_of(b"Otto\nIrene\n", name="b.csv"), [(1, b"Otto"), (2, b"Irene")])
        self.assertEqual(self.lines_of(b"Otto, 2\n", name="b.txt"), [(1, b"Otto, 2")])

    def test_a_list_of_lines_beside_a_table(self):
        table = self.file("a.csv", b"season,name\n2016,Otto\n")
        self.answer(1, "shared", table, self.file("b.txt", b"OTTO\n"), "--column", "name")
        self.answer(1, "shared", table, self.file("b.txt", b"name\nOTTO\n"), "--column", "name")
        self.answer(1, "shared", table, self.file("b.txt", b"x,name\n1,OTTO\n"), "--column", "name")
        self.assertEqual(run("shared", table, self.file("b.dat", b"OTTO\n"), "--column", "name").returncode, 2)


def text_record(octets):
    """A record of a text."""
    return (len(octets) + 2).to_bytes(4, "little") + b"\x01\x00" + octets


class Records(CommandTest):
    def test_records(self):
        names = [b"Jos\xc3\xa9", b"a\nb", b"", b"\xff"]
        first = self.file("a", b"".join(map(text_record, names)))
        second = self.file("b", text_record(b"JOSE\xcc\x81") + text_record(b""))
        objects, totals = self.objects(1, "shared", first, second, "--records")
        groups = [found for found in objects if found["type"] == "shared"]
        found = [[name["line"] for name in group["first"] + group["second"]] for group in groups]
        self.assertEqual((found, totals["first_names"], totals["broken_first"]), ([[3, 2], [1, 1]], 4, 1))
        words = self.answer(1, "shared", first, second, "--records")
        self.assertIn("record in first", words)
        self.assertIn("4 names as records", words)

    def test_damaged_records(self):
        text, key = text_record(b"x"), bytes.fromhex("0c0000000200030105004a4f5345cc81")
        cut = self.file("cut", text + text[:-1])
        ended = run("keys", cut, "--records")
        self.assertEqual((ended.returncode, ended.stdout), (2, b""))
        self.assertRegex(ended.stderr.decode(), rf"\Amundeziwa: record 2 of {cut}, at octet 7: [^\n]* \(refused 11\)\n\Z")
        mixed = self.file("mixed", text + key)
        self.assert_fails(f"record 2 of {mixed} is a key, and a list has texts only (refused 12)", "keys", mixed, "--records")
