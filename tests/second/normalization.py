"""What the published NormalizationTest.txt says of NFKD, for the comparison with the second program (part 2).

Usage: normalization.py NormalizationTest.txt UnicodeData.txt > FILE. The first may be compressed by bzip2, as Debian has it; both
are of one edition. "c5 == toNFKD(c1) == .. == toNFKD(c5)": each line `text` has a column's octets and those of c5, in hex, once
for each different column of a line. Each line `listed` has a code point of part 1; those that aren't listed are their own NFKD.

Left out are columns with marks that NFKD puts in another order, since RFC 5051's steps leave them as they come. Which these are
is told by the classes (field 3) of the full decomposition. The last line says how many columns there are, and how many of them
are left out.
"""

import bz2
import sys
import unicodedata

SYLLABLES = range(0xAC00, 0xD7A4)


def read_unicode_data(path):
    """Parts and classes by code point, of those that have any."""
    parts, classes = {}, {}
    with open(path, encoding="ascii") as lines:
        for line in lines:
            fields = line.split(";")
            code_point = int(fields[0], 16)
            if fields[5]:
                parts[code_point] = [int(word, 16) for word in fields[5].split() if not word.startswith("<")]
            if fields[3] != "0":
                classes[code_point] = int(fields[3])
    return parts, classes


def decompose(code_point, parts):
    """The full decomposition of a code point, its marks as they come. Of a Hangul syllable, which has none, it is Python's."""
    if code_point in SYLLABLES:
        return [ord(char) for char in unicodedata.normalize("NFD", chr(code_point))]
    if code_point not in parts:
        return [code_point]
    return [last for part in parts[code_point] for last in decompose(part, parts)]


def is_reordered(column, parts, classes):
    """Whether NFKD puts marks of the column in another order: one stands before another of a lower class that isn't 0."""
    full = [last for code_point in column for last in decompose(code_point, parts)]
    row = [classes.get(code_point, 0) for code_point in full]
    return any(one > other > 0 for one, other in zip(row, row[1:]))


def read_test(path):
    """The part and the five columns of each line."""
    opened = bz2.open if path.endswith(".bz2") else open
    part = None
    with opened(path, "rt", encoding="utf-8") as lines:
        for line in lines:
            said = line.partition("#")[0].strip()
            if said.startswith("@Part"):
                part = int(said[5:])
            elif said:
                yield part, [[int(word, 16) for word in column.split()] for column in said.split(";")[:5]]


def octets(column):
    """The column in UTF-8, in hex."""
    return "".join(map(chr, column)).encode("utf-8").hex().upper()


def main():
    parts, classes = read_unicode_data(sys.argv[2])
    total = left_out = 0
    for part, columns in read_test(sys.argv[1]):
        if part == 1:
            print(f"listed {columns[0][0]:04X}")
        for column in {tuple(column): column for column in columns}.values():
            total += 1
            if is_reordered(column, parts, classes):
                left_out += 1
            else:
                print("text", octets(column), octets(columns[4]))
    print("total", total, left_out)


main()
