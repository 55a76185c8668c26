#!/usr/bin/env python3
"""Makes the table that the package ships from the published UnicodeData.txt.

It keeps the lines that say something to the library, a decomposition or another titlecase, and the last line, by which a file
that was cut off is seen. The two lines of Hangul syllables, the ends of their range, say nothing: the library maps these by rule.
Of the fields it keeps what the library reads: the code point (0), the decomposition (5) and the titlecase (14, or 12 where 14 is
empty).
"""

import argparse

FIELDS = 15
CODE_POINT, DECOMPOSITION, UPPERCASE, TITLECASE = 0, 5, 12, 14
LAST_OF_FILE = "10FFFD"


def kept(line):
    """What is kept of a line, or None."""
    fields = line.rstrip("\n").split(";")
    code_point, titlecase = fields[CODE_POINT], fields[TITLECASE] or fields[UPPERCASE]
    titlecase = "" if titlecase == code_point else titlecase
    if not (fields[DECOMPOSITION] or titlecase or code_point == LAST_OF_FILE):
        return None
    # The uppercase is left out: it is read only where field 14 is empty.
    said = {CODE_POINT: code_point, DECOMPOSITION: fields[DECOMPOSITION], TITLECASE: titlecase}
    return ";".join(said.get(field, "") for field in range(FIELDS)) + "\n"


def main():
    parser = argparse.ArgumentParser(description=__doc__.splitlines()[0])
    parser.add_argument("source", metavar="SOURCE", help="the published UnicodeData.txt")
    parser.add_argument("destination", metavar="DESTINATION", help="the file to write")
    arguments = parser.parse_args()
    with open(arguments.source, encoding="ascii") as lines, open(arguments.destination, "w", encoding="ascii") as out:
        out.writelines(filter(None, map(kept, lines)))


if __name__ == "__main__":
    main()
