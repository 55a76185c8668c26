"""NFKD of the simple titlecase of every code point, for the comparison with the second program (part 2).

Usage: nfkd.py UnicodeData.txt > FILE. Each line is a code point and the octets of its key in hex; the last says how many there
were. The titlecase is field 14 of UnicodeData.txt, or field 12 where that is empty, since Python's str.title() has the full
casing that RFC 5051 doesn't use. NFKD is Python's own: of a single code point it is the decomposition that RFC 5051 takes, since
no single one has marks out of order. Left out: code points that either the file or Python's edition of Unicode has not assigned.

Hangul syllables, of which the file has the range alone, are also taken from the other side: what Python decomposes one into must
compose it again by the Unicode Standard's rule (section 3.12).
"""

import sys
import unicodedata

SURROGATES = range(0xD800, 0xE000)

S_BASE, L_BASE, V_BASE, T_BASE = 0xAC00, 0x1100, 0x1161, 0x11A7
L_COUNT, V_COUNT, T_COUNT = 19, 21, 28
SYLLABLES = range(S_BASE, S_BASE + L_COUNT * V_COUNT * T_COUNT)


def read(path):
    """The code points that the file assigns, ranges filled in, and the titlecases by code point."""
    assigned, titlecases = set(), {}
    first = None
    with open(path, encoding="ascii") as lines:
        for line in lines:
            fields = line.rstrip("\n").split(";")
            code_point = int(fields[0], 16)
            if fields[1].endswith(", First>"):
                first = code_point
            if fields[1].endswith(", Last>"):
                assigned.update(range(first, code_point))
            assigned.add(code_point)
            titlecase = fields[14] or fields[12]
            if titlecase:
                titlecases[code_point] = int(titlecase, 16)
    return assigned, titlecases


def is_compared(code_point):
    """Whether Python can say what the key of an assigned code point is."""
    return code_point not in SURROGATES and unicodedata.category(chr(code_point)) != "Cn"


def compose(leading, vowel, trailing=T_BASE):
    """The syllable of two or three jamo."""
    return S_BASE + ((leading - L_BASE) * V_COUNT + vowel - V_BASE) * T_COUNT + trailing - T_BASE


def check_syllables():
    """Python and the rule must agree on every syllable."""
    for syllable in SYLLABLES:
        jamo = unicodedata.normalize("NFKD", chr(syllable))
        if compose(*map(ord, jamo)) != syllable:
            sys.exit(f"nfkd: the rule doesn't compose {syllable:04X} of {jamo!a}")


def main():
    check_syllables()
    assigned, titlecases = read(sys.argv[1])
    total = 0
    for code_point in filter(is_compared, sorted(assigned)):
        titlecase = chr(titlecases.get(code_point, code_point))
        key = unicodedata.normalize("NFKD", titlecase)
        print(f"{code_point:04X} {key.encode('utf-8').hex().upper()}")
        total += 1
    print(f"total {total}")


main()
