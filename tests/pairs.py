"""The program `pairs` on a table of cases (document 01, "The program `pairs`").

Usage: pairs.py PROGRAM. Each case is a ucd.txt, what comes in, and all that must come out: standard output octet by octet,
nothing on standard error, and exit status 0, refusals or not (document 01 names no other). Prints how many cases there were, or
the first that differs.
"""

import difflib
import pathlib
import subprocess
import sys
import tempfile

HEADING = "collation i;unicode-casemap\n"
SECONDS_MOST = 60  # a case takes milliseconds; one that never ends is a failure

# ---- Files ucd.txt


def line(code_point, parts="", titlecase="", name="", uppercase=""):
    """A line of UnicodeData.txt with its fields 0, 1, 5, 12 and 14; the others are empty."""
    return f"{code_point};{name};;;;{parts};;;;;;;{uppercase};;{titlecase}\n"


def lines(count, parts=""):
    """So many lines with a mapping each, from U+1000 on."""
    return "".join(line(f"{0x1000 + index:04X}", parts, "0041") for index in range(count))


A_TO_TITLE = line("0061", "", "0041")
E_ACUTE = line("00C9", "0045 0301")
SMALL_E_ACUTE = line("00E9", "0065 0301", "00C9")
# Table T of document 01, the lines of its example.
EXAMPLE = A_TO_TITLE + E_ACUTE + SMALL_E_ACUTE

# The same three lines as the published file has them.
PUBLISHED = """\
0061;LATIN SMALL LETTER A;Ll;0;L;;;;;N;;;0041;;0041
00C9;LATIN CAPITAL LETTER E WITH ACUTE;Lu;0;L;0045 0301;;;;N;LATIN CAPITAL LETTER E ACUTE;;;00E9;
00E9;LATIN SMALL LETTER E WITH ACUTE;Ll;0;L;0065 0301;;;;N;LATIN SMALL LETTER E ACUTE;;00C9;;00C9
"""

# And as a partner writes them: field 14 is empty where it equals field 12.
EMPTIED = line("0061", uppercase="0041") + E_ACUTE + line("00E9", "0065 0301", uppercase="00C9")

# U+0100 becomes 6 octets and U+0101 becomes 7, each from 2: so a text of 4,096 octets has a key of 12,288, or of one more.
SIX_AND_SEVEN = line("0100", "0045 0301 0301 0045") + line("0101", "0045 0301 0301 0045 0045")

# A line of 512 octets, and one of 513.
LONGEST = line("0061", "", "0041", "N" * (512 - 22))
OVER = line("0061", "", "0041", "N" * (513 - 22))

MISSING = object()
DIRECTORY = object()

# ---- What comes in: two names of 4,096 octets with a tab between are a line of 8,193

FULL = "x" * 4096
PAIR = "a\tA\n"

# ---- What comes out


def answers(*words):
    """The heading, an answer for each line, and how many there were."""
    return HEADING + "".join(f"{word}\n" for word in words) + f"pairs {len(words)}\n"


def refused(number):
    return f"table refused {number}\n"


# ---- The cases: name, ucd.txt, standard input, standard output. Texts stand for their UTF-8.

CASES = [
    ("document 01's example", PUBLISHED, "a\tA\nÉ\té\nE\té\nB\ta\n", HEADING + "equal\nequal\nless\ngreater\npairs 4\n"),
    # the data file: read or not, and where its lines end
    ("no ucd.txt", MISSING, PAIR, refused(0)),
    ("ucd.txt is a directory", DIRECTORY, PAIR, refused(0)),
    ("an empty ucd.txt", "", PAIR, answers("greater")),
    ("a last data line with its end", EXAMPLE, "É\té\n", answers("equal")),
    ("a last data line without its end", EXAMPLE.removesuffix("\n"), "É\té\n", answers("equal")),
    ("the same, at fault", EXAMPLE + "00EA", PAIR, refused(21)),
    ("an empty data line is a line", EXAMPLE + "\n", PAIR, refused(21)),
    ("the data line for é left out", A_TO_TITLE + E_ACUTE, "a\tA\nÉ\té\n", answers("equal", "less")),
    ("data lines that end in 0D 0A", EXAMPLE.replace("\n", "\r\n"), PAIR, refused(24)),
    ("the same with an empty field 14", EMPTIED.replace("\n", "\r\n"), PAIR, refused(24)),
    ("data lines that end in 0D", EXAMPLE.replace("\n", "\r"), PAIR, refused(21)),
    # each refusal that a data line can bring; 28 is no line's
    ("a data line of 512 octets", LONGEST, PAIR, answers("equal")),
    ("a data line of 513 octets", OVER, PAIR, refused(20)),
    ("a data line of 1,000,000 octets", line("0061", "", "0041", "N" * 1_000_000), PAIR, refused(20)),
    ("13 semicolons", "0061;;;;;;;;;;;;;0041\n", PAIR, refused(21)),
    ("15 semicolons", "0061;;;;;;;;;;;;;;;0041\n", PAIR, refused(21)),
    ("field 0 of three digits", line("061", "", "0041"), PAIR, refused(22)),
    ("field 5 with two spaces", line("00C9", "0045  0301"), PAIR, refused(23)),
    ("field 12 in small digits", line("006A", uppercase="004a"), PAIR, refused(29)),
    ("the same beside a filled field 14", line("006A", "", "004A", uppercase="004a"), PAIR, refused(29)),
    ("fields 5 and 12 at fault", line("006A", "0045  0301", uppercase="004a"), PAIR, refused(23)),
    ("fields 12 and 14 at fault", line("006A", "", "004a", uppercase="004a"), PAIR, refused(29)),
    ("field 12 at fault, field 14 a surrogate", line("006A", "", "D800", uppercase="004a"), PAIR, refused(29)),
    ("the same code point again, field 12 at fault", A_TO_TITLE + line("0061", uppercase="004a"), PAIR, refused(29)),
    ("field 14 in small digits", line("006A", "", "004a"), PAIR, refused(24)),
    ("a mapping to a surrogate", line("0061", "", "D800"), PAIR, refused(25)),
    ("the same in field 12, field 14 empty", line("0061", uppercase="D800"), PAIR, refused(25)),
    ("a surrogate in field 12, not taken", line("0061", "", "0041", uppercase="D800"), PAIR, answers("equal")),
    ("a surrogate without a mapping", A_TO_TITLE + line("D800"), PAIR, answers("equal")),
    ("the same code point twice", A_TO_TITLE + A_TO_TITLE, PAIR, refused(26)),
    ("1,024 mappings", lines(1024), "\u1000\tA\n\u13FF\tA\n", answers("equal", "equal")),
    ("1,025 mappings", lines(1025), PAIR, refused(27)),
    ("2,048 parts", lines(64, " ".join(["0041"] * 32)), PAIR, answers("greater")),
    ("2,049 parts", lines(64, " ".join(["0041"] * 32)) + line("2000", "0041"), PAIR, refused(27)),
    ("the first data line at fault decides", line("061") + line("0061", "0045  0301"), PAIR, refused(22)),
    # the titlecase: field 14, or field 12 where that is empty
    ("field 14 empty where it equals field 12", EMPTIED, "a\tA\nÉ\té\nJosÉ\tJosé\n", answers("equal", "equal", "equal")),
    ("both fields filled", line("0061", "", "0041", uppercase="0042"), "a\tA\na\tB\n", answers("equal", "less")),
    ("field 14 the letter itself", line("0061", "", "0061", uppercase="0041"), PAIR, answers("greater")),
    ("field 12 the letter itself", line("0061", uppercase="0061"), PAIR, answers("greater")),
    # the table
    ("a letter that is a part of itself", line("0041", "0041"), PAIR, refused(7)),
    ("two letters that are parts of each other", line("0041", "0042") + line("0042", "0041"), PAIR, refused(7)),
    ("a table at fault, and no input", line("0041", "0041"), "", refused(7)),
    # Hangul syllables, which decompose whatever the table says
    ("a syllable and its jamo", "", "각\t\u1100\u1161\u11A8\n각\t가\u11A8\n가\t각\n", answers("equal", "equal", "less")),
    ("the range of syllables", line("AC00") + line("D7A3"), "힣\t\u1112\u1175\u11C2\n", answers("equal")),
    ("a mapping for a syllable", line("AC00", "1100 1161"), PAIR, refused(25)),
    ("a titlecase for a syllable", line("D7A3", uppercase="0041"), PAIR, refused(25)),
    ("a mapping next to the syllables", line("D7A4", "D7A3"), "\uD7A4\t힣\n", answers("equal")),
    ("a syllable of 32 code points", line("1100", " ".join(["0041"] * 30)), "가\t" + "A" * 30 + "\u1161\n", answers("equal")),
    ("a syllable of 33 code points", line("1100", " ".join(["0041"] * 31)), PAIR, refused(7)),
    ("as many syllables as a name can have", "", "각" * 1365 + "\t" + "각" * 1364 + "갂\n", answers("less")),
    # lines of the input, and where they end
    ("no input", EXAMPLE, "", answers()),
    ("a last line with its end", EXAMPLE, "a\tA\nE\té\n", answers("equal", "less")),
    ("a last line without its end", EXAMPLE, "a\tA\nE\té", answers("equal", "less")),
    ("an empty line is a line", EXAMPLE, "\n" + PAIR + "\n", answers("refused 9", "equal", "refused 9")),
    ("lines that end in 0D 0A", EXAMPLE, "a\tA\r\na\r\tA\r\n", answers("less", "equal")),
    ("a line that has 0D alone", EXAMPLE, "a\tA\rb\tB\n", answers("less")),
    ("no tab", EXAMPLE, "aA\n" + PAIR, answers("refused 9", "equal")),
    ("later tabs are the second text's", EXAMPLE, "a\tA\t\na\t\t\n\t\t\n", answers("less", "greater", "less")),
    ("empty names", EXAMPLE, "\t\na\t\n\ta\n", answers("equal", "greater", "less")),
    ("a broken octet", EXAMPLE, b"Jos\xC3\tJos\xC3\nJos\xC3\tJos\xC3\xA9\n\x00\t\x00\n", answers("equal", "greater", "equal")),
    # limits
    ("a line of 8,193 octets", EXAMPLE, f"{FULL}\t{FULL}\n", answers("equal")),
    ("a line of 8,194 octets", EXAMPLE, f"{FULL}\t{FULL}x\n" + PAIR, answers("refused 2", "equal")),
    ("8,193 octets without a tab", EXAMPLE, "x" * 8193 + "\n", answers("refused 9")),
    ("8,194 octets without a tab", EXAMPLE, "x" * 8194 + "\n", answers("refused 2")),
    ("8,194 octets without an end", EXAMPLE, PAIR + "x" * 8194, answers("equal", "refused 2")),
    ("1,000,000 octets are one line", EXAMPLE, "a\t" * 500_000 + "\n" + PAIR, answers("refused 2", "equal")),
    ("1,000,000 octets without an end", EXAMPLE, PAIR + "x" * 1_000_000, answers("equal", "refused 2")),
    ("a first name of 4,096 and 4,097 octets", EXAMPLE, f"{FULL}\tx\n{FULL}x\tx\n", answers("greater", "refused 2")),
    ("a second name of 4,096 and 4,097 octets", EXAMPLE, f"x\t{FULL}\nx\t{FULL}x\n", answers("less", "refused 2")),
    ("a first key of 12,288 octets", SIX_AND_SEVEN, "Ā" * 2048 + "\tx\n", answers("less")),
    ("a first key of 12,289 octets", SIX_AND_SEVEN, "Ā" * 2047 + "ā\tx\n", answers("refused 8")),
    ("a second key of 12,288 octets", SIX_AND_SEVEN, "x\t" + "Ā" * 2048 + "\n", answers("greater")),
    ("a second key of 12,289 octets", SIX_AND_SEVEN, "x\t" + "Ā" * 2047 + "ā\n", answers("refused 8")),
    ("more lines than one read brings", EXAMPLE, (PAIR + "E\té\n") * 20_000, answers(*["equal", "less"] * 20_000)),
]


def octets(text):
    return text if isinstance(text, bytes) else text.encode("utf-8")


def lay(data, folder):
    """Puts ucd.txt into an empty folder."""
    path = pathlib.Path(folder, "ucd.txt")
    if data is DIRECTORY:
        path.mkdir()
    elif data is not MISSING:
        path.write_bytes(octets(data))


def run(program, data, given):
    """What the program printed, and how it ended, in a text that can be compared line by line."""
    with tempfile.TemporaryDirectory() as folder:
        lay(data, folder)
        done = subprocess.run([program], cwd=folder, input=octets(given), capture_output=True, timeout=SECONDS_MOST)
    return report(done.stdout, done.stderr, done.returncode)


def report(output, errors, status):
    shown = [part.decode("utf-8", "backslashreplace") for part in (output, errors)]
    return f"{shown[0]}|end of standard output\n{shown[1]}|end of standard error\nexit status {status}\n"


def difference(expected, found):
    return "\n".join(difflib.unified_diff(expected.split("\n"), found.split("\n"), "expected", "found", "", "", 3, ""))


def main(program):
    names = [case[0] for case in CASES]
    if len(set(names)) != len(names):
        sys.exit("pairs: two cases have the same name")
    for name, data, given, output in CASES:
        expected = report(octets(output), b"", 0)
        found = run(program, data, given)
        if found != expected:
            sys.exit(f"pairs: {name}\n{difference(expected, found)}")
    print(f"pairs: {len(CASES)} cases")


main(*sys.argv[1:])
