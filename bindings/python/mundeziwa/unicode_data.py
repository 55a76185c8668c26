"""Tables out of files of lines of UnicodeData.txt."""

import pathlib
from array import array

from .errors import Error, TableError, sentence
from .library import answer, lent

# The file that comes with the package stands here, beside the name of its edition.
DATA = pathlib.Path(__file__).parent / "data"
ENTRY_WIDTH, ENTRIES_MOST, POOL_MOST = 4, 16384, 65536
# The last line of UnicodeData.txt begins so. No edition can have one after it: the two code points above are noncharacters.
LAST_LINE = b"10FFFD;"


def _is_cut(data):
    """Whether the end is missing: the line of the last code point, with its line feed."""
    last = data[:-1].rpartition(b"\n")[2]
    return not (last.startswith(LAST_LINE) and data.endswith(b"\n"))


def _build(lines, name):
    """The entries and the pool of lines."""
    entries, pool = array("I", [0]) * (ENTRY_WIDTH * ENTRIES_MOST), array("I", [0]) * POOL_MOST
    slices, state = (*lent(entries), *lent(pool)), [0, 0, 0]
    for number, line in enumerate(lines, 1):
        row = answer("mz_add_line", 6, *state, line, len(line), *slices)
        if row[0]:
            raise TableError(*row[:3], f"line {number} of {name}: {sentence(*row[:3])}", number)
        state = row[3:]
    return entries[: ENTRY_WIDTH * state[0]], pool[: state[1]]


def read(path, whole):
    """The entries and the pool of a file; with `whole`, one that was cut off at its end is an error."""
    data = path.read_bytes()
    if whole and _is_cut(data):
        raise Error(f"{path} is cut off: UnicodeData.txt ends with the line of U+10FFFD and a line feed")
    # A line ends at a line feed; a last line without one counts.
    return _build(data.removesuffix(b"\n").split(b"\n") if data else [], path.name)


def read_published():
    """The entries and the pool of the file that comes with the package, and the name of its edition."""
    edition = (DATA / "EDITION").read_text("ascii").strip()
    return *read(DATA / f"UnicodeData-{edition}.txt", whole=True), f"Unicode {edition}"
