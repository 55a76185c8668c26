"""Lists of names as they are read: a name a line, a column of a CSV or TSV file, or records. Names are octets."""

import sys

from ..errors import sentence
from ..library import answer
from .columns import InputError, has_column, read_column, refuse_columns

BYTE_ORDER_MARK = b"\xef\xbb\xbf"
# What mz_read_record answers: the end of the octets, or a record that is a text; a list has no other kind (refused 12).
AT_END, KIND_TEXT, REFUSED_KIND = 0, 1, 12


class NameList:
    """The names of a list in their order, and for each the line (or record) of the file that it stands in, from 1."""

    def __init__(self, label, names, lines, how, left_out=0, unit="line"):
        self.label, self.names, self.lines = label, names, lines
        # how it was read, in words, how many lines or rows had no name, and what `lines` counts
        self.how, self.left_out, self.unit = how, left_out, unit

    def __len__(self):
        return len(self.names)


def read_list(path, options):
    """The names of a file, or of standard input where the path is `-`."""
    label = "standard input" if path == "-" else path
    data = read_octets(path)
    if options.records:
        return _read_records(label, data)
    data = data[len(BYTE_ORDER_MARK) :] if data.startswith(BYTE_ORDER_MARK) else data
    if options.column is None:
        refuse_columns(label, data, options)
    elif has_column(label, data, options):
        return NameList(label, *read_column(label, data, options))
    return _read_lines(label, data)


def read_octets(path):
    """All octets of a file, or of standard input where the path is `-`."""
    try:
        if path == "-":
            return sys.stdin.buffer.read()
        with open(path, "rb") as file:
            return file.read()
    except FileNotFoundError:
        raise InputError(f"{path} is not there") from None
    except IsADirectoryError:
        raise InputError(f"{path} is a folder, and a list of names is a file") from None
    except PermissionError:
        raise InputError(f"{path} may not be read: permission is denied") from None
    except OSError as error:
        raise InputError(f"{path} can't be read: {error.strerror or error}") from None


def _read_lines(label, data):
    """A name a line. Empty lines are no names, and are counted as lines."""
    # Most files have no line ends of the one kind and no empty lines, and that is seen quickly.
    lines = (data.replace(b"\r\n", b"\n") if b"\r" in data else data).split(b"\n")
    if not lines[-1]:
        lines.pop()  # what follows the last line feed is no line
    names = list(filter(None, lines)) if b"" in lines else lines
    empty = len(lines) - len(names)
    numbers = [number for number, line in enumerate(lines, 1) if line] if empty else range(1, len(lines) + 1)
    return NameList(label, names, numbers, ", one a line", empty)


def _read_records(label, data):
    """The texts of a file of records; their numbers stand for lines."""
    names, position = [], 0
    while True:
        number, _, _, kind, _, _, _, start, end = answer("mz_read_record", 9, data, len(data), position)
        if number == 0 and kind == AT_END:
            return NameList(label, names, range(1, len(names) + 1), " as records", unit="record")
        if number == 0 and kind != KIND_TEXT:
            raise InputError(f"record {len(names) + 1} of {label} is a key, and a list has texts only (refused {REFUSED_KIND})")
        if number:
            raise InputError(f"record {len(names) + 1} of {label}, at octet {position}: {sentence(number)} (refused {number})")
        names.append(data[start:end])
        position = end
