"""Names in a column of a CSV or TSV file, as Python's csv module reads it."""

import csv
import io
import itertools

# The longest field that the csv module takes; its own limit would stop at long remarks in a column that nobody asked for.
FIELD_MOST = 1 << 30


class InputError(Exception):
    """A list that can't be read, in one sentence."""


def _first_line(data):
    """The first line that is not empty."""
    return data.lstrip(b"\r\n").partition(b"\n")[0].rstrip(b"\r").decode("utf-8", "surrogateescape")


def _delimiter(label, line, options):
    """What parts columns: as asked for; a tab in a .tsv file, or where the first line has one and no comma; else a comma."""
    if options.delimiter is not None:
        return options.delimiter
    return "\t" if label.endswith(".tsv") or ("\t" in line and "," not in line) else ","


def has_column(label, data, options):
    """Whether --column is for this file: any but a .txt file whose first line is one field, and not the column's name."""
    line = _first_line(data)
    return not label.endswith(".txt") or _delimiter(label, line, options) in line or line == options.column


def refuse_columns(label, data, options):
    """Stops at a CSV or TSV file of several columns where none was asked for: whole lines of it are no names."""
    if not label.endswith((".csv", ".tsv")):
        return
    line = _first_line(data)
    header = line.split(_delimiter(label, line, options))
    if len(header) > 1:
        raise InputError(f"{label} has {len(header)} columns ({_listed(header)}): say with --column which of them has the names")


def _listed(header):
    """The columns in words; what UTF-8 has no character for is escaped."""
    return ", ".join(repr(field) for field in header)


def _numbered_rows(label, reader):
    """Each row that is not empty, with the line that it begins at."""
    start = 1
    try:
        for row in reader:
            if row:
                yield start, row
            start = reader.line_num + 1
    except csv.Error as error:
        raise InputError(f"{label} can't be read as CSV at the row that begins in line {start}: {error}") from None


def _place(label, header, column):
    """Where a column stands, from 0: it is told by its name in the header, or by its number from 1."""
    places = [place for place, field in enumerate(header) if field == column]
    if len(places) > 1:
        numbers = ", ".join(str(place + 1) for place in places)
        raise InputError(f"{label} has {len(places)} columns named {column!r}: give the number of one of them ({numbers})")
    if places:
        return places[0]
    if column.isdecimal() and 1 <= int(column) <= len(header):
        return int(column) - 1
    raise InputError(f"{label} has no column {column!r}; its columns are {_listed(header)} (--delimiter says what parts them)")


def read_column(label, data, options):
    """The names of a column, the lines that their rows begin at, how they were read, and how many rows have no name there."""
    csv.field_size_limit(FIELD_MOST)
    text = io.StringIO(data.decode("utf-8", "surrogateescape"), newline="")
    # Strict: a quote that is never closed would else take all later names into one field, and nobody would know.
    reader = csv.reader(text, delimiter=_delimiter(label, _first_line(data), options), strict=True)
    rows = _numbered_rows(label, reader)
    top = next(rows, None)
    if top is None:
        raise InputError(f"{label} is empty, so it has no column {options.column!r}")
    if options.no_header:
        place, how = _place(label, [""] * len(top[1]), options.column), f" in column {options.column}"
        rows = itertools.chain([top], rows)
    else:
        place = _place(label, top[1], options.column)
        how = f" in column {top[1][place]!r}"
    names, lines, without = [], [], 0
    for line, row in rows:
        if len(row) > place and row[place]:
            names.append(row[place].encode("utf-8", "surrogateescape"))
            lines.append(line)
        else:
            without += 1
    return names, lines, how, without
