"""The sections of a text report: entries of a few rows each, cut to a screenful unless all are asked for."""

import shutil
from itertools import islice

from .text import clip, pad, paint, width

# A lower screen is taken for one of 24 lines; where nobody looks, a screenful is 40 lines of 80 columns.
HEIGHT_LEAST, HEIGHT_UNSEEN, WIDTH_UNSEEN = 24, 40, 80
GAP = "  "
CELL_LEAST = 8
NUMBERS_SHOWN = 5


class Section:
    """A title, and under it entries, of which there are `total`: lists of rows, each a tuple of cells, or of one text."""

    def __init__(self, title, total, entries, head=()):
        self.title, self.total, self.entries, self.head = title, total, entries, list(head)

    def take(self, most):
        """Keeps so many entries at most, and says how many rows they have."""
        self.entries = list(islice(self.entries, most))
        return sum(map(len, self.entries))

    def cut(self, rows):
        """Keeps the entries that fit in so many rows; the first stays in any case, cut short if it must be."""
        kept = []
        for entry in self.entries:
            if kept and len(entry) > rows:
                break
            if len(entry) > rows:
                entry = entry[: rows - 1] + [(f"and {len(entry) - rows + 1:,} lines more",)]
            kept.append(entry)
            rows -= len(entry)
        self.entries = kept

    def lines(self, columns, colours):
        """The section as lines, none wider than the columns; where these are None, as wide as it comes."""
        entries = list(self.entries)
        left_out = self.total - len(entries)
        title = f"{self.title}; {left_out:,} left out" if left_out > 0 else self.title
        rows = _aligned(self.head + [row for entry in entries for row in entry], columns)
        heads = [paint(row, "dim", colours) for row in rows[: len(self.head)]]
        return [paint(title, "bold", colours), *heads, *rows[len(self.head) :]]


def _aligned(rows, columns):
    """Rows as lines, each column as wide as its widest cell; a row of one text is no part of the columns."""
    tables = [row for row in rows if len(row) > 1]
    widths = [max(map(width, cells)) for cells in zip(*tables)]
    if columns is not None and widths:
        # The first cell is the one to be cut: it has a name, and the others have numbers.
        widths[0] = min(widths[0], max(columns - sum(widths[1:]) - len(GAP) * len(widths), CELL_LEAST))
        rows = [(clip(row[0], widths[0] if len(row) > 1 else columns - len(GAP)), *row[1:]) for row in rows]
    return [(GAP + GAP.join(map(pad, row, widths or [0]))).rstrip() for row in rows]


def _shares(needs, room):
    """How many rows each section gets: what it needs; where there is too little room, an equal part of what others leave."""
    shares = [0] * len(needs)
    for done, place in enumerate(sorted(range(len(needs)), key=needs.__getitem__)):
        shares[place] = min(needs[place], max(room // (len(needs) - done), 1))
        room -= shares[place]
    return shares


def screen(stream):
    """The lines and columns of the screen that a stream is, or of one that is supposed."""
    size = shutil.get_terminal_size((WIDTH_UNSEEN, HEIGHT_UNSEEN))
    if stream is None or not stream.isatty():
        return HEIGHT_UNSEEN, WIDTH_UNSEEN
    return max(size.lines, HEIGHT_LEAST), size.columns


def _cut(sections, room):
    """Cuts sections to so many rows in all, and says whether anything was left out."""
    needs = [section.take(room) for section in sections]
    for section, rows in zip(sections, _shares(needs, room)):
        section.cut(rows)
    return any(section.total > len(section.entries) for section in sections) or sum(needs) > room


def lay_out(head, sections, total, size, show_all, colours):
    """The lines of a report: its head, the sections that have entries with a blank line before each, and the totals."""
    height, columns = size
    sections = [section for section in sections if section.total]
    lines, note = list(head), ""
    if show_all:
        columns = None
    else:
        # The line before the total, the total, which may take two, and the prompt.
        room = height - len(head) - 2 - -(-width(total) // columns) - sum(2 + len(section.head) for section in sections)
        note = "(a screenful: --all shows what is left out)" if _cut(sections, room) else ""
    for section in sections:
        lines += ["", *section.lines(columns, colours)]
    return [*lines, paint(note, "dim", colours), total]


def numbers_of(indices, listed, show_all):
    """Where some names of a list stand: 3, 7, 12; after a few, how many more there are."""
    shown = indices if show_all else indices[:NUMBERS_SHOWN]
    words = ", ".join(str(listed.lines[index]) for index in shown)
    more = len(indices) - len(shown)
    return f"{words} and {more:,} more" if more else words
