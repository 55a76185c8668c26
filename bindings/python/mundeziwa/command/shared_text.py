"""The report of `mundeziwa shared` for people."""

import sys

from .comparing import described, rule
from .explain import reasons
from .layout import CELL_LEAST, GAP, Section, lay_out, numbers_of, screen
from .survey import break_of
from .text import clip, colours_wanted, count, paint, spelled, visible, width

ORDINALS = ["first", "second"]


def spelling_rows(lists, groups, mark, show_all):
    """A row for each spelling of some names: the spelling, and its lines in each list; `groups` has the indices in each."""
    places = {}
    for number, indices in enumerate(groups):
        for index in indices:
            places.setdefault(lists[number].names[index], [[] for _ in lists])[number].append(index)
    rows = []
    for name, found in places.items():
        rows.append((mark + spelled(name), *(numbers_of(*pair, show_all) for pair in zip(found, lists))))
        mark = " " * len(mark)
    return rows, list(places)


def marks(total):
    """The numbers before the entries of a section, all as wide as the last."""
    digits = len(str(total))
    return (f"{number:>{digits}}  " for number in range(1, total + 1)), " " * (digits + 2)


def _both_lists(findings, title, total, groups, explained):
    """A section of names of both lists."""
    numbers, indent = marks(total)

    def entries():
        for mark, group in zip(numbers, groups):
            rows, names = spelling_rows(findings.lists, group, mark, findings.options.all)
            if explained:
                rows += [(indent + line,) for name in names for line in reasons(name, findings.table, findings.options.collation)]
            yield rows

    units = [f"{listed.unit} in {ordinal}" for listed, ordinal in zip(findings.lists, ORDINALS)]
    return Section(title, total, entries(), [(f"{indent}spelling", *units)])


def _shared(findings):
    total, other = findings.shared_names, findings.other_spelling
    title = f"Shared names: {total:,} ({other:,} met only by another spelling)"
    groups = ((group.first, group.second) for group in findings.report.shared())
    return _both_lists(findings, title, total, groups, findings.options.explain)


def _lookalikes(findings):
    total = len(findings.lookalikes)
    title = f"Also look at: {total:,} (alike, but not by the rule; not proved)"
    return _both_lists(findings, title, total, findings.lookalikes, False)


def repeated_section(listed, title, total, groups, show_all):
    """A section of names that one list holds more than once."""
    numbers, _ = marks(total)

    def entries():
        for mark, group in zip(numbers, groups):
            rows, _ = spelling_rows([listed], [group], mark, show_all)
            yield [(spelling, f"{listed.unit} {places}") for spelling, places in rows]

    return Section(title, total, entries())


def _repeated(findings, number):
    total = findings.repeated_names[number - 1]
    title = f"Held more than once in the {ORDINALS[number - 1]} list: {total:,}"
    listed, groups = findings.lists[number - 1], findings.survey.repeated(number)
    return repeated_section(listed, title, total, groups, findings.options.all)


def broken_section(lists, broken, ordinals):
    """A section of the names that are no UTF-8, each with the octet where it breaks."""

    def entries():
        for listed, indices, ordinal in zip(lists, broken, ordinals):
            for index in indices:
                name = listed.names[index]
                place = break_of(name)
                yield [(visible(name), f"{listed.unit} {listed.lines[index]}{ordinal}", f"octet {place} is {name[place]:02X}")]

    total = sum(map(len, broken))
    return Section(f"Broken names: {total:,} (no UTF-8, so compared octet by octet)", total, entries())


def head_lines(title, lists, ordinals, columns):
    """What was compared: the rule, and each list with its number of names."""
    rows = [(ordinal, *described(listed)) for ordinal, listed in zip(ordinals, lists)]
    if columns is not None:
        room = columns - sum(max(map(width, cells)) for cells in list(zip(*rows))[::2]) - 3 * len(GAP)
        # Of a long path the end says more.
        rows = [(ordinal, clip(label[::-1], max(room, CELL_LEAST))[::-1], words) for ordinal, label, words in rows]
    return [title, *Section("", 0, [rows]).lines(columns, False)[1:]]


def _total(findings):
    """The last line."""
    report = findings.report
    shared = f"{count(findings.shared_names, 'shared name')}, {count(report.equal_pairs, 'equal pair')}"
    return f"Total: {shared}; {report.with_partner:,} of {count(report.first_names, 'name')} of the first list met"


def shared_text(findings):
    """The lines of the report."""
    stream, options = sys.stdout, findings.options
    colours, size = colours_wanted(stream), screen(stream)
    title = f"Names that two lists share, by {rule(options, findings.table)}"
    head = head_lines(title, findings.lists, ORDINALS, None if options.all else size[1])
    broken = broken_section(findings.lists, findings.broken, [f" of the {ordinal} list" for ordinal in ORDINALS])
    sections = [_shared(findings), _repeated(findings, 1), _repeated(findings, 2), broken, _lookalikes(findings)]
    total = paint(_total(findings), "red" if findings.status else "green", colours)
    return lay_out(head, sections, total, size, options.all, colours)
