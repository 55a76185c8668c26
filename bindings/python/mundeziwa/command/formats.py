"""Reports for programs: TSV and JSON Lines, complete and in a stable order. docs/REPORT.md describes them."""

import json

from .survey import break_of
from .text import one_line


def as_json(value):
    """A value as one line of JSON; what can't be printed is escaped, since some programs take U+2028 for a line's end."""
    line = json.dumps(value, ensure_ascii=False, separators=(",", ":"))
    return line if line.isprintable() else "".join(char if char.isprintable() else json.dumps(char)[1:-1] for char in line)


def named(listed, index):
    """A name for JSON: its line and text; where it is no UTF-8, the text is escaped and the octets stand beside it."""
    name = listed.names[index]
    try:
        return {"line": listed.lines[index], "name": name.decode("utf-8")}
    except UnicodeDecodeError:
        return {"line": listed.lines[index], "name": one_line(name), "hex": name.hex()}


def _all_named(listed, indices):
    return [named(listed, index) for index in indices]


def tsv_rows(lists, groups):
    """A line for each name of each group, and a header; `groups` has pairs of a key and the indices in each list."""
    yield "group\tlist\tline\tname\toctets\tkey"
    for number, (key, places) in enumerate(groups, 1):
        for listed, (which, indices) in zip(lists, enumerate(places, 1)):
            for index in indices:
                name = listed.names[index]
                yield f"{number}\t{which}\t{listed.lines[index]}\t{one_line(name)}\t{name.hex()}\t{key.hex()}"


def shared_tsv(findings):
    """A line for each name of each shared group."""
    return tsv_rows(findings.lists, ((group.key, (group.first, group.second)) for group in findings.report.shared()))


def broken_objects(lists, broken):
    """An object for each name that is no UTF-8, with the octet where it breaks."""
    for number, (listed, indices) in enumerate(zip(lists, broken), 1):
        for index in indices:
            name = named(listed, index)
            yield {"type": "broken", "list": number, **name, "octet": break_of(listed.names[index])}


def repeated_objects(listed, number, groups):
    """An object for each name that a list holds more than once."""
    for indices in groups:
        yield {"type": "repeated", "list": number, "names": _all_named(listed, indices)}


def _shared_objects(findings):
    """Every object of the report but the last."""
    first, second = findings.lists
    for number, group in enumerate(findings.report.shared(), 1):
        names = {"first": _all_named(first, group.first), "second": _all_named(second, group.second)}
        yield {"type": "shared", "group": number, "key": group.key.hex(), **names}
    for number, listed in enumerate(findings.lists, 1):
        yield from repeated_objects(listed, number, findings.survey.repeated(number))
    yield from broken_objects(findings.lists, findings.broken)
    for pair in findings.lookalikes:
        names = {"first": _all_named(first, pair[0]), "second": _all_named(second, pair[1])}
        yield {"type": "lookalike", "proved": False, **names}


def shared_jsonl(findings):
    """An object for each shared name, repeated name, broken name and pair of lookalikes, and at the end the totals."""
    yield from map(as_json, _shared_objects(findings))
    files = {"first": findings.lists[0].label, "second": findings.lists[1].label}
    rule = {"collation": findings.options.collation, "edition": findings.table.edition}
    yield as_json({"type": "totals", **files, **rule, **findings.totals(), "status": findings.status})
