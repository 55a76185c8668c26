"""`mundeziwa duplicates`: which names one list holds more than once."""

import sys

from .comparing import Beside, names_named, open_table, read_lists, rule
from .formats import as_json, broken_objects, repeated_objects, tsv_rows
from .layout import lay_out, screen
from .output import complain, write_lines
from .progress import Progress
from .shared_text import broken_section, head_lines, repeated_section
from .survey import Survey
from .text import colours_wanted, count, paint

NOTHING, SOMETHING, UNCERTAIN = 0, 1, 2


class Findings:
    """A list, and all that a report says of it."""

    def __init__(self, listed, options, table):
        self.listed, self.options, self.table = listed, options, table
        report = Beside(table.duplicates, listed.names, options.collation).answer()
        self.survey = Survey(report)
        self.total = self.survey.repeated_names(1)
        self.broken = report.invalid_first

    @property
    def status(self):
        """The exit status: that nothing is repeated is said only where every name could be compared by the rule."""
        if self.total:
            return SOMETHING
        return UNCERTAIN if self.broken and not self.options.allow_invalid else NOTHING


def _text(findings):
    """The report for people."""
    options, listed = findings.options, findings.listed
    colours, size = colours_wanted(sys.stdout), screen(sys.stdout)
    title = f"Names that a list holds more than once, by {rule(options, findings.table)}"
    head = head_lines(title, [listed], ["list"], None if options.all else size[1])
    groups = findings.survey.repeated(1)
    repeated = repeated_section(listed, f"Held more than once: {findings.total:,}", findings.total, groups, options.all)
    sections = [repeated, broken_section([listed], [findings.broken], [""])]
    total = f"Total: {count(findings.total, 'name')} held more than once, of {count(len(listed), 'name')}"
    total = paint(total, "red" if findings.status else "green", colours)
    return lay_out(head, sections, total, size, options.all, colours)


def _tsv(findings):
    """A line for each name that the list holds more than once."""
    names, collation = findings.listed.names, findings.options.collation
    groups = ((findings.table.key(names[group[0]], collation), (group,)) for group in findings.survey.repeated(1))
    return tsv_rows([findings.listed], groups)


def _jsonl(findings):
    """An object for each repeated and each broken name, and at the end the totals."""
    listed = findings.listed
    yield from map(as_json, repeated_objects(listed, 1, findings.survey.repeated(1)))
    yield from map(as_json, broken_objects([listed], [findings.broken]))
    rule_used = {"collation": findings.options.collation, "edition": findings.table.edition}
    totals = {"names": len(listed), "repeated_names": findings.total, "broken": len(findings.broken)}
    yield as_json({"type": "totals", "list": listed.label, **rule_used, **totals, "status": findings.status})


FORMATS = {"text": _text, "tsv": _tsv, "jsonl": _jsonl}


def run(options):
    """Looks through one list, writes the report, and gives the exit status."""
    with Progress() as progress:
        [listed] = read_lists([options.list], options, progress)
        progress.stage = f"comparing {len(listed):,} names"
        with names_named([listed]):
            findings = Findings(listed, options, open_table(options))
    write_lines(FORMATS[options.format](findings))
    if findings.status == UNCERTAIN:
        broken = count(len(findings.broken), "name is", "names are")
        complain(f"nothing is held more than once, but {broken} no UTF-8: --allow-invalid lets that pass")
    return findings.status
