"""`mundeziwa shared`: which names two lists share."""

from ..texts import stand_in
from .comparing import Beside, names_named, open_table, read_lists
from .formats import shared_jsonl, shared_tsv
from .lookalike import find_lookalikes
from .output import complain, write_lines
from .progress import Progress
from .shared_text import shared_text
from .survey import Survey
from .text import count

NOTHING, SOMETHING, UNCERTAIN = 0, 1, 2
FORMATS = {"text": shared_text, "tsv": shared_tsv, "jsonl": shared_jsonl}


class Findings:
    """Two lists, and all that a report says of them."""

    def __init__(self, lists, options, table):
        self.lists, self.options, self.table = lists, options, table
        names = [listed.names for listed in lists]
        matching = Beside(table.sharing(*names, options.collation))
        # Made while the library compares, since these too look at every name.
        stands_in_second = stand_in(*names)
        self.lookalikes = find_lookalikes(*names, table, options.collation)
        self.report = matching.answer()
        self.broken = [self.report.invalid_first, self.report.invalid_second]
        self.survey = Survey(self.report)
        self.shared_names = self.survey.shared_names()
        self.other_spelling = self.shared_names - self.report.same_spelling(stands_in_second)
        self.repeated_names = [self.survey.repeated_names(number) for number in (1, 2)]

    @property
    def status(self):
        """The exit status: that nothing is shared is said only where every name could be compared by the rule."""
        if self.report or (self.options.strict and self.lookalikes):
            return SOMETHING
        return UNCERTAIN if any(self.broken) and not self.options.allow_invalid else NOTHING

    def totals(self):
        """The totals, by name."""
        return {
            "first_names": self.report.first_names,
            "second_names": self.report.second_names,
            "shared_names": self.shared_names,
            "other_spelling": self.other_spelling,
            "equal_pairs": self.report.equal_pairs,
            "with_partner": self.report.with_partner,
            "repeated_first": self.repeated_names[0],
            "repeated_second": self.repeated_names[1],
            "broken_first": len(self.broken[0]),
            "broken_second": len(self.broken[1]),
        }

    def why(self):
        """Why the status is not the one that the totals suggest, or nothing."""
        if self.status == UNCERTAIN:
            broken = sum(map(len, self.broken))
            return f"nothing is shared, but {count(broken, 'name is', 'names are')} no UTF-8: --allow-invalid lets that pass"
        if self.status == SOMETHING and not self.report:
            alike = count(len(self.lookalikes), "name looks", "names look")
            return f"nothing is shared by the rule, but {alike} alike, and --strict counts that"
        return ""


def run(options):
    """Compares two lists, writes the report, and gives the exit status."""
    with Progress() as progress:
        lists = read_lists([options.first, options.second], options, progress)
        progress.stage = f"comparing {sum(map(len, lists)):,} names"
        with names_named(lists):
            findings = Findings(lists, options, open_table(options))
    write_lines(FORMATS[options.format](findings))
    # A list that came out empty shares nothing with any other, and a job that made it so would pass unseen.
    for listed in lists:
        if not listed.names:
            complain(f"{listed.label} has no names")
    complain(findings.why())
    return findings.status
