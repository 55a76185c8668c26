"""What two lists share, as the library says it: totals, partners, and the groups of equal names."""

import sys
from bisect import bisect_right
from functools import cached_property
from itertools import compress, starmap
from operator import not_
from typing import Any, NamedTuple

from .texts import stand_in

_COUNTS = ("first_names", "second_names", "equal_pairs", "with_partner", "shared_names", "other_spelling")


class Row(NamedTuple):
    """A name of a group: the group's number from 1, the list (1 or 2), the index in it from 0, the name as given, the key."""

    group: int
    list: int
    index: int
    name: Any
    key: bytes


class Group:
    """Names that are equal: their indices in the first list and in the second, from 0."""

    __slots__ = ("_report", "first", "second")

    def __init__(self, report, first, second):
        self._report, self.first, self.second = report, first, second

    @property
    def key(self):
        """The key of all its names."""
        return self._report._keys[self._numbers()[0]]

    @property
    def is_shared(self):
        """Whether both lists have names of it."""
        return bool(self.first and self.second)

    @property
    def spellings(self):
        """The octets of its names, each spelling once, in the order of the names."""
        return list(dict.fromkeys(map(self._report._names.__getitem__, self._numbers())))

    def _numbers(self):
        """The numbers of its names in both lists together, from 0."""
        before = self._report.first_names
        return [*self.first, *(before + index for index in self.second)]

    def __len__(self):
        return len(self.first) + len(self.second)

    def __repr__(self):
        return f"<mundeziwa.Group: first {self.first}, second {self.second}>"


def _named(index, octets):
    """A name for JSON: its index and text; octets that are no UTF-8 are escaped in it, and stand beside it in hex."""
    try:
        return {"index": index, "name": octets.decode()}
    except UnicodeDecodeError:
        return {"index": index, "name": octets.decode("utf-8", "backslashreplace"), "hex": octets.hex()}


def _zeros_of(flags):
    """Where octets are 0."""
    # Mostly none is, and that is seen at once.
    return list(compress(range(len(flags)), map(not_, flags))) if 0 in flags else []


class Report:
    """Which names two lists share. Iterates over the groups of equal names that stand in both.

    `first` and `second` are the names as given. `equal_pairs`, `with_partner` (names of the first list with an equal one in the
    second) and `partners` (the number in the second list, from 1, of the first such one, else 0) are the library's own, and so
    are the groups and their order: `row` has the numbers of all names, from 1 and the first list's before the second's, sorted by
    key, list and number; `repeats` has for each place of the row 1 if the name at the next place is equal, else 0.
    """

    def __init__(self, first, second, names, keys, matches, edition, collation):
        self.first, self.second, self.edition, self.collation = first, second, edition, collation
        self.first_names, self.second_names = len(first), len(second)
        self.equal_pairs, self.with_partner, self.row, self.repeats, self.partners = matches
        # The octets of all names, the first list's before the second's, and their keys.
        self._names, self._keys = names, keys

    @cached_property
    def repeat_flags(self):
        """The repeats as octets, which can be searched quickly."""
        size = self.repeats.itemsize
        # Each is 0 or 1, so its lowest octet is all of it.
        return self.repeats.tobytes()[0 if sys.byteorder == "little" else size - 1 :: size]

    def _runs(self):
        """Where in the row the groups of two names or more begin and end."""
        flags = self.repeat_flags
        start = flags.find(1)
        while start >= 0:
            end = flags.find(0, start) + 1
            yield start, end
            start = flags.find(1, end)

    def _shared_runs(self):
        """Where in the row the groups with names in both lists begin and end."""
        row, before = self.row, self.first_names
        # Of equal names the first list's come before the second's.
        return (run for run in self._runs() if row[run[0]] <= before < row[run[1] - 1])

    # The groups that the report is about.
    _reported_runs = _shared_runs

    def _group(self, start, end):
        """The group between two places of the row."""
        numbers, before = self.row[start:end], self.first_names
        split = bisect_right(numbers, before)
        return Group(self, [number - 1 for number in numbers[:split]], [number - 1 - before for number in numbers[split:]])

    def groups(self):
        """All groups of equal names, also those of a single name, in the order of their keys."""
        start, flags = 0, self.repeat_flags
        while start < len(flags):
            end = flags.find(0, start) + 1
            yield self._group(start, end)
            start = end

    def shared(self):
        """The groups with names in both lists, in the order of their keys."""
        return starmap(self._group, self._shared_runs())

    def repeated(self):
        """The groups with two names or more in one list, each after the number of that list, 1 or 2."""
        for group in starmap(self._group, self._runs()):
            if len(group.first) > 1:
                yield 1, group
            if len(group.second) > 1:
                yield 2, group

    @cached_property
    def invalid_first(self):
        """The indices of the first list's names that are no valid UTF-8; under the other collations none."""
        return _zeros_of(self._keys.valid[: self.first_names])

    @cached_property
    def invalid_second(self):
        """The indices of the second list's names that are no valid UTF-8; under the other collations none."""
        return _zeros_of(self._keys.valid[self.first_names :])

    @cached_property
    def shared_names(self):
        """How many names both lists have, each counted once however often it stands there."""
        # All names of a group have one partner, and no two groups have the same.
        return len(set(self.partners) - {0})

    def same_spelling(self, stands_in_second):
        """How many shared names have a spelling that stands in both lists, from what `stand_in` says of the lists' octets."""
        # The names of a group have one partner, and no two groups have the same. Equal octets are equal names.
        return len(set(compress(self.partners, stands_in_second)))

    @cached_property
    def other_spelling(self):
        """How many shared names met only by another spelling: none stands in both lists, so that a plain join would miss them."""
        octets = list(self._names)
        return self.shared_names - self.same_spelling(stand_in(octets[: self.first_names], octets[self.first_names :]))

    def rows(self):
        """A row for each name of the groups that the report is about."""
        for number, group in enumerate(self, 1):
            key = group.key
            for index in group.first:
                yield Row(number, 1, index, self.first[index], key)
            for index in group.second:
                yield Row(number, 2, index, self.second[index], key)

    def __iter__(self):
        return starmap(self._group, self._reported_runs())

    def __len__(self):
        return self.shared_names

    def __bool__(self):
        return self.with_partner > 0

    def __repr__(self):
        return f"<mundeziwa.{type(self).__name__}: {len(self)} names, {self.edition}, {self.collation}>"

    def _group_as_dict(self, group):
        """A group, ready for JSON."""
        names, before = self._names, self.first_names
        return {
            "key": group.key.hex(),
            "first": [_named(index, names[index]) for index in group.first],
            "second": [_named(index, names[before + index]) for index in group.second],
        }

    def to_dict(self):
        """The report as plain dictionaries, lists, texts and numbers, ready for JSON."""
        report = {"edition": self.edition, "collation": self.collation}
        report.update((name, getattr(self, name)) for name in _COUNTS)
        report["invalid_first"], report["invalid_second"] = self.invalid_first, self.invalid_second
        report["groups"] = list(map(self._group_as_dict, self))
        return report

    def to_dataframe(self):
        """The rows as a pandas DataFrame with the columns group, list, index, name and key (in hex)."""
        try:
            import pandas
        except ImportError as error:
            raise ImportError("to_dataframe needs pandas, which is not installed; rows() gives the same without it") from error
        return pandas.DataFrame([(*row[:4], row.key.hex()) for row in self.rows()], columns=list(Row._fields))


class Duplicates(Report):
    """Which names one list holds more than once: a report whose second list is empty. Iterates over the groups of these."""

    _reported_runs = Report._runs

    def __len__(self):
        return sum(1 for _ in self._runs())

    def __bool__(self):
        return 1 in self.repeat_flags
