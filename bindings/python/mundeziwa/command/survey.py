"""What a report says of its lists beyond the library's totals, for lists of millions of names.

The sorted row becomes a string with an octet for each place: 0 and 1 for a name of the first list, 2 and 3 for one of the second;
odd where the name at the next place is equal. So an even octet ends a group, in which the first list's names stand before the
second's, and no step of Python is made for a name that is in no group.
"""

import re
from itertools import repeat
from operator import lt

# Where a group passes from the first list to the second.
_SHARED = [b"\x01\x02", b"\x01\x03"]
# The names of a group in list 1 or 2, where they are two or more; and how they end, which is quicker to count.
_REPEATED = {1: re.compile(rb"\x01+\x00|\x01\x01+"), 2: re.compile(rb"\x03+\x02")}
_REPEATED_ENDS = {1: [b"\x01\x00", b"\x01\x01\x02", b"\x01\x01\x03"], 2: [b"\x03\x02"]}


class Survey:
    """The groups of equal names of a report."""

    def __init__(self, report):
        self._report, self._before = report, report.first_names
        in_second = bytes(map(lt, repeat(self._before), report.row))
        # Python adds octet by octet, and at once, if both strings are taken for long numbers.
        places = 2 * int.from_bytes(in_second, "little") + int.from_bytes(report.repeat_flags, "little")
        self._places = places.to_bytes(len(in_second), "little")

    def shared_names(self):
        """How many names both lists have."""
        return sum(map(self._places.count, _SHARED))

    def repeated_names(self, number):
        """How many names list 1 or 2 holds more than once."""
        return sum(map(self._places.count, _REPEATED_ENDS[number]))

    def repeated(self, number):
        """For each name that list 1 or 2 holds more than once its indices there, in the order of the keys."""
        before = 1 if number == 1 else 1 + self._before
        for match in _REPEATED[number].finditer(self._places):
            yield [place - before for place in self._report.row[match.start() : match.end()]]


def break_of(name):
    """Where a name stops being UTF-8: the octet's offset in it, from 0, or None if it is valid."""
    try:
        name.decode("utf-8")
    except UnicodeDecodeError as error:
        return error.start
    return None
