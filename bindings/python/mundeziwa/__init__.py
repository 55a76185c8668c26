"""Names compared by RFC 4790 and RFC 5051: which are one, how they are ordered, and which of them two lists share.

>>> import mundeziwa
>>> mundeziwa.equal("José", "JOSE\\u0301")
True
>>> report = mundeziwa.shared(["José", "Irene"], ["JOSÉ", "Otto"])
>>> [(group.first, group.second) for group in report]
[([0], [0])]
"""

from .errors import Error, LibraryError, Refused, TableError
from .pieces import Keys
from .report import Duplicates, Group, Report, Row
from .table import Hit, Table

__version__ = "0.2.0"
__all__ = [
    "Duplicates", "Error", "Group", "Hit", "Keys", "LibraryError", "Refused", "Report", "Row", "Table", "TableError",
    "duplicates", "equal", "find", "key", "keys", "order", "shared",
]  # fmt: skip


def key(text, collation="unicode"):
    """The key of a text, over the table that comes with the package."""
    return Table.published().key(text, collation)


def keys(texts, collation="unicode"):
    """The keys of many texts, over the table that comes with the package."""
    return Table.published().keys(texts, collation)


def equal(a, b, collation="unicode"):
    """Whether two texts are one name, over the table that comes with the package."""
    return Table.published().equal(a, b, collation)


def order(a, b, collation="unicode"):
    """How two texts are ordered, -1, 0 or 1, over the table that comes with the package."""
    return Table.published().order(a, b, collation)


def find(needle, text, collation="unicode"):
    """Where the first text stands in the second, or None, over the table that comes with the package."""
    return Table.published().find(needle, text, collation)


def shared(first, second, collation="unicode"):
    """Which names two lists share, over the table that comes with the package."""
    return Table.published().shared(first, second, collation)


def duplicates(names, collation="unicode"):
    """Which names one list holds more than once, over the table that comes with the package."""
    return Table.published().duplicates(names, collation)
