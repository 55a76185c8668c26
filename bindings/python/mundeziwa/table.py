"""Tables: which code point maps to what, and the calls that compare texts over them."""

import functools
import pathlib
from array import array
from itertools import accumulate, chain
from typing import NamedTuple, Optional

from . import unicode_data
from .errors import Refused, TableError, sentence
from .library import answer, lent
from .many import KEY_PER_OCTET_MOST, match_keys, prepare_many
from .pages import lend_pages
from .report import Duplicates, Report
from .texts import COLLATIONS, collation_name, collation_number, joined, listed, octets_of

# The most octets of a text, MZ_TEXT_MOST, and the refusal of a longer one.
TEXT_MOST = 4096
REFUSED_TEXT_LENGTH = 2


class Hit(NamedTuple):
    """Where a text was found.

    In the key of the text that was searched, and in its octets; and, where that text is a str and whole characters of it were
    found, in its characters, else None.
    """

    key_start: int
    key_end: int
    start: int
    end: int
    char_start: Optional[int] = None
    char_end: Optional[int] = None


def _characters(text, start, end):
    """The same start and end in characters of a str, or None twice where they don't part characters."""
    places = {place: index for index, place in enumerate(accumulate(map(len, map(octets_of, text)), initial=0))}
    if start in places and end in places:
        return places[start], places[end]
    return None, None


def _key_buffer(octets):
    """Room for any key of a text; for one that is refused for its length, no more than for the longest that is taken."""
    return bytearray(KEY_PER_OCTET_MOST * min(len(octets), TEXT_MOST))


def _too_long(what, length):
    """What is said of a text that is over the limit."""
    return f"{what} has {length} octets, and at most {TEXT_MOST} are taken"


def _named(index, lists):
    """A name in words; `index` counts from 0 through all lists."""
    for what, names in lists.items():
        if index < len(names):
            return f"name {index + 1} of {what}"
        index -= len(names)


class Table:
    """A mapping table that the library has accepted, and the calls over it.

    `entries` and `pool` are its numbers, to be read alone, four for each entry: code point, titlecase, start of the decomposition
    in the pool, and length. Hangul syllables have none: they decompose by rule, over every table. `edition` says where the
    numbers are from. Any number of threads may use one table.
    """

    def __init__(self, entries, pool, edition):
        self.entries, self.pool, self.edition = array("I", entries), array("I", pool), edition
        # These copies and the pages are what the calls read. Nobody can reach them to change them after the check, which is what
        # the calls of include/mundeziwa_accepted.h ask for.
        self._numbers, self._pages = (*lent(array("I", self.entries)), *lent(array("I", self.pool))), lend_pages()
        # The empty text has no fault: the call is refused as the check of the table by itself, or else leaves the table's pages.
        row = answer("mz_prepare", 7, COLLATIONS["unicode"], b"", 0, *self._numbers, *self._pages, *lent(bytearray()))
        if row[0]:
            raise TableError(*row[:3], f"{edition}: {sentence(*row[:3], len(self))}")

    @classmethod
    @functools.lru_cache(maxsize=None)
    def published(cls):
        """The table that comes with the package; made once and kept."""
        return cls(*unicode_data.read_published())

    @classmethod
    def from_unicode_data(cls, path, whole=False):
        """The table of a UnicodeData.txt, or of lines of it; with `whole`, a file that was cut off at its end is an error."""
        path = pathlib.Path(path)
        return cls(*unicode_data.read(path, whole), f"table {path.name}")

    @classmethod
    def empty(cls):
        """The table with no entries, in which every code point but the Hangul syllables maps to itself."""
        return cls((), (), "empty table")

    def __len__(self):
        return len(self.entries) // unicode_data.ENTRY_WIDTH

    def __bool__(self):
        return True

    def __reduce__(self):
        # What is lent can't be pickled; the numbers can, and are checked anew.
        return type(self), (self.entries, self.pool, self.edition)

    def __repr__(self):
        return f"<mundeziwa.Table: {self.edition}, {len(self)} entries>"

    def key(self, text, collation="unicode"):
        """The key of a text."""
        number, octets = collation_number(collation), octets_of(text)
        buffer = _key_buffer(octets)
        row = answer("mz_prepare_accepted", 7, number, octets, len(octets), *self._numbers, *self._pages, *lent(buffer))
        if row[0]:
            raise Refused(*row[:3], _too_long("the text", row[2]) if row[0] == REFUSED_TEXT_LENGTH else None)
        return bytes(buffer[: row[5]]) if row[6] else octets

    def _compare(self, call, width, first, second, collation):
        """Makes a call on two texts, and gives its answer row."""
        number, first, second = collation_number(collation), octets_of(first), octets_of(second)
        texts, buffers = (first, len(first), second, len(second)), map(_key_buffer, (first, second))
        row = answer(call, width, number, *texts, *self._numbers, *self._pages, *chain.from_iterable(map(lent, buffers)))
        if row[0]:
            raise Refused(*row[:3])
        return row

    def equal(self, a, b, collation="unicode"):
        """Whether two texts are one name."""
        return self._compare("mz_equal_accepted", 4, a, b, collation)[3] == 1

    def order(self, a, b, collation="unicode"):
        """How two texts are ordered: -1 if the first is less, 0 if they are equal, 1 if it is greater."""
        return self._compare("mz_order_accepted", 4, a, b, collation)[3] - 2

    def find(self, needle, text, collation="unicode"):
        """Where the first text stands in the second, or None."""
        row = self._compare("mz_substring_accepted", 8, needle, text, collation)
        if row[3] != 1:
            return None
        characters = _characters(text, *row[6:]) if isinstance(text, str) else (None, None)
        return Hit(*row[4:], *characters)

    def _keys_of(self, names, number, lists):
        """The keys of the names of lists, which are joined already; the lists stand under what names them in an error."""
        try:
            return prepare_many(number, names, self._numbers)
        except Refused as refused:
            if refused.number != REFUSED_TEXT_LENGTH:
                raise
            words = _too_long(_named(refused.detail, lists), len(names[refused.detail]))
            raise Refused(refused.number, refused.place, refused.detail, words) from None

    def keys(self, texts, collation="unicode"):
        """The keys of many texts, by one call."""
        number, lists = collation_number(collation), {"the list": listed(texts, "the list")}
        return self._keys_of(joined(lists), number, lists)

    def shared(self, first, second, collation="unicode"):
        """Which names two lists share, by two calls whatever their lengths."""
        return self.sharing(first, second, collation)()

    def sharing(self, first, second, collation="unicode"):
        """What `shared` does, as a call still to be made: on another thread, say, since it leaves Python's lock to others."""
        number = collation_number(collation)
        lists = {"the first list": listed(first, "the first list"), "the second list": listed(second, "the second list")}
        return functools.partial(self._match, Report, joined(lists), number, lists)

    def duplicates(self, names, collation="unicode"):
        """Which names one list holds more than once."""
        number, lists = collation_number(collation), {"the list": listed(names, "the list"), "no list": []}
        return self._match(Duplicates, joined(lists), number, lists)

    def _match(self, kind, names, number, lists):
        """A report of some kind on the names of two lists, which are joined already."""
        first, second = lists.values()
        keys = self._keys_of(names, number, lists)
        return kind(first, second, names, keys, match_keys(keys, len(first)), self.edition, collation_name(number))
