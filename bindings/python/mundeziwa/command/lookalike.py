"""Names of two lists that the rule keeps apart and a person would look at twice. Nothing of this is proved.

Two names look alike where Python's own NFKC and casefold of the trimmed names are equal: ß and SS, ﬁ and fi, marks in another
order, a space at the end.
"""

from functools import partial
from itertools import compress
from operator import methodcaller, ne
from unicodedata import normalize

from ..texts import in_parts
from .ordinary import Characters, Special

_decode = methodcaller("decode", "utf-8", "surrogateescape")


def fold(names):
    """Each name as a person reads it. A broken name keeps its broken octets."""
    folds = []
    for _, part in in_parts(names):
        folds += map(str.casefold, map(partial(normalize, "NFKC"), map(str.strip, map(_decode, part))))
    return folds


class _Side:
    """The valid names of one list that may look like one of the other: their indices, and their folds. At first, special ones."""

    def __init__(self, names, special):
        self.names, self.places = names, []
        for start, part in in_parts(names):
            self.places += [start + place for place in special.places(part)]
        self.folds = fold(self._at(self.places))

    def _at(self, places):
        return [self.names[place] for place in places]

    def add_ordinary(self, wanted):
        """Takes in the ordinary names that look like a special one: those with some folds."""
        if len(self.places) == len(self.names):
            return
        in_ascii, taken = {text.encode() for text in wanted if text.isascii()}, set(self.places)
        for start, part in in_parts(self.names if in_ascii else []):
            # An ordinary name in ASCII looks like itself in small letters.
            found = compress(range(start, start + len(part)), map(in_ascii.__contains__, map(bytes.lower, part)))
            self._add(place for place in found if place not in taken)
        for start, part in in_parts(self.names if len(in_ascii) < len(wanted) else []):
            wide = [place for place, name in enumerate(part, start) if not name.isascii() and place not in taken]
            self._add(compress(wide, map(wanted.__contains__, fold(self._at(wide)))))

    def _add(self, places):
        found = list(places)
        self.places += found
        self.folds += fold(self._at(found))

    def keep(self, wanted):
        """Drops all but the names with some folds."""
        kept = [text in wanted for text in self.folds]
        self.places, self.folds = list(compress(self.places, kept)), list(compress(self.folds, kept))

    def keys(self, table, collation):
        """The keys of its names."""
        return list(table.keys(self._at(self.places), collation))

    def by_fold(self, wanted):
        """The indices of the names with each of some folds, in order."""
        places = {text: [] for text in wanted}
        for place, text in sorted(pair for pair in zip(self.places, self.folds) if pair[1] in wanted):
            places[text].append(place)
        return places


def _parted(folds, keys):
    """The folds of names that the rule gives more than one key."""
    one_key = dict(zip(folds, keys))
    return set(compress(folds, map(ne, map(one_key.__getitem__, folds), keys)))


def find_lookalikes(first, second, table, collation):
    """Pairs of lists of indices: all names of the first list and of the second that look alike, and have not all the same key."""
    special = Special(Characters(table, collation))
    sides = [_Side(first, special), _Side(second, special)]
    # Ordinary names that look alike have the same key, so a special one is among those of two keys.
    wanted = set(sides[0].folds).union(sides[1].folds)
    for side in sides:
        side.add_ordinary(wanted)
    common = set(sides[0].folds).intersection(sides[1].folds)
    for side in sides:
        side.keep(common)
    keys = sides[0].keys(table, collation) + sides[1].keys(table, collation)
    parted = _parted(sides[0].folds + sides[1].folds, keys)
    groups = [side.by_fold(parted) for side in sides]
    # Both lists have a name of each, and the names have two keys or more: so some name of one parts from some name of the other.
    return sorted((groups[0][text], groups[1][text]) for text in parted)
