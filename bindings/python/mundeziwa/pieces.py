"""Many strings of octets that stand one after another, as the library takes and leaves them."""

from collections.abc import Sequence
from itertools import chain


class Pieces(Sequence):
    """A sequence of bytes: `octets` has them all one after another, and `ends` where each of them ends."""

    def __init__(self, octets, ends):
        self.octets, self.ends = octets, ends

    def __len__(self):
        return len(self.ends)

    def __getitem__(self, index):
        if isinstance(index, slice):
            return [self[place] for place in range(len(self))[index]]
        place = range(len(self))[index]
        return self.octets[self.ends[place - 1] if place else 0 : self.ends[place]]

    def __iter__(self):
        return map(self.octets.__getitem__, map(slice, chain((0,), self.ends), self.ends))

    def __repr__(self):
        return f"<mundeziwa.{type(self).__name__}: {len(self)} with {len(self.octets)} octets>"


class Keys(Pieces):
    """The keys of many texts, a sequence of bytes; `valid` has 1 for each text that is valid under its collation, else 0."""

    def __init__(self, octets, ends, valid):
        super().__init__(octets, ends)
        self.valid = valid
