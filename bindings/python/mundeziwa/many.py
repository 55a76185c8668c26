"""The two calls on many names: their keys, and which of these are equal."""

from array import array
from typing import NamedTuple

from .errors import Refused
from .library import answer, lent
from .pages import Room
from .pieces import Keys

# The most octets of a key for each octet of its text: MZ_KEY_PER_OCTET_MOST.
KEY_PER_OCTET_MOST = 128
# The longest store that is lent before it is known how long the keys are.
STORE_MOST_AT_FIRST = 16 << 20
# The first octets of nearly all Hangul syllables, and of hardly anything else. A syllable has 3 octets, and its key 6 or 9.
SYLLABLE_LEADS = (b"\xeb", b"\xec", b"\xed")
REFUSED_ROOM = 8

_ROOM = Room()


class Matches(NamedTuple):
    """What the library says of the keys of two lists; include/mundeziwa.h says what each of these is."""

    equal_pairs: int
    with_partner: int
    row: array
    repeats: array
    partners: array


def _zeros(code, count):
    """An array of so many zeros."""
    return array(code, [0]) * count


def _store_at_first(octets):
    """How long a store is lent first, for the octets of all texts."""
    most = KEY_PER_OCTET_MOST * len(octets)
    # Keys are seldom twice as long as their texts, but for those of Korean names. Where they are longer, the call says how long.
    times = 3 if any(map(octets.__contains__, SYLLABLE_LEADS)) else 2
    return most if most <= STORE_MOST_AT_FIRST else times * len(octets)


def prepare_many(collation, texts, table):
    """The keys of texts over the entries and the pool that are lent of a table, which the call checks."""
    key_ends, valid = _zeros("Q", len(texts)), bytearray(len(texts))
    slices = (texts.octets, len(texts.octets), *lent(texts.ends), *table, *_ROOM.slices)
    store = bytearray(_store_at_first(texts.octets))
    row = answer("mz_prepare_many", 4, collation, *slices, *lent(store), *lent(key_ends), *lent(valid))
    if row[0] == REFUSED_ROOM:
        # The other slices are long enough, so it is the store, and the detail is the length of all keys together.
        store = bytearray(row[2])
        row = answer("mz_prepare_many", 4, collation, *slices, *lent(store), *lent(key_ends), *lent(valid))
    if row[0]:
        raise Refused(*row[:3])
    return Keys(bytes(memoryview(store)[: row[3]]), key_ends, bytes(valid))


def match_keys(keys, first_names):
    """Which keys are equal; the first so many of them are the first list's."""
    row, repeats, partners = _zeros("I", len(keys)), _zeros("I", len(keys)), _zeros("I", first_names)
    slices = (keys.octets, len(keys.octets), *lent(keys.ends), first_names, *lent(row), *lent(repeats), *lent(partners))
    numbers = answer("mz_match_keys", 5, *slices)
    if numbers[0]:
        raise Refused(*numbers[:3])
    return Matches(*numbers[3:], row, repeats, partners)
