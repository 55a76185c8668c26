"""`mundeziwa explain`: code point by code point why two names meet, or where they part."""

import os
import unicodedata
from bisect import bisect_right
from itertools import accumulate

from .comparing import open_table, rule
from .layout import Section
from .lookalike import fold
from .output import write_lines
from .survey import break_of
from .text import decoded, is_joined, spelled, visible

MEET, PART = 0, 1


def _hex(octets):
    return octets.hex(" ").upper()


def _characters(name, collation):
    """The parts of a name that are prepared each by itself: characters, or the whole of it where it is compared as octets."""
    if collation == "unicode" and break_of(name) is not None:
        return [name]
    return [char.encode("utf-8", "surrogateescape") for char in decoded(name)]


def _code_points(octets):
    """What a part of a key is: letters as they are, what would be drawn into them and what can't be seen by their code points."""
    seen = [char.isprintable() and not is_joined(char) for char in decoded(octets)]
    return " ".join(char if is_seen else f"U+{ord(char):04X}" for char, is_seen in zip(decoded(octets), seen))


def _step(part, table, collation):
    """A row for one character: itself, its code point and name, what it becomes, and the octets of that."""
    key = table.key(part, collation)
    if break_of(part) is not None:
        return (visible(part), "no UTF-8", "compared as octets", "stays", _hex(key))
    char = part.decode("utf-8")
    name = unicodedata.name(char, "(a character that Python has no name for)")
    return (visible(part), f"U+{ord(char):04X}", name, "stays" if key == part else f"becomes {_code_points(key)}", _hex(key))


def reasons(name, table, collation):
    """How the key of a name comes about, a line for each character."""
    rows = [_step(part, table, collation) for part in _characters(name, collation)]
    return Section(spelled(name), 0, [rows]).lines(None, False)


def _place_of(name, octet, table, collation):
    """In words, what of a name its key has at an octet."""
    key, parts = table.key(name, collation), _characters(name, collation)
    if octet == len(key):
        return "ends there"
    if parts == [name]:
        return f"has {key[octet]:02X} there"
    ends = list(accumulate(len(table.key(part, collation)) for part in parts))
    place = bisect_right(ends, octet)
    return f"has {key[octet]:02X} there, of {visible(parts[place])} (its character {place + 1})"


def _verdict(names, table, collation):
    """Whether two names meet, in a sentence, and a second one if they only look alike."""
    keys = [table.key(name, collation) for name in names]
    if keys[0] == keys[1]:
        return MEET, [f"They meet: both have the key {_hex(keys[0])}"]
    octet = len(os.path.commonprefix(keys))
    places = [_place_of(name, octet, table, collation) for name in names]
    lines = [f"They part at octet {octet} of their keys, counted from 0: the first {places[0]}; the second {places[1]}"]
    folds = fold(names)
    if folds[0] == folds[1]:
        lines.append("To a person they may look alike: Python's NFKC and casefold make them the same. Nothing of that is proved.")
    return PART, lines


def run(options):
    """Explains two names, and gives the exit status."""
    table, names = open_table(options), [os.fsencode(options.first), os.fsencode(options.second)]
    status, verdict = _verdict(names, table, options.collation)
    lines = [f"Two names compared by {rule(options, table)}"]
    for name in names:
        lines += ["", *reasons(name, table, options.collation)]
    write_lines([*lines, "", *verdict])
    return status
