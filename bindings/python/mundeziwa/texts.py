"""Texts and lists of texts, as the library takes them: octets."""

import codecs
from array import array
from collections.abc import Iterable
from itertools import accumulate

from .pieces import Pieces

_TEXT_TYPES = (str, bytes, bytearray, memoryview)
# Values by which pandas says that one is missing; the fourth is a float that is not a number.
_MISSING = ("NoneType", "NAType", "NaTType")
COLLATIONS = {"octet": 1, "ascii": 2, "unicode": 3}
PART_MOST = 4096


def collation_number(collation):
    """The library's number of a collation, which is told by name or by number."""
    number = COLLATIONS.get(collation) if isinstance(collation, str) else collation
    if isinstance(number, bool) or number not in COLLATIONS.values():
        raise ValueError(f"the collation is {collation!r}, and must be 'unicode', 'ascii' or 'octet' (or 3, 2, 1)")
    return int(number)


def collation_name(number):
    """The name of a collation's number."""
    return next(name for name, known in COLLATIONS.items() if known == number)


def _escaped(error):
    """Octets for what UTF-8 has none for: an escaped octet is itself again, any other lone surrogate its three octets."""
    run = error.object[error.start : error.end]
    octets = [bytes([ord(c) - 0xDC00]) if "\udc80" <= c <= "\udcff" else c.encode("utf-8", "surrogatepass") for c in run]
    return b"".join(octets), error.end


codecs.register_error("mundeziwa.escaped", _escaped)


def octets_of(text):
    """The octets of a text."""
    if isinstance(text, str):
        return text.encode("utf-8", "mundeziwa.escaped")
    if isinstance(text, _TEXT_TYPES):
        return bytes(text)
    raise TypeError(f"a text is a str, bytes, bytearray or memoryview, not {type(text).__name__}")


def listed(texts, what):
    """The texts of an iterable as a list; `what` names it in errors."""
    if isinstance(texts, _TEXT_TYPES):
        raise TypeError(f"{what} is a single {type(texts).__name__}, and must be a list of texts")
    # A table of two dimensions iterates over the names of its columns, which nobody means.
    if getattr(texts, "ndim", 1) != 1:
        raise TypeError(f"{what} is a {type(texts).__name__} of {texts.ndim} dimensions, and must be one column of it")
    if not isinstance(texts, Iterable):
        raise TypeError(f"{what} is of type {type(texts).__name__}, and must be a list of texts")
    return list(texts)


def in_parts(names):
    """The names of a list in parts, each after the index of its first name.

    One long step of Python over all names would keep another thread, which has called the library, waiting for Python's lock.
    """
    for start in range(0, len(names), PART_MOST):
        yield start, names[start : start + PART_MOST]


def _one_of(name, number, what):
    """The octets of one text of a list; `number` counts from 1."""
    if isinstance(name, _TEXT_TYPES):
        return octets_of(name)
    if type(name).__name__ in _MISSING or (isinstance(name, float) and name != name):
        raise TypeError(f"name {number} of {what} is missing ({name}): leave missing names out first")
    raise TypeError(f"name {number} of {what} is of type {type(name).__name__}, and must be a str or bytes")


def _octets_and_lengths(names, start, what):
    """The octets of texts of a list one after another, and how many each text has; the first of them has the index `start`."""
    kinds = set(map(type, names))
    if kinds == {str}:
        whole = "".join(names)
        try:
            return whole.encode(), map(len, names if whole.isascii() else map(str.encode, names))
        except UnicodeEncodeError:
            pass  # a lone surrogate is among them: take the slower way
    pieces = names if kinds == {bytes} else [_one_of(name, number, what) for number, name in enumerate(names, start + 1)]
    return b"".join(pieces), map(len, pieces)


def joined(lists):
    """The texts of lists one after another; the lists stand under what names them in an error."""
    octets, lengths = [], []
    for what, names in lists.items():
        # In parts, since names that were just looked at are still at hand for the next look.
        for start, part in in_parts(names):
            part_octets, part_lengths = _octets_and_lengths(part, start, what)
            octets.append(part_octets)
            lengths += part_lengths
    return Pieces(b"".join(octets), array("Q", accumulate(lengths)))


def stand_in(first, second):
    """For each name of the first list 1 if the second has it octet by octet, else 0; names are octets."""
    known = set()
    for _, part in in_parts(second):
        known.update(part)
    return b"".join(bytes(map(known.__contains__, part)) for _, part in in_parts(first))
