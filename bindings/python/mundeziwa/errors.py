"""What can go wrong, as exceptions with a sentence each."""

_CODE_POINT = "is no code point of 4 to 6 digits 0-9 and A-F, at most 10FFFF, with no zero in front beyond four digits"
_TEXTS = {0: "a text", 1: "the first text", 2: "the second text"}
_LISTS = {0: "a list", 1: "the first list", 2: "the second list"}

# A sentence for each number of include/mundeziwa.h; the calls on many texts have more to say, and say it themselves.
_SENTENCES = {
    1: "the collation is not 1, 2 or 3",
    2: "{text} has {detail} octets, and at most 4096 are taken",
    3: "the entries are not four numbers each, or over 16384, or the pool has over 65536 numbers",
    4: "entry {detail} has a code point or titlecase that is no Unicode scalar value, is for a Hangul syllable (these map by "
    "rule), or is not above the one before",
    5: "entry {detail} has a count over 32, a wrong start or parts past the pool, or says nothing",
    6: "pool number {detail} is no Unicode scalar value: a surrogate, or above 10FFFF",
    7: "entry {detail} does not unfold within 8 levels into at most 32 code points",
    8: "a buffer is too short, and {detail} is the length that it needs",
    9: "the line has no tab",
    11: "fewer octets are left than the record's length takes or says, or that length is below 2",
    12: "the record's kind is not one that is taken here",
    13: "a text or a text's length is over 4096, a key's body is too short, or its collation, flag or lengths are none that a "
    "record has",
    14: "{list} has more names than are taken",
    15: "a page slice has under 17408 numbers",
    20: "the line has over 512 octets",
    21: "the line has not exactly 14 semicolons",
    22: f"field 0 {_CODE_POINT} (a byte order mark at the file's start is part of it)",
    23: "field 5 is neither empty nor a decomposition of 1 to 32 code points",
    24: f"field 14 is not empty and {_CODE_POINT} (a carriage return before the line feed is part of it)",
    25: "a line with a mapping is for a Hangul syllable (these map by rule), or has a surrogate in field 0, 5 or 14, or in 12 "
    "where 14 is empty",
    26: "the code point is not above that of the line before",
    27: "the table has no room for the entry or its parts",
    28: "no line can have left this state",
    29: f"field 12 is not empty and {_CODE_POINT}",
    36: "the end of text {number} is below the one before it, or past the octets",
    37: "the first list is said to have more names than the {detail} keys there are",
}
# Those of a table in which no entry is at fault; the detail is then the number of entries.
_NO_ENTRY_AT_FAULT = {
    5: "the pool is longer than the counts of all entries together",
    7: "a Hangul syllable whose jamo decompose does not unfold within 8 levels into at most 32 code points",
}


def sentence(number, place=0, detail=0, entries=None):
    """What a refusal says, without its number; of a table, `entries` is how many it has."""
    if detail == entries and number in _NO_ENTRY_AT_FAULT:
        return _NO_ENTRY_AT_FAULT[number]
    words = _SENTENCES.get(number, "this package has no words for the reason; place {place}, detail {detail}")
    return words.format(text=_TEXTS.get(place), list=_LISTS.get(place), place=place, detail=detail, number=detail + 1)


class Error(Exception):
    """The base of all errors of this package."""


class LibraryError(Error):
    """The shared object was not found, or has another interface."""


class Refused(Error):
    """The library refused a call: `number` says why, `place` and `detail` where (as include/mundeziwa.h has them)."""

    def __init__(self, number, place=0, detail=0, words=None):
        # The base class keeps these to make the exception anew, as a pool of processes does.
        super().__init__(number, place, detail, words)
        self.number, self.place, self.detail = number, place, detail
        self._words = words or sentence(number, place, detail)

    def __str__(self):
        return f"{self._words} (refused {self.number})"


class TableError(Refused):
    """A table was refused: `line` is the number of the line at fault, from 1, or None where it is not one line."""

    def __init__(self, number, place=0, detail=0, words=None, line=None):
        super().__init__(number, place, detail, words)
        self.line = line
