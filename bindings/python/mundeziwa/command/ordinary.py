"""Ordinary names: those whose fold (NFKC and casefold) has the key of the name itself.

So two ordinary names that look alike have the same key, and of two that look alike and have not, one is special. Ordinary names
are told by their characters, which takes far less time than to fold them; where that is in doubt, a name is taken for special.
"""

import re
from itertools import chain, compress, count
from operator import eq
from unicodedata import combining, normalize

# Where ordinary characters are looked for: ASCII, Latin, marks, Greek and Cyrillic, more Latin and Greek, dashes and quotes.
BLOCKS = [(0x20, 0x7F), (0xA0, 0x250), (0x300, 0x530), (0x1E00, 0x2000), (0x2010, 0x2020)]
# Han characters and Hangul syllables: no fold changes one of them, so they are ordinary under every rule, whatever their keys.
# Jamo are not: a fold makes syllables of them, which have the same key under i;unicode-casemap alone, and there only where the
# table gives no jamo a titlecase. So a name with jamo is taken for special, also where one ends the syllable before it.
UNCHANGED = "\u4e00-\u9fff\uac00-\ud7a3"

_is_broken = re.compile("[\udc80-\udcff]").search


def _with_own_key(texts, table, collation):
    """Those texts whose folds have the same key."""
    folds = [normalize("NFKC", text).casefold() for text in texts]
    return set(compress(texts, map(eq, table.keys(texts, collation), table.keys(folds, collation))))


class Characters:
    """The ordinary characters of a rule: `letters` (digits and signs too), those of them that end in a mark, and `marks`.

    A name of these is ordinary if no mark follows a mark or a letter that ends in one (so no mark changes its place, and a letter
    is composed with one mark at most), and if no space is at its ends. Its fold is then that of its parts one after another, a
    letter or a letter with a mark each, and so are the keys.
    """

    def __init__(self, table, collation):
        found = map(chr, chain.from_iterable(range(*block) for block in BLOCKS))
        parts = {char: normalize("NFD", char) for char in found}
        own_key = _with_own_key([*parts, *parts.values()], table, collation)
        # What is only compatible with something else (ﬁ, ², a space that is not to be broken) is left out as doubtful.
        sound = [char for char in parts if char in own_key and normalize("NFKD", char) == parts[char]]
        pairs = {text for text in parts.values() if len(text) == 2}
        composing, doubtful = {text[1] for text in pairs}, {text[1] for text in pairs - own_key}
        # A line feed is ordinary within a name; those at its ends are found as spaces are.
        self.letters = {"\n", *(char for char in sound if not combining(parts[char][0]))}
        self.ending_in_mark = {char for char in sound if combining(parts[char][-1])} & self.letters
        self.marks = {char for char in sound if combining(char)} & (composing - doubtful)


def _one_of(chars):
    """The inside of a class of characters for a regular expression: these, and those that are never changed."""
    return "".join(map(re.escape, sorted(chars))) + UNCHANGED


class Special:
    """Tells special names from those that are surely ordinary."""

    def __init__(self, characters):
        letters, marks = characters.letters, characters.marks
        free, every = _one_of(letters - characters.ending_in_mark), _one_of(letters | marks)
        # A character that is not ordinary, or one that ends in a mark before one that is no letter. Most are passed by at once.
        self._found = re.compile(f"[^{free}](?:(?<=[^{every}])|(?=[^{_one_of(letters)}]))").search

    def _is_among(self, names):
        """Whether any of some names is special, or may be; this is quick, and mostly none is."""
        text = b"\n".join([b"", *names, b""]).decode("utf-8", "surrogateescape")
        return " \n" in text or "\n " in text or "\n\n" in text or self._found(text) is not None

    def places(self, names):
        """The indices of the special ones among some names; a broken name is none, and has no fold."""
        texts = [name.decode("utf-8", "surrogateescape") for name in names] if self._is_among(names) else []
        each = zip(count(), texts, map(str.strip, texts), map(self._found, texts))
        return [place for place, text, trimmed, found in each if (found or trimmed != text) and not _is_broken(text)]
