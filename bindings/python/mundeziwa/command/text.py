"""How names look at a terminal: escapes, widths and colours."""

import os
import unicodedata

# The vowels and final consonants of Korean, which are drawn into the syllable that the letter before them begins.
_JOINED_JAMO = range(0x1160, 0x1200)
_COLOURS = {"bold": 1, "dim": 2, "red": 31, "green": 32, "yellow": 33}


def decoded(name):
    """A name as a str; octets that are no UTF-8 become lone surrogates, and come back by the same error handler."""
    return name.decode("utf-8", "surrogateescape")


def _escaped(char):
    """A character in ASCII: \\xC3 for a broken octet or a control character, \\u0301 or \\U0001F300 for any other."""
    code = ord(char)
    if 0xDC80 <= code <= 0xDCFF:
        return f"\\x{code - 0xDC00:02X}"
    if code < 0x80:
        return f"\\x{code:02X}"
    return f"\\u{code:04X}" if code <= 0xFFFF else f"\\U{code:08X}"


def _printed(char):
    """A character as it can be shown on one line: itself, or escaped."""
    if char == "\\":
        return "\\\\"
    return char if char.isprintable() else _escaped(char)


def one_line(name):
    """A name on one line for programs: broken octets, a backslash and what can't be printed are escaped."""
    text = decoded(name)
    if text.isprintable() and "\\" not in text:
        return text
    return "".join(map(_printed, text))


def visible(name):
    """A name for people: as `one_line`, and spaces at its ends are escaped too, since nobody would see them."""
    shown = one_line(name)
    inner = shown.strip(" ")
    before = len(shown) - len(shown.lstrip(" "))
    return "\\x20" * before + inner + "\\x20" * (len(shown) - before - len(inner))


def is_joined(char):
    """Whether a character is drawn into the one before it: a mark, or a vowel or final consonant of Korean."""
    return unicodedata.category(char)[0] == "M" or ord(char) in _JOINED_JAMO


def spelled(name):
    """A name for people, with what is joined in it written out where it isn't composed: it would look like the composed one."""
    text = decoded(name)
    if unicodedata.is_normalized("NFC", text):
        return visible(name)
    parts = "".join(_escaped(char) if is_joined(char) else _printed(char) for char in text)
    return f"{visible(name)} ({parts})"


def _char_width(char):
    """How many columns of a terminal a character takes."""
    if unicodedata.category(char) in ("Mn", "Me", "Cf") or ord(char) in _JOINED_JAMO:
        return 0
    return 2 if unicodedata.east_asian_width(char) in "WF" else 1


def width(text):
    """How many columns of a terminal a text takes."""
    return len(text) if text.isascii() else sum(map(_char_width, text))


def pad(text, columns):
    """A text with spaces after it, so that it takes that many columns."""
    return text + " " * (columns - width(text))


def clip(text, columns):
    """A text that takes at most that many columns; where something was cut off it ends with an ellipsis."""
    if width(text) <= columns:
        return text
    kept, used = [], 1
    for char in text:
        used += _char_width(char)
        if used > columns:
            break
        kept.append(char)
    return "".join(kept) + "…"


def colours_wanted(stream):
    """Whether a stream gets colours: a terminal, unless NO_COLOR is set (https://no-color.org) or it can't show any."""
    return stream is not None and stream.isatty() and not os.environ.get("NO_COLOR") and os.environ.get("TERM") != "dumb"


def paint(text, colour, wanted):
    """A text in a colour, where colours are wanted."""
    return f"\x1b[{_COLOURS[colour]}m{text}\x1b[0m" if wanted and text else text


def count(number, one, many=None):
    """A number with its noun: 1 name, 2 names."""
    return f"{number:,} {one if number == 1 else many or one + 's'}"
