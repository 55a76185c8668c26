"""The command line: its parts, their options and their help."""

import argparse

from .. import Table, __version__
from . import duplicates, explain, keys, shared

DESCRIPTION = "Says which names are one under every spelling, by RFC 4790 and RFC 5051."
EXAMPLES = """examples:
  mundeziwa shared train.csv held.csv --column name && fit
        fits only if no name of the second list is in the first in any spelling
  mundeziwa shared train.csv held.txt --column name --format jsonl > met.jsonl
  cut -f 2 storms.tsv | mundeziwa duplicates -
  mundeziwa keys names.txt | sort > names.keys
  mundeziwa explain José JOSÉ
"""
STATUS = """exit status:
  shared      0 nothing is shared, 1 something is; 2 an error, or nothing is
              shared and a name is broken (but see --allow-invalid)
  duplicates  0 no name is held more than once, 1 some are; 2 as above
  keys        0; 2 an error
  explain     0 the names meet, 1 they part; 2 an error
"""
INPUT = """input:
  A name a line, ended by LF or CRLF; empty lines are no names, but are counted
  as lines. With --column a file is CSV or TSV with a header line, read as
  Python's csv module does: TSV if its name ends in .tsv, or its first line has
  a tab and no comma. A .txt file whose first line is a single field stays a
  name a line. A byte order mark at the start is dropped. Octets that are no
  UTF-8 never stop it: such a name is broken, shown with its octets escaped
  (\\xC3), and equal to the same octets alone.
"""
FORMATS = """formats:
  text   for people; no more than a screenful without --all (the terminal's
         height, at least 24 lines; 40 lines where it is no terminal)
  tsv    a header, and a line for each name of a group: group, list (1 or 2),
         line, name, octets, key (the last two in hex)
  jsonl  a JSON object a line, with a type: {types};
         and last totals
  Neither tsv nor jsonl is ever cut. With --records the number of a record
  stands for the line.
"""


class _Version(argparse.Action):
    """Prints the version and the edition; the table is loaded only then."""

    def __call__(self, parser, namespace, values, option_string=None):
        print(f"mundeziwa {__version__}, {Table.published().edition}")
        parser.exit()


def _delimiter(text):
    """A delimiter of one character; \\t is a tab."""
    text = "\t" if text == "\\t" else text
    if len(text) != 1 or text in '"\r\n':
        raise argparse.ArgumentTypeError("a delimiter is one character, and no quote or line end")
    return text


def _add_part(parts, name, run, words, epilog):
    """A part of the command."""
    layout, sentence = argparse.RawDescriptionHelpFormatter, f"{words[0].upper()}{words[1:]}."
    part = parts.add_parser(name, help=words, description=sentence, epilog=epilog, formatter_class=layout)
    part.set_defaults(run=run)
    return part


def _add_rule(part):
    """The options on how names are compared."""
    rules = "the rule: i;unicode-casemap (unless another is named), i;ascii-casemap or i;octet"
    part.add_argument("--collation", choices=["unicode", "ascii", "octet"], default="unicode", help=rules)
    part.add_argument("--table", metavar="FILE", help="a UnicodeData.txt to be used in place of the published one")


def _add_reading(part):
    """The options on how lists are read, compared and shown."""
    form = part.add_mutually_exclusive_group()
    form.add_argument("--column", metavar="NAME|N", help="the column of a CSV or TSV file: its name in the header, or its number")
    form.add_argument("--records", action="store_true", help="the files hold records of texts, as mz_write_text leaves them")
    part.add_argument("--delimiter", type=_delimiter, metavar="CHAR", help="what parts columns, where it is no comma or tab")
    part.add_argument("--no-header", action="store_true", help="a CSV or TSV file begins with a row; --column is a number")
    _add_rule(part)
    part.add_argument("--format", choices=list(shared.FORMATS), default="text", help="how the answer is written (text)")


def _add_report(part):
    """The options on reports."""
    part.add_argument("--all", action="store_true", help="show all in the text format, not a screenful")
    part.add_argument("--allow-invalid", action="store_true", help="a broken name alone doesn't make the exit status 2")


def _add_shared(parts):
    """`mundeziwa shared`."""
    formats = FORMATS.format(types="shared, repeated, broken, lookalike")
    epilog = "\n".join([INPUT, formats, EXAMPLES, STATUS])
    part = _add_part(parts, "shared", shared.run, "which names two lists share", epilog)
    part.add_argument("first", metavar="TRAIN", help="the first list: a file, or - for standard input")
    part.add_argument("second", metavar="HELD", help="the second list")
    _add_reading(part)
    _add_report(part)
    part.add_argument("--explain", action="store_true", help="show under each shared name why its spellings meet (text)")
    part.add_argument("--strict", action="store_true", help='let names under "Also look at" count for the exit status')


def _add_single(parts):
    """`mundeziwa duplicates` and `mundeziwa keys`."""
    epilog = "\n".join([INPUT, FORMATS.format(types="repeated, broken"), STATUS])
    part = _add_part(parts, "duplicates", duplicates.run, "names that a single list holds more than once", epilog)
    part.add_argument("list", metavar="LIST", help="the list: a file, or - for standard input")
    _add_reading(part)
    _add_report(part)
    part = _add_part(parts, "keys", keys.run, "the key of each name in hex, for sort, join, a database", INPUT)
    part.add_argument("list", metavar="LIST", help="the list: a file, or - for standard input")
    _add_reading(part)


def _add_explain(parts):
    """`mundeziwa explain`."""
    part = _add_part(parts, "explain", explain.run, "code point by code point why two names meet, or where they part", STATUS)
    part.add_argument("first", metavar="NAME", help="a name")
    part.add_argument("second", metavar="NAME", help="another name")
    _add_rule(part)


def make_parser():
    """The parser of the command line."""
    layout, epilog = argparse.RawDescriptionHelpFormatter, f"{EXAMPLES}\n{STATUS}"
    parser = argparse.ArgumentParser("mundeziwa", description=DESCRIPTION, epilog=epilog, formatter_class=layout)
    parser.add_argument("--version", action=_Version, nargs=0, help="print the version and the edition of Unicode")
    parts = parser.add_subparsers(title="parts", metavar="PART")
    _add_shared(parts)
    _add_single(parts)
    _add_explain(parts)
    return parser


def check(parser, options):
    """Stops at options that don't go together."""
    if getattr(options, "explain", False) and options.format != "text":
        parser.error("--explain is for the text format")
    if getattr(options, "no_header", False) and not (options.column or "").isdecimal():
        parser.error("--no-header needs a --column that is a number")
