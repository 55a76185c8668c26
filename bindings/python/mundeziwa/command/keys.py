"""`mundeziwa keys`: the key of each name in hex, for sort, join, or a database."""

from .comparing import Beside, names_named, open_table, read_lists
from .formats import as_json, named
from .output import write_lines
from .progress import Progress
from .text import one_line


def _text(listed, keys):
    """The key, a tab and the name."""
    return (f"{key.hex()}\t{one_line(name)}" for key, name in zip(keys, listed.names))


def _tsv(listed, keys):
    """The same with a header, the line and the octets."""
    yield "key\tline\tname\toctets"
    for key, line, name in zip(keys, listed.lines, listed.names):
        yield f"{key.hex()}\t{line}\t{one_line(name)}\t{name.hex()}"


def _jsonl(listed, keys):
    """An object for each name."""
    return (as_json({"type": "key", "key": key.hex(), **named(listed, index)}) for index, key in enumerate(keys))


FORMATS = {"text": _text, "tsv": _tsv, "jsonl": _jsonl}


def run(options):
    """Writes the keys of a list, in its order."""
    with Progress() as progress:
        [listed] = read_lists([options.list], options, progress)
        progress.stage = f"preparing {len(listed):,} names"
        with names_named([listed]):
            keys = Beside(open_table(options).keys, listed.names, options.collation).answer()
    write_lines(FORMATS[options.format](listed, keys))
    return 0
