"""What every part of the command does with its lists: reading, the table, comparing, and the words for it."""

import contextlib
import threading

from .. import Refused, Table
from .columns import InputError
from .reading import read_list
from .text import count

NAME_MOST, REFUSED_LENGTH = 4096, 2
FULL_NAMES = {"unicode": "i;unicode-casemap", "ascii": "i;ascii-casemap", "octet": "i;octet"}


class Beside(threading.Thread):
    """A call that is made in a thread of its own. The library lets other threads run, and an interruption doesn't wait for it."""

    def __init__(self, call, *arguments):
        super().__init__(daemon=True)
        self._call, self._arguments, self._answer, self._error = call, arguments, None, None
        self.start()

    def run(self):
        """Makes the call, and keeps what it answers or raises."""
        try:
            self._answer = self._call(*self._arguments)
        except BaseException as error:  # it is raised again where the answer is asked for
            self._error = error

    def answer(self):
        """What the call answers, once it has; or what it raised."""
        self.join()
        if self._error:
            raise self._error
        return self._answer


def open_table(options):
    """The table that is asked for, else the published one."""
    if options.table is None:
        return Table.published()
    try:
        return Table.from_unicode_data(options.table)
    except OSError as error:
        raise InputError(f"the table {options.table} can't be read: {error.strerror or error}") from None


def read_lists(paths, options, progress):
    """The lists of names of some files."""
    if paths.count("-") > 1:
        raise InputError("standard input can be read once only, and both lists are to be read from it")
    lists = []
    for path in paths:
        progress.stage = f"reading {path}"
        lists.append(read_list(path, options))
    return lists


@contextlib.contextmanager
def names_named(lists):
    """Where the library refuses a name for its length, the only reason that a name can give, says which of these it is."""
    try:
        yield
    except Refused as error:
        for listed in lists if error.number == REFUSED_LENGTH else []:
            _refuse_long(listed)
        raise


def _refuse_long(listed):
    """Stops at a name that is too long."""
    for line, name in zip(listed.lines, listed.names):
        if len(name) > NAME_MOST:
            found = f"{listed.unit} {line} of {listed.label} has a name of {len(name)} octets"
            raise InputError(f"{found}, and at most {NAME_MOST} are taken (refused {REFUSED_LENGTH})")


def rule(options, table):
    """The rule that names are compared by, in words."""
    over = f"over {table.edition}" if options.collation == "unicode" else f"which reads no table ({table.edition} is loaded)"
    return f"{FULL_NAMES[options.collation]} {over}"


def described(listed):
    """A list in the head of a report: its name, how many names it has, and how it was read."""
    left_out = f" ({listed.left_out:,} without a name left out)" if listed.left_out else ""
    return listed.label, f"{count(len(listed), 'name')}{listed.how}{left_out}"
