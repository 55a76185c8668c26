"""Pages, by which the library finds a table's entries: include/mundeziwa.h says what stands in them.

A table has pages of its own, filled when it is made and only read since. A call on many texts checks the table and fills pages
each time: these are its thread's, since Python's lock is free during the call, and another thread may be reading the table's.
"""

import threading
from array import array

from .library import lent

# The numbers of either slice, MZ_PAGES.
PAGES = 17408


def lend_pages():
    """New pages, which a call can fill."""
    return (*lent(array("Q", [0]) * PAGES), *lent(array("Q", [0]) * PAGES))


class Room(threading.local):
    """Pages for calls that leave them behind; every thread sees `slices` of its own."""

    def __init__(self):
        self.slices = lend_pages()
