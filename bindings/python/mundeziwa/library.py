"""The shared object: where it is looked for, its calls, and how memory is lent to them."""

import ctypes
import functools
import os
import pathlib
from ctypes import c_char_p, c_size_t, c_uint32, c_uint64, c_void_p

from .errors import LibraryError

# The interface that this package is written for: MZ_INTERFACE of include/mundeziwa.h.
INTERFACE = 2
FILE_NAME = f"libmundeziwa.so.{INTERFACE}"
ENVIRONMENT = "MUNDEZIWA_LIBRARY"

# What each call takes: octets that are read (bytes), slices that are lent (see `lent`), lengths and numbers.
_OCTETS, _LENT = [c_char_p, c_size_t], [c_void_p, c_size_t]
# Entries and pool, and the two slices of their pages.
_TABLE = _LENT + _LENT + _LENT + _LENT
_ONE_TEXT = [c_uint32] + _OCTETS + _TABLE + _LENT + [c_void_p]
_TWO_TEXTS = [c_uint32] + _OCTETS + _OCTETS + _TABLE + _LENT + _LENT + [c_void_p]
_CALLS = {
    "mz_add_line": [c_uint64] * 3 + _OCTETS + _LENT + _LENT + [c_void_p],
    "mz_prepare": _ONE_TEXT,
    "mz_prepare_accepted": _ONE_TEXT,
    "mz_equal_accepted": _TWO_TEXTS,
    "mz_order_accepted": _TWO_TEXTS,
    "mz_substring_accepted": _TWO_TEXTS,
    "mz_read_record": _OCTETS + [c_uint64, c_void_p],
    "mz_prepare_many": [c_uint32] + _OCTETS + _LENT + _TABLE + _LENT + _LENT + _LENT + [c_void_p],
    "mz_match_keys": _OCTETS + _LENT + [c_size_t] + _LENT + _LENT + _LENT + [c_void_p],
}

# An empty slice still needs a pointer that is aligned and not NULL.
_NOWHERE = c_uint64()


def lent(buffer):
    """A slice for C: where a writable buffer begins, held there while the result lives, and its number of elements."""
    start = ctypes.c_char.from_buffer(buffer) if len(buffer) else _NOWHERE
    return ctypes.byref(start), len(buffer)


def places():
    """Where the shared object may be, in the order in which it is looked for."""
    named = os.environ.get(ENVIRONMENT)
    if named:
        return [pathlib.Path(named).absolute()]
    package = pathlib.Path(__file__).resolve().parent
    # bindings/python/mundeziwa in a checkout, whose `make lib` leaves the library in build/lib
    return [package / "lib" / FILE_NAME, package.parents[2] / "build" / "lib" / FILE_NAME]


def _found():
    """The path of the shared object."""
    for place in places():
        if place.is_file():
            return place
    looked = " and ".join(map(str, places()))
    raise LibraryError(f"the library is not there (looked for {looked}): run make lib in the checkout, or install the wheel")


def load(path):
    """The shared object at a path, its interface compared and its calls declared."""
    try:
        library = ctypes.CDLL(str(path))
        interface = library.mz_interface
    except (OSError, AttributeError) as error:
        raise LibraryError(f"{path} can't be loaded as the library: {error}") from error
    interface.argtypes, interface.restype = [], c_uint32
    if interface() != INTERFACE:
        raise LibraryError(f"{path} has interface {interface()}, and this package is written for interface {INTERFACE}")
    for name, parameters in _CALLS.items():
        call = getattr(library, name, None)
        if call is None:
            raise LibraryError(f"{path} has no call {name}: it was built from an earlier state, so run make lib again")
        call.argtypes, call.restype = parameters, None
    return library


@functools.lru_cache(maxsize=None)
def library():
    """The shared object, loaded at its first use."""
    return load(_found())


def answer(name, width, *arguments):
    """Makes a call, and gives its answer row as a list of numbers."""
    row = (c_uint64 * width)()
    getattr(library(), name)(*arguments, row)
    return list(row)
