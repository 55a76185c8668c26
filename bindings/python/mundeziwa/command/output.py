"""Writing: whole lines, also where it is interrupted or nobody reads on."""

import os
import signal
import sys
from itertools import islice

LINES_AT_ONCE = 1000


class _Deferred:
    """Keeps an interruption (Ctrl-C) back while it is entered, so that none comes in the middle of a line."""

    def __init__(self):
        self.asked = False

    def _note(self, *_):
        self.asked = True

    def __enter__(self):
        self._before = signal.getsignal(signal.SIGINT)
        # Where interruptions are ignored, as in the background of a shell, they stay so.
        if self._before is not signal.SIG_IGN:
            signal.signal(signal.SIGINT, self._note)
        return self

    def __exit__(self, *_):
        signal.signal(signal.SIGINT, self._before)


def set_encoding():
    """UTF-8 for all that is no terminal, whatever the locale says; and no character that can't be written stops the command."""
    for stream in filter(None, (sys.stdout, sys.stderr)):
        encoding = stream.encoding if stream.isatty() else "utf-8"
        stream.reconfigure(encoding=encoding, errors="backslashreplace")


def _flush():
    """Writes what is still kept. A closed pipe is no error: who closed it has read enough."""
    try:
        sys.stdout.flush()
    except OSError as error:
        # Python would try once more when it ends, and complain.
        os.dup2(os.open(os.devnull, os.O_WRONLY), sys.stdout.fileno())
        if not isinstance(error, BrokenPipeError):
            raise


def end_output():
    """Writes what is still kept on standard output, if there is such a thing."""
    if sys.stdout is not None:
        _flush()


def _write(text):
    """Writes a text whole: where Python was told not to buffer, a signal may end a write before that."""
    octets = memoryview(text.encode(sys.stdout.encoding, sys.stdout.errors))
    while octets:
        octets = octets[sys.stdout.buffer.write(octets) :]


def write_lines(lines):
    """Writes lines to standard output; an interruption ends that after a whole line, and a closed pipe without a word."""
    if sys.stdout is None:
        return  # it was closed before the command began: then the exit status is all that is asked for
    lines = iter(lines)
    with _Deferred() as interruption:
        try:
            while not interruption.asked and (chunk := list(islice(lines, LINES_AT_ONCE))):
                _write("\n".join(chunk) + "\n")
        except BrokenPipeError:
            pass
        _flush()
    if interruption.asked:
        raise KeyboardInterrupt


def complain(words):
    """Says something on standard error, if there is something to say."""
    if words and sys.stderr is not None:
        print(f"mundeziwa: {words}", file=sys.stderr)


def end_line():
    """Ends the line in which a terminal shows ^C."""
    if sys.stderr is not None and sys.stderr.isatty():
        print(file=sys.stderr)
