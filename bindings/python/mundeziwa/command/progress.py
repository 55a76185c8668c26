"""What is being done, on standard error: only at a terminal, and only once it has taken more than a second."""

import sys
import threading
import time

SECONDS_BEFORE = 1.0
SECONDS_BETWEEN = 0.2
CLEARED = "\r\x1b[K"


class Progress:
    """Shows `stage` while it is entered, and clears its line when it is left, by an interruption too."""

    def __init__(self, stream=None):
        self.stage = "starting"
        self._stream = stream or sys.stderr
        self._ended = threading.Event()
        self._shown = False
        wanted = self._stream is not None and self._stream.isatty()
        self._thread = threading.Thread(target=self._show, daemon=True) if wanted else None

    def _show(self):
        began = time.monotonic()
        wait = SECONDS_BEFORE
        while not self._ended.wait(wait):
            self._shown, wait = True, SECONDS_BETWEEN
            self._stream.write(f"{CLEARED}mundeziwa: {self.stage} ({time.monotonic() - began:.0f} s)")
            self._stream.flush()

    def __enter__(self):
        if self._thread:
            self._thread.start()
        return self

    def __exit__(self, *_):
        self._ended.set()
        if self._thread:
            self._thread.join()
        if self._shown:
            self._stream.write(CLEARED)
            self._stream.flush()
