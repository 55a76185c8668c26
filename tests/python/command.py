"""What the tests of the command have in common: the program as a child process, and folders with lists."""

import json
import os
import pathlib
import subprocess
import sys
import tempfile
import unittest

ROOT = pathlib.Path(__file__).resolve().parents[2]
SAMPLE = ["sample/train.csv", "sample/held.txt", "--column", "name"]
ENVIRONMENT = {**os.environ, "PYTHONPATH": str(ROOT / "bindings" / "python"), "PYTHONIOENCODING": "utf-8"}
PROGRAM = [sys.executable, "-m", "mundeziwa"]


def run(*arguments, given=b"", **environment):
    """The command run to its end, with something on its standard input."""
    settings = {"input": given, "capture_output": True, "cwd": ROOT, "env": {**ENVIRONMENT, **environment}, "timeout": 120}
    return subprocess.run([*PROGRAM, *map(str, arguments)], **settings)


class CommandTest(unittest.TestCase):
    """A test with a folder for lists, which is removed after it."""

    def setUp(self):
        folder = tempfile.TemporaryDirectory()
        self.addCleanup(folder.cleanup)
        self.folder = pathlib.Path(folder.name)

    def file(self, name, octets):
        """A file with these octets; a str is written in UTF-8, a list a name a line."""
        if isinstance(octets, list):
            octets = b"".join(line + b"\n" for line in octets)
        path = self.folder / name
        path.write_bytes(octets.encode() if isinstance(octets, str) else octets)
        return path

    def answer(self, status, *arguments, said="", **settings):
        """What the command prints, once it has ended with that status, and without another word on standard error."""
        ended = run(*arguments, **settings)
        self.assertEqual(ended.stderr.decode(), said)
        self.assertEqual(ended.returncode, status, ended.stdout.decode())
        return ended.stdout.decode()

    def objects(self, status, *arguments, **settings):
        """The objects of the format jsonl: all but the last, and the totals."""
        lines = self.answer(status, *arguments, "--format", "jsonl", **settings).splitlines()
        *objects, totals = map(json.loads, lines)
        self.assertEqual(totals["type"], "totals")
        return objects, totals

    def assert_fails(self, sentence, *arguments, **settings):
        """The command ends with status 2, nothing on standard output, and one sentence."""
        ended = run(*arguments, **settings)
        self.assertEqual((ended.returncode, ended.stdout), (2, b""), ended.stderr.decode())
        self.assertEqual(ended.stderr.decode(), f"mundeziwa: {sentence}\n")
