#!/usr/bin/env python3
"""`mundeziwa shared` beside a script with NFKC(s).casefold() and sets, both whole programs that read two files of names.

Prints for each size the median time and the peak memory of both, and the ratios. The names are made from a seed: storm names of
a few syllables, one syllable in sixteen with an accent; the lists share a third of them, and write those in capitals, with a
capital, or decomposed as it comes. Needs `make lib`.

Usage: report.py [SIZE..] (1,000, 100,000 and 1,000,000 names a list)
"""
import os
import pathlib
import random
import statistics
import subprocess
import sys
import tempfile
import time
import unicodedata

ROOT = pathlib.Path(__file__).resolve().parent.parent
SIZES, ROUNDS, SEED = [1_000, 100_000, 1_000_000], 3, 18
SYLLABLES = "ba be bo da do el fa ga go hu ir is jo ka ke la le lo ma mi na ne no ol or pa ra re ri ro sa ta to vi wa".split()
ACCENTED = "sé né ñi öl ël ça ø".split()

PEER = """
import sys
from unicodedata import normalize
def keys(path):
    with open(path, encoding="utf-8", errors="surrogateescape") as file:
        return {normalize("NFKC", line.rstrip("\\n")).casefold() for line in file}
print(len(keys(sys.argv[1]) & keys(sys.argv[2])))
"""


def make_name(random):
    """A name of three to six syllables."""
    return "".join(random.choices(SYLLABLES * 3 + ACCENTED, k=random.randint(3, 6)))


def spell(random, name):
    """A name as one archive or another would write it."""
    name = random.choice([str.upper, str.title, str.title, str.lower])(name)
    return unicodedata.normalize(random.choice(["NFC", "NFC", "NFC", "NFD"]), name)


def write_lists(folder, size):
    """Two files with that many names each, a third of them in both."""
    rng = random.Random(SEED)
    shared = [make_name(rng) for _ in range(size // 3)]
    paths = [folder / "first.txt", folder / "second.txt"]
    for path in paths:
        names = shared + [make_name(rng) for _ in range(size - len(shared))]
        rng.shuffle(names)
        path.write_text("".join(f"{spell(rng, name)}\n" for name in names), encoding="utf-8")
    return paths


def run(arguments):
    """Seconds and peak memory in MiB of a program; what it prints is thrown away."""
    environment = {**os.environ, "PYTHONPATH": str(ROOT / "bindings" / "python")}
    began = time.perf_counter()
    child = subprocess.Popen([sys.executable, *map(str, arguments)], stdout=subprocess.DEVNULL, env=environment)
    _, status, usage = os.wait4(child.pid, 0)
    seconds = time.perf_counter() - began
    if os.waitstatus_to_exitcode(status) not in (0, 1):
        sys.exit(f"{arguments} ended with status {os.waitstatus_to_exitcode(status)}")
    return seconds, usage.ru_maxrss / 1024


def measure(arguments):
    """The median seconds and the peak memory of some runs."""
    runs = [run(arguments) for _ in range(ROUNDS)]
    return statistics.median(seconds for seconds, _ in runs), max(memory for _, memory in runs)


def main(sizes):
    """Measures every size."""
    print(f"{'names a list':>12} {'mundeziwa':>20} {'NFKC, casefold, sets':>22} {'time':>6} {'memory':>7}")
    with tempfile.TemporaryDirectory() as folder:
        for size in sizes:
            paths = write_lists(pathlib.Path(folder), size)
            ours, peer = measure(["-m", "mundeziwa", "shared", *paths]), measure(["-c", PEER, *paths])
            cells = [f"{seconds:8.2f} s {memory:5.0f} MiB" for seconds, memory in (ours, peer)]
            print(f"{size:12,} {cells[0]:>20} {cells[1]:>22} {ours[0] / peer[0]:6.2f} {ours[1] / peer[1]:7.2f}")


if __name__ == "__main__":
    main([int(size.replace(",", "")) for size in sys.argv[1:]] or SIZES)
