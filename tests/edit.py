"""Makes the changes of an edit file in a folder.

Usage: edit.py EDIT FOLDER. The form is that of crates/*/must-fail/*.edit: a comment that says what is broken, `file:` and a path in the
folder, and pairs of `old:` and `new:`. Several `old:` lines in a row are one text of several lines, and so are several `new:` lines.
An old text must be found exactly once: an edit that no longer fits the code changes nothing and is a failure.
"""

import pathlib
import sys


def read(path):
    """The changes of an edit file: path, old text, new text."""
    changes = []
    file, before = None, None
    for line in path.read_text(encoding="utf-8").splitlines():
        kind, _, text = line.partition(": ")
        if kind == "file":
            file = text
        elif kind == "old" and before == "old":
            changes[-1][1].append(text)
        elif kind == "old":
            changes.append((file, [text], []))
        elif kind == "new" and before in ("old", "new"):
            changes[-1][2].append(text)
        elif not line.startswith("#"):
            sys.exit(f"{path}: this line says nothing: {line}")
        before = kind
    if not changes or not all(file and new for file, _, new in changes):
        sys.exit(f"{path}: a change has no file, no old or no new text")
    return [(file, "\n".join(old), "\n".join(new)) for file, old, new in changes]


def main(edit, folder):
    for file, old, new in read(pathlib.Path(edit)):
        path = pathlib.Path(folder, file)
        text = path.read_text(encoding="utf-8")
        if text.count(old) != 1:
            sys.exit(f"{edit}: this stands {text.count(old)} times in {file}, not once:\n{old}")
        path.write_text(text.replace(old, new), encoding="utf-8")


main(*sys.argv[1:])
