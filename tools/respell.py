#!/usr/bin/env python3
"""Respells the repository's own definitions and lemmas as today's Rattle spells names: words in snake case.

usage: python3 tools/respell.py    at the top of the repository, once, after the kit's port.py

A name has parts that a dash joins. Each part that begins small and has a capital (`entryOf`, of `entryOf-none`) and that stands
in a name which a file of specs/ or proofs/ declares is turned everywhere in .antt and .rt files of crates/, and in docs/. OTHER
says where the plain turn would fall together with a field.
"""

import os
import re

DECLARED = re.compile(
    r"\s*(?:abbrev |unfoldable |pub |data |record |axiom )*([^\s:{(]+)\s*(?:\{[^}]*\}\s*)?(?:\([^)]*\)\s*|\{[^}]*\}\s*)*:\s"
)
PART = re.compile(r"[a-z][a-z0-9]*[A-Z][A-Za-z0-9]*\Z")
WORD = re.compile(r"(?<![A-Za-z0-9_'\u2080-\u2089])[a-z][A-Za-z0-9]*(?![A-Za-z0-9_])")
OTHER = {"equalPairs": "equal_pairs_of"}
FACTS = {"told": ("Told", "crates/records/proofs/Cases.antt")}


def files(top, endings):
    for folder, dirs, names in os.walk(top):
        dirs[:] = sorted(d for d in dirs if d != "out")
        for name in sorted(names):
            if name.endswith(endings):
                yield os.path.join(folder, name)


def read(path):
    with open(path, encoding="utf-8") as f:
        return f.read()


def write(path, text):
    with open(path, "w", encoding="utf-8") as f:
        f.write(text)


def declared_parts():
    parts = set()
    for path in files("crates", (".antt",)):
        for line in read(path).split("\n"):
            match = DECLARED.match(line)
            if match and not line.lstrip().startswith("--"):
                parts.update(p for p in match.group(1).split("-") if PART.match(p))
    return parts


def snake(part):
    return OTHER.get(part) or re.sub(r"(?<=[a-z0-9])[A-Z]", lambda m: "_" + m.group(0).lower(), part)


def main():
    parts = declared_parts()
    turn = lambda m: snake(m.group(0)) if m.group(0) in parts else m.group(0)
    changed = 0
    for path in [*files("crates", (".antt", ".rt")), *files("docs", (".md",))]:
        old = read(path)
        new = WORD.sub(turn, old)
        for fact, (other, where) in FACTS.items():
            if path == where:
                new = re.sub(rf"^((?:abbrev )?|.* : ){fact} ", lambda m: m.group(1) + other + " ", new, flags=re.M)
        if new != old:
            write(path, new)
            changed += 1
    print(f"respell: {len(parts)} words, {changed} files")


main()
