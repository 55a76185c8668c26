"""The map from documents 01 and 02 to the definitions, docs/SPECIFICATION.md, and the statements of demands and requests.

- A row of the map names definitions, theorems, edits and tests, each with its file, and they are there.
- A definition stands in specs/ or src/; what shows a claim stands in proofs/, must-fail/ or tests/.
- Every file of specs/ is named, and every theorem of Demand1.antt to Demand3.antt, Document01.antt, Request01.antt and on, and
  Bulk.antt, of crates/demands/proofs.
- The statements of these theorems, and the files of specs/, use nothing that is defined in proofs/ of a crate here. (Rattle's own
  library has some of its definitions, as Option, in modules named so.)
- Every edit of crates/*/must-fail is named in docs/CONTRACTS.md.

Prints each fault, and exits 1 if there is one. Run by tests/specification.sh, in the folder above.
"""

import re
import sys
from pathlib import Path

MAP = Path("docs/SPECIFICATION.md")
CONTRACTS = Path("docs/CONTRACTS.md")
CRATES = Path("crates")
PROOFS = CRATES / "demands" / "proofs"
STATED = r"Demand\d|Document01|Request\d\d\w*|Bulk"
DEMANDS = [PROOFS / f"{name}.antt" for name in ("Demand1", "Demand2", "Demand3", "Document01", "Bulk")]
DEMANDS += sorted(PROOFS.glob("Request*.antt"))
# a module of proofs/ of a crate here
OF_PROOFS = r"(?!Rattle\.std\.)\S+?\.proofs\."
faults = []


# ---- the map


def file_of(cited):
    """The file or folder that a row means by what stands in brackets."""
    if re.fullmatch(STATED, cited):
        return PROOFS / f"{cited}.antt"
    return Path(cited) if cited.startswith("tests/") else CRATES / cited


def rows():
    """Each row of a table, as its cells by the table's headings."""
    headings = None
    for line in MAP.read_text().splitlines():
        if not line.startswith("|"):
            headings = None
            continue
        cells = [cell.strip() for cell in line.strip("|").split("|")]
        if headings is None:
            headings = cells
        elif len(cells) != len(headings):
            faults.append(f"{MAP}: a row has {len(cells)} cells under {len(headings)} headings: {line[:60]}")
        elif not set(line) <= set("|-"):
            yield dict(zip(headings, cells))


def citations(cell):
    """The names of a cell, each with the file in the next brackets."""
    names = []
    for name, cited in re.findall(rf"`([^`]+)`|\(({STATED}|[\w-]+/[\w./-]+)\)", cell):
        if name:
            names.append(name)
        else:
            yield from ((name, file_of(cited)) for name in names)
            names = []
    for name in names:
        faults.append(f"{MAP}: {name} has no file after it")


def may_stand(heading, file):
    """Whether a column may name the file."""
    if heading == "Definition":
        return file.parts[0] == "crates" and ("specs" in file.parts or "src" in file.parts)
    return "proofs" in file.parts or "must-fail" in file.parts or file.parts[0] == "tests"


def is_there(name, file):
    """Whether the file declares the name; of a folder of edits, whether it has one of that name."""
    if file.name in ("must-fail", "mistakes"):
        return (file / f"{name}.edit").is_file()
    name = re.escape(name)
    declared = {
        "specs": rf"^ *((abbrev|unfoldable) )?pub ((record|data) )?{name}( |$)",
        "proofs": rf"^ *pub {name} ",
        "src": rf"^ *(pub )?(fn|const|struct|enum) {name}\b|^ *pub {name}:",
        "tests": rf"fn {name}\(",
    }
    kind = next(part for part in file.parts if part in declared)
    return re.search(declared[kind], file.read_text(), re.MULTILINE) is not None


def check_map():
    named = set()
    for row in rows():
        for heading in ("Definition", "Shown by"):
            for name, file in citations(row.get(heading, "")):
                named.add((name, file))
                if not may_stand(heading, file):
                    faults.append(f"{MAP}: {name} is under {heading}, but {file} is no place for it")
                elif not file.exists():
                    faults.append(f"{MAP} names {file}, which is not there")
                elif not is_there(name, file):
                    faults.append(f"{MAP}: {name} is not in {file}")
    files = {file for _, file in named}
    for file in sorted(CRATES.glob("*/specs/*.antt")):
        if file.name != "Lib.antt" and file not in files:
            faults.append(f"{MAP} does not name {file}")
    for file in DEMANDS:
        for name in theorems(file.read_text()):
            if (name, file) not in named:
                faults.append(f"{MAP} does not name {name} of {file}")


# ---- the statements


def theorems(text):
    return re.findall(r"^ *pub (\S+) :", text, re.MULTILINE)


def statements(text):
    """Each theorem's type, and the parameters of the modules that theorems stand in, with a name to report it by.

    A type goes on over the lines that are indented further than its first; parameters go up to `where`.
    """
    text = re.sub(r"--.*", "", text)
    for found in re.finditer(r"^( *)pub (\S+) :(.*\n(?:\1 +.*\n)*)", text, re.MULTILINE):
        yield found[2], found[3]
    for found in re.finditer(r"^ *module _ (.*?) where$", text, re.MULTILINE | re.DOTALL):
        yield "the parameters of a module", found[1]


def words(statement):
    """The names that a statement uses: projections (`.text`) and the dot after a bound variable are no part of them."""
    for word in re.split(r"[\s(){};,]+", statement):
        if not word.startswith("."):
            yield word.rstrip(".")


def defined_in_proofs(file, text):
    """The names that a file has from proofs/ or declares itself."""
    names = {}
    for module, imported in re.findall(rf"^(?:pub )?use ({OF_PROOFS}\S+?)\.\{{([^}}]*)\}}", text, re.MULTILINE):
        for name in imported.split(","):
            # an operator is listed as ◌+◌ and used as +
            names[name.split(" as ")[-1].strip().strip("◌")] = module
    for module, name in re.findall(rf"^(?:pub )?use ({OF_PROOFS}[^\s{{]+)(?: as (\S+))?$", text, re.MULTILINE):
        if name:
            names[name] = module
        else:
            faults.append(f"{file} uses all of {module}: the names are to be listed")
    declared = r"^ *(?:(?:abbrev|unfoldable|pub) )*(?:(?:data|record) (\S+)|(\S+)(?: \{[^}]*\})* :)"
    for shape, name in re.findall(declared, text, re.MULTILINE):
        names.setdefault((shape or name).strip("◌"), str(file))
    return names


def check_statements():
    for file in DEMANDS:
        text = file.read_text()
        foreign = defined_in_proofs(file, text)
        for name, statement in statements(text):
            for word in sorted(set(words(statement))):
                module = foreign.get(word) or foreign.get(word.split(".")[0])
                if module:
                    faults.append(f"{file}: {name} speaks of {word}, which is defined in {module}")
    for file in sorted(CRATES.glob("*/specs/*.antt")):
        for module in re.findall(rf"^(?:pub )?use ({OF_PROOFS}\S*)", file.read_text(), re.MULTILINE):
            faults.append(f"{file} uses {module}")


# ---- the edits


def check_edits():
    contracts = CONTRACTS.read_text()
    for edit in sorted(CRATES.glob("*/must-fail/*.edit")):
        if f"`{edit.stem}`" not in contracts:
            faults.append(f"{CONTRACTS} does not name {edit}")


missing = [str(file) for file in DEMANDS if not file.is_file()]
if missing:
    sys.exit("there is no " + ", ".join(missing))
check_map()
check_statements()
check_edits()
for fault in dict.fromkeys(faults):
    print(fault)
sys.exit(bool(faults))
