#!/usr/bin/env python3
"""sheet.py [SHEET]: checks the tables of the release sheet, docs/SHEET.md, cell by cell.

A name in a cell is written between backquotes, and each column takes names of its own kind:
    definition      crate.name of crates/CRATE/specs, or a struct, an enum or a constant of the crate's code
    promise         crate.name of a theorem of crates/CRATE/proofs, or crate::function, a function with an `ensures`
    theorem         crate.name of a theorem
    wrong program   crate/label, a must-fail edit: a file of one wrong program, or a labelled wrong answer in a file of several
    case            name.txt, a listing of crates/vectors/data; P7, a row of the table of cases; crate.name of a theorem that
                    computes a run, of a crate whose name ends in _cases
No cell is empty. A cell without a name is a reason in words. A clause that begins with "no " is one too, and may name anything that
exists; clauses are parted by semicolons. Every labelled edit stands in some row's "wrong program", and every listing in some row's "case".
"""
import pathlib
import re
import sys

CRATES = pathlib.Path("crates")
complaints = []
NAMED = ("definition", "promise", "theorem", "wrong program", "case")


def found(folder, pattern):
    """what a pattern finds in the files of a kind of folder, as crate.name"""
    names = set()
    for path in CRATES.glob(folder):
        crate = path.parts[1]
        names |= {f"{crate}.{m.group(1)}" for m in re.finditer(pattern, path.read_text(), re.M)}
    return names


def theorems_proved():
    """the public laws of proofs/, as crate.name: neither definitions nor the fields of a record"""
    names = set()
    for path in CRATES.glob("*/proofs/**/*.antt"):
        record = None
        for line in path.read_text().split("\n"):
            indent = len(line) - len(line.lstrip(" "))
            if record is not None and line.strip() and indent <= record:
                record = None
            if re.match(r" *(?:pub )?(?:record|data) ", line):
                record = indent
            elif record is None and (m := re.match(r" *pub ([^\s:]+) *[:({]", line)):
                names.add(f"{path.parts[1]}.{m.group(1)}")
    return names


def edits():
    """the labelled edits, as crate/label"""
    labels = set()
    for path in CRATES.glob("*/must-fail/*.edit"):
        headers = re.findall(r"^# (?:[a-z0-9_]+(?:/[\w'-]+)?(?: of [a-z0-9_]+)?|[A-Z]\w*\.[^ .:]+)( \([a-z0-9_]+\))?: ", path.read_text(), re.M)
        names = [h[2:-1] for h in headers if h] if headers else [path.stem]
        labels |= {f"{path.parts[1]}/{name}" for name in names}
    return labels


def contracts():
    """the functions that state what they give, as crate::function"""
    names = set()
    for path in CRATES.glob("*/src/*.rt"):
        name = None
        for line in path.read_text().split("\n"):
            if m := re.match(r" *(?:pub(?:\(crate\))? )?(?:extern \"C\" )?fn ([a-z0-9_]+)[<(]", line):
                name = m.group(1)
            if name and re.match(r" *ensures\b", line):
                names.add(f"{path.parts[1]}::{name}")
            # the body begins
            if re.search(r"^ *\{$|\S \{$", line) and not re.match(r" *(?:requires|ensures)\b", line):
                name = None
    return names


definitions = found("*/specs/**/*.antt", r"^ *(?:(?:unfoldable|abbrev) )*pub (?:(?:data|record) )?([^\s:]+)")
types = found("*/src/*.rt", r"(?:struct|enum|const) (\w+)")
theorems = theorems_proved()
proof_items = found("*/proofs/**/*.antt", r"^ *(?:(?:unfoldable|abbrev) )*pub (?:(?:data|record) )?([^\s:]+)")
computed = {name for name in theorems if re.match(r"[a-z0-9_]*_cases\.", name)}
listings = {str(path.relative_to(CRATES / "vectors/data")) for path in (CRATES / "vectors/data").rglob("*.txt")}
table = {f"P{n}" for path in CRATES.glob("chip_cases/specs/*.antt") for n in re.findall(r"number = (\d+);", path.read_text())}
labels, functions = edits(), contracts()
KINDS = {
    "definition": definitions | types,
    "promise": theorems | functions,
    "theorem": theorems,
    "wrong program": labels,
    "case": listings | table | computed,
}
anything = definitions | types | proof_items | functions | labels | listings | table


def cell(line, column, text):
    """checks a cell and gives the names that stand in it"""
    names = re.findall(r"`([^`]+)`", text)
    if text == "":
        complaints.append(f"line {line}: the cell '{column}' is empty")
    elif column in NAMED and not names and len(text.split()) < 2:
        complaints.append(f"line {line}: '{text}' in the column '{column}' is neither a name nor a reason")
    for name in set(names) - anything:
        complaints.append(f"line {line}: nothing has the name {name}")
    if column not in NAMED:
        complaints.extend(f"line {line}: {name} stands in the column '{column}', which takes no names" for name in names)
        return names
    claims = [clause for clause in text.split(";") if not clause.strip().startswith("no ")]
    for name in re.findall(r"`([^`]+)`", " ".join(claims)):
        if name in anything and name not in KINDS[column]:
            complaints.append(f"line {line}: {name} is not of the column '{column}'")
    return names


def main(sheet):
    columns, rows, seen = None, 0, {column: set() for column in NAMED}
    for number, line in enumerate(sheet.read_text().split("\n"), 1):
        if not line.startswith("|"):
            columns = None
            continue
        cells = [text.strip() for text in line.strip().strip("|").split("|")]
        if columns is None:
            columns = cells
        elif not re.fullmatch(r"[-| :]+", line):
            rows += 1
            if len(cells) != len(columns):
                complaints.append(f"line {number}: {len(cells)} cells for {len(columns)} columns")
            for column, text in zip(columns, cells):
                seen.get(column, set()).update(cell(number, column, text))
    for label in sorted(labels - seen["wrong program"]):
        complaints.append(f"edit {label} stands in no row: name it as 'wrong program' of the rule that it breaks")
    for name in sorted(listings - seen["case"]):
        complaints.append(f"listing {name} stands in no row: name it as 'case' of the rule that it shows")
    for text in complaints:
        print(f"sheet: {text}")
    if complaints:
        sys.exit(1)
    total = sum(len(names) for names in seen.values())
    print(f"sheet: {rows} rows, {total} names, each of the kind that its column takes, no empty cell")


main(pathlib.Path(sys.argv[1] if len(sys.argv) > 1 else "docs/SHEET.md"))
