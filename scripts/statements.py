#!/usr/bin/env python3
"""statements.py [--list]: what README.md, docs/READING.md and docs/SHEET.md cite, a reader can believe by reading specs/ alone.

A theorem is cited by the sheet where `crate.name` stands in a cell, and by the other two where `crate.name` stands in the text, or `name` in the row of
a table that begins with `crate`. Its statement, from its name up to its `unfolding` or its first equation, may name nothing of a proofs/ folder, be it a
record, a data type, a function or a law, neither of its own file nor one that the file imports. Variables that the statement binds and the fields of records do not
count. With --list each such name is printed with the theorems whose statements have it.
"""
import pathlib
import re
import sys

CRATES = pathlib.Path("crates")
NAME = r"[^\s(){}:;,.=λ⌜⌝]+"
DEFINED = re.compile(rf"^( *)(?:pub )?(?:(?:abbrev|unfoldable) (?:pub )?({NAME}) *:|(?:pub )?(record|data) ({NAME}))")
THEOREM = re.compile(rf"^( *)pub ({NAME}) *[:({{]")
PLAIN = re.compile(rf"^ *({NAME}) *:")


def modules():
    """the law files of a crate by their path in an import: proofs.Module of crate"""
    return {(path.parts[1], ".".join(path.relative_to(CRATES / path.parts[1]).with_suffix("").parts)): path
            for path in CRATES.glob("*/proofs/**/*.antt")}


def without_comments(path):
    return [re.sub(r"(^|\s)--( .*|-*)?$", "", line) for line in path.read_text().split("\n")]


def read(path):
    """what a law file has, a constructor under its data type, and its public theorems with their statements"""
    definitions, theorems, inside = {}, {}, None
    lines = without_comments(path)
    for number, line in enumerate(lines):
        indent = len(line) - len(line.lstrip(" "))
        if inside is not None and line.strip() and indent <= inside[0]:
            inside = None
        if (m := DEFINED.match(line)):
            name = m.group(2) or m.group(4)
            definitions[name] = name
            if m.group(3):
                inside = (indent, m.group(3), name)
        elif inside is not None:
            if inside[1] == "data" and (c := re.match(rf" *(?:pub )?({NAME}) *:", line)):
                definitions[c.group(1)] = inside[2]
        elif (m := THEOREM.match(line)):
            definitions[m.group(2)] = m.group(2)
            theorems[m.group(2)] = statement(lines, number, m.group(1), m.group(2))
        elif (m := PLAIN.match(line)):
            definitions[m.group(1)] = m.group(1)
    return definitions, theorems


def statement(lines, number, indent, name):
    """the lines of a statement, joined"""
    end = re.compile(rf"^{indent}(?:unfolding\b|{re.escape(name)}\s)|^{indent}\S")
    text = [lines[number]]
    for line in lines[number + 1:]:
        if end.match(line):
            break
        text.append(line)
    return " ".join(text)


def named(text):
    """the names in a statement, but for the variables that it binds and for fields"""
    bound = {name for group in re.findall(r"[({]([^():{}]+?) :", text) for name in group.split()}
    return set(re.findall(rf"(?<![^\s(){{}}:;,=λ⌜⌝]){NAME}", text)) - bound


def imported(path, known):
    """the names that a law file has from other law files: as used there, then where they stand"""
    names = {}
    text = "\n".join(without_comments(path))
    for m in re.finditer(r"^ *(?:pub )?use Rattle·([a-z0-9_]+)(?:·proofs)?\.(proofs\.[\w.]+?)\.\{([^}]*)\}", text, re.M):
        module = (m.group(1), m.group(2))
        for item in m.group(3).split(","):
            old, _, new = item.strip().partition(" as ")
            if old in known.get(module, {}):
                names[new or old] = (module, known[module][old])
    return names


def cited():
    """the theorems that the three pages cite, as crate.name"""
    names = set(re.findall(r"`([a-z0-9_]+\.[^`\s]+)`", pathlib.Path("docs/SHEET.md").read_text()))
    pages = pathlib.Path("README.md").read_text() + pathlib.Path("docs/READING.md").read_text()
    for line in pages.split("\n"):
        names |= set(re.findall(r"`([a-z0-9_]+\.[^`\s]+)`", line))
        row = re.match(r"\| (`[a-z0-9_]+`(?:, `[a-z0-9_]+`)*) \|", line)
        if row:
            for crate in re.findall(r"`([a-z0-9_]+)`", row.group(1)):
                names |= {f"{crate}.{name}" for name in re.findall(r"`([^`\s]+)`", line)}
    return names


def main(listing):
    files = modules()
    known, theorems = {}, {}
    for module, path in files.items():
        known[module], theorems[module] = read(path)
    wanted, looked, found = cited(), 0, {}
    for module, path in files.items():
        crate = module[0]
        names = imported(path, known) | {name: (module, home) for name, home in known[module].items()}
        for theorem, text in theorems[module].items():
            if f"{crate}.{theorem}" not in wanted:
                continue
            looked += 1
            for word in (named(text) & set(names)) - {theorem}:
                found.setdefault(names[word], set()).add(f"{crate}.{theorem}")
    for (module, name), where in sorted(found.items()):
        if listing:
            print(f"{module[0]} {module[1]} {name}: {', '.join(sorted(where))}")
        else:
            print(f"statements: {name} stands in {files[module]}, and {sorted(where)[0]} is stated with it: put it into specs/")
    if found:
        print(f"statements: {len(found)} definitions of proofs/ in {len(set().union(*found.values()))} of {looked} statements", file=sys.stderr)
        sys.exit(1)
    print(f"statements: {looked} theorems that README.md, docs/READING.md and docs/SHEET.md cite, each stated by definitions of specs/ alone")


main(sys.argv[1:] == ["--list"])
