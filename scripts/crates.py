#!/usr/bin/env python3
"""crates.py [--check]: docs/CRATES.md, a row a crate, made from crates.txt, the first comment of each crate and its files.

Without an argument the page is written; with --check it is compared with what would be written. Lines are those that are not blank.
"""
import pathlib
import re
import sys

PAGE = pathlib.Path("docs/CRATES.md")
HEAD = """# The crates

For whoever wants to know where a thing stands. `ls crates` shows the same: the first word of a crate's name is its subject, `_laws` is a
crate of theorems without code, `_cases` one of computed runs, `_capi` a part of the C interface, and a program has the name of its
command. Made by scripts/crates.py from crates.txt, from the first comment of each crate and from its files; the gate holds it. Lines
are those that are not blank.
"""


def blocks():
    """the headings of crates.txt, each with the sentence below it and its crates"""
    found = []
    for line in pathlib.Path("crates.txt").read_text().split("\n"):
        if heading := re.fullmatch(r"# -- (.*)", line):
            found.append((heading.group(1), [], []))
        elif found and (said := re.fullmatch(r"# (.*)", line)) and not found[-1][2]:
            found[-1][1].append(said.group(1))
        elif crate := re.match(r"([a-z0-9_]+)(?: staticlib)?:", line):
            found[-1][2].append(crate.group(1))
    return found


def first_comment(crate):
    """the comment that the crate's code begins with, on one line"""
    folder = pathlib.Path("crates", crate, "src")
    path = folder / "lib.rt" if (folder / "lib.rt").exists() else folder / "main.rt"
    lines = []
    for line in path.read_text().split("\n"):
        if not line.startswith("//"):
            break
        lines.append(line[2:].strip())
    if not lines:
        sys.exit(f"crates: {path} does not begin with a comment that says what the crate holds")
    return " ".join(lines).replace("|", "\\|")


def lines_of(crate, pattern):
    """how many lines of a crate's files are not blank"""
    return sum(bool(line.strip()) for path in pathlib.Path("crates", crate).glob(pattern) for line in path.read_text().split("\n"))


def page():
    """the text of docs/CRATES.md"""
    text, count = [HEAD], 0
    for name, said, crates in blocks():
        text.append(f"## {name[0].upper()}{name[1:]}\n")
        if said:
            text.append(" ".join(said) + "\n")
        text.append("| crate | what it holds | code | specs | proofs | edit files |\n|---|---|---|---|---|---|")
        for crate in crates:
            count += 1
            sizes = [lines_of(crate, "src/*.rt"), lines_of(crate, "specs/**/*.antt"), lines_of(crate, "proofs/**/*.antt")]
            edits = len(list(pathlib.Path("crates", crate, "must-fail").glob("*.edit")))
            cells = [f"`{crate}`", first_comment(crate), *map(str, sizes), str(edits)]
            text.append("| " + " | ".join(cells) + " |")
        text.append("")
    return "\n".join(text), count


def main():
    made, count = page()
    if sys.argv[1:] == ["--check"]:
        if not PAGE.exists() or PAGE.read_text() != made:
            sys.exit("crates: docs/CRATES.md is not what scripts/crates.py makes: run it")
        print(f"crates: docs/CRATES.md has {count} crates, as crates.txt and their files have them")
    else:
        PAGE.write_text(made)


main()
