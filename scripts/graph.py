#!/usr/bin/env python3
"""graph.py: what crates.txt lists.

Each line of crates.txt is compared with the files of its crate: it lists every crate that these name, and no other but those that the
named ones need, and each library of the kit that it lists is named. A heading `# -- NAME` begins a group.
"""
import pathlib
import re
import sys


def crates():
    """what each line lists, libraries of the kit too"""
    heading, listed = False, {}
    for line in pathlib.Path("crates.txt").read_text().split("\n"):
        heading |= line.startswith("# -- ")
        crate = re.fullmatch(r"([a-z0-9_]+)(?: staticlib)?:([a-z0-9_ ]*)(?:# (.*))?", line)
        if not crate:
            continue
        if not heading:
            sys.exit(f"crates.txt: {crate.group(1)} stands under no heading")
        listed[crate.group(1)] = crate.group(2).split()
    return listed


def named(crate, known):
    """the crates whose definitions, laws, types or functions the files of a crate name, comments left aside"""
    names = set()
    for path in pathlib.Path("crates", crate).glob("*/**/*"):
        if path.suffix in (".rt", ".antt") and path.parts[2] in ("src", "specs", "proofs"):
            text = re.sub(r"(//|--).*", "", path.read_text())
            names |= set(re.findall(r"\bRattle\.([a-z0-9_]+)", text))
            if path.suffix == ".rt":
                names |= set(re.findall(r"\b([a-z0-9_]+)::", text))
    return (names & known) - {crate}


def lists():
    """how many crates; an end where one lists a crate too few or too many"""
    listed = crates()
    for crate, names in listed.items():
        uses = named(crate, set(listed) | set(names))
        needed = set(uses)
        for name in uses:
            below(listed, name, needed)
        missing, more = uses - set(names), set(names) - needed
        if missing or more or len(set(names)) < len(names):
            sys.exit(f"graph: crates.txt: {crate} names {sorted(missing)}, which it does not list, and lists {sorted(more)}, which it does not need")
    return len(listed)


def below(stands, name, seen):
    for under in stands.get(name, []):
        if under not in seen:
            seen.add(under)
            below(stands, under, seen)
    return seen


if __name__ == "__main__":
    print(f"graph: {lists()} crates, as crates.txt has them, each listed with what its files name and what that needs, and no more")
