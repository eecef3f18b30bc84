#!/usr/bin/env python3
"""Counts the places of the eight points of docs/DESIGN-PASS.md in crates/*/src. With the number of a point its places are listed, a line each.

  python3 tools/design_counts.py          a line for each kind of place
  python3 tools/design_counts.py 3        the places of point 3

A place is what the expression of its kind finds: each is then read, and docs/DESIGN-PASS.md says what became of it.
"""
import collections
import glob
import re
import sys

sources = {}
for path in sorted(glob.glob("crates/*/src/*.rt")):
    with open(path, encoding="utf-8") as it:
        sources[path] = it.read()


def lines(pattern):
    """The lines of the sources that the expression finds."""
    found = re.compile(pattern)
    return [f"{path}:{at}: {line.strip()}" for path, text in sources.items() for at, line in enumerate(text.split("\n"), 1) if found.search(line)]


def enums(pattern):
    """The enums one of whose variants has a name that the expression matches whole."""
    found = re.compile(pattern)
    places = []
    for path, text in sources.items():
        for it in re.finditer(r"^(?:pub )?enum (\w+)[^{]*\{\n(.*?)^\}", text, re.M | re.S):
            variants = re.findall(r"^    (\w+)", it[2], re.M)
            named = [name for name in variants if found.fullmatch(name)]
            if named:
                places.append(f"{path}:{text.count(chr(10), 0, it.start()) + 1}: enum {it[1]} has {', '.join(named)}")
    return places


def functions():
    """Path, line, name, parameters and clauses of each function."""
    for path, text in sources.items():
        for it in re.finditer(r"^( *)(?:pub )?(?:extern \"C\" )?fn (\w+)[^(]*\((.*?)\)(?: -> [^\n{]*)?(.*?)^\1\{|^( *)(?:pub )?fn (\w+)[^(]*\(([^\n]*)\)[^\n]* \{$", text, re.M | re.S):
            yield path, text.count("\n", 0, it.start()) + 1, it[2] or it[6], (it[3] if it[2] else it[7]) or "", it[4] or ""


def travelling():
    """The sets of three parameters, names and types, that three functions or more of a crate take."""
    sets = collections.defaultdict(set)
    for path, at, name, parameters, _ in functions():
        own = sorted({re.sub(r"\s+", " ", it.strip()) for it in parameters.replace("\n", " ").split(",") if ":" in it})
        crate = path.split("/")[1]
        for i in range(len(own)):
            for j in range(i + 1, len(own)):
                for k in range(j + 1, len(own)):
                    sets[crate, own[i], own[j], own[k]].add(f"{path}:{at}: {name}")
    places = {}
    for (crate, *own), where in sets.items():
        if len(where) >= 3:
            for it in where:
                places.setdefault(it, f"{it} ({', '.join(own)})")
    return [places[it] for it in sorted(places)]


def repeated_facts():
    """The facts of a `requires` that three functions or more of a crate have."""
    facts = collections.defaultdict(set)
    for path, at, name, _, clauses in functions():
        for it in re.findall(r"requires(?: \w+)? \{(.*?)\}\n", clauses + "\n", re.S):
            for fact in re.split(r" × ", it.strip()):
                facts[path.split("/")[1], fact.strip("() ")].add(f"{path}:{at}: {name}")
    return sorted(f"{where} ({fact})" for (_, fact), all_ in facts.items() if len(all_) >= 3 for where in all_)


def by_hand():
    """Functions of one line that only convert or compare."""
    shapes = re.compile(r"^\s*(?:\w+ as \w+|if \w+ \{ 1 \} else \{ 0 \}|\w+ == \w+)$", re.M)
    places = []
    for path, text in sources.items():
        for it in re.finditer(r"^(?:pub )?fn (\w+)[^{]*?(?:\{[^\n]*\}\n[^{]*?)*^\{\n(.*?)\n\}", text, re.M | re.S):
            if shapes.fullmatch(it[2]):
                places.append(f"{path}:{text.count(chr(10), 0, it.start()) + 1}: {it[1]}: {it[2].strip()}")
    return places


def twins():
    """Functions of three lines or more whose bodies are the same to the letter, and those that are the same once names and numbers are left out."""
    bodies = collections.defaultdict(list)
    for path, text in sources.items():
        for it in re.finditer(r"^( *)(?:pub )?(?:extern \"C\" )?fn (\w+)", text, re.M):
            begin = text.find(f"\n{it[1]}{{\n", it.start())
            end = text.find(f"\n{it[1]}}}", it.start())
            if 0 <= begin < end:
                body = text[begin + len(it[1]) + 3 : end]
                if body.count("\n") >= 2:
                    shape = re.sub(r"\s+", " ", re.sub(r"\b(?!(?:if|else|while|for|in|match|return|let|mut|true|false)\b)\w+", "_", body))
                    bodies[shape].append(f"{path}:{text.count(chr(10), 0, it.start()) + 1}: {it[2]}")
    return sorted(it for all_ in bodies.values() if len(all_) > 1 for it in all_)


KINDS = [
    (1, "enums with a variant for nothing, a failure or a refusal", lambda: enums(r"None|Nothing|No[A-Z]\w*|Not[A-Z]\w*|IllFormed|Bad|Big|Malformed|Refused|Failed|Absent|Missing|Wrong|Unknown|Other\w*|Full|Stop|Same|Fault\w*")),
    (1, "a flag in a struct that has other fields", lambda: lines(r"^    (?:pub )?\w+: bool,$")),
    (1, "a number for a kind or a refusal: a field, a variant or a result", lambda: lines(r"\bnumber: u\d+\b|\bRefused\(u\d+|^(?:pub )?fn \w*(?:number|fault|refus)\w*\(.*-> u\d+")),
    (2, "functions of three lines or more with a body of the same shape as another's", twins),
    (3, "loops that count by hand", lambda: lines(r"^\s*while ")),
    (3, "loops without a count", lambda: lines(r"^\s*loop ")),
    (4, "functions of one line that convert or compare", by_hand),
    (4, "structs put together field by field from another", lambda: lines(r"^\s+(\w+): \w+\.\1,$")),
    (4, "comparisons written out: functions named same", lambda: lines(r"^\s*(?:pub )?fn (?:same|equal|is_same)\w*\(")),
    (5, "functions with three parameters that three of the crate's take", travelling),
    (5, "facts of a requires that three functions of a crate have", repeated_facts),
    (6, "a slice and its length or place as parameters", lambda: lines(r"fn \w+.*: &(?:mut )?\[\w+\], \w+: usize")),
    (7, "parameters and fields that are functions", lambda: lines(r"\bfn\(|\bdyn \w|impl Fn")),
]


def main():
    wanted = [int(it) for it in sys.argv[1:]]
    for point, what, places in KINDS:
        if wanted and point not in wanted:
            continue
        found = places()
        print(f"{point}. {what}: {len(found)}")
        if wanted:
            print("\n".join(f"  {it}" for it in found))


main()
