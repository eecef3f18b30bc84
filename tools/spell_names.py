#!/usr/bin/env python3
"""Brings the names of this repository's definitions and lemmas to snake case, once, after port.py of the newer Rattle has run.

usage: python3 tools/spell_names.py        at the top of the repository

A name that the repository declares in specs/ or proofs/ (at the top of a file, as a field or a constructor, or by `as`) and that has
capitals or dashes inside is spelled in snake case wherever a file means it: in .antt files, in the clauses and ghost items of .rt files,
and in must-fail edits. Names of types and modules, names of libraries, functions, strings and comments in plain words stay. Where a
definition and a lemma fall together, the lemma's name ends in `_lem`.
"""

import collections
import glob
import os
import re
import sys

NAME = r"[^\s(){}\[\],;.:|`\"@]+"
WORD = re.compile(r"[^\s(){}\[\],;.:|`\"@/=]+")
DECLARED = re.compile(r"^(?:(?:abbrev|unfoldable|pub)\s+)*(" + NAME + r")\s+:\s")
FIELD = re.compile(r"^\s+(?:(?:abbrev|unfoldable|pub)\s+)*(" + NAME + r")\s+:\s")
# files whose names are those of generated goals, which stay
GOALS = ("/Answers.antt", "/Invariants.antt")
CASE = re.compile(r"\bas\s+(" + NAME + r")\s*[,}]")
LIBRARY = re.compile(r"^\s*(?:pub )?(?:ghost )?use\s+([\w.'-]+)\.\{([^}]*)\}", re.M)
PLAIN = re.compile(r"^[a-z][A-Za-z0-9_'-]*$")


def snake(name):
    out = re.sub(r"(?<=[a-z0-9'])([A-Z]+)", lambda m: "_" + m[1].lower(), name)
    return out.replace("-", "_")


def own(module, crates):
    parts = module.split(".")
    return len(parts) > 1 and parts[0] == "Rattle" and parts[1] in crates


def foreign_names(text, crates):
    """The names that a file imports from a library."""
    found = set()
    for m in LIBRARY.finditer(text):
        if not own(m[1], crates):
            for item in m[2].split(","):
                words = item.split()
                if words:
                    found.add(words[0])
    return found


def files(pattern):
    return sorted(p for p in glob.glob(pattern, recursive=True) if "/out/" not in p)


def renaming(crates):
    declared, definitions, lines = collections.Counter(), set(), {}
    for path in files("crates/*/specs/**/*.antt") + files("crates/*/proofs/**/*.antt"):
        with open(path, encoding="utf-8") as f:
            text = f.read()
        for line in [] if path.endswith(GOALS) else text.split("\n"):
            for m in [DECLARED.match(line), FIELD.match(line)]:
                if m and PLAIN.match(m[1]):
                    declared[m[1]] += 1
                    if "/specs/" in path:
                        definitions.add(m[1])
        for m in CASE.finditer(text):
            if PLAIN.match(m[1]):
                declared[m[1]] += 1
    for path in files("crates/*/src/**/*.rt"):
        with open(path, encoding="utf-8") as f:
            for m in re.finditer(r"ghost use [^;]*;", f.read()):
                for a in CASE.finditer(m[0]):
                    if PLAIN.match(a[1]):
                        declared[a[1]] += 1
    by_snake = collections.defaultdict(set)
    for name in declared:
        by_snake[snake(name)].add(name)
    met = meetings(by_snake, crates)
    turned = {}
    for spelled, names in by_snake.items():
        for name in names:
            if name == spelled:
                continue
            if (len(names) > 1 and "-" in name) or name in met:
                turned[name] = spelled + "_lem"
            else:
                turned[name] = spelled
    return turned


def meetings(by_snake, crates):
    """The names whose spelling in snake case is that of a library's name in one of their files."""
    met = set()
    for path in files("crates/*/specs/**/*.antt") + files("crates/*/proofs/**/*.antt") + files("crates/*/src/**/*.rt"):
        with open(path, encoding="utf-8") as f:
            text = f.read()
        foreign = foreign_names(text, crates)
        for word in set(WORD.findall(text)):
            if word not in foreign and snake(word) != word and snake(word) in foreign and snake(word) in by_snake:
                met.add(word)
    return met


def spell(text, turned, comments=False):
    return WORD.sub(lambda m: one_word(m[0], turned), text)


def one_word(word, turned):
    if word in turned:
        return turned[word]
    head = re.match(r"^(¬|←|\{|\()(.*)$", word)
    if head and head[2] in turned:
        return head[1] + turned[head[2]]
    return word


def antt(text, turned):
    out = []
    for line in text.split("\n"):
        m = re.search(r"(^|\s)--(\s|$)", line)
        code, comment = (line[: m.start()], line[m.start() :]) if m else (line, "")
        code = spell(code, turned)
        comment = spell(comment, {k: v for k, v in turned.items() if re.search(r"[a-z][A-Z]", k)}) if re.search(r"[a-z][A-Z]", comment) else comment
        out.append(code + comment)
    return "\n".join(out)


def clauses(text):
    """The places of a source that are antt: ghost items and the braces of clauses."""
    for m in re.finditer(r"ghost use [^;]*;", text):
        yield m.start(), m.end()
    for m in re.finditer(r"\b(?:ensures|requires|invariant|ghost(?: \w+)?:?)[ \t]*\w*:?\s*\{", text):
        depth, at = 0, m.end() - 1
        while at < len(text):
            depth += {"{": 1, "}": -1}.get(text[at], 0)
            at += 1
            if depth == 0:
                break
        yield m.end() - 1, at


def rt(text, turned):
    places = sorted(clauses(text))
    out, last = [], 0
    for a, b in places:
        if a < last:
            continue
        out.append(text[last:a])
        out.append(spell(text[a:b], turned))
        last = b
    out.append(text[last:])
    return "".join(out)


def bare_words(text):
    """The words of a file's code that are no part of a path."""
    code = "\n".join(line for line in text.split("\n") if not line.lstrip().startswith("--"))
    return set(re.findall(r"(?<![\w.'-])([a-z][\w'-]*)(?![\w'-]|\.\w)", code))


def module_of(path):
    parts = path[:-5].split("/")
    return "Rattle." + ".".join(parts[1:])


def brought(text, moved):
    """Names that a file imports from a file where they got the ending `_lem`."""
    found = set()
    for m in LIBRARY.finditer(text):
        for item in m[2].split(","):
            if item.split() and (m[1], item.split()[0]) in moved:
                found.add(item.split()[0])
    return found


def main():
    with open("crates.txt", encoding="utf-8") as f:
        crates = {m[1] for m in (re.match(r"^(\w+)(?: staticlib)?:", line) for line in f) if m}
    turned = renaming(crates)
    with open("tools/spelled_names.txt", "w", encoding="utf-8") as f:
        f.writelines(f"{a} {b}\n" for a, b in sorted(turned.items()))
    changed = clash = 0
    moved = set()
    for path in files("crates/*/specs/**/*.antt") + files("crates/*/proofs/**/*.antt") + files("crates/*/src/**/*.rt") + files("crates/*/must-fail/*.edit"):
        with open(path, encoding="utf-8", newline="") as f:
            text = f.read()
        foreign = foreign_names(text, crates)
        mine = {k: v for k, v in turned.items() if k not in foreign}
        words = set(WORD.findall(text))
        if path.endswith(".antt"):
            bare = bare_words(text)
            lemmas = {m[1] for m in map(DECLARED.match, text.split("\n")) if m} | brought(text, moved)
            for w in sorted(words):
                if w in mine and mine[w] in bare:
                    if mine[w] in lemmas:
                        mine[mine[w]] = mine[w] + "_lem"
                        moved.add((module_of(path), mine[w]))
                    else:
                        clash += 1
                        print(f"{path}: {w} and {mine[w]} fall together")
            new = antt(text, mine)
        elif path.endswith(".rt"):
            new = rt(text, mine)
        else:
            new = edit(text, mine)
        if new != text:
            changed += 1
            with open(path, "w", encoding="utf-8", newline="") as f:
                f.write(new)
    print(f"{len(turned)} names, {changed} files, {clash} to look at")


def edit(text, turned):
    out, of_antt = [], False
    for line in text.split("\n"):
        if line.startswith("file: "):
            of_antt = line.rstrip().endswith(".antt")
        elif of_antt and re.match(r"^(old|new): ", line):
            line = line[:5] + spell(line[5:], turned)
        out.append(line)
    return "\n".join(out)


if __name__ == "__main__":
    sys.exit(main())
