#!/usr/bin/env python3
"""Brings the names of definitions, laws and crates on the pages to the spelling of the code, once, after tools/spell_names.py.

usage: python3 tools/spell_pages.py [--write] PAGE ..        at the top of the repository

Only what stands between backquotes on one line is looked at, and MODULE.NAME of a law in a table, and no block of a program's text. A word is spelled as tools/spelled_names.txt has it; behind
`crate.` it is the name that the crate has, and a crate by its name of today. Names of files, labels of edits and commands stay. Printed are the names
`crate.name` that no crate has then. Without --write nothing is changed.
"""
import functools
import pathlib
import re
import sys

WORD = re.compile(r"[^\s(){}\[\],;.:|`\"@/=]+")
CRATES = {"hex": "hex_digits"}
COMMAND = re.compile(r"(\./nt6861|rt|bash|cargo|python3|cc|c\+\+|git|sed|grep|sigrok-cli|export|cd) ")
NAMES = dict(line.split() for line in pathlib.Path("tools/spelled_names.txt").read_text().splitlines())


@functools.lru_cache(maxsize=None)
def words_of(crate):
    """all words of a crate's code, definitions and laws"""
    words = set()
    for part in ("src", "specs", "proofs"):
        for path in pathlib.Path("crates", crate, part).rglob("*"):
            if path.suffix in (".rt", ".antt"):
                words |= set(WORD.findall(path.read_text()))
    return words


def snake(name):
    return re.sub(r"(?<=[a-z0-9'])([A-Z]+)", lambda m: "_" + m[1].lower(), name).replace("-", "_")


def in_crate(crate, name):
    """a name as the crate has it"""
    for one in (NAMES.get(name, name), name, snake(name), snake(name) + "_lem", name.replace("-", "_")):
        if one in words_of(crate):
            return one
    return NAMES.get(name, name)


def in_module(crates, module, name):
    """a law's name as the module of one of these crates has it"""
    for crate in crates:
        path = pathlib.Path("crates", crate, "proofs", f"{module}.antt")
        words = set(WORD.findall(path.read_text())) if path.is_file() else set()
        for one in (NAMES.get(name, name), name, snake(name), snake(name) + "_lem"):
            if one in words:
                return one
    return None


def laws(line, lost):
    """the laws MODULE.NAME of a row of a table, of the crates that the row names"""
    parts = re.split(r"(`[^`]+`)", line)
    crates = [part[1:-1].split(".")[0] for part in parts[1::2]]

    def law(found):
        name = in_module(crates, found[1], found[2])
        lost.extend([] if name else [f"no law {found[0]} in {crates}"])
        return f"{found[1]}.{name or found[2]}"

    return "".join(part if part.startswith("`") else re.sub(r"\b([A-Z][A-Za-z0-9]*)\.(?!md\b)([a-z][\w'-]*\w)", law, part) for part in parts)


def word(text):
    if re.fullmatch(r"[A-Z]\w*", text):
        return text
    return NAMES.get(text, text)


def spelled(span):
    """what stands between two backquotes"""
    if COMMAND.match(span) or re.search(r"\.(sh|py|txt|rs|c|h|md|rom|lst|s|vcd|events|host|bin|edit|toml|svg|html|so|a|json)(?![\w-])", span):
        return span
    found = re.fullmatch(r"([a-z0-9_]+)(\.|::|/)([^\s/`]+)", span)
    crate = found and CRATES.get(found[1], found[1])
    if found and pathlib.Path("crates", crate).is_dir() and crate not in ("rt",):
        rest = found[3] if found[2] == "/" else ".".join(in_crate(crate, name) for name in found[3].split(".")) if found[2] == "." else found[3]
        return f"{crate}{found[2]}{rest}"
    if span in CRATES:
        return CRATES[span]
    return WORD.sub(lambda m: word(m[0]), span)


def main(arguments):
    write = "--write" in arguments
    lost, laws_lost = 0, []
    for page in (pathlib.Path(name) for name in arguments if name != "--write"):
        lines, fenced = [], False
        for number, line in enumerate(page.read_text().split("\n"), 1):
            fenced ^= line.startswith("```")
            if not fenced and not line.startswith("    "):
                line = re.sub(r"`([^`]+)`", lambda m: f"`{spelled(m[1])}`", line)
                for crate, name in re.findall(r"`([a-z0-9_]+)(?:\.|::)([^\s`./:,()]+)`", line):
                    if pathlib.Path("crates", crate).is_dir() and name not in words_of(crate):
                        lost += 1
                        print(f"{page}:{number}: {crate} has no {name}")
                if line.startswith("|"):
                    line = laws(line, laws_lost)
            lines.append(line)
        if write:
            page.write_text("\n".join(lines))
    print("\n".join([*laws_lost, f"{lost + len(laws_lost)} names that no crate has"]))


main(sys.argv[1:])
