#!/usr/bin/env python3
"""apart.py [CRATE ..]: each wrong answer that shares an edit file with others and may touch them, tried by itself.

That is one under '# MODULE.THEOREM (LABEL): ..' or '# FUNCTION/GOAL (LABEL): ..', and one that edits a definition. By itself it must be
refused by a fact of what it names, and refuse by a fact nothing that another of its file names: then each refusal of the file is that of
its own wrong answer. An edit of code alone under a function's name refuses that function only, since callers rest on its contract.
"""
import pathlib
import re
import sys

sys.dont_write_bytecode = True
import rattle

HEADER = re.compile(r"# ([a-z0-9_]+(?:/[\w-]+)?|[A-Z]\w*\.[^ .:]+)(?: of [a-z0-9_]+)?(?: \(([a-z0-9_]+)\))?: ")
ERROR = re.compile(r"^\S*?proofs/([\w/]+)\.antt:\d+:\d+: error: `?([^`:\s]+)`?: (.*)", re.M)
OPEN = re.compile(r"^fn \w+::(?:\S*::)?(\w+): no proof: .*`search` did not prove (.*)", re.M)
UNFIT = re.compile(r"can be named from here|has no field|has no `|is not in scope|is no name|room for only|was not admitted|not checked|was rejected|operand is missing|expected the end|cannot continue")


def parts(path):
    """the wrong answers of a file: names, label, and the lines that make the edit. Headings one after the other name the same edit"""
    found, file, edited = [], "", True
    for line in path.read_text().splitlines():
        header = HEADER.match(line)
        if header and not edited:
            found[-1][0].append(header[1])
        elif header:
            found.append(([header[1]], header[2], [f"file: {file}"]))
            edited = False
        elif line.startswith("file: "):
            file = line[6:]
            if found:
                found[-1][2].append(line)
        elif found and line.startswith(("old:", "new:")):
            found[-1][2].append(line)
            edited = True
    return found


def touches(names, lines):
    """whether a wrong answer can refuse more than the function that it names"""
    file, others = "", any("." in name or "/" in name for name in names)
    for line in lines:
        file = line[6:] if line.startswith("file: ") else file
        others |= line.startswith("old:") and not file.startswith("src/")
    return others


def refused(log):
    """what a log refuses by a fact: functions by name, goals as FUNCTION/GOAL, theorems as MODULE.THEOREM"""
    told = set()
    for module, name, words in ERROR.findall(log):
        *above, last = module.split("/")
        if not UNFIT.search(words):
            told |= {above[-1], f"{above[-1]}/{name}"} if above and last in ("Answers", "Invariants", "Proof") else {f"{module}.{name}"}
    for function, goals in OPEN.findall(log):
        told |= {function, *(f"{function}/{goal}" for goal in re.findall(r"`([^`]+)`", goals))}
    return told


def main(names):
    crates, files, todo = rattle.listed(), {}, []
    for path in sorted(pathlib.Path("crates").glob("*/must-fail/*.edit")):
        found = parts(path)
        if (names and path.parts[1] not in names) or len(found) < 2 or not any(touches(one, lines) for one, _, lines in found):
            continue
        files[path] = found
        todo += [(path, number) for number, (one, _, lines) in enumerate(found) if touches(one, lines)]

    def judged(one):
        path, number = one
        found = files[path]
        own, label, lines = found[number]
        told = refused(rattle.tried(path.parts[1], lines, crates))
        others = sorted({other for some, _, _ in found for other in some} & told - set(own))
        if not set(own) <= told or others:
            print(f"apart: {path}, {label}: {own[0]} {'is refused' if set(own) <= told else 'is not refused by a fact'}; also {', '.join(others) or 'none'}", flush=True)
            return 1
        return 0

    bad = sum(rattle.side_by_side(judged, todo))
    print(f"apart: {len(todo)} wrong answers of {len(files)} files tried by themselves, {len(todo) - bad} refused by what they name alone")
    return bad > 0


sys.exit(main(set(sys.argv[1:])))
