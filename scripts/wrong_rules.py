#!/usr/bin/env python3
"""wrong_rules.py [--write PAGE] [LABEL ..]: each wrong rule of scripts/wrong-rules.txt, tried in a copy of the definitions.

A rule that is wrong in code and definition alike is refused by no contract: only a theorem about the definition, or a case computed
from it, can refuse it. A row is

    # LABEL: the wrong rule
    refused: CRATE MODULE.NAME [case]
    file: crates/CRATE/specs/MODULE.antt
    old: text that the file has once
    new: text in its place

with as many refused, file, old and new as it needs. NAME of crates/CRATE/proofs/MODULE.antt must be refused because a fact fails, not because a proof only
no longer fits. The copy is one crate: the types and specs of all crates that the theorems stand on, no functions, and of the law files those that
hold the theorems and those that these use. It is checked as it is; then each row's edits are made, checked and taken back, one row after the other.
With --write the table of PAGE between its two markers is made anew: rows tried get their verdict and the commit, the others keep theirs.
"""
import os
import pathlib
import re
import subprocess
import sys
import tempfile

sys.dont_write_bytecode = True
import rattle

ROWS = "scripts/wrong-rules.txt"
BEGIN, END = "<!-- the rows of scripts/wrong-rules.txt -->", "<!-- end of the rows -->"
FUNCTION = re.compile(r'(pub )?(extern "C" )?fn |impl ')
MODULE = re.compile(r"Rattle\.(\w+)\.(specs|proofs)\.(\w+)")
TYPES = re.compile(r"^use (\w+)::", re.M)
DECLARED = re.compile(r"^pub (?:struct|enum) (\w+)", re.M)
# only functions name a constant that two crates have, so the first one stands for both
CONSTANT = re.compile(r"(?:pub )?const (\w+)")
LISTED = re.compile(r"^(?:pub )?mod (\w+)", re.M)
DEFINITION = re.compile(r"crates/(.*?)/specs/(.*?)\.antt")
ERROR = re.compile(r"^(?:\./)?(specs|proofs)/(\w+)\.antt:\d+:\d+: error: `([^`]+)`: (.*)", re.M)
UNFIT = ("that can be named from here", "has no field", "has no `", "is not in scope", "is no name", "its type has room for only", "was not admitted", "was rejected", "was not checked",
         "were not checked", "not yet determined")


def rows(path):
    """the rows: label, words, refusals as (crate, module, name, kind), edits as [file, old, new]"""
    found, file = [], ""
    for line in path.read_text().splitlines():
        key, _, text = line.partition(": ")
        if re.fullmatch(r"# [a-z0-9_]+", key):
            found.append((key[2:], text, [], []))
        elif key == "refused":
            crate, place, *kind = text.split()
            module, _, name = place.partition(".")
            found[-1][2].append((crate, module, name, kind[0] if kind else "theorem"))
        elif key == "file":
            file = text
        elif key == "old":
            found[-1][3].append([file, text, None])
        elif key == "new":
            found[-1][3][-1][2] = text
        elif line and not line.startswith("#"):
            sys.exit(f"{path}: {line}")
    return found


def listed():
    """the crates in the order of crates.txt"""
    lines = pathlib.Path("crates.txt").read_text().splitlines()
    return [line.split(":")[0].split()[0] for line in lines if line.strip() and not line.startswith("#")]


def without_functions(lines):
    """types and constants alone"""
    skipping, importing = False, False
    for line in lines:
        if importing:
            importing = not line.endswith(";")
        elif skipping:
            skipping = not line.startswith("}")
        elif FUNCTION.match(line):
            skipping = not ("{" in line and line.rstrip().endswith("}"))
        elif line.startswith(("use ", "pub use ", "ghost use ")):
            importing = not line.endswith(";")
            if line.startswith("use "):
                yield line
        elif not line.startswith(("#", "mod ")):
            yield line


def stripped(crate):
    return "\n".join(without_functions(pathlib.Path(f"crates/{crate}/src/lib.rt").read_text().splitlines()))


def own(text):
    """the modules of this repository that a text names: (crate, part, module)"""
    return [found for found in MODULE.findall(text) if pathlib.Path("crates", found[0]).is_dir()]


def closure(modules):
    """the crates and law files that modules (crate, module) stand on: crate -> law modules"""
    wanted, todo = {}, [(crate, "proofs", module) for crate, module in modules]
    while todo:
        name, part, module = todo.pop()
        if name not in wanted:
            wanted[name] = set()
            for spec in pathlib.Path(f"crates/{name}/specs").glob("*.antt"):
                todo += own(spec.read_text())
            todo += [(used, "specs", "Lib") for used in TYPES.findall(stripped(name)) if pathlib.Path(f"crates/{used}").is_dir()]
        law = pathlib.Path(f"crates/{name}/proofs/{module}.antt")
        if part == "proofs" and module not in wanted[name] and law.is_file():
            wanted[name].add(module)
            todo += own(law.read_text())
    return wanted


def stem(crate, module):
    return f"{crate.capitalize()}_{module}"


def renamed(text):
    """modules by their names in the one crate"""

    def name(found):
        crate, part, module = found.groups()
        if not pathlib.Path("crates", crate).is_dir():
            return found[0]
        return f"Rattle.merged.{part}.{'declared' if module == 'declared' else stem(crate, module)}"

    return MODULE.sub(name, text)


def merge(wanted, out):
    """puts all into one crate; gives each file's crate and module"""
    crate = out / "crates/merged"
    for part in ("src", "specs", "proofs"):
        (crate / part).mkdir(parents=True)
    source, places = [], {}
    for name in (name for name in listed() if name in wanted):
        source += [line for line in stripped(name).splitlines() if not line.startswith("use ")]
        for part in ("specs", "proofs"):
            lib = pathlib.Path(f"crates/{name}/{part}/Lib.antt")
            modules = LISTED.findall(lib.read_text()) if lib.is_file() else []
            with open(crate / part / "Lib.antt", "a") as merged:
                for module in (module for module in modules if part == "specs" or module in wanted[name]):
                    merged.write(f"pub mod {stem(name, module)}\n")
                    text = pathlib.Path(f"crates/{name}/{part}/{module}.antt").read_text()
                    (crate / part / f"{stem(name, module)}.antt").write_text(renamed(text))
                    places[stem(name, module)] = (name, module)
    known, kept = set(), []
    for line in source:
        constant = CONSTANT.match(line)
        if not constant or constant[1] not in known:
            kept.append(line)
            known.add(constant[1] if constant else "")
    types = DECLARED.findall("\n".join(kept))
    twice = {name for name in types if types.count(name) > 1}
    if twice:
        sys.exit(f"wrong-rules: {', '.join(sorted(twice))} stand in two of {', '.join(wanted)}")
    (crate / "src/lib.rt").write_text("\n".join(["#![tactic(auto)]", *kept]) + "\n")
    return places


def check(place):
    words = rattle.words("merged", {"merged": ([], False)}, 2)
    command = ["nice", f"{rattle.kit()}/bin/rattle", "check", *words, "--incremental", "out"]
    run = subprocess.run(command, cwd=place / "crates/merged", stdin=subprocess.DEVNULL, stdout=subprocess.PIPE, stderr=subprocess.STDOUT, text=True, errors="replace")
    return re.search(r"^logic=proved ", run.stdout, re.M) is not None, run.stdout


def refused(log, places):
    """what a log refuses: (part, crate, module, name) -> whether by a fact"""
    told = {}
    for part, file, name, words in (found for found in ERROR.findall(log) if found[1] in places):
        place = (part, *places[file], name)
        told[place] = told.get(place, False) or not any(unfit in words for unfit in UNFIT)
    return told


def tried(place, places, row):
    """the verdict on a row: the edits are made, checked and taken back"""
    _, _, refusals, edits = row
    before = {}
    for file, old, new in edits:
        crate, module = DEFINITION.fullmatch(file).groups()
        path = place / f"crates/merged/specs/{stem(crate, module)}.antt"
        text = path.read_text()
        before.setdefault(path, text)
        if text.count(renamed(old)) != 1:
            return f"not tried: `{old}` stands {text.count(renamed(old))} times in {file}"
        path.write_text(text.replace(renamed(old), renamed(new)))
    proved, log = check(place)
    for path, text in before.items():
        path.write_text(text)
    if proved:
        return "NOT refused"
    told = refused(log, places)
    ill = [f"{module}.{name}" for (part, _, module, name) in told if part == "specs"]
    if ill or not told:
        return f"not tried: {', '.join(ill) or log[-200:]!r} does not check"
    missing = [f"{crate} {module}.{name}" for crate, module, name, _ in refusals if not told.get(("proofs", crate, module, name))]
    facts = [f"{crate} {module}.{name}" for (_, crate, module, name), fact in told.items() if fact]
    return "refused" if not missing else f"not by {'; '.join(missing)}, but by {'; '.join(facts[:4]) or 'no fact'}"


def table(found, verdicts):
    lines = ["| wrong rule | definition | refused by | seen |", "|---|---|---|---|"]
    for label, words, refusals, edits in found:
        files = "; ".join(DEFINITION.sub(r"`\1`, \2", file) for file in dict.fromkeys(file for file, _, _ in edits))
        places = "; ".join(f"`{crate}`: {module}.{name}" + (" (case)" if kind == "case" else "") for crate, module, name, kind in refusals)
        lines.append(f"| {words} (`{label}`) | {files} | {places} | {verdicts.get(label, 'not tried')} |")
    return "\n".join(lines)


def put(page, lines):
    before, rest = page.read_text().split(BEGIN)
    beside = page.with_suffix(".new")
    beside.write_text(f"{before}{BEGIN}\n{lines}\n{END}{rest.split(END)[1]}")
    beside.replace(page)


def families(found):
    """rows that are tried in one crate: those of the chip together, the others by the crate that refuses them"""
    groups = {}
    for row in found:
        crate = row[2][0][0]
        groups.setdefault("chip" if "chip" in closure({refusal[:2] for refusal in row[2]}) else crate, []).append(row)
    return groups


def main(arguments):
    page = pathlib.Path(arguments[1]) if arguments[:1] == ["--write"] else None
    labels = arguments[2:] if page else arguments
    found = rows(pathlib.Path(ROWS))
    verdicts = dict(re.findall(r"^\| .* \(`(\w+)`\) \|.*\| (.*?) \|$", page.read_text(), re.M)) if page else {}
    commit = subprocess.run(["git", "rev-parse", "--short", "HEAD"], capture_output=True, text=True).stdout.strip()
    right = count = 0
    room = "/dev/shm" if os.access("/dev/shm", os.W_OK) else None
    for family, trials in families([row for row in found if not labels or row[0] in labels]).items():
        with tempfile.TemporaryDirectory(dir=room) as top:
            place = pathlib.Path(top)
            places = merge(closure({refusal[:2] for row in trials for refusal in row[2]}), place)
            proved, log = check(place)
            if not proved:
                sys.exit(f"wrong-rules: {family} is not proved as it is:\n{log[-2000:]}")
            for row in trials:
                verdict = tried(place, places, row)
                verdicts[row[0]] = f"refused, {commit}" if verdict == "refused" else verdict
                count, right = count + 1, right + (verdict == "refused")
                print(f"wrong-rules: {row[0]}: {verdict}", flush=True)
                if page:
                    put(page, table(found, verdicts))
    print(f"wrong-rules: {count} rules tried, {right} refused as their rows say")
    return right < count


if __name__ == "__main__":
    sys.exit(main(sys.argv[1:]))
