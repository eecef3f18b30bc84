#!/usr/bin/env python3
"""checks.py: the list of checks, scripts/checks.txt, held to the scripts and to what they print.

checks.py list: prints the scripts of the gate, a line each. Fails where a script is listed and missing or empty, or is there and not listed.
checks.py held FOLDER: in the folder each check has a file of its name with what it printed, and that is what the list asks of it. Prints how many
counts were held, or what is missing, a line each, and fails.
"""
import pathlib
import re
import sys

LIST = pathlib.Path("scripts/checks.txt")


def entries():
    """each check with its texts, and those that are no part of the gate"""
    checks, apart, name = {}, [], None
    for line in LIST.read_text().split("\n"):
        if not line.strip() or line.startswith("#"):
            continue
        if line.startswith(" "):
            if name is None:
                sys.exit(f"checks: {LIST}: '{line.strip()}' stands under no check")
            checks[name].append(line.strip())
        elif line.startswith("apart "):
            apart += line.split()[1:]
        else:
            name = line.strip()
            if name in checks:
                sys.exit(f"checks: {LIST}: {name} is listed twice")
            checks[name] = []
    return checks, apart


def pattern(text):
    """a text of the list as an expression, each count a group, and the counts that it asks for"""
    floors = [int(floor) for floor in re.findall(r"\{(\d+)\}", text)]
    parts = re.split(r"(\{\d+\}|\*)", text)
    made = "".join("([0-9][0-9,]*)" if part.startswith("{") else ".*" if part == "*" else re.escape(part) for part in parts)
    return re.compile(made), floors


def taken(text, lines):
    """the place of the first line that one of the texts holds for, the number of counts in it, and what is wrong where there is none"""
    near = f"no line is '{text}'"
    for one in text.split(" / "):
        expression, floors = pattern(one)
        for place, line in enumerate(lines):
            found = line is not None and expression.fullmatch(line)
            if not found:
                continue
            counts = [int(count.replace(",", "")) for count in found.groups()]
            if all(count >= floor for count, floor in zip(counts, floors)):
                return place, len(floors), ""
            near = f"'{line}' counts less than '{one}'"
    return None, 0, near


def printed(log):
    return [line.strip() for line in log.read_text(errors="replace").split("\n") if line.strip()] if log.exists() else []


def wrong_in(texts, lines):
    """how many counts are held, and what is wrong"""
    last = len(lines) - 1
    counts = 0
    wrong = []
    for text in texts:
        place, number, near = taken(text, lines)
        if place is None:
            wrong.append(near)
            continue
        lines[place] = None
        counts += number
    if not texts:
        wrong.append(f"{LIST} asks no line of it")
    elif not wrong and (last < 0 or lines[last] is not None):
        wrong.append("its last line is none of those that it must print")
    if not any(re.search(r"\{\d*[1-9]\d*\}", text) for text in texts):
        wrong.append(f"{LIST} asks no count of it")
    return counts, wrong


def held(folder):
    checks, _ = entries()
    total = 0
    bad = False
    for name, texts in checks.items():
        counts, wrong = wrong_in(texts, printed(pathlib.Path(folder, name)))
        total += counts
        bad = bad or bool(wrong)
        for text in wrong:
            print(f"checks: {name}: {text}")
    if bad:
        sys.exit(1)
    print(total)


def listed():
    checks, apart = entries()
    scripts = [name for name in checks if name != "rt-ci"]
    there = {path.name for path in pathlib.Path("scripts").glob("check-*.sh")}
    wrong = [f"{name} is listed and missing" for name in scripts + apart if name not in there]
    wrong += [f"{name} is empty" for name in scripts if name in there and not pathlib.Path("scripts", name).read_text().strip()]
    wrong += [f"{name} is not listed in {LIST}" for name in sorted(there - set(scripts) - set(apart))]
    wrong += [f"{LIST} asks no line of {name}" for name in checks if not checks[name]]
    wrong += [] if "rt-ci" in checks else [f"{LIST} asks nothing of rt ci"]
    for text in wrong:
        print(f"checks: {text}", file=sys.stderr)
    if wrong or not scripts:
        sys.exit(1)
    print("\n".join(scripts))


if sys.argv[1:] == ["list"]:
    listed()
elif len(sys.argv) == 3 and sys.argv[1] == "held":
    held(sys.argv[2])
else:
    sys.exit(__doc__)
