#!/usr/bin/env python3
"""vectors_expect.py [--check] CRATE: writes `args` and `stdout` of the program vectors from its listings; with --check compares them.

`args` names each listing below CRATE/data. `stdout` has, for each, the number of its words, taken from the text alone: a line's
count (1 if it has none) for each entry. A listing below data/reader that is made to stop says in a line `# prints: ..` what is
printed instead; no other listing may. A file that is no listing, a listing without a word and a count of 0 are errors.
"""
import pathlib
import re
import sys

ENTRY = re.compile(rb"[ \t\r]*(?:([0-9]{1,5})\*[ \t\r]*)?[0-9A-Fa-f]{8}[ \t\r]+[0-9A-Fa-f]{8}(?:[ \t\r].*)?", re.DOTALL)
MARK = b"# prints: "


def printed(name: str, text: bytes) -> str:
    words = 0
    for number, line in enumerate(text.split(b"\n"), 1):
        if line.startswith(MARK):
            if not name.startswith("reader/"):
                sys.exit(f"{name}: line {number}: only a listing below reader/ may say what is printed instead")
            return line[len(MARK):].decode().strip()
        if line.strip(b" \t\r") == b"" or line.lstrip(b" \t\r").startswith(b"#"):
            continue
        entry = ENTRY.fullmatch(line)
        if not entry:
            sys.exit(f"{name}: line {number} is malformed: {line.decode(errors='replace')}")
        count = int(entry.group(1) or 1)
        if count == 0:
            sys.exit(f"{name}: line {number}: a count of 0 gives the word to no chip: {line.decode(errors='replace')}")
        words += count
    if words == 0:
        sys.exit(f"{name}: no words, so it shows nothing")
    return f"words {words}"


def main(check: bool, crate: pathlib.Path) -> None:
    data = crate / "data"
    files = sorted(str(path.relative_to(data)) for path in data.rglob("*") if not path.is_dir())
    other = [name for name in files if not name.endswith(".txt")]
    if other:
        sys.exit(f"{other[0]}: not a listing: its name does not end in .txt, so it would never be run")
    derived = {
        "args": "".join(f"{name}\n" for name in files),
        "stdout": "".join(f"{name}: {printed(name, (data / name).read_bytes())}\n" for name in files),
    }
    for part, text in derived.items():
        if not check:
            (crate / part).write_text(text)
            continue
        found = (crate / part).read_text() if (crate / part).is_file() else ""
        if found != text:
            lines = set(found.split("\n")) ^ set(text.split("\n"))
            sys.exit(f"{crate / part} is not what the listings make: {sorted(lines)[0] if lines else 'another order'}\n"
                     f"python3 scripts/vectors_expect.py {crate} writes it anew")
    print(len(files), "listings")


words = [word for word in sys.argv[1:] if word != "--check"]
if len(words) != 1:
    sys.exit(__doc__)
main("--check" in sys.argv[1:], pathlib.Path(words[0]))
