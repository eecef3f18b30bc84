#!/usr/bin/env python3
"""readme.py [--commands] PAGE..: runs the examples of the pages as they are written; with --commands no listings.

In an indented block a line `$ command` is run by bash in the repository's top folder, and the lines after it are what it prints. Where the
last of them is a refusal, as `30 length`, `2 passed, 1 failed` or `nt6861 vcd: FILE: at byte 45: ..`, it must end with status 1, else with 0. A block of nothing but comments and entries of a
listing is run by target/bin/vectors from a fresh chip.
"""
import pathlib
import re
import subprocess
import sys
import tempfile

ENTRY = re.compile(r"#.*|(?:[0-9]{1,5}\* *)?[0-9A-Fa-f]{8} +[0-9A-Fa-f]{8}(?: .*)?")
REFUSAL = re.compile(r"3[0-6] .*|nt6861 \w+: .*|\d+ passed, [1-9]\d* failed")
complaints = []
commands = listings = 0
alone = "--commands" in sys.argv
pages = [pathlib.Path(name) for name in sys.argv[1:] if name != "--commands"]
for page, block in [(page, block) for page in pages for block in re.findall(r"(?:^    .*\n)+", page.read_text(), re.M)]:
    lines = [line[4:] for line in block.rstrip("\n").split("\n")]
    if lines[0].startswith("$ "):
        for part in re.split(r"^\$ ", "\n".join(lines), flags=re.M)[1:]:
            command, _, expected = part.partition("\n")
            done = subprocess.run(["bash", "-c", command], capture_output=True, text=True)
            commands += 1
            status = 1 if REFUSAL.fullmatch(expected.rstrip("\n").split("\n")[-1]) else 0
            printed = done.stdout + (done.stderr if status else "")
            if done.returncode != status or printed.rstrip("\n") != expected.rstrip("\n"):
                complaints.append(f"{page}: '{command}' ends with status {done.returncode} and prints\n{done.stdout}{done.stderr}")
    elif not alone and all(ENTRY.fullmatch(line) for line in lines):
        with tempfile.TemporaryDirectory() as folder:
            pathlib.Path(folder, "example.txt").write_text("\n".join(lines) + "\n")
            done = subprocess.run([pathlib.Path("target/bin/vectors").resolve(), "example.txt"], cwd=folder, capture_output=True, text=True)
        listings += 1
        if done.stderr or not re.fullmatch(r"example\.txt: words \d+\n", done.stdout):
            complaints.append(f"{page}: the listing that begins '{lines[0]}': {done.stdout}{done.stderr}")
if commands == 0 or listings == 0 and not alone:
    complaints.append(f"{commands} commands and {listings} listings are found: one of each at least is expected")
for text in complaints:
    print(f"readme: {text}")
if complaints:
    sys.exit(1)
print(f"readme: {commands} commands and {listings} listings of {len(pages)} pages give what they say")
