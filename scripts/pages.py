#!/usr/bin/env python3
"""pages.py: what README.md and the pages of docs/ name exists, and each says whom it is for.

Looked at: every path that begins with a folder of the repository, every `crate.name` and `crate::function` between backquotes, and every
`./nt6861 COMMAND`. README.md has at most 150 lines of at most 120 characters, tables aside. The notes in docs/landings tell of their own time.
"""
import pathlib
import re
import sys

FOLDERS = "bench|bindings|crates|docs|examples|images|include|model|scripts|tests"
complaints = []


def crates():
    return set(re.findall(r"^([a-z0-9_]+)(?: [a-z0-9_= ]+)?:", pathlib.Path("crates.txt").read_text(), re.M))


def text_of(crate):
    """the code, the definitions and the laws of a crate"""
    return "".join(path.read_text() for part in ("src", "specs", "proofs") for path in pathlib.Path("crates", crate, part).rglob("*") if path.suffix in (".rt", ".antt"))


def paths(page, text):
    count = 0
    for name in re.findall(rf"(?<![\w/.-])((?:{FOLDERS})/[\w./*-]*\w)", text):
        count += 1
        pattern = re.sub(r"\b(NAME|CRATE|LABEL|MODULE|NN)\b", "*", name)
        if not any(pathlib.Path(".").glob(pattern)) and not any(pathlib.Path(".").glob(pattern + ".*")):
            complaints.append(f"{page}: there is no {name}")
    return count


def main():
    known, cache, looked = crates(), {}, 0
    commands = set(re.findall(r"^command (\S+)", pathlib.Path("scripts/commands.txt").read_text(), re.M))
    pages = [pathlib.Path("README.md"), pathlib.Path("images/README.md"), *sorted(pathlib.Path("docs").glob("*.md"))]
    for page in pages:
        text = page.read_text()
        looked += paths(page, text)
        for crate, name in re.findall(r"`([a-z0-9_]+)(?:\.|::)([^\s`./:,()]+)`", text):
            if crate in known and name not in ("bin", "rom", "txt"):
                looked += 1
                if crate not in cache:
                    cache[crate] = text_of(crate)
                if not re.search(rf"(?<!\w){re.escape(name)}(?![\w-])", cache[crate]):
                    complaints.append(f"{page}: {crate} has no {name}")
        for command in re.findall(r"\./nt6861 ([a-z][a-z0-9]*)", text):
            looked += 1
            if command not in commands:
                complaints.append(f"{page}: there is no command {command}")
        if page.name != "README.md" and not re.search(r"\b[Ff]or (whoever|everyone|a |those)", "\n".join(text.split("\n")[:6])):
            complaints.append(f"{page} does not say in its first lines whom it is for")
    lines = pathlib.Path("README.md").read_text().rstrip("\n").split("\n")
    if len(lines) > 150:
        complaints.append(f"README.md has {len(lines)} lines, and 150 are the most")
    complaints.extend(f"README.md: line {number} has {len(line)} characters" for number, line in enumerate(lines, 1) if len(line) > 120 and not line.startswith("|"))
    for text in complaints:
        print(f"pages: {text}")
    if complaints:
        sys.exit(1)
    print(f"pages: {len(pages)} pages, {looked} names of files, commands, theorems and functions, each of them there")


main()
