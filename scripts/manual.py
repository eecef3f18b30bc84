#!/usr/bin/env python3
"""manual.py [--check]: writes the manual page nt6861.1, the completion for bash and the table of commands in docs/COMMANDS.md, all from scripts/commands.txt.

A command whose crate is not in crates.txt is left out, as ./nt6861 leaves it out; one of a script has none. With --check nothing is written, and what differs is told.
"""
import pathlib
import re
import sys

MARK = "<!-- made by scripts/manual.py -->\n"


def entries():
    """each command that is shown: its name, and its fields, each a list of lines"""
    crates = set(re.findall(r"^([a-z0-9_]+)(?: [a-z0-9_= ]+)?:", pathlib.Path("crates.txt").read_text(), re.M))
    shown = {}
    fields = {}
    for line in pathlib.Path("scripts/commands.txt").read_text().split("\n"):
        if not line or line.startswith("#"):
            continue
        field, _, text = line.partition(" ")
        if field == "command":
            name, fields = text, {}
        elif field in ("script", "runs") or field == "crate" and text in crates:
            shown[name] = fields
        fields.setdefault(field, []).append(text)
    return shown


def roff(text):
    return re.sub(r"^([.'])", r"\\&\1", text.replace("\\", "\\e").replace("-", "\\-"))


def manual(shown):
    lines = [
        '.\\" Made by scripts/manual.py from scripts/commands.txt.',
        ".TH NT6861 1",
        ".SH NAME",
        "nt6861 \\- programs around the proved model of the NT6861",
        ".SH SYNOPSIS",
        ".B ./nt6861",
        ".I COMMAND",
        "[ARGUMENT ..]",
        ".SH DESCRIPTION",
        "In the repository what a command runs is proved and built first, where that is not done yet, which may take many minutes and is told; installed, it runs at",
        "once. A file that is not named is standard input. Errors are told on standard error, as nt6861 COMMAND: FILE: what.",
        ".SH COMMANDS",
    ]
    for name, fields in shown.items():
        lines += [".TP", f"\\fB{name}\\fR {roff(fields['usage'][0])}"]
        lines += [roff(line) for line in fields["text"]]
        if "example" in fields:
            lines += [".RS", ".PP", ".nf"]
            lines += [roff("$ " + fields["example"][0])] + [roff(line) for line in fields.get("prints", [])]
            lines += [".fi", ".RE"]
        lines += [".RS", ".PP", f"Status 0: {roff(fields['done'][0])}."]
        if "refused" in fields:
            lines += [f"Status 1: {roff(fields['refused'][0])}."]
        lines += [".RE"]
    lines += [
        ".SH EXIT STATUS",
        ".TP", "0", "done",
        ".TP", "1", "the input was refused or a case failed",
        ".TP", "2", "wrong arguments, or something could not be read, written, made, proved or built",
        ".TP", "128 + n", "ended by signal n, as 141 for a pipe that nobody reads",
    ]
    return "\n".join(lines) + "\n"


def completion(shown):
    options = [f"        {name}) words='{' '.join(re.findall(r'--?[a-z][a-z-]*(?![A-Z])', fields['usage'][0]) + ['-h'])}' ;;" for name, fields in shown.items()]
    return "\n".join([
        "# Completion for bash: source scripts/completion.bash. Made by scripts/manual.py from scripts/commands.txt.",
        "_nt6861() {",
        "    local words='' word=${COMP_WORDS[COMP_CWORD]}",
        "    if [ \"$COMP_CWORD\" = 1 ]; then",
        f"        words='{' '.join(shown)} -h'",
        "    elif [[ $word == -* ]]; then",
        "        case ${COMP_WORDS[1]} in",
        *options,
        "        esac",
        "    else",
        "        mapfile -t COMPREPLY < <(compgen -f -- \"$word\")",
        "        return",
        "    fi",
        "    mapfile -t COMPREPLY < <(compgen -W \"$words\" -- \"$word\")",
        "}",
        "complete -o filenames -F _nt6861 nt6861 ./nt6861",
    ]) + "\n"


def listed(shown, page):
    rows = ["| command | what it gives |", "|---|---|"]
    rows += [f"| `{' '.join([name, *fields['usage'][0].split()])}` | {fields['does'][0]} |" for name, fields in shown.items()]
    parts = page.split(MARK)
    if len(parts) != 3:
        sys.exit(f"manual: docs/COMMANDS.md has {len(parts) - 1} of the two marks '{MARK.strip()}' around its table of commands")
    return parts[0] + MARK + "\n".join(rows) + "\n" + MARK + parts[2]


def main():
    shown = entries()
    if len(shown) < 10:
        sys.exit(f"manual: {len(shown)} commands are found")
    page = pathlib.Path("docs/COMMANDS.md").read_text()
    pages = page + "".join(pathlib.Path(name).read_text() for name in ("README.md", "docs/CAPTURES.md", "docs/FIRMWARE.md"))
    bad = [f"neither README.md nor a page for users has './nt6861 {name}'" for name in shown if not re.search(rf"\./nt6861 {name}\b", pages)]
    for path, text in (("nt6861.1", manual(shown)), ("scripts/completion.bash", completion(shown)), ("docs/COMMANDS.md", listed(shown, page))):
        file = pathlib.Path(path)
        if "--check" not in sys.argv:
            file.write_text(text)
        elif not file.exists() or file.read_text() != text:
            bad.append(f"{path} is not what scripts/commands.txt says: python3 scripts/manual.py makes it anew")
    for text in bad:
        print(f"manual: {text}")
    sys.exit(1 if bad else 0)


main()
