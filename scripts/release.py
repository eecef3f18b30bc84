#!/usr/bin/env python3
"""release.py [FOLDER]: the sheet to sign, as release.md and release.html in FOLDER (target/release without one).

Everything on it is read from the repository and from the record that .ci/run leaves in target/gate; nothing is typed in. It is refused, with
status 1 and the reason, where the tree differs from its commit, where the gate has not passed on this commit with this toolchain, where what the
gate printed or built has been changed since, and where a cell would be empty. Status 2: something cannot be read or written.
"""
import hashlib
import html
import os
import pathlib
import re
import subprocess
import sys

GATE = pathlib.Path("target/gate")
WRONG = re.compile(r"^# (?:[a-z0-9_]+(?:/[\w'-]+)?(?: of [a-z0-9_]+)?|[A-Z]\w*\.[^ .:]+)( \([a-z0-9_]+\))?: ", re.M)
# which independent program or peer a check compares with
PEERS = {
    "check-model.sh": "model in Rust, written from document 01", "check-states.sh": "the model's state in bytes", "check-holds.sh": "the model's holds",
    "check-rates.sh": "rates in exact arithmetic", "check-foreign-pairs.sh": "pairs of runs on the model", "check-addresses.sh": "a second reading of the bus, and both chips",
    "check-firmware.sh": "an independent 6502 core with the model", "check-counters6862.sh": "a model of the NT6862's counters", "check-edid.sh": "an independent check of EDID blocks",
    "check-vcd.sh": "an independent reader of dumps", "check-waves.sh": "an independent writer of dumps; viewers' converters", "check-recordings.sh": "an independent reader and writer of recordings",
    "check-why.sh": "a model that looks back over all states", "check-must-fail.sh": "wrong programs, refused by the prover", "check-vectors.sh": "listings written by hand from the documents",
    "check-recall.sh": "the image and lists of the recall, byte by byte",
}


class Refused(Exception):
    pass


def text_of(*arguments):
    return subprocess.run(arguments, capture_output=True, text=True, check=True).stdout.strip()


def sum_of(path):
    return hashlib.sha256(path.read_bytes()).hexdigest()


def record():
    """what the gate has left, and that it is of this commit, this toolchain and a clean tree"""
    commit = text_of("git", "rev-parse", "HEAD")
    changed = text_of("git", "status", "--porcelain", "--untracked-files=normal")
    if changed:
        raise Refused(f"the tree differs from its commit: {changed.splitlines()[0].strip()}")
    if not (GATE / "record").exists():
        raise Refused("the gate has left no record here: run bash .ci/run on this commit first")
    fields = dict(line.split(" ", 1) for line in (GATE / "record").read_text().splitlines())
    for name in ("commit", "clean", "began", "ended", "toolchain", "last", "log", "counts"):
        if not fields.get(name):
            raise Refused(f"the gate's record says nothing of '{name}'")
    if fields["commit"] != commit:
        raise Refused(f"the gate's record is of commit {fields['commit'][:12]}, and this is {commit[:12]}")
    if fields["clean"] != "yes":
        raise Refused("the gate has run on a tree that differed from its commit")
    if not re.fullmatch(r"[1-9][0-9]* passed, 0 failed", fields["last"]):
        raise Refused(f"the gate's last line is '{fields['last']}'")
    if text_of("rt", "version") != fields["toolchain"]:
        raise Refused(f"the toolchain is not the one of the gate, {fields['toolchain']}")
    if sum_of(GATE / "log") != fields["log"]:
        raise Refused("what the gate has printed was changed since")
    fields["committed"] = text_of("git", "log", "-1", "--format=%cs")
    return fields


def printed():
    """the lines of each check, and the edit files refused, by the gate's log"""
    lines, name = {}, ""
    for line in (GATE / "log").read_text().splitlines():
        if line.startswith("==== "):
            name = line[5:]
        else:
            lines.setdefault(name, []).append(line)
    refused = set(re.findall(r"^rt: must-fail (\S+)\.edit: refused, as it must be", "\n".join(lines.get("rt ci", [])), re.M))
    return lines, refused


def edit_files():
    """the edit file of each label, as crate/label -> crate/file"""
    files = {}
    for path in pathlib.Path("crates").glob("*/must-fail/*.edit"):
        crate, headers = path.parts[1], WRONG.findall(path.read_text())
        for label in [h[2:-1] for h in headers if h] if headers else [path.stem]:
            files[f"{crate}/{label}"] = f"{crate}/{path.stem}"
    return files


def statements(module):
    """the statements of a file of crates/demands_laws/proofs, each with the section of the file that it stands in"""
    section, found = "", []
    for line in pathlib.Path("crates/demands_laws/proofs", module + ".antt").read_text().splitlines():
        if line.startswith("-- ---- "):
            section = line[8:]
        if m := re.match(r" *pub ([^\s:]+) :", line):
            found.append((section, m.group(1)))
    return found


def stated(module, names):
    """a cell: the file and the names in it, or nothing where there are none"""
    return f"{module}.antt: {', '.join(names)}" if names else ""


def tables():
    """the rows of docs/SHEET.md by section: the names in the columns promise, wrong program and case"""
    sections, heading, columns = {}, "", None
    for line in pathlib.Path("docs/SHEET.md").read_text().splitlines():
        if line.startswith("## "):
            heading = line[3:]
        if not line.startswith("|"):
            columns = None
            continue
        cells = [cell.strip() for cell in line.strip().strip("|").split("|")]
        if columns is None:
            columns = cells
        elif not re.fullmatch(r"[-| :]+", line):
            sections.setdefault(heading, []).append(dict(zip(columns, cells)))
    return sections


def named(rows, column):
    return sorted({name for row in rows for name in re.findall(r"`([^`]+)`", row.get(column, ""))})


def evidence(rows, files, refused):
    """of rows of the sheet: rules, promises, wrong programs refused, cases"""
    wrong = [name for name in named(rows, "wrong program") if "/" in name]
    missing = [name for name in wrong if files.get(name) not in refused]
    if missing:
        raise Refused(f"the gate's log has no refusal of {missing[0]}")
    counts = len(rows), len(named(rows, "promise")) + len(named(rows, "theorem")), len(wrong), len(named(rows, "case"))
    return tuple(str(count) if count else "0, for the reasons in the sheet" for count in counts)


def promises(files, refused):
    """a row for each demand, the cases, the recall and each wish: what is stated, where, and what shows it"""
    sheet, rows = tables(), []
    demands = sheet["The three demands"]
    for title, module, word in (("Demand 1", "Demand1", "Demand 1"), ("Demand 2", "Demand2", "Demand 2"), ("Demand 3", "Demand3", "Demand 3"),
                                ("P1 to P12", "Cases", "P1 to P12"), ("The recall", "Recall", "The recall")):
        own = [row for row in demands if row["rule"].startswith(word)]
        rows.append((title, stated(module, [name for _, name in statements(module)]), *evidence(own, files, refused)))
    wishes = statements("Wishes")
    for number in range(1, 15):
        own = [row for heading, part in sheet.items() if re.match(rf"Wish {number}\b", heading) for row in part]
        names = [name for section, name in wishes if re.match(rf"Wish(es)? (\d+ and )?{number}\b|Wishes {number} and", section)]
        rows.append((f"Wish {number}", stated("Wishes", names), *evidence(own, files, refused)))
    base = [(heading, *evidence(part, files, refused)) for heading, part in sheet.items() if not heading.startswith(("Wish", "The three demands"))]
    return rows, base


def compared(lines):
    rows = []
    for check, peer in PEERS.items():
        said = [line for line in lines.get(check, []) if line.strip()]
        if not said:
            raise Refused(f"the gate's log has nothing of {check}")
        best = next((line for line in said if re.search(r"agree|refused|listings|of the image", line)), said[-1])
        rows.append((peer, best[:150]))
    return rows


def limits():
    parts = re.split(r"^## ", pathlib.Path("docs/LIMITS.md").read_text(), flags=re.M)[1:]
    found = [(part.split("\n", 1)[0], [" ".join(item.split()) for item in re.findall(r"^- (.*(?:\n  .*)*)", part, re.M)]) for part in parts]
    if len(found) < 3 or not all(items for _, items in found):
        raise Refused("docs/LIMITS.md has an empty list")
    return found


def files_made():
    rows = []
    for line in (GATE / "made").read_text().splitlines():
        was, name = line.split(None, 1)
        if not pathlib.Path(name).exists() or sum_of(pathlib.Path(name)) != was:
            raise Refused(f"{name} is not the file that the gate has made")
        rows.append((name, was))
    if len(rows) < 10:
        raise Refused(f"the gate's record names {len(rows)} files")
    return rows


def sheet():
    fields = record()
    lines, refused = printed()
    rows, base = promises(edit_files(), refused)
    decided = sum(line.startswith("|") and not re.match(r"\|[-| :]+\||\| *(what|question|place|rule)", line) for line in pathlib.Path("docs/DECISIONS.md").read_text().splitlines())
    parts = [
        ("table", "What it is of", ("", ""), [
            ("commit", f"{fields['commit']} of {fields['committed']}; the tree is clean"), ("toolchain", fields["toolchain"]),
            ("gate", f"{fields['last']}, from {fields['began']} to {fields['ended']}; {fields['counts']} counts held"), ("log of the gate, SHA-256", fields["log"])]),
        ("table", "Promises: statements in crates/demands_laws/proofs, and the rows of docs/SHEET.md behind them",
         ("promise", "stated and proved as", "rules", "contracts and theorems", "wrong programs refused", "cases"), rows),
        ("table", "Document 01, section by section (docs/SHEET.md)", ("section", "rules", "contracts and theorems", "wrong programs refused", "cases"), base),
        ("table", "Compared in this run of the gate", ("with", "as printed"), compared(lines)),
        *[("list", "Not covered: " + title[0].lower() + title[1:], (), items) for title, items in limits()],
        ("list", "Readings", (), [f"docs/DECISIONS.md records {decided} readings and decisions of ours"]),
        ("table", "Files made and proved in this run, SHA-256", ("file", "sum"), files_made()),
        ("table", "Signed", ("name", "date", "signature"), [("........................", "........................", "................................................")]),
    ]
    for kind, title, head, body in parts:
        for row in body:
            if not all(str(cell).strip() for cell in (row if kind == "table" else [row])):
                raise Refused(f"a cell would be empty: {title}, {row[0] if kind == 'table' else ''}")
    return parts


def markdown(parts):
    out = ["# The NT6861, proved: release sheet", ""]
    for kind, title, head, body in parts:
        out += [f"## {title}", ""]
        if kind == "table":
            out += ["| " + " | ".join(head) + " |", "|" + "---|" * len(head)]
            out += ["| " + " | ".join(str(cell).replace("|", "/") for cell in row) + " |" for row in body]
        else:
            out += [f"- {item}" for item in body]
        out += [""]
    return "\n".join(out)


STYLE = """@page { size: A4; margin: 9mm } body { font: 6.6pt/1.22 sans-serif; margin: 0 } h1 { font-size: 11pt; margin: 0 0 2pt }
h2 { font-size: 7.6pt; margin: 4pt 0 1pt } table { border-collapse: collapse; width: 100% } td, th { border: 0.3pt solid #999; padding: 0.4pt 2pt;
text-align: left; vertical-align: top; overflow-wrap: anywhere } td:first-child, th { white-space: nowrap } ul { margin: 0; padding-left: 9pt } tr { break-inside: avoid } .signed td { height: 20pt }"""


def page(parts):
    out = ["<!DOCTYPE html>", '<html lang="en"><head><meta charset="utf-8"><title>The NT6861, proved: release sheet</title>', f"<style>{STYLE}</style></head><body>",
           "<h1>The NT6861, proved: release sheet</h1>"]
    for kind, title, head, body in parts:
        out.append(f"<h2>{html.escape(title)}</h2>")
        if kind == "list":
            out += ["<ul>"] + [f"<li>{html.escape(item)}</li>" for item in body] + ["</ul>"]
            continue
        out.append(f'<table class="{"signed" if title == "Signed" else "plain"}">')
        if any(head):
            out.append("<tr>" + "".join(f"<th>{html.escape(cell)}</th>" for cell in head) + "</tr>")
        out += ["<tr>" + "".join(f"<td>{html.escape(str(cell))}</td>" for cell in row) + "</tr>" for row in body]
        out.append("</table>")
    return "\n".join(out + ["</body></html>"]) + "\n"


def main():
    if len(sys.argv) > 2 or len(sys.argv) == 2 and sys.argv[1].startswith("-"):
        print("nt6861 release: one folder at most; ./nt6861 release -h says what it takes", file=sys.stderr)
        return 2
    top = pathlib.Path(__file__).resolve().parent.parent
    folder = pathlib.Path(sys.argv[1]).absolute() if len(sys.argv) == 2 else top / "target/release"
    try:
        os.chdir(top)
        parts = sheet()
        folder.mkdir(parents=True, exist_ok=True)
        for name, text in (("release.md", markdown(parts)), ("release.html", page(parts))):
            made = folder / (name + ".new")
            made.write_text(text)
            made.replace(folder / name)
            print(folder / name)
    except Refused as why:
        print(f"nt6861 release: refused: {why}", file=sys.stderr)
        return 1
    except (OSError, subprocess.CalledProcessError, KeyError, ValueError) as why:
        print(f"nt6861 release: {why}", file=sys.stderr)
        return 2
    return 0


sys.exit(main())
