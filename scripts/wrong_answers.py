#!/usr/bin/env python3
"""wrong_answers.py [--write FILE] [CRATE | CRATE/NAME ..]: shows by running that each wrong answer, or each named one, is wrong.

A refusal by the prover can mean that a fact fails, or only that the proof does not find it. So each wrong answer of
crates/*/must-fail that edits code (not a definition, not a contract) is built unproved, with that edit alone, and run beside the
right program. A run that differs tells the two apart:
    driver      tests/drivers/NAME.txt, a program over functions of the crates that it needs, which prints what they give
    listings    vectors over crates/vectors/data and a listing made of the model's words and the model's answers
    CRATE       a program of this repository over its file `stdin`
A driver runs the right crate and all wrong ones in one program: the crate and those above it are there once for each answer, under names
of their own. Where that program does not come to its end, each answer is run alone. All is run by `rt try`, which proves nothing, in a repository of its own. An answer that no run tells apart fails: it is no
wrong answer, or a driver is missing. --write puts the result into FILE, where answers that are not run now keep their row.
"""
import pathlib
import re
import shutil
import subprocess
import sys
import tempfile

ROOT = pathlib.Path(__file__).resolve().parent.parent
RT = shutil.which("rt") or sys.exit("wrong answers: the Rattle toolchain (rt) is not on the PATH")
WORDS = 30000
# what a driver reads of standard input at once
BUFFER = 65536
HEADER = re.compile(r"# ([a-z0-9_]+|[A-Z]\w*\.[^ .:]+)(?:/[\w-]+)?(?: of ([a-z0-9_]+))?(?: \(([a-z0-9_]+)\))?: (.*)")


def dependencies(path):
    lines = (line.split("#")[0].partition(":") for line in path.read_text().split("\n"))
    return {name.split()[0]: rest.split() for name, _, rest in lines if name.strip()}


DEPS = dependencies(ROOT / "crates.txt")


def reached(names):
    """the crates that a program reaches"""
    seen, todo = [], list(names)
    while todo:
        name = todo.pop(0)
        if name not in seen and name in DEPS:
            seen.append(name)
            todo += DEPS[name]
    return seen


def sources(name):
    """the files of a crate's code, by their names in src/"""
    top = ROOT / "crates" / name / "src"
    return {str(path.relative_to(top)): path.read_text() for path in sorted(top.rglob("*.rt"))}


def text_of(path):
    return path.read_bytes().decode(errors="surrogateescape")


def written(path, text):
    path.parent.mkdir(parents=True, exist_ok=True)
    path.write_text(text)
    return path


def without_contracts(text):
    """code alone: what a program that is not proved is made of"""
    text = re.sub(r"^ *(?:requires|ensures)\b.*?^(?=\{|    [a-z]+ \{ |;)", "", text, flags=re.M | re.S)
    return [line for line in text.split("\n") if not re.match(r" *(//|ghost use|requires|ensures)", line)]


class Answer:
    """a wrong answer: its crate, function, name, words, and the edits of src/"""

    def __init__(self, crate, function, name, words):
        self.crate, self.function, self.name, self.words, self.pairs = crate, function, name, words, []

    def title(self):
        return f"{self.crate}/{self.name}" if self.name else f"{self.crate}::{self.function}"

    def row(self):
        """the first two cells of its row in the report"""
        return self.title(), self.words.replace("|", "/")

    def edited(self):
        """the files of the crate's code with the edit; None where no code changes"""
        right = sources(self.crate)
        texts = dict(right)
        for file, old, new in self.pairs:
            name = file.removeprefix("src/")
            if texts.get(name, "").count(old) != 1:
                sys.exit(f"wrong answers: {self.title()}: the old text is {texts.get(name, '').count(old)} times in {file}")
            texts[name] = texts[name].replace(old, new)
        return texts if any(without_contracts(texts[name]) != without_contracts(right[name]) for name in right) else None


def answers():
    for path in sorted(ROOT.glob("crates/*/must-fail/*.edit")):
        crate, file, old, found, named = path.parts[-3], "", "", [], []
        lines = path.read_text().split("\n")
        several = any(HEADER.match(line) for line in lines)
        if not several:
            named = [Answer(crate, None, path.stem, next((line[2:] for line in lines if line.startswith("# ")), ""))]
            found += named
        for line in lines:
            header = HEADER.match(line)
            if header and several:
                # headings one after the other name the same edit
                named = [] if old else named
                old = ""
                named.append(Answer(crate, header[1], header[3], header[4]))
                found.append(named[-1])
            elif line.startswith("file: "):
                file = line[6:]
            elif line.startswith("old: "):
                old = line[5:]
            elif line.startswith("new:") and file.startswith("src/"):
                for answer in named:
                    answer.pairs.append((file, old, line[4:].removeprefix(" ")))
        yield from (answer for answer in found if answer.pairs)


def laid_out(room, libs, program, needs):
    """a repository of a program and of the libraries that it needs, each with its files and with the libraries that it lists"""
    shutil.rmtree(room, ignore_errors=True)
    (room / ".git").mkdir(parents=True)
    for name, (files, _) in [*libs.items(), ("program", (program, needs))]:
        for file, text in files.items():
            written(room / "crates" / name / "src" / file, text)
    written(room / "crates.txt", "".join(f"{name}: {' '.join(listed)}\n" for name, (_, listed) in [*libs.items(), ("program", (program, needs))]))


def ran(room, options=(), arguments=(), given=b""):
    """the status and the output of a program that is run unproved; an end where it is not built"""
    command = ["nice", "-n", "10", RT, "try", *options, "--", *arguments]
    done = subprocess.run(command, input=given, capture_output=True, cwd=room / "crates/program")
    said = done.stderr.decode(errors="replace")
    if "run=none" in said or done.returncode == 2 and "run=" not in said:
        sys.exit(f"wrong answers: {room} is not built: {said.strip()[:2000]}")
    return done.returncode, done.stdout.decode(errors="surrogateescape")


class Program:
    """a program of this repository: its name here, its crate, what it is run on, and what it writes"""

    def __init__(self, name, crate, options, arguments, given, expected):
        self.name, self.crate, self.deps = name, crate, reached(DEPS[crate])
        self.options, self.arguments, self.given, self.expected, self.ready = options, arguments, given, expected, False

    def told(self, crate, texts, work):
        """None where it writes what is expected, with these files of the crate's code; else what is told of the difference"""
        libs = {name: (texts if name == crate else sources(name), DEPS[name]) for name in self.deps}
        laid_out(work / "alone", libs, sources(self.crate), DEPS[self.crate])
        status, wrote = ran(work / "alone", self.options, self.arguments, self.given)
        if (status, wrote) == (0, self.expected):
            return None
        return f"{self.name}, {self.difference(status, wrote)}" if self.name == "listings" else self.name

    def difference(self, status, wrote):
        """the expected line in which the run that failed differs, or how it failed"""
        if wrote == self.expected:
            return f"which ends with status {status}"
        at = next((i for i, (one, other) in enumerate(zip(wrote, self.expected)) if one != other), min(len(wrote), len(self.expected)))
        return "in place of '" + self.expected[self.expected.rfind("\n", 0, at) + 1:].split("\n")[0] + "'"

    def tell(self, crate, codes, work):
        """for each code of the crate, what is told of the difference, or None"""
        if not self.ready:
            if said := self.told(None, None, work):
                sys.exit(f"wrong answers: the right program differs in {said}")
            self.ready = True
        return [self.told(crate, texts, work) for texts in codes]


class Driver:
    """a driver: its name, its text, what it needs, and the words that it reads"""

    def __init__(self, path, words):
        self.name, self.text, self.words = f"driver {path.stem}", path.read_text(), words[:BUFFER]
        self.needs = re.search(r"^// needs: (.*)$", self.text, re.M)[1].split()
        self.deps = reached(self.needs)

    def parts(self, crate, codes, work):
        """what the driver writes with each code of the crate, in one program; None where that does not come to its end"""
        above = [name for name in self.deps if crate in reached([name])]
        libs = {name: (sources(name), DEPS[name]) for name in self.deps if name not in above}
        calls = re.compile(r"\b(" + "|".join(above) + r")(?=::)")
        main = ["// One driver with several codes of a crate.", "use std::io::Print;", "", "fn main(rt: HostRuntime) {", "    let mut given = rt.stdin();"]
        for number, texts in enumerate(codes):
            own = lambda listed: [f"{name}_{number}" if name in above else name for name in listed]
            copies = {name: (texts if name == crate else sources(name), DEPS[name]) for name in above}
            copies["driver"] = ({"lib.rt": self.text[:self.text.index("\nfn main(")] + "\n"}, self.needs)
            for name, (files, listed) in copies.items():
                files = {file: calls.sub(rf"\1_{number}", code).replace("#[unsafe(no_mangle)]\n", "").replace('pub extern "C" fn', "pub fn") for file, code in files.items()}
                libs[f"{name}_{number}"] = (files, own(listed))
            main += [f"    driver_{number}::drive(&mut given, rt.stdout());", '    let _ = rt.stdout().write_all(b"=\\n");']
        laid_out(work / "copies", libs, {"main.rt": "\n".join([*main, "}", ""])}, [f"driver_{number}" for number in range(len(codes))])
        status, wrote = ran(work / "copies", given=self.words * len(codes))
        found = [part.strip() for part in wrote.split("=\n")]
        return found[:-1] if status == 0 and len(found) == len(codes) + 1 else None

    def tell(self, crate, codes, work):
        """for each code of the crate, the driver's name where it writes something else than with the right one, or None"""
        right = sources(crate)
        parts = self.parts(crate, [right, *codes, right], work)
        if parts:
            if parts[0] != parts[-1]:
                sys.exit(f"wrong answers: {self.name} does not write the same twice with the right {crate}")
            return [self.name if part != parts[0] else None for part in parts[1:-1]]
        right_alone = self.parts(crate, [right], work) or sys.exit(f"wrong answers: {self.name} does not come to its end")
        return [self.name if self.parts(crate, [texts], work) != right_alone else None for texts in codes]


def generated(work):
    """the model's words, and a listing of them with the model's answers"""
    model = ROOT / "target/cargo/release/model"
    subprocess.run(["cargo", "build", "--offline", "--quiet", "--release", "--bin", "model"], check=True, cwd=ROOT)
    words = subprocess.run([model, "words", "7", str(WORDS)], check=True, capture_output=True).stdout
    given = subprocess.run([model, "answers"], check=True, capture_output=True, input=words).stdout.decode().split()
    entries = (f"{int.from_bytes(words[4 * i:4 * i + 4], 'little'):08X} {answer}\n" for i, answer in enumerate(given))
    (work / "generated.txt").write_text("".join(entries))
    return words


def listings(work):
    """vectors over its listings and the generated one"""
    data = ROOT / "crates/vectors"
    names = (data / "args").read_text().split()
    options = ["--data", f"generated.txt={work}/generated.txt"]
    for name in names:
        options += ["--data", f"{name}={data}/data/{name}"]
    return Program("listings", "vectors", options, ["generated.txt", *names], b"", f"generated.txt: words {WORDS}\n" + (data / "stdout").read_text())


def runs(work):
    """the drivers and the programs"""
    words = generated(work)
    found = [Driver(path, words) for path in sorted((ROOT / "tests/drivers").glob("*.txt"))]
    found.append(listings(work))
    for path in sorted(ROOT.glob("crates/*/src/main.rt")):
        crate = path.parent.parent
        if crate.name != "vectors" and (crate / "stdin").is_file():
            arguments = (crate / "args").read_text().splitlines() if (crate / "args").is_file() else []
            options = [word for path in sorted((crate / "data").rglob("*")) if path.is_file() for word in ("--data", f"{path.relative_to(crate / 'data')}={path}")]
            found.append(Program(crate.name, crate.name, options, arguments, (crate / "stdin").read_bytes(), text_of(crate / "stdout")))
    return found


def rank(run, crate):
    """the crate's own driver first, then one that calls the crate itself, then programs, then drivers above it"""
    driver = isinstance(run, Driver)
    return 0 if run.name == f"driver {crate}" else 1 if driver and crate in run.needs else 3 if driver else 2


def told_by(programs, crate, texts, work):
    """for each code of a crate the run that differs with it, or None"""
    told = [None] * len(texts)
    for run in sorted((run for run in programs if crate in run.deps), key=lambda run: rank(run, crate)):
        left = [place for place, by in enumerate(told) if by is None]
        if left:
            for place, by in zip(left, run.tell(crate, [texts[place] for place in left], work)):
                told[place] = by
    return told


def main(arguments):
    out = pathlib.Path(arguments.pop(arguments.index("--write") + 1)) if "--write" in arguments else None
    wanted = [word for word in arguments if word != "--write"]
    kept = rows_of(out) if out and wanted else {}
    rows, skipped, failed, left, now = [], 0, 0, 0, {}
    for answer in answers():
        text = answer.edited()
        if text is None:
            skipped += 1
        elif wanted and answer.crate not in wanted and answer.title() not in wanted:
            rows += [kept[answer.row()]] if answer.row() in kept else []
            left += answer.row() not in kept
        else:
            rows.append(answer)
            now.setdefault(answer.crate, []).append((answer, text))
    with tempfile.TemporaryDirectory() as folder:
        work = pathlib.Path(folder)
        programs = runs(work)
        for crate, found in now.items():
            for (answer, _), by in zip(found, told_by(programs, crate, [text for _, text in found], work)):
                failed += by is None
                rows[rows.index(answer)] = (*answer.row(), by or "NOTHING: it is to be replaced")
                print(f"{answer.title()}: {by or 'NOTHING TELLS IT APART: ' + answer.words}", flush=True)
            if out:
                done = [row for row in rows if isinstance(row, tuple)]
                out.write_text(report(done, skipped, left + len(rows) - len(done)))
    print(f"wrong answers: {len(rows)} that edit code are run, {failed} of them now told apart by nothing; {skipped} edit a contract alone")
    sys.exit(1 if failed else 0)


def rows_of(page):
    """the rows of an earlier result, by wrong answer and words"""
    lines = page.read_text().split("\n") if page.is_file() else []
    cells = [[cell.strip() for cell in line.strip("|").split("|")] for line in lines if line.startswith("| ")]
    return {(row[0], row[1]): tuple(row) for row in cells if len(row) == 3}


def report(rows, skipped, left):
    told = sum(not by.startswith("NOTHING") for _, _, by in rows)
    unrun = f" {left} were not run yet, and have no row." if left else ""
    lines = [
        "# Wrong answers that were run",
        "",
        "For whoever doubts that a refused program is wrong. The last result of `scripts/check-wrong-answers.sh`, which writes this page. Each wrong answer of a must-fail edit that changes code",
        "was built unproved, with that edit alone, and run beside the right program; the run named in the last column differed.",
        "`driver NAME` is `tests/drivers/NAME.txt`, `listings` are those of `crates/vectors/data` and one of generated words with the",
        "independent model's answers (generated.txt), and another name is the program `crates/NAME` over its file `stdin`.",
        "",
        f"{told} of {len(rows)} differ.{unrun} {skipped} more edit a contract alone, and have no code to run. Edits of definitions are not run: there a",
        "theorem about the definition fails.",
        "",
        "| wrong answer | what it does | the run that differs |",
        "|---|---|---|",
    ]
    return "\n".join(lines + [f"| {title} | {words} | {by} |" for title, words, by in rows]) + "\n"


main(sys.argv[1:])
