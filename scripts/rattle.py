#!/usr/bin/env python3
"""rattle.py library CRATE FILE: the static library of a crate, built over the libraries that `rt ci` or `rt check` has left below crates/.
rattle.py edits FOLDER [CRATE ..]: checks each crate with each of its must-fail edits over these libraries, from nothing, and leaves in the folder all that the
prover says of it, as CRATE/EDIT.log. `rt ci` tries the same edits, and tells the first line alone.

`rt lib` builds anew each library below that `rt ci` alone has built. The words here are those that `rt` gives to `rattle`, the prover of its kit.
"""
import concurrent.futures
import os
import pathlib
import re
import shutil
import subprocess
import sys
import tempfile

ROOT = pathlib.Path(__file__).resolve().parent.parent


def kit():
    rt = shutil.which("rt") or sys.exit("rattle: the Rattle toolchain (rt) is not on the PATH")
    return pathlib.Path(rt).resolve().parent.parent


def listed():
    """of each crate of crates.txt the libraries that it lists, and whether it is a static library"""
    lines = (line.split("#")[0].partition(":") for line in (ROOT / "crates.txt").read_text().split("\n"))
    return {words[0]: (rest.split(), "staticlib" in words[1:]) for head, _, rest in lines if (words := head.split())}


def below(name, crates):
    """the crates of the repository under a crate, each after those that it lists"""
    found = []
    for dep in crates[name][0]:
        if dep in crates:
            found += [it for it in [*below(dep, crates), dep] if it not in found]
    return found


def words(name, crates, jobs):
    """what `rt` says to `rattle` of a crate, in the crate's folder or in a copy of it"""
    top, rlib = kit(), lambda it: ROOT / "crates" / it / "out/rlib" / f"{it}.rlib"
    said = ["--crate-name", name, "src/main.rt" if (ROOT / "crates" / name / "src/main.rt").is_file() else "src/lib.rt"]
    for dep in ["std", *(it for it in crates[name][0] if it not in crates)]:
        said += ["--extern", f"{dep}={top}/rlibs/{dep}.rlib"]
    said += ["-L", f"dependency={top}/rlibs"]
    for dep in crates[name][0]:
        said += ["--extern", f"{dep}={rlib(dep)}"] if dep in crates else []
    for dep in below(name, crates):
        said += ["-L", f"dependency={rlib(dep).parent}"]
    said += ["--antt-project", f"{top}/rattle/logic/antt-project.json", "--logic-built", f"{top}/logic_built", "--jobs", str(jobs), "--links", f"{name}="]
    return said + (["--crate-type", "staticlib"] if crates[name][1] else [])


def library(name, file):
    crates, top = listed(), kit()
    command = [f"{top}/bin/rattle", "build", *words(name, crates, 1), "--toolchain", f"{top}/toolchain", "--backend", "llvm", "-o", os.path.abspath(file)]
    return subprocess.run(command, cwd=ROOT / "crates" / name, stdin=subprocess.DEVNULL, stderr=subprocess.STDOUT).returncode


def edited(crate, edit):
    """the files that the lines of an edit change, with their new text; each old text stands there once"""
    path, old, texts = "", None, {}
    for line in edit:
        if line.startswith("file: "):
            path = line[6:].strip()
            texts.setdefault(path, (crate / path).read_text())
        elif line.startswith("old: "):
            old = line[5:]
        elif line.startswith("new:"):
            if texts[path].count(old) != 1:
                raise ValueError(f"the old text stands {texts[path].count(old)} times in {path}, and not once: {old}")
            texts[path] = texts[path].replace(old, line[4:].removeprefix(" "))
    return texts


def tried(name, edit, crates):
    """all that the prover says of a crate with the lines of an edit, and the status as the last line"""
    crate = ROOT / "crates" / name
    try:
        texts = edited(crate, edit)
    except (OSError, ValueError, KeyError) as error:
        return f"the edit cannot be made: {error}\nstatus 2\n"
    with tempfile.TemporaryDirectory() as room:
        for part in ("src", "specs", "proofs"):
            if (crate / part).is_dir():
                shutil.copytree(crate / part, f"{room}/{part}")
        for path, text in texts.items():
            pathlib.Path(room, path).write_text(text)
        command = ["nice", f"{kit()}/bin/rattle", "check", *words(name, crates, 1)]
        done = subprocess.run(command, cwd=room, stdin=subprocess.DEVNULL, stdout=subprocess.PIPE, stderr=subprocess.STDOUT, text=True, errors="replace")
    return f"{done.stdout}status {done.returncode}\n"


def side_by_side(call, items):
    """what the call gives for each, as many at a time as RT_JOBS says or there are processors"""
    with concurrent.futures.ThreadPoolExecutor(int(os.environ.get("RT_JOBS") or len(os.sched_getaffinity(0)))) as pool:
        return list(pool.map(call, items))


def edits(folder, names):
    crates = listed()
    found = [it for it in sorted(ROOT.glob("crates/*/must-fail/*.edit")) if not names or it.parts[-3] in names]

    def one(edit):
        log = pathlib.Path(folder, edit.parts[-3], f"{edit.stem}.log")
        log.parent.mkdir(parents=True, exist_ok=True)
        log.unlink(missing_ok=True)
        log.write_text(tried(edit.parts[-3], edit.read_text().split("\n"), crates))

    # the largest crates first, so that no long check is the last
    size = {it: sum(file.stat().st_size for file in (it.parent.parent / "src").rglob("*.rt")) for it in found}
    side_by_side(one, sorted(found, key=lambda it: -size[it]))
    return 0


if __name__ == "__main__":
    if len(sys.argv) == 4 and sys.argv[1] == "library":
        sys.exit(library(*sys.argv[2:]))
    elif len(sys.argv) >= 3 and sys.argv[1] == "edits":
        sys.exit(edits(sys.argv[2], sys.argv[3:]))
    else:
        sys.exit(__doc__)
