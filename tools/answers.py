#!/usr/bin/env python3
"""Turns the proofs of one crate that walk the code by hand into Invariants.antt and Answers.antt.

usage: python3 tools/answers.py CRATE NAMES.json        at the top of the repository

NAMES.json is what `rt check --generated FOLDER --old-names` writes in the crate's folder. Each proofs/F/Proof.antt whose goals are those
that the file names becomes answers under today's names; answers that only say `search rules` go, since the check tries that itself.
What cannot be turned stays, and is named.
"""

import json
import os
import re
import sys

OPEN, CLOSE = "([{", ")]}"


def blocks(text):
    """The declarations of a file: runs of lines that begin at the left edge."""
    out, cur = [], []
    for line in text.split("\n"):
        if line.strip() == "":
            continue
        if not line.startswith((" ", "\t", ")")):
            cur = [line]
            out.append(cur)
        else:
            cur.append(line)
    return out


def terms(text):
    """The arguments of an application."""
    out, depth, cur = [], 0, ""
    for ch in text:
        if ch in OPEN:
            depth += 1
        if ch in CLOSE:
            depth -= 1
        if depth == 0 and ch.isspace():
            if cur:
                out.append(cur)
                cur = ""
        else:
            cur += ch
    if cur:
        out.append(cur)
    return out


def unwrap(term):
    term = term.strip()
    while term.startswith("("):
        depth = 0
        for i, ch in enumerate(term):
            depth += (ch in OPEN) - (ch in CLOSE)
            if depth == 0:
                break
        if i == len(term) - 1:
            inner = term[1:-1].strip()
            if has_comma(inner):
                return term
            term = inner
        else:
            return term
    return term


def has_comma(text):
    depth = 0
    for ch in text:
        depth += (ch in OPEN) - (ch in CLOSE)
        if depth == 0 and ch == ",":
            return True
    return False


def plain(name):
    name = name.replace("-", "_").lower()
    return re.sub(r"_(\d+)$", r"\1", re.sub(r"_lem$", "", name))


CLAUSES = {}


def clauses_of(crate):
    """The names of the clauses of each function of a crate that has several of a kind."""
    if crate not in CLAUSES:
        found = {}
        for folder, _, files in os.walk(f"crates/{crate}/src"):
            for f in files:
                with open(os.path.join(folder, f), encoding="utf-8") as it:
                    for m in re.finditer(r"\bfn (\w+)(.*?)^\s*\{", it.read(), re.M | re.S):
                        for kind in ("requires", "ensures"):
                            names = re.findall(kind + r" (\w+) \{", m[2])
                            if len(names) > 1:
                                found[m[1], kind] = names
        CLAUSES[crate] = found
    return CLAUSES[crate]


def named(callee, rest):
    """Clauses that had a number have a name."""
    if not (callee and "::" in callee and len(rest) > 1 and rest[0] in ("ensures", "requires") and rest[1].isdigit()):
        return rest
    parts = callee.split("::")
    names = clauses_of(parts[0]).get((parts[-1], rest[0]), [])
    if not names:
        return rest
    at, more = 0, rest[1:]
    while at < len(names) - 1 and more[:1] == ["1"]:
        at, more = at + 1, more[1:]
    if at < len(names) - 1:
        if more[:1] != ["0"]:
            return rest
        more = more[1:]
    return [rest[0], names[at]] + more


class Function:
    def __init__(self, data, name=""):
        self.name = name
        self.places = {}
        self.order = []
        for i, (name, parent, step, callee, extra) in enumerate(data["places"]):
            self.places[name] = (parent, step, callee, data["arms"][i], extra)
            self.order.append(name)
        self.needs = data["needs"]
        self.asked = [a[0] for a in data["asked_at"]]
        self.loops = data["loops"]
        self.changed = data["changed"]
        self.params = data["params"]
        self.today = {plain(a): b for a, b in data["asked_at"]}
        for name, today in zip(self.order, data["places_by_name"]):
            self.today.setdefault(plain(name), today)

    def up(self, place, n):
        for _ in range(n):
            parent = self.places[place][0]
            if parent is None:
                return None
            place = parent
        return place

    def step(self, asked, place, name, rest):
        """Today's path of a field of a step at a place or above it, for an answer asked further down."""
        for own in (False, True):
            at = asked
            while at is not None:
                arm = self.places[at][3]
                for field, step, path in arm[2] if arm else []:
                    if plain(step) == plain(name) and field.endswith("-own") == own and rest[: len(path)] == path:
                        return [arm[0], field] + rest[len(path) :]
                at = self.places[at][0]
        while place is not None:
            parent, (old, new), callee, arm, extra = self.places[place]
            if plain(old) == plain(name):
                if rest[:1] in (["new"], ["auto"]) and callee in self.params:
                    n = 1
                    while n < len(rest) and rest[n] == "1":
                        n += 1
                    names = self.params[callee]
                    if n < len(rest) and rest[n] == "0" and n - 1 < len(names):
                        rest = [rest[0], names[n - 1]] + rest[n + 1 :]
                return [new] + named(callee, rest)
            place = parent
        return None


PATH = re.compile(r"(?<![\w.'-])([a-z]\w*)((?:\.[\w'-]+)+)")


def turn(term, fn, place, known=None, said=None, var="c"):
    """A term of an answer asked at a place."""
    known = dict(known or {"c": place})

    def path(m):
        head, rest = m[1], m[2][1:].split(".")
        if head not in known:
            return m[0]
        while rest and rest[0] == "before":
            rest = rest[1:]
        if not rest:
            return var
        if rest[0] in ("args", "requires", "ranges", "well_formed", "lifetimes", "type_inv", "auto", "blocks", "utf8"):
            return var + "." + ".".join(named(fn.name, rest))
        found = fn.step(place, place, rest[0], rest[1:])
        if found is None:
            if said is not None:
                said.append(f"no step for {m[0]} at {place}")
            return var + "." + ".".join(rest)
        return var + "." + ".".join(found)

    # `let s = c.before.before in` names a place: it goes, since each step has a name of its own today
    while True:
        m = re.search(r"\blet (\w+) = (\w+)((?:\.before)*) in\s*", term)
        while m and m[2] not in known:
            m = re.compile(r"\blet (\w+) = (\w+)((?:\.before)*) in\s*").search(term, m.end())
        if not m:
            break
        known[m[1]] = place
        term = term[: m.start()] + term[m.end() :]
    return PATH.sub(path, term)


def substituted(body, names):
    def one(m):
        return names.get(m[0], m[0])

    return re.sub(r"(?<![\w.'-])[a-zA-Z]\w*[₀]?(?![\w'-])", one, body)


def imports(text, lines):
    """The use lines that a text needs."""
    out = []
    words = set(re.findall(r"[^\s(){}\[\],;.]+", text)) | set(re.findall(r"[\w'-]+", text)) | set(re.findall(r"(\w+)\.", text))
    for line in lines:
        m = re.match(r"use ([^\s{]+)\.\{(.*)\}$", line)
        if not m:
            m2 = re.match(r"use (\S+)(?: as (\S+))?$", line)
            if m2 and (m2[2] or m2[1].split(".")[-1]) in words:
                out.append(line)
            continue
        keep = []
        for item in m[2].split(","):
            item = item.strip()
            name = item.split(" as ")[-1].strip()
            if name.startswith("◌") or "◌" in name:
                sym = name.strip("◌").split("◌")[0]
                if sym in text:
                    keep.append(item)
            elif name in words or (name == "[]" and "[]" in text):
                keep.append(item)
        if keep:
            out.append(f"use {m[1]}.{{{', '.join(keep)}}}")
    return out


ALL = {}


def clause_names(function, kind):
    """The names of the clauses of a function of any crate, by the function's name alone."""
    if not ALL:
        for crate in sorted(os.listdir("crates")):
            if os.path.isdir(f"crates/{crate}/src"):
                for key, names in clauses_of(crate).items():
                    ALL.setdefault(key, set()).add(tuple(names))
    found = ALL.get((function, kind), set())
    return list(found)[0] if len(found) == 1 else None


def parts(text):
    """The parts of a tuple, or None."""
    text = text.strip()
    if not (text.startswith("(") and text.endswith(")")):
        return None
    out, depth, cur = [], 0, ""
    for i, ch in enumerate(text):
        depth += (ch in OPEN) - (ch in CLOSE)
        if depth == 0 and i < len(text) - 1:
            return None
        if depth == 1 and ch == ",":
            out.append(cur.strip())
            cur = ""
        elif not (depth == 1 and i == 0) and i < len(text) - 1:
            cur += ch
    return out + [cur.strip()]


def recorded(term, crate, name, old, new):
    """A tuple of several clauses is a record by their names today."""
    m = re.match(r"^(.*\bin\s+)(\(.*\))\s*$", term, re.S)
    head, term_ = (m[1], m[2]) if m and parts(m[2]) else ("", term)
    found = parts(term_)
    if not found or len(found) < 2:
        return term
    if re.search(r"-requires(-\d+)?$", new):
        names = clause_names(re.sub(r"-requires(-\d+)?$", "", old).replace("-", "_"), "requires")
    elif new.startswith("returns"):
        names = clauses_of(crate).get((name.split(".")[-1], "ensures"))
    else:
        return term
    while names and len(found) < len(names) and parts(found[-1]):
        found = found[:-1] + parts(found[-1])
    if not names or len(names) != len(found):
        return term
    return head + "record { " + "; ".join(f"{n} = {t}" for n, t in zip(names, found)) + " }"


def aligned(answers, helpers, fn):
    """The answers without those whose goals are gone, so that the others fit best."""
    import functools

    def text(a):
        a = unwrap(a)
        return "\n".join(helpers[a][2]) if a in helpers else a

    def cost(i, j):
        t, (old, new), said = text(answers[i]), fn.needs[j], []
        called = "κs" in t.split(".")[0] if t.startswith("λ") else "κs" in t.split("=")[0]
        turn(t, fn, fn.asked[j], said=said)
        return 10 * len(said) + 100 * (called != bool(re.search(r"-requires(-\d+)?$", new)))

    @functools.lru_cache(None)
    def best(i, j):
        if i == len(answers):
            return (0, ()) if j == len(fn.needs) else (10**9, ())
        out = (10**9, ())
        if j < len(fn.needs):
            c, rest = best(i + 1, j + 1)
            out = (c + cost(i, j), (i,) + rest)
        c, rest = best(i + 1, j)
        drop = 0 if re.search(r"search rules\)?$", text(answers[i]).strip()) else 50
        if c + drop < out[0]:
            out = (c + drop, rest)
        return out

    import sys

    sys.setrecursionlimit(10000)
    return [answers[i] for i in best(0, 0)[1]]


def convert(crate, name, data, path):
    """The files of one function, or what hinders."""
    fn = Function(data, f"{crate}::{name}")
    with open(path, encoding="utf-8") as f:
        text = f.read()
    head = [l for l in text.split("\n") if l.startswith("--")]
    uses = [l for l in text.split("\n") if l.startswith("use ")]
    uses = [l for l in uses if not re.search(r"\.(Statement|Tie|Lts)\b|Rattle\.\w+\.proofs\.[\w+]+\.(Goals|Given|Reads|Kinds)", l)]
    helpers, bodies, unfolds, types, extra = {}, {}, {}, {}, []
    decls = blocks("\n".join(l for l in text.split("\n") if not l.startswith(("--", "use "))))
    spec = None
    i = 0
    while i < len(decls):
        d = "\n".join(decls[i])
        m = re.match(r"^(?:(abbrev) )?(?:pub )?([^\s:]+) : ", d)
        if not m:
            return f"cannot read {d[:60]!r}"
        name_, sig = m[2], d
        group = []
        unf = None
        j = i + 1
        while j < len(decls):
            e = "\n".join(decls[j])
            if e.startswith("unfolding "):
                unf = e
            elif e.startswith(name_ + " ") or e.startswith(name_ + "\n"):
                group.append(e)
            else:
                break
            j += 1
        if name_.endswith("_spec") or name_.endswith("-spec"):
            spec = (name_, sig, unf, group)
        elif re.search(r": tie\.(Need-\S+|invariant_\S+|decreases_\S+)", sig):
            helpers[name_] = (sig, unf, group)
        else:
            extra.append((sig, unf, group))
        i = j
    if spec is None:
        return "no spec"
    body = "\n".join(spec[3]).split("=", 1)[1].strip()
    m = re.match(r"tie\.close\s*\(\s*tie\.spec\b(.*)\)\s*$", body, re.S) or re.match(r"let \w+ =\s*tie\.spec\b(.*)\bin\s+tie\.close \w+\s*$", body, re.S)
    if not m:
        return "another form of spec"
    args = terms(m[1])
    nloops = len(fn.loops)
    laws = args[: 2 * nloops]
    answers = args[2 * nloops :]
    if len(answers) != len(fn.needs):
        # a loop over a `for` has no measure
        if len(args) - nloops == len(fn.needs):
            laws, answers = args[:nloops], args[nloops:]
        else:
            # goals that the check settles today: that a slice keeps its length, and what the search answered
            kept = [a for a in answers if not (unwrap(a) in helpers and re.search(r"Need-same-length", helpers[unwrap(a)][0]))]
            if len(kept) >= len(fn.needs) and not any("same_length" in plain(n[0]) for n in fn.needs):
                answers = kept
            if len(answers) > len(fn.needs):
                answers = aligned(answers, helpers, fn)
            if len(answers) != len(fn.needs):
                return f"{len(answers)} answers and {len(fn.needs)} goals"
    lemmas = {}
    for sig, unf, group in extra:
        m = re.search(r"^(?:abbrev )?([^\s:]+) : \((\w+) : tie\.([\w-]+)", sig)
        at = m and [n for n in fn.order if plain(n) == plain(m[3])]
        if at:
            lemmas[m[1]] = at[0]
    invariants, said = [], []
    for law in laws:
        law = unwrap(law)
        if law not in helpers:
            return f"invariant {law[:40]!r} is not declared"
        sig, unf, group = helpers[law]
        m = re.search(r": tie\.(invariant|decreases)_(\S+)", sig)
        kind, old = m[1], m[2]
        found = [k for k, l in enumerate(fn.loops) if plain(l[0][0]) == plain(old)]
        if not found or len(group) != 1:
            return f"loop {old}"
        (oldname, new), names = fn.loops[found[0]]
        changed = fn.changed[found[0]]
        left, right = group[0].split("=", 1)
        params = left.split()[1:]
        wanted = len(names) + sum(changed)
        if len(params) != wanted:
            return f"{len(params)} parameters of {law}, and {wanted} names"
        table = {}
        for p, n, c in zip(params, names, changed):
            table[p] = f"l.initial.{n}" if c else f"l.{n}"
        for p, n in zip(params[len(names) :], [n for n, c in zip(names, changed) if c]):
            table[p] = f"l.{n}"
        table.pop("_", None)
        invariants.append((f"{kind}-{new}", unf, substituted(right, table)))
    result = []
    for term, (old, new), place in zip(answers, fn.needs, fn.asked):
        term = unwrap(term)
        unf = spec[2]
        if term in helpers:
            sig, unf, group = helpers[term]
            if len(group) != 1:
                return f"{term} has {len(group)} clauses"
            left, right = group[0].split("=", 1)
            params = left.split()[1:]
            term = right.strip("\n")
        else:
            m = re.match(r"λ ([^.]*)\.(.*)$", term, re.S)
            if m:
                params, term = m[1].split(), m[2]
            else:
                params = []
        term = term.strip() if "\n" not in term else term
        if params:
            if params[0] not in ("c", "_"):
                term = re.sub(r"(?<![\w.'-])" + re.escape(params[0]) + r"(?![\w'-])", "c", term)
        else:
            term = f"({term}) c"
        term = re.sub(r"\(search rules, search rules\)", "search rules", term) if term.strip() == "(search rules, search rules)" else term
        bare = unwrap(term.strip())
        if bare == "search rules" and not (unf and re.match(r"returns|loop|.*-requires|.*preserved|.*init", new)):
            continue
        done = recorded(turn(term, fn, place, said=said), crate, name, old, new)
        for lemma, of in lemmas.items():
            at, n = place, 0
            while at is not None and at != of:
                at, n = fn.up(at, 1), n + 1
            if at == of and n:
                done = re.sub(r"(?<![\w.'-])" + re.escape(lemma) + r" c(?![\w.'-])", lemma + " c" + ".before" * n, done)
        result.append((new, unf, done))
    folder = os.path.dirname(path)
    out = []
    qual = f"Rattle.{crate}.proofs.{name}"
    if invariants:
        text = "\n\n".join(f"abbrev pub {n} : goal.{n}\n" + (u + "\n" if u else "") + f"{n} l ={b if b.startswith((' ', chr(10))) else ' ' + b}" for n, u, b in invariants)
        lines = imports(text, uses)
        head_line = head[0] if head else f"-- {name}"
        text = re.sub(r"=\s+let ", "=\n    let ", text)
        with open(folder + "/Invariants.antt", "w", encoding="utf-8") as f:
            f.write("\n".join([f"-- What the loop of `{crate}::{name}` keeps.", *lines, f"use {qual}.Given as goal", "", text, ""]))
    if result or extra:
        chunks = []
        for sig, unf, group in extra:
            m = re.search(r"\((\w+) : tie\.([\w-]+)[^()]*\)", sig)
            at = m and [n for n in fn.order if plain(n) == plain(m[2])]
            if at:
                sig = sig.replace(m[0], f"({m[1]} : goal.{fn.today[plain(m[2])]})")
                sig = turn(sig, fn, at[0], known={m[1]: at[0]}, said=said, var=m[1])
                group = [turn(g, fn, at[0], known={m[1]: at[0]}, said=said, var=m[1]) for g in group]
            chunks.append("\n".join([sig] + ([unf] if unf else []) + group))
        for n, u, b in result:
            chunks.append(f"pub {n} : goal.{n}\n" + (u + "\n" if u else "") + f"{n} c =" + (b if b.startswith("\n") else " " + b))
        text = "\n\n".join(chunks)
        text = re.sub(r"(c =)[ \t]+let ", r"\1\n    let ", text)
        lines = imports(text + "\n" + " ".join(u or "" for _, u, _ in result), uses)
        if "rules" in re.findall(r"\w+", text) and not any("rules}" in l or "rules," in l for l in lines):
            lines.append("use borrow.Author.Rules.{rules}")
        with open(folder + "/Answers.antt", "w", encoding="utf-8") as f:
            f.write("\n".join([*head, *lines, f"use {qual}.Goals as goal", "", text, ""]))
    os.remove(path)
    if not os.listdir(folder):
        os.rmdir(folder)
    return said


def main(crate, names):
    with open(names, encoding="utf-8") as f:
        data = json.load(f)
    turned = left = 0
    for key, value in data.items():
        m = re.match(r"^Rattle-\w+-proofs\.([\w.+]+)\.Lts$", key)
        if not m:
            continue
        name = m[1]
        folder = f"crates/{crate}/proofs/" + name.replace(".", "/")
        path = folder + "/Proof.antt"
        if not os.path.exists(path):
            continue
        said = convert(crate, name, value, path)
        if isinstance(said, str):
            left += 1
            print(f"left: {crate}::{name}: {said}")
        else:
            turned += 1
            for s in said:
                print(f"look: {crate}::{name}: {s}")
    print(f"{crate}: {turned} turned, {left} left")


if __name__ == "__main__":
    main(sys.argv[1], sys.argv[2])
