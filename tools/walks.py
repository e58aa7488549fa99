#!/usr/bin/env python3
"""Turns proofs that walk the code by hand (proofs/F/Proof.antt) into Invariants.antt and Answers.antt.

usage: tools/walks.py CRATE..    at the top of the repository

The old and new names of goals and steps come from `rt check --generated FOLDER --old-names`. An answer that today's search finds by itself is
dropped; the others are carried over with their paths turned. The check decides what is left by hand.
"""

import json
import os
import re
import subprocess
import sys
import tempfile

TRIVIAL = re.compile(r"^(search rules|search rules depth \d+|omega arith|search \(rules\)|search needs)$")


def norm(name):
    return re.sub(r"^overflow_", "", name.replace("-", "_"))


def blocks(text):
    found, now = [], []
    for line in text.split("\n"):
        if not line.strip():
            if now:
                found.append(now)
            now = []
        else:
            now.append(line)
    if now:
        found.append(now)
    # lines of a block that begin with white space belong to the block before
    joined = []
    for b in found:
        if joined and b[0][0] == " ":
            joined[-1] += [""] + b
        else:
            joined.append(b)
    return ["\n".join(b) for b in joined]


def chain(places, at):
    """The places from at up to the start."""
    by = {p[0]: p for p in places}
    found = []
    while at is not None:
        p = by[at]
        found.append(p)
        at = p[1]
    return found


def nested(parts, n):
    """Which of n facts, joined as pairs, a path goes to, and what is left of the path."""
    k = 0
    while k < n - 1 and k < len(parts) and parts[k] == "1":
        k += 1
    if k == n - 1:
        return k, parts[k:]
    if k < len(parts) and parts[k] == "0":
        return k, parts[k + 1 :]
    return None, parts


def first_params(info, places, step):
    for p in places:
        if p[2][0] and norm(p[2][0]) == step and p[3] in info["params"]:
            return info["params"][p[3]]
    return None


def as_record(body, fields):
    """The pairs at a body's end as a record of the clauses by name."""
    text = body.rstrip()
    if not text.endswith(")"):
        return body
    depth, i = 0, len(text)
    while i:
        i -= 1
        depth += {")": 1, "(": -1, "]": 1, "[": -1, "}": 1, "{": -1}.get(text[i], 0)
        if depth == 0:
            break
    if i and not re.search(r"(^|\bin|=)\s*$", text[:i]):
        return body
    head, inner, values = text[:i], text[i:], []
    for k in range(len(fields) - 1):
        parts = commas(inner)
        if parts is None:
            return body
        if len(parts) == 2:
            values.append(parts[0])
            inner = parts[1]
        elif len(parts) == len(fields) - k:
            values += parts[:-1]
            inner = parts[-1]
            break
        else:
            return body
    values.append(inner)
    if len(values) != len(fields):
        return body
    return head + "record { " + "; ".join(f"{f} = {v.strip()}" for f, v in zip(fields, values)) + " }"


def commas(text):
    text = text.strip()
    if not (text.startswith("(") and text.endswith(")")):
        return None
    parts, depth, now = [], 0, ""
    for ch in text[1:-1]:
        if ch in "([{":
            depth += 1
        if ch in ")]}":
            depth -= 1
            if depth < 0:
                return None
        if ch == "," and depth == 0:
            parts.append(now)
            now = ""
        else:
            now += ch
    if now.strip():
        parts.append(now)
    return parts if len(parts) > 1 else None


PATH = re.compile(r"(?<![\w.'-])c((?:\.[^\s(){}\[\],;.:]+)+)")


KEYWORD = re.compile(r"\b((?:rw|simp) (?:\((?:[^()]|\((?:[^()]|\([^()]*\))*\))*\)|[^\s()]+)) at ")


def aliases(body):
    body = KEYWORD.sub(r"\1 @ ", body)
    # a name for the record of an earlier place is written out
    while True:
        m = re.search(r"let (\S+) = (c(?:\.before)*(?:\.[\w-]+\.given)?) in\s*", body)
        if not m:
            break
        body = body[: m.start()] + re.sub(r"(?<![\w.'-])" + re.escape(m.group(1)) + r"(?![\w'-])", m.group(2), body[m.end() :])
    for m in list(re.finditer(r"let (\S+) = (c(?:\.[\w-]+)+) in\s*", body)):
        if re.search(r"(?<![\w.'-])" + re.escape(m.group(1)) + r"\.(auto|given|new\.[01])(?![\w-])", body) or m.group(2).endswith((".requires", ".pre")):
            body = body.replace(m.group(0), "", 1)
            body = re.sub(r"(?<![\w.'-])" + re.escape(m.group(1)) + r"(?![\w'-])", m.group(2), body)
    return body.replace(" @ ", " at ")


def turn_paths(body, info, at):
    body = aliases(body)
    places = info["places"]
    names = {p[0]: i for i, p in enumerate(places)}
    way = chain(places, at) if at in names else []
    args = [(a.replace(" ", ""), b.replace(" ", "")) for a, b in info["args"]]
    moved = {a.rsplit(".", 1)[1]: b.rsplit(".", 1)[1] for a, b in args if a.startswith(".args.")}

    def one(m):
        parts = m.group(1)[1:].split(".")
        k = 0
        while parts and parts[0] == "before":
            parts.pop(0)
            k += 1
        if not parts:
            return "c"
        here = way[k:] if k < len(way) else way
        first = norm(parts[0])
        # what a match binds
        for p in here + way:
            arm = info["arms"][names[p[0]]]
            if not arm:
                continue
            for field, var, path in sorted(arm[2], key=lambda x: -len(x[2])):
                if path and norm(var) == first and parts[1 : 1 + len(path)] == path:
                    return "c." + ".".join([arm[0], field] + parts[1 + len(path) :])
        for p in here + way:
            old, new = p[2]
            if old and norm(old) == first:
                parts[0] = new
                break
        else:
            if "-" in parts[0]:
                parts[0] = parts[0].replace("-", "_")
        fields = (info.get("pre") or {}).get("fields") or []
        if parts[0] == "good":
            parts[0] = "well_formed"
        if parts[0] == "pre":
            parts[0] = "requires"
        if parts[0] == "requires" and len(fields) > 1:
            field, rest = nested(parts[1:], len(fields))
            if field is not None:
                parts = ["requires", fields[field]] + rest
        if len(parts) > 2 and parts[1] in ("auto", "new") and parts[2] in ("0", "1") and first_params(info, here + way, first):
            params = first_params(info, here + way, first)
            i = 2
            while i < len(parts) and parts[i] == "1":
                i += 1
            if i < len(parts) and parts[i] == "0" and i - 2 < len(params):
                parts = parts[:2] + [params[i - 2]] + parts[i + 1 :]
        if len(parts) > 1 and (first.startswith("loop") or first.startswith("if") or first.endswith("_test")):
            parts[1] = {"inv": "invariant", "taken": "true", "left": "false"}.get(parts[1], parts[1])
        if parts[0] in ("args", "ranges") and len(parts) > 1:
            name = parts[1].replace("-", "_")
            parts[1] = moved.get(name, name)
        if len(parts) > 2 and parts[1] in ("exit", "new"):
            parts[2] = parts[2].replace("-", "_")
        return "c." + ".".join(parts)

    return PATH.sub(one, body)


def substituted(body, names):
    tok = re.compile(r"(?<![\w.'₀₁₂-])([^\s(){}\[\],;.:◌λ→]+)")
    return tok.sub(lambda m: names.get(m.group(1), m.group(1)), body)


def invariant(block, info, loops, crate, path, notes):
    m = re.match(r"(?s)((?:--[^\n]*\n)*)abbrev (\S+) : tie\.(invariant|decreases)-(\S+)[^\n]*\n(.*)", block)
    if not m:
        return None
    comment, name, kind, loop, rest = m.groups()
    entry = next((l for l in loops if norm(l[0][0][0]) == norm(loop)), None)
    if entry is None:
        notes.append(f"no loop {loop}")
        return None
    (pair, variables), changed = entry
    unfold = ""
    u = re.match(r"(unfolding [^\n]*\n)(.*)", rest, re.S)
    if u:
        unfold, rest = u.groups()
    h = re.match(r"(?s)" + re.escape(name) + r"((?:\s+[^\s=]+)*)\s*=\s*(.*)", rest)
    if not h:
        notes.append(f"unread {name}")
        return None
    given = h.group(1).split()
    names = {}
    flags = changed or [True] * len(variables)
    order = [("old", v) for v in variables] + [("now", v) for v, f in zip(variables, flags) if f]
    if len(given) != len(order):
        notes.append(f"{name}: {len(given)} arguments, {len(order)} variables")
    for g, (when, v) in zip(given, order):
        if g == "_":
            continue
        f = flags[variables.index(v)]
        names[g] = f"l.initial.{v}" if when == "old" and f else f"l.{v}"
    new = f"{kind}-{pair[1]}"
    return new, f"{comment}abbrev pub {new} : goal.{new}\n{unfold}{new} l = {substituted(h.group(2), names)}"


HELPER = re.compile(r"(?s)((?:--[^\n]*\n)*)(?:abbrev )?(\S+) : (?:\((\S+) : tie\.[^()]+\)|tie\.[^→\n]+)\s*(.*)")


class Helper:
    """A definition over the record of a place: (comment, name, type, unfolded names, parameters, body), or where it only goes to an earlier place, start."""

    def __init__(self, block):
        self.ok = False
        m = HELPER.match(block)
        if not m:
            return
        self.comment, self.name, var, rest = m.groups()
        d = re.search(r"(?ms)^((?:unfolding [^\n]*\n)?)" + re.escape(self.name) + r"((?: +[^\s=]+)+)\s*=\s*(.*)\Z", rest)
        if not d or len(re.findall(r"(?m)^" + re.escape(self.name) + r"\s", rest)) != 1:
            return
        kind = rest[: d.start()].strip()
        self.type = kind[1:].strip() if kind.startswith("→") else kind
        self.unfolding = d.group(1).split()[1:]
        given = d.group(2).split()
        first, self.given, self.body = given[0], given[1:], d.group(3).strip()
        swap = lambda t, v: re.sub(r"(?<![\w.'-])" + re.escape(v) + r"(?![\w'-])", "c", t)
        self.body = swap(self.body, first)
        if var:
            self.type = swap(self.type, var)
        self.moves = bool(re.fullmatch(r"c(?:\.before)*", self.body))
        self.ok = True


MODULE = re.compile(r"(?s)((?:--[^\n]*\n)*)module _ \((\S+) : tie\.[^()]+\) where\n(.*)")


def members(block):
    """The definitions of a module over a place, as helpers, or nothing where one of them is not read."""
    m = MODULE.match(block)
    if not m:
        return []
    var, found = m.group(2), []
    text = re.sub(r"(?m)^  ", "", m.group(3))
    for b in blocks(text):
        d = re.match(r"(?s)((?:--[^\n]*\n)*)(?:abbrev )?(\S+) :(.*?)\n((?:unfolding [^\n]*\n)?)\2((?: +[^\s=]+)*)\s*=\s*(.*)\Z", b)
        if not d:
            return []
        h = Helper.__new__(Helper)
        h.comment, h.name = d.group(1), d.group(2)
        swap = lambda t: re.sub(r"(?<![\w.'-])" + re.escape(var) + r"(?![\w'-])", "c", t)
        h.type, h.unfolding, h.given, h.body = swap(d.group(3).strip()), d.group(4).split()[1:], d.group(5).split(), swap(d.group(6).strip())
        h.ok, h.moves, h.bare = True, False, True
        h.moves = not h.given and bool(re.fullmatch(r"c(?:\.before)*", h.body))
        found.append(h)
    for _ in found:
        for h in found:
            for k in found:
                if k.moves and not h.moves and not h.given:
                    h.moves = bool(re.fullmatch(re.escape(k.name) + r"(?:\.before)*", h.body))
    return found


def with_helpers(body, helpers, info, at):
    """The body with what it uses of the helpers in front, each a `let`, and the names that they unfold."""
    movers = [h.name for h in helpers.values() if h.moves]

    def flat(text):
        before = None
        while text != before:
            before = text
            text = aliases(text)
            for n in movers:
                text = re.sub(r"\(" + re.escape(n) + r" ([^()]+)\)", r"\1", text)
                text = re.sub(r"(?<![\w.'-])" + re.escape(n) + r" (c[\w.'-]*)", r"\1", text)
                if getattr(helpers[n], "bare", False):
                    text = re.sub(r"(?<![\w.'-])" + re.escape(n) + r"(?=\.)", "c", text)
        text = turn_paths(text, info, at)
        argument = r"(?:\((?:[^()]|\([^()]*\))*\)|[^\s()]+)"
        text = re.sub(r"\(not[-_](?:true|false) " + argument + r" (c\.if-not-[\w.-]+)\)", r"\1", text)
        text = re.sub(r"(?<![\w.'-])not[-_](?:true|false) " + argument + r" (c\.if-not-[\w.-]+)", r"\1", text)
        for n in helpers:
            text = re.sub(r"\(" + re.escape(n) + r" c\)", n, text)
            text = re.sub(r"(?<![\w.'-])" + re.escape(n) + r" c(?![\w.'-])", n, text)
        return text

    text = flat(body)
    used, unfolded, todo = [], [], [text]
    while todo:
        t = todo.pop()
        for n, h in helpers.items():
            if not h.moves and n not in used and re.search(r"(?<![\w.'-])" + re.escape(n) + r"(?![\w'-])", t):
                used.append(n)
                todo += [flat(h.type), flat(h.body)]
    front = ""
    for n, h in helpers.items():
        if n in used:
            value = flat(h.body)
            if h.given:
                value = f"λ {' '.join(h.given)}. {value}"
            front += f"    let {n} : {flat(h.type)} = {value} in\n"
            unfolded += h.unfolding
    if front and not text.startswith("\n"):
        text = "    " + text
    return front + text, unfolded


def convert(crate, key, info, folder, report):
    file = os.path.join(folder, "Proof.antt")
    text = open(file, encoding="utf-8").read()
    notes = []
    parts = blocks(text)
    uses, kept, goals, invs, spec, head = [], [], {}, [], None, []
    for b in parts:
        lines = b.split("\n")
        if all(re.match(r"(--|pub use |use )", l) for l in lines):
            for l in lines:
                if l.startswith("--"):
                    head.append(l)
                elif not re.search(r"\.(Statement\.\{statement\}|Tie as tie)$", l):
                    uses.append(l)
            continue
        if "tie.spec" in b and "tie.close" in b:
            spec = b
            continue
        m = re.match(r"(?s)(?:--[^\n]*\n)*(?:abbrev )?(\S+) : tie\.(\S+)", b)
        if m and m.group(2).startswith("Need-"):
            goals[m.group(1)] = (m.group(2)[5:], b)
        elif m and re.match(r"invariant-|decreases-", m.group(2)):
            invs.append(b)
        else:
            kept.append(b)
    if spec is None:
        report.append(f"{crate} {key}: no tie.spec, left")
        return
    order = re.search(r"tie\.spec((?:\s+[^\s()]+|\s+\([^()]*\))*)", spec).group(1).split()
    asked = [n for n in order if n in goals]
    needs = info["needs"]
    match = {}
    if len(asked) == len(needs) :
        for i, n in enumerate(asked):
            match[n] = i
    else:
        left = list(range(len(needs)))
        for n in asked:
            want = norm(goals[n][0])
            i = next((i for i in left if norm(needs[i][0]) == want), None)
            if i is not None:
                match[n] = i
                left.remove(i)
        notes.append(f"{len(asked)} goals, now {len(needs)}")
    helpers, still = {}, []
    for b in kept:
        inner = members(b)
        if inner:
            for h in inner:
                helpers[h.name] = h
            continue
        h = Helper(b)
        if h.ok:
            helpers[h.name] = h
        else:
            if "tie." in b:
                notes.append("helper unread: " + declared(b))
            still.append(b)
    kept = still
    for _ in helpers:
        for h in helpers.values():
            for m in helpers.values():
                if m.moves and not h.moves:
                    h.moves = bool(re.fullmatch(r"c(?:\.before)*", re.sub(r"\(?(?<![\w.'-])" + re.escape(m.name) + r" (c[\w.'-]*)\)?", r"\1", h.body)))
    loops = list(zip(info["loops"], info["changed"] or [None] * len(info["loops"])))
    inv_out = []
    for b in invs:
        r = invariant(b, info, loops, crate, key, notes)
        if r:
            inv_out.append(r[1])
        else:
            notes.append("invariant unread: " + b.split("\n")[0])
    out, dropped = [], 0
    for n in asked:
        old, b = goals[n]
        m = re.match(r"(?s)((?:--[^\n]*\n)*)(?:abbrev )?\S+ : [^\n]*\n((?:unfolding [^\n]*\n)?)(.*)", b)
        comment, unfold, rest = m.groups()
        if n not in match:
            if not re.search(r"=\s*(search rules|search needs)\s*$", rest):
                notes.append(f"unmatched {n}")
                out.append((None, "-- UNMATCHED " + old + "\n" + "\n".join("-- " + l for l in b.split("\n"))))
            continue
        need = needs[match[n]]
        at = info["asked_at"][match[n]][0]
        h = re.match(r"(?s)(\S+)((?:\s+[^\s=]+)*)\s*=(\s*)(.*)", rest)
        params = h.group(2).split()
        body = h.group(4)
        if TRIVIAL.match(body.strip()) and not unfold:
            dropped += 1
            continue
        new = need[1]
        params = [p for p in params if p not in ("κs", "_κs")]
        body, unfolded = with_helpers(body, helpers, info, at)
        if unfolded:
            names = (unfold.split()[1:] if unfold else []) + unfolded
            unfold = "unfolding " + " ".join(dict.fromkeys(names)) + "\n"
        space = "\n" if body.startswith("    let") else h.group(3)
        fields = info["asked"].get(need[0]) or info["asked"].get(new)
        if fields and len(fields) > 1:
            body = as_record(body, fields)
        # what comes after a where block keeps its text, with the paths turned
        out.append((new, f"{comment}pub {new} : goal.{new}\n{unfold}{new} {' '.join(params)} ={space}{body}"))
    module = f"Rattle.{crate}.proofs.{key}"
    in_invariants = [b for b in kept if any(re.search(r"(?<![\w'-])" + re.escape(declared(b)) + r"(?![\w'-])", i) for i in inv_out)] if inv_out else []
    comment = "\n".join(head)
    made = []
    if inv_out:
        t = "\n".join(([comment] if comment else []) + uses + [f"use {module}.Given as goal"]) + "\n\n" + "\n\n".join([public(b) for b in in_invariants] + inv_out) + "\n"
        open(os.path.join(folder, "Invariants.antt"), "w", encoding="utf-8").write(t)
        made.append("Invariants")
    rest_kept = [b for b in kept if b not in in_invariants]
    if out or (rest_kept and not inv_out):
        more = [f"use {module}.Invariants.{{{', '.join(declared(b) for b in in_invariants)}}}"] if in_invariants else []
        t = "\n".join(([comment] if comment and not inv_out else []) + uses + more + [f"use {module}.Goals as goal"]) + "\n\n" + "\n\n".join(rest_kept + [b for _, b in out]) + "\n"
        open(os.path.join(folder, "Answers.antt"), "w", encoding="utf-8").write(t)
        made.append("Answers")
    os.remove(file)
    report.append(f"{crate} {key}: {'+'.join(made) or 'nothing'}; dropped {dropped}" + (f"; {'; '.join(notes)}" if notes else ""))


def declared(b):
    for l in b.split("\n"):
        m = re.match(r"(?:abbrev |unfoldable |pub |record |data |module )*([^\s(){}:]+)", l)
        if m and not l.startswith("--"):
            return m.group(1)
    return "?"


def public(b):
    lines = b.split("\n")
    for i, l in enumerate(lines):
        if not l.startswith("--"):
            if not re.search(r"\bpub\b", l.split(":")[0]):
                lines[i] = re.sub(r"^(abbrev |unfoldable )?", lambda m: (m.group(1) or "") + "pub ", l, count=1)
            break
    return "\n".join(lines)


def main(argv):
    report = []
    for crate in argv:
        where = os.path.join("crates", crate)
        with tempfile.TemporaryDirectory() as d:
            r = subprocess.run(["rt", "check", "--generated", d, "--old-names"], cwd=where, capture_output=True, text=True, errors="replace")
            names = os.path.join(d, "names.json")
            if not os.path.exists(names):
                print(f"{crate}: no names: {(r.stdout + r.stderr)[-1500:]}")
                return 1
            table = json.load(open(names))
        for key, info in table.items():
            m = re.match(r"Rattle-" + crate + r"-proofs\.(.*)\.Lts$", key)
            if not m:
                continue
            folder = os.path.join(where, "proofs", *m.group(1).split("."))
            if os.path.exists(os.path.join(folder, "Proof.antt")):
                try:
                    convert(crate, m.group(1), info, folder, report)
                except Exception as e:
                    report.append(f"{crate} {m.group(1)}: FAILED {type(e).__name__} {e}")
        left = subprocess.run(["find", os.path.join(where, "proofs"), "-name", "Proof.antt"], capture_output=True, text=True).stdout.split()
        report += [f"{crate}: still {p}" for p in left]
    print("\n".join(report))
    return 0


if __name__ == "__main__":
    raise SystemExit(main(sys.argv[1:]))
