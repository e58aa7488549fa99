#!/usr/bin/env python3
"""Brings the project's own definitions and lemmas to the spelling of today's Rattle: words in snake case, a dash only between two names.

usage: tools/respell.py [--list]    at the top of the repository; --list prints the old and new names and changes nothing

It was run once, right after port.py, for the port that docs/PORT.md tells of, and is kept so that the step can be made again on the landed
commit. Names come from specs/ and proofs/ of every crate; they are turned in those files, in the clauses and ghost lines of src/, in
must-fail edits, in tests/rules and, within backticks, in the pages. Code, strings, inputs and outputs stay as they are.
"""

import os
import re
import subprocess
import sys

TOKEN = re.compile(r"[^\s(){}\[\],;.:◌λ→≡⌜⌝\"`@|↦×=∷←]+")
SIGNATURE = re.compile(r"^(\s*)((?:abbrev |unfoldable |pub |record |data |ruleset |module )*)([^\s(){}\[\],;.:◌]+)\s*(?:\{[^}]*\}|\([^)]*\))*\s*:\s", re.M)
CASES = re.compile(r"^\s*\|?\s*([^\s(){}\[\],;.:◌]+(?: [^\s(){}\[\],;.:◌]+)*)\s*:\s", re.M)
BINDER = re.compile(r"[({]([^(){}:=↦]+):")
LAMBDA = re.compile(r"λ ([^.→↦=]+)\.")
# what is no name: a text, and a comment
STAYS = re.compile(r"\"(?:[^\"\\\n]|\\.)*\"|(?:(?<=\s)|^)(?:--|//)(?: .*)?$", re.M)
# words of the library that a lemma of ours is named after
LIBRARY = set("length append take drop set map sum replicate cond eqb ltb leb nil cons zero suc get_or reverse concat zip snoc pow lt le eq mul add and or not".split())
# pieces that the library itself has respelled
PIECES = {"getD": "get_or"}
# made by Rattle and not by us
MADE = re.compile(r"^(Need-|invariant-|decreases-)")


def files(root, ending):
    for folder, dirs, names in os.walk(os.path.join(root, "crates")):
        dirs[:] = sorted(d for d in dirs if d not in ("out", ".git"))
        for name in sorted(names):
            if name.endswith(ending):
                yield os.path.join(folder, name)


def read(path):
    with open(path, encoding="utf-8") as f:
        return f.read()


def bare(text):
    return STAYS.sub("", text)


def answers(text):
    """The names in a proof file that Rattle asks for: they are its own."""
    return {m.group(3) for m in SIGNATURE.finditer(text) if re.match(r"tie\.", text[m.end():])}


def borrowed(text, crates):
    """The names that a file imports from the library, which keep their spelling there."""
    names = set()
    for module, listed in re.findall(r"^\s*(?:pub |ghost )?use ([\w.+'-]+)\.\{([^}]*)\}", text, re.M):
        parts = module.split(".")
        if not (parts[0] == "Rattle" and parts[1] in crates):
            names |= {w for w in re.split(r"[,\s]+", listed) if w}
    return names


def declared(root):
    """Two maps to the places of a name: what specs/ declare, and what proofs/ declare."""
    said, shown, bound = {}, {}, set()
    for path in files(root, ".antt"):
        text = bare(read(path))
        own = answers(text)
        into = said if "/specs/" in path else shown
        for m in list(SIGNATURE.finditer(text)) + list(CASES.finditer(text)):
            for name in m.group(m.lastindex).split():
                if name not in own:
                    into.setdefault(name, set()).add(path)
        for m in list(BINDER.finditer(text)) + list(LAMBDA.finditer(text)):
            bound |= {w for w in m.group(1).split() if "-" in w and TOKEN.fullmatch(w) and re.match(r"[A-Za-zκ]", w)}
    return said, shown, bound


def kit_words():
    """Every word with a dash that the toolchain's own library writes."""
    page = subprocess.run(["rt", "doc"], capture_output=True, text=True, check=True).stdout.strip()
    words = set()
    for folder, _, names in os.walk(os.path.join(os.path.dirname(page), "rattle")):
        for name in names:
            if name.endswith(".antt"):
                words |= {w for w in TOKEN.findall(read(os.path.join(folder, name))) if "-" in w}
    return words


def local(root, taken):
    """What a clause of a definition binds by a pattern: neither declared nor the library's."""
    theirs, found = kit_words(), set()
    for path in files(root, ".antt"):
        if not re.search(r"/(Proof|Answers|Invariants)\.antt$", path):
            found |= {w for w in TOKEN.findall(bare(read(path))) if "-" in w and w not in taken and w not in theirs and re.match(r"[A-Za-z]", w)}
    return found


def snake(name):
    return name.replace("-", "_")


def pieces(words, known):
    """The words of a lemma's name as names that are known and plain words, the longest names first."""
    found, i = [], 0
    while i < len(words):
        for j in range(len(words), i, -1):
            run = "_".join(words[i:j])
            if run in known:
                found.append((run, True))
                i = j
                break
        else:
            found.append((words[i], False))
            i += 1
    return found


def lemma(name, known):
    words = [PIECES.get(w, w) for w in name.split("-")]
    if words[-1] == "spec":
        return "_".join(words)
    parts = pieces(words, known)
    text, before = parts[0]
    for part, is_name in parts[1:]:
        text += ("-" if before and is_name else "_") + part
        before = is_name
    return text


def mapping(root):
    said, shown, bound = declared(root)
    plain = re.compile(r"[A-Za-z]")
    new = {n: snake(n) for n in said if "-" in n and plain.match(n)}
    # a single plain word is taken for a name only where it is the library's: `frame` in `frame_survives` is a word
    known = {n for n in new.values() if not n.endswith("_rule")} | LIBRARY
    for n in shown:
        if "-" in n and n not in new and plain.match(n) and not MADE.match(n):
            # what begins with a type is named after it, and the dash stays behind the type
            head, _, tail = n.partition("-")
            new[n] = head + "-" + lemma(tail, known) if head[0].isupper() and not head.isupper() and tail else lemma(n, known)
    for n in bound:
        if n not in new and not MADE.match(n):
            new[n] = snake(n)
    for n in local(root, set(new) | set(said) | set(shown)):
        new[n] = snake(n)
    return {a: b for a, b in new.items() if a != b}, said, shown


def turned(text, new, keep=()):
    def names(part):
        return TOKEN.sub(lambda m: new[m.group()] if m.group() in new and m.group() not in keep else m.group(), part)

    out, at = "", 0
    for m in STAYS.finditer(text):
        out += names(text[at : m.start()]) + m.group()
        at = m.end()
    return out + names(text[at:])


def ghost_spans(text):
    """Where a file of src/ speaks antt: its ghost lines and its clauses."""
    for m in re.finditer(r"^\s*ghost use [^;]*;", text, re.M):
        yield m.span()
    for m in re.finditer(r"^\s*(?:requires|ensures|ghost)\*?(?: \w+:?)?:? ?\{", text, re.M):
        depth, i = 0, m.end() - 1
        while i < len(text):
            depth += {"{": 1, "}": -1}.get(text[i], 0)
            i += 1
            if depth == 0:
                break
        yield (m.start(), i)


def source(text, new):
    out, at = "", 0
    for a, b in sorted(ghost_spans(text)):
        if a < at:
            continue
        out += text[at:a] + turned(text[a:b], new)
        at = b
    return out + text[at:]


def edit(text, new):
    """A must-fail edit: what it changes in specs/ and proofs/, and in clauses; comments and code stay."""
    lines, inside = [], False
    for line in text.split("\n"):
        if line.startswith("file:"):
            inside = line.rstrip().endswith(".antt")
        elif line[:4] in ("old:", "new:"):
            words = line[4:]
            if inside or re.match(r"\s*(requires|ensures|ghost)\b", words):
                line = line[:4] + turned(words, new)
        lines.append(line)
    return "\n".join(lines)


def page(text, new):
    return re.sub(r"`[^`\n]+`", lambda m: turned(m.group(), new), text)


def main(argv):
    root = os.getcwd()
    new, said, shown = mapping(root)
    targets = {}
    for a, b in sorted(new.items()):
        targets.setdefault(b, []).append(a)
    everything = set(said) | set(shown)
    for b, olds in sorted(targets.items()):
        if len(olds) > 1 or b in everything:
            print(f"falls together: {b}: {', '.join(olds)}{' and a name that stands' if b in everything else ''}", file=sys.stderr)
    if argv == ["--list"]:
        for a, b in sorted(new.items()):
            print(a, b)
        return 0
    crates = set(os.listdir(os.path.join(root, "crates")))
    for path in files(root, ".antt"):
        text = read(path)
        write(path, text, turned(text, new, answers(bare(text)) | borrowed(text, crates)))
    for path in files(root, ".rt"):
        text = read(path)
        write(path, text, source(text, {a: b for a, b in new.items() if a not in borrowed(text, crates)}))
    for path in files(root, ".edit"):
        text = read(path)
        write(path, text, edit(text, new))
    for folder in ("tests/rules",):
        for base, _, names in os.walk(os.path.join(root, folder)):
            for name in sorted(names):
                if name.endswith((".edit", ".antt")):
                    path = os.path.join(base, name)
                    text = read(path)
                    write(path, text, edit(text, new) if name.endswith(".edit") else turned(text, new))
    for base, _, names in os.walk(os.path.join(root, "docs")):
        for name in sorted(names):
            if name.endswith(".md") and not name.startswith("PORT"):
                path = os.path.join(base, name)
                text = read(path)
                write(path, text, page(text, new))
    return 0


def write(path, old, text):
    if text != old:
        with open(path, "w", encoding="utf-8") as f:
            f.write(text)


if __name__ == "__main__":
    raise SystemExit(main(sys.argv[1:]))
