#!/usr/bin/env python3
"""Brings the repository's own definitions and lemmas to the spelling of today's Rattle: words in snake case.

usage: python3 tools/spell.py [--dry]      at the top of the repository

A definition, lemma, field or constructor that a file of specs/ or proofs/ declares at the start of a line and that is
spelled with capitals inside or with a dash (`filteredErrors`, `square-next`) gets underscores (`filtered_errors`,
`square_next`). Types, modules, names from src/ and the names that Rattle makes keep their spelling.
"""
import collections
import os
import re
import sys

DRY = "--dry" in sys.argv
TOKEN = re.compile(r"[^\s(){}\[\];,.⌜⌝`\"']+")
DECLARED = re.compile(r"^\s*(?:abbrev\s+|unfoldable\s+)?(?:pub\s+)?([^\s:(){};,.|]+)\s+:\s")
FIELDS = re.compile(r"^\s*(?:pub\s+)?([^\s:(){};,.|]+(?: [^\s:(){};,.|]+)+)\s+:\s")
# what Rattle makes in a function's proof
MADE = re.compile(r"^(invariant|decreases|overflow|returns|loop|slice|shared|nonzero|bounds|same|enum|mul|add|sub|cast|shr|shl|div|rem)-")


def files():
    for folder, dirs, names in os.walk("crates"):
        dirs[:] = sorted(d for d in dirs if d not in ("out", "must-fail"))
        for n in sorted(names):
            if n.endswith((".antt", ".rt")):
                yield os.path.join(folder, n)


def edits():
    for folder, dirs, names in os.walk("crates"):
        dirs[:] = sorted(d for d in dirs if d != "out")
        for n in sorted(names):
            if n.endswith(".edit"):
                yield os.path.join(folder, n)


def pages():
    for top in ("README.md", "docs", "tests"):
        if os.path.isfile(top):
            yield top
        for folder, dirs, names in os.walk(top):
            for n in sorted(names):
                if n.endswith(".md") and n not in ("CHANGELOG.md",) and os.path.basename(folder) != "changes":
                    yield os.path.join(folder, n)


def save(path, old, new):
    if new != old:
        with open(path, "w", encoding="utf-8") as f:
            f.write(new)


def own(path):
    """A file of definitions or of lemmas, not a function's proof."""
    parts = path.split(os.sep)
    return path.endswith(".antt") and len(parts) == 4 and parts[2] in ("specs", "proofs")


def snake(name):
    name = name.replace("-", "_")
    name = re.sub(r"([a-z0-9])([A-Z])(?=[a-z]|$|_|[0-9])", lambda m: m[1] + "_" + m[2].lower(), name)
    name = re.sub(r"([a-z0-9])([A-Z]+)", lambda m: m[1] + "_" + m[2].lower(), name)
    return name


def wanted(name):
    if not re.match(r"^[a-z]", name) or not re.match(r"^[\w'\-₀-₉]+$", name):
        return False
    return "-" in name or re.search(r"[a-z0-9][A-Z]", name) is not None


def code(text):
    return "\n".join(line for line in text.split("\n") if not line.lstrip().startswith(("--", "//")))


def main():
    texts = {p: open(p, encoding="utf-8").read() for p in files()}
    names = collections.defaultdict(set)
    for p, t in texts.items():
        if not own(p):
            continue
        for line in t.split("\n"):
            if line.lstrip().startswith("--"):
                continue
            m = DECLARED.match(line)
            if m:
                names[m[1]].add(p)
                continue
            m = FIELDS.match(line)
            if m and not re.search(r"[=→λ∷]", m[1]):
                for n in m[1].split():
                    if n not in ("abbrev", "pub", "unfoldable", "record", "data"):
                        names[n].add(p)
    turn = {n: snake(n) for n in names if wanted(n)}
    turn["digits_in"] = "digits_in_lem"
    # where a lemma and a definition, or a lemma and a function of src/, would fall together, the lemma gets `_lem`
    tokens = {p: set(TOKEN.findall(code(t))) for p, t in texts.items()}
    into = collections.defaultdict(list)
    for a, b in turn.items():
        into[b].append(a)
    for b, olds in into.items():
        lemmas = [o for o in olds if "-" in o]
        if len(lemmas) < len(olds) or any(b in s and any(o in s for o in lemmas) for s in tokens.values()):
            for o in lemmas:
                turn[o] = b + "_lem"
    if DRY:
        for a, b in sorted(turn.items()):
            print(a, b)
    print(len(turn), "names")
    if DRY:
        return
    turned = lambda line: TOKEN.sub(lambda m: turn.get(m[0], m[0]), line)
    for p, t in texts.items():
        save(p, t, "\n".join(map(turned, t.split("\n"))))
    # the edits: what they put in place of what
    for p in edits():
        t = open(p, encoding="utf-8").read()
        save(p, t, "\n".join(turned(line) if line.startswith(("old:", "new:")) else line for line in t.split("\n")))
    # the pages: names between backticks
    for p in pages():
        t = open(p, encoding="utf-8").read()
        save(p, t, re.sub(r"`[^`\n]+`", lambda m: "`" + turned(m[0][1:-1]) + "`", t))


main()
