#!/usr/bin/env python3
"""The places that docs/DESIGN-PASS.md counts, by its eight points.

    tools/places.py [DIR]           how many there are in DIR/crates/*/src, DIR being this checkout where it is left out
    tools/places.py --list [DIR]    and where each is
"""
import collections
import pathlib
import re
import sys

LISTED = "--list" in sys.argv
WHERE = [a for a in sys.argv[1:] if a != "--list"]
ROOT = pathlib.Path(WHERE[0]) if WHERE else pathlib.Path(__file__).resolve().parent.parent
COMMENT = re.compile(r"//[^\n]*")
TYPES = "u8 u16 u32 u64 usize i8 i16 i32 i64 isize f32 f64 bool"
WORDS = set("""fn let mut if else while for in loop match return break continue as ref pub const struct enum impl use self
Self true false Some None Ok Err len""".split())


def braced(text, start):
    """The text from the brace at or after `start` up to the brace that closes it, and its end."""
    at = text.index("{", start)
    depth = 0
    for i in range(at, len(text)):
        depth += {"{": 1, "}": -1}.get(text[i], 0)
        if depth == 0:
            return text[at : i + 1], i + 1
    return text[at:], len(text)


class Function:
    """A function: its crate, name, parameters, result, clauses and body."""

    def __init__(self, crate, text, match):
        self.crate, self.name = crate, match[1]
        depth, at = 0, match.end() - 1
        start = at
        while True:
            depth += {"(": 1, ")": -1}.get(text[at], 0)
            at += 1
            if depth == 0:
                break
        self.params = text[start + 1 : at - 1]
        head = re.compile(r"\s*(?:->\s*([^\n{]+?))?\s*(?=\n\s*(?:requires|ensures)|\{)").match(text, at)
        self.result = (head[1] or "").strip() if head else ""
        at = head.end() if head else at
        self.clauses = []
        while True:
            clause = re.compile(r"\s*(requires|ensures)\b[^{]*").match(text, at)
            if not clause:
                break
            body, at = braced(text, clause.end() - 1)
            self.clauses.append((clause[1], body))
        self.body, self.end = braced(text, at)
        self.place = f"{crate}::{self.name}"

    def shape(self):
        """The function with types, numbers and names left out, each name by its first place."""
        seen = {}
        words = re.findall(r"[A-Za-z_]\w*|\d\w*|b?\"[^\"]*\"|\S", self.params + " -> " + self.result + self.body)
        out = []
        for word in words:
            if word in TYPES.split():
                out.append("T")
            elif re.fullmatch(r"\d\w*|b?\".*\"", word):
                out.append("N")
            elif re.fullmatch(r"[A-Za-z_]\w*", word) and word not in WORDS:
                out.append(seen.setdefault(word, f"v{len(seen)}"))
            else:
                out.append(word)
        return " ".join(out)


def sources():
    for path in sorted(ROOT.glob("crates/*/src/*.rt")):
        yield path.parts[-3], COMMENT.sub("", path.read_text())


def functions():
    for crate, text in sources():
        for match in re.finditer(r"\bfn (\w+)(?:<[^(]*>)?\(", text):
            yield Function(crate, text, match)


def types():
    """Each struct and enum: crate, kind, name, body."""
    for crate, text in sources():
        for match in re.finditer(r"\b(struct|enum) (\w+)(?:<[^{]*>)?\s*\{", text):
            yield crate, match[1], match[2], braced(text, match.end() - 1)[0]


def show(point, what, places):
    places = list(places)
    print(f"{point} {what}: {len(places)}")
    if LISTED:
        for place in places:
            print(f"      {place}")
    return len(places)


def main():
    every = list(functions())
    kinds = list(types())
    text = {}
    for crate, code in sources():
        text[crate] = text.get(crate, "") + code

    # 1
    show("1", "enums of the shape of Option or Result, or with a refusal's number in a case",
         (f"{c}::{n}" for c, k, n, b in kinds if k == "enum" and re.search(r"Refused\(|\(u32\)", b)))
    show("1", "structs with a flag or a refusal's number beside values",
         (f"{c}::{n}" for c, k, n, b in kinds if k == "struct" and re.search(r"\b(refusal|number): u32|\b(some|good): bool", b)))
    show("1", "functions that answer a refusal's number, 0 for none",
         (f.place for f in every if f.result == "u32" and re.match(r"judge_|first$", f.name)))
    show("1", "tests whether a number was drawn",
         (f.place for f in every for _ in re.findall(r"\bif [\w.]+ != 0 \{", f.body)))

    # 2
    groups = collections.defaultdict(list)
    for f in every:
        if len(f.body) > 40:
            groups[f.shape()].append(f.place)
    show("2", "functions that differ from another in types, sizes, constants and names alone",
         (" = ".join(g) for g in groups.values() if len(g) > 1))

    # 3
    show("3", "loops by `while` or `loop`", (f.place for f in every for _ in re.findall(r"\b(?:while|loop)\b", f.body)))

    # 4
    one_cast = re.compile(r"\{\s*-?\(?\w+ as \w+\)?\s*\}")
    one_bit = re.compile(r"\{\s*if [^{}]+ \{\s*1\s*\} else \{\s*0\s*\}\s*\}")
    arms = re.compile(r"\{\s*match [^{}]+\{(\s*[\w:()]+ => [\w -]+(\([^)]*\))?,)+\s*\}\s*\}")
    copied = re.compile(r"\{\s*(?:let [^;]+;\s*)*(?:\w+\[\d\] = [^;]+;\s*){3,}\}")
    # the fields of a struct from the places of a slice, or from those of another struct
    fields = re.compile(r"\w+: (?:\w+\()?numbers\[\d\]\)?,")
    copy = re.compile(r"while (\w+) < (\w+)\.len\(\) \{\s*(\w+)\[\1\] = \2\[\1\];\s*\1 \+= 1;\s*\}")
    show("4", "functions that only convert or copy, by hand",
         (f.place for f in every if one_cast.fullmatch(f.body) or one_bit.fullmatch(f.body) or arms.fullmatch(f.body)
          or copied.fullmatch(f.body) or copy.search(f.body) or len(fields.findall(f.body)) > 2))
    show("4", "casts by `as`", (f.place for f in every for _ in re.findall(r"\bas (?:%s)\b" % TYPES.replace(" ", "|"), f.body)))

    # 5
    show("5", "functions that take measures (or width, height, radius), psf and gray one by one",
         (f.place for f in every if re.search(r"\b(measures|m|radius): (Measures|usize),\s*psf: &\[u8\],\s*gray: &\[u8\]", f.params)))
    show("5", "functions of eight parameters and more",
         (f.place for f in every if f.params.count(":") >= 8))
    facts = collections.defaultdict(set)
    for f in every:
        for kind, clause in f.clauses:
            if kind == "requires":
                for fact in re.findall(r"\b[A-Z][A-Za-z]+\b", clause):
                    facts[fact].add(f.place)
    show("5", "facts that three functions and more require",
         (f"{fact} ({len(places)})" for fact, places in sorted(facts.items()) if len(places) > 2))

    # 6
    show("6", "arrays of fixed size, of which a part is used",
         (f.place for f in every for _ in re.findall(r"= \[0(?:u8|i32)?; \w+\]", f.body)))

    # 7
    show("7", "a `match` on the number of a kind, or a table of functions",
         (f.place for f in every for _ in re.findall(r"\bmatch [\w.]*(?:kind|start)\w* \{", f.body)))

    # 8
    answers = sorted(ROOT.glob("crates/*/proofs/**/Answers.antt"))
    aliases = [p for p in answers if re.search(r"\blet \w+ = c in", p.read_text())]
    kept = [p for p in answers if "_known-" in p.read_text()]
    show("8", "functions with answers", (str(p.relative_to(ROOT / "crates").parent) for p in answers))
    print(f"8 lines of answers: {sum(len(p.read_text().splitlines()) for p in answers)}")
    show("8", "answers with another name for what is known", (str(p.relative_to(ROOT / "crates").parent) for p in aliases))
    show("8", "answers that cite names which may change", (str(p.relative_to(ROOT / "crates").parent) for p in kept))


main()
