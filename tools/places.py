#!/usr/bin/env python3
"""Counts the places of docs/DESIGN-PASS.md in crates/*/src, point by point.

    tools/places.py [--list POINT] [DIR]

DIR is the repository's top (here: this one). With --list the places of one point are printed, one a
line. What is counted is said beside each rule below; a rule finds the shape of a place, and a place
that stays has a comment `// Design: ` with its reason.
"""
import glob
import os
import re
import sys
from collections import Counter, defaultdict

top = os.path.join(os.path.dirname(os.path.abspath(__file__)), "..")
listed = None
words = sys.argv[1:]
if "--list" in words:
    at = words.index("--list")
    listed = words[at + 1]
    del words[at : at + 2]
if words:
    top = words[0]

FUNCTION = re.compile(r"^ *(?:pub )?(?:const )?(?:extern \"C\" )?fn (\w+)", re.M)
found = defaultdict(list)


def note(point, path, line, text):
    found[point].append(f"{path}:{line}: {text.strip()}")


def crates():
    for path in sorted(glob.glob(os.path.join(top, "crates/*/src/*.rt"))):
        yield os.path.relpath(path, top), open(path, encoding="utf-8").read()


def functions(text):
    """Each function: its name, the line where it begins, its text from `fn` to the next item."""
    starts = [m for m in FUNCTION.finditer(text)]
    for m, after in zip(starts, starts[1:] + [None]):
        body = text[m.start() : after.start() if after else len(text)]
        yield m.group(1), text.count("\n", 0, m.start()) + 1, body


def signature(body):
    """A function's parameters, as pairs of a name and a type."""
    inside = re.match(r"[^(]*?(?:<[^(]*>)?\(((?:[^()]|\([^()]*\))*)\)", body)
    if not inside:
        return []
    parts = re.split(r",(?![^\[<(]*[\]>)])", re.sub(r"\s+", " ", inside.group(1)))
    return [tuple(p.strip().split(": ", 1)) for p in parts if ": " in p]


def requires(body):
    """The heads of the facts that a contract asks."""
    for clause in re.findall(r"^ +requires(?: \w+)? \{(.*?)\}\n", body, re.M | re.S):
        for fact in re.split(r" × |\) × |× \(", clause):
            head = re.match(r"[\s(]*([A-Z]\w+) ", fact)
            if head:
                yield head.group(1)


facts, together = defaultdict(set), defaultdict(set)
shapes = defaultdict(list)
for path, text in crates():
    crate = path.split("/")[1]
    lines = text.split("\n")
    for k, line in enumerate(lines, 1):
        # 1: a variant that says "none" or "an error" in an enum of the repository's own, a mark
        # beside a value that means nothing where it is set, or a comment that says which number
        # stands for none.
        if re.match(r"^    (Refused\(Refusal\)|Full|Nothing|End|Other|Never),$", line):
            note("1", path, k, line)
        if re.match(r"^    (pub )?(full|whole): bool,", line):
            note("1", path, k, line)
        if re.search(r"//.*\b(0|64) (for none|where there is none|where it is none)|//.*\bor 0\b|"
                     r"//.*behind the last where|//.*; 0 where", line):
            note("1", path, k, line)
        # 3: a loop that is not a `for`.
        if re.match(r"^\s*(while|loop)\b", line):
            note("3", path, k, line)
        # 4: a comparison of two fields of their types, a method that compares, converts to a number
        # or from one, and a widening by `as`.
        if re.search(r"fn (same|of|number|flag|as_number|as_word|same_key|same_set)\(", line):
            note("4", path, k, line)
        if re.search(r"\b\w+\.0 [!=]= \w+\.0\b", line):
            note("4", path, k, line)
        if re.search(r"\(?\b\w+(\.\w+)*\)? as u64\b", line):
            note("4", path, k, line)
        # 6: a length beside an array of fixed size, an array that is filled from its front.
        if re.search(r"&(mut )?\[\w+; \d+\]", line):
            note("6", path, k, line)
        # 7: a switch on which operation is to run, and a mark that says in which direction.
        if re.match(r"^\s*match (operation|program|joining)\b", line) or "backward: bool" in line:
            note("7", path, k, line)
    for name, line, body in functions(text):
        for head in requires(body):
            facts[crate, head].add(name)
        params = signature(body)
        for i, a in enumerate(params):
            for b in params[i + 1 :]:
                if len(a) == 2 and len(b) == 2:
                    together[crate, a[0], b[0]].add(name)
        # 2: functions whose code is the same but for names of types, of functions and variants,
        # and numbers.
        code = body[body.find("{\n", body.rfind("ensures") if "ensures" in body else 0) :]
        code = code.split("\n}\n")[0]
        code = re.sub(r"//[^\n]*", "", code)
        shape = re.sub(r"\b(\w+::)+\w+|\b\d\w*|\b[A-Z]\w*|\bu\d+\b|\b\w+(?=\()", "N", code)
        names = {}
        shape = re.sub(r"\b[a-z_]\w*\b", lambda m: names.setdefault(m.group(0), f"v{len(names)}"), shape)
        shape = re.sub(r"\s+", " ", shape)
        if len(shape) > 8:
            shapes[shape].append(f"{path}:{line}: {name}")
for same in shapes.values():
    if len(same) > 1:
        found["2"] += [p + f" (one of {len(same)})" for p in same]
for (crate, head), names in sorted(facts.items()):
    if len(names) > 2:
        found["5"].append(f"{crate}: fact {head} in {len(names)} contracts")
for (crate, a, b), names in sorted(together.items()):
    if len(names) > 2:
        found["5"].append(f"{crate}: parameters {a}, {b} in {len(names)} functions")
for path in sorted(glob.glob(os.path.join(top, "crates/*/proofs/**/Answers.antt"), recursive=True)):
    for k, line in enumerate(open(path, encoding="utf-8"), 1):
        if re.match(r"^pub \S+ : goal\.", line):
            note("8", os.path.relpath(path, top), k, line)
if listed:
    print("\n".join(found[listed]))
else:
    kept = sum(text.count("// Design: ") for _, text in crates())
    for point in "12345678":
        per = Counter(re.split(r"[/:]", p)[1 if p.startswith("crates/") else 0] for p in found[point])
        print(f"{point}: {len(found[point])}  " + " ".join(f"{c} {n}" for c, n in sorted(per.items())))
    print(f"reasons written beside places: {kept}")
