#!/usr/bin/env python3
"""Respells the names that port.py leaves: run once, at the top, after the
toolchain's own script.

Definitions, fields and local names of the form fooBar become foo_bar; lemmas and fields of the
form foo-bar that a file of specs/ or proofs/ declares become foo_bar, but for those whose name
Rattle makes (goals, in Proof.antt) and those of the library. Where a lemma would then have its
definition's name in one file, the lemma ends in _lem. Names in src/ are touched in clauses alone:
no name of the language there has this form. Must-fail edits are respelled in the same way.
Documents are respelled in backquotes.
"""
import os
import re
import sys

# Lemmas that would get the name of a definition in a file that uses both.
LEMMAS = """all_done same_block path_bytes node_at node_over is-done only-done joined-set same-node
fewer-strict other-paths more-strict own-predecessor two-entries is-number value-of dependency-of
span-bytes flat-firsts places-from same-key last-span walk-bits path-at place-among
sheet-bytes node-bytes nodes-over block-bytes entry-bytes raw-read-bytes job-bytes within-lengths
number-returned number-below over-all step-bytes""".split()
# Definitions whose snake case is a tactic or a built-in word.
OTHER = {}
CAMEL = re.compile(r"[a-z][a-z0-9]*[A-Z][A-Za-z0-9]*")
NAME = re.compile(r"[^\W\d_+→≡↔∙×⊎∷λ][\w'′+→]*(?:-[\w'′+→]+)*|[_+][\w'′+→]+(?:-[\w'′+→]+)*")
DECLARED = [
    re.compile(r"(?:abbrev )?(?:unfoldable )?(?:pub )?(?:unfoldable )?([^\s(){}:]+) :(?: |$)"),
    re.compile(r" +(?:pub )?([^\s(){}:|]+) :(?: |$)"),
]
IMPORT = re.compile(r"(?:ghost )?use ([\w.]+)\.\{([^}]*)\}", re.S)


def snake(name):
    head = name.replace("-", "_")
    parts = []
    for part in head.split("_"):
        if part and part[0].islower():
            part = re.sub(r"(?<=[a-z0-9])([A-Z])", lambda m: "_" + m.group(1).lower(), part)
        parts.append(part)
    return "_".join(parts)


def texts(root, ends):
    for folder, dirs, files in os.walk(root):
        dirs[:] = sorted(d for d in dirs if d not in ("out", ".git", "target"))
        for f in sorted(files):
            if f.endswith(ends):
                yield os.path.join(folder, f)


def code_of(line):
    return re.split(r"(?:^|\s)(?:--|//)(?:\s|$)", line, maxsplit=1)[0]


def gather(root):
    declared, foreign, camel = set(), set(), set()
    for p in texts(os.path.join(root, "crates"), (".antt", ".rt")):
        t = open(p, encoding="utf-8").read()
        for at, names in IMPORT.findall(t):
            own = at.startswith("Rattle.") and os.path.isdir(os.path.join(root, "crates", at.split(".")[1]))
            if not own or ".Tie" in at or ".Statement" in at:
                foreign.update(n.strip() for n in names.split(","))
        if not p.endswith(".antt"):
            continue
        goals = p.endswith("/Proof.antt")
        for line in t.splitlines():
            line = code_of(line)
            camel.update(n for n in re.findall(r"(?<![\w'.-])" + CAMEL.pattern + r"(?![\w])", line))
            camel.update(n for n in re.findall(r"(?<=\.)" + CAMEL.pattern + r"(?![\w])", line))
            for part in NAME.findall(line):
                camel.update(w for w in part.split("-") if CAMEL.fullmatch(w))
            if goals:
                continue
            for form in DECLARED:
                m = form.match(line)
                if m and "-" in m.group(1) and not m.group(1).startswith("+"):
                    declared.add(m.group(1))
    return declared, foreign, camel


def mapping(root):
    declared, foreign, camel = gather(root)
    to = {}
    kept = sorted((declared | set(LEMMAS)) & foreign)
    for n in declared - foreign:
        to[n] = snake(n)
    for n in camel - foreign:
        to[n] = snake(n)
    for n in LEMMAS:
        if n in foreign:
            continue
        to[n] = snake(n) + "_lem"
    to.update(OTHER)
    return to, kept


def respell(text, to):
    def one(m):
        n = m.group(0)
        tail = ""
        while n.endswith("'"):
            n, tail = n[:-1], tail + "'"
        if n in to:
            return to[n] + tail
        if n + tail in to:
            return to[n + tail]
        if "-" in n and any(CAMEL.fullmatch(w) and w in to for w in n.split("-")):
            return "-".join(to[w] if CAMEL.fullmatch(w) and w in to else w for w in n.split("-")) + tail
        return n + tail

    return NAME.sub(one, text)


def main():
    root = sys.argv[1] if len(sys.argv) > 1 else "."
    to, kept = mapping(root)
    meet = {}
    for old, new in sorted(to.items()):
        meet.setdefault(new, []).append(old)
    for new, olds in sorted(meet.items()):
        if len(olds) > 1:
            print("together:", new, olds)
    print("kept, the library's:", kept)
    for p in texts(os.path.join(root, "crates"), (".antt", ".rt", ".edit")):
        t = open(p, encoding="utf-8").read()
        if p.endswith(".antt"):
            new = respell(t, to)
        elif p.endswith(".rt"):
            only = {o: n for o, n in to.items() if CAMEL.fullmatch(o) or "-" in o}
            new = respell(t, only)
        else:
            new = respell(t, to) if re.search(r"(?m)^file: \S+\.antt$", t) else respell(t, {o: n for o, n in to.items() if CAMEL.fullmatch(o)})
        if new != t:
            open(p, "w", encoding="utf-8").write(new)
    now = set()
    for p in texts(os.path.join(root, "crates"), (".antt",)):
        for line in open(p, encoding="utf-8"):
            now.update(m.group(1) for m in (form.match(line) for form in DECLARED) if m)

    def word(m):
        n = m.group(0)
        if re.search(r"[/-]$", m.string[: m.start()]) or re.match(r"\.(?:job|svg|rs|md)", m.string[m.end() :]):
            return n
        if n in to:
            return to[n]
        # what port.py has turned
        return snake(n) if snake(n) != n and snake(n) in now else n

    for p in texts(root, (".md",)):
        if "/crates/" in p:
            continue
        t = open(p, encoding="utf-8").read()
        new = re.sub(r"`[^`\n]+`", lambda m: NAME.sub(word, m.group(0)), t)
        if new != t:
            open(p, "w", encoding="utf-8").write(new)


if __name__ == "__main__":
    main()
