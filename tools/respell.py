#!/usr/bin/env python3
"""Respells this repository's own antt names as today's Rattle asks (docs/PORT.md); was run once, at the top, right after the toolchain's port.py.

Functions and constructors in camel case, constructors and record fields with a dash: snake case. Lemmas keep their dashes, since there a
dash joins two names. It goes over specs/, proofs/, src/ (clauses), must-fail/ and docs/, prints what it renamed, and says where two
names of one file would fall together ('falls together': harmless where one of them is a step or a module of a proof file).

usage: respell.py [--dry | --help]
"""
import collections
import glob
import re
import sys

# local lemmas that would take a definition's new name: (file, old, new)
APART = [
    ("crates/verdict/proofs/JudgeLaws.antt", "words_left", "left-words"),
    ("crates/records/proofs/sweep/Proof.antt", "within_of", "within-is"),
]
WORD = re.compile(r"(?<![\w'\-])[A-Za-z][\w'\-]*(?![\w'\-])")
# an antt file's head of a declaration: marks, then `data`/`record` or a name and its type
NAMED = re.compile(r"(?m)^\s*(?:(?:abbrev|unfoldable|pattern|pub)\s+)*([a-z][\w']*)(?:\s*[({][^\n]*)?\s:\s")
BLOCK = re.compile(r"(?m)^(?:(?:abbrev|unfoldable|pub)\s+)*(?:data|record) [^\n]*(?:\n    [^\n]*)*where\n((?:(?:  [^\n]*)?\n)*)")
MEMBER = re.compile(r"(?m)^  (?:pub )?([a-z][\w'\-]*) :")


def snake(name):
    return re.sub(r"(?<=[a-z0-9'])([A-Z])", lambda m: "_" + m.group(1).lower(), name).replace("-", "_")


def main(dry):
    files = [p for ext in ("antt", "rt", "edit") for p in glob.glob("crates/**/*." + ext, recursive=True) if "/out/" not in p] + glob.glob("docs/**/*.md", recursive=True) + glob.glob("README.md")
    texts = {p: open(p, encoding="utf-8").read() for p in files}
    for p, t in texts.items():  # what port.py respelled in the declaration alone
        new = t.replace("All.All-nil", "All.all_nil").replace("All.All-cons", "All.all_cons")
        if new != t:
            texts[p] = new
            if not dry:
                open(p, "w", encoding="utf-8").write(new)
    for p, old, new in APART:
        if p in texts:
            texts[p] = re.sub(r"(?<![\w'\-])%s(?![\w'\-])" % old, new, texts[p])
            if not dry:
                open(p, "w", encoding="utf-8").write(texts[p])
    names = set()
    for p, t in texts.items():
        if p.endswith(".antt"):
            names |= {m.group(1) for m in NAMED.finditer(t) if re.search(r"[a-z0-9][A-Z]", m.group(1))}
            for b in BLOCK.finditer(t):
                names |= {m.group(1) for m in MEMBER.finditer(b.group(1)) if snake(m.group(1)) != m.group(1)}
    names = {n: snake(n) for n in names}
    bad = []
    for p, t in texts.items():
        if p.endswith(".antt"):
            words = set(WORD.findall(t))
            bad += [f"{p}: {n} would be {s}, which stands there" for n, s in names.items() if n in words and s in words]
    falls = collections.Counter(names.values())
    bad += [f"two names become {s}" for s, k in falls.items() if k > 1]
    for line in bad:
        print("falls together: " + line)
    for n in sorted(names):
        print(f"{n} -> {names[n]}")
    if dry:
        return
    for p, t in texts.items():
        new = WORD.sub(lambda m: names.get(m.group(0), m.group(0)), t)
        if new != t:
            open(p, "w", encoding="utf-8").write(new)


if {"-h", "--help"} & {*sys.argv[1:]}:
    print(__doc__.strip())
else:
    main("--dry" in sys.argv[1:])
