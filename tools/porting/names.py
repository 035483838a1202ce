#!/usr/bin/env python3
"""Brings the repository's own definitions, laws, fields and constructors to snake case, once, after the kit's port.py.

usage: tools/porting/names.py [--write]      at the top of the repository

Without --write it prints what it would rename. A name is turned if a file of a crate's specs/ or proofs/ defines it, it
begins with a small letter, and it has a dash or an inner capital. It is turned in every .antt file, in the .rt files
and in the must-fail edits. Where a law would get a definition's name, `_lem` is added to it, and it is told.
"""
import pathlib
import re
import sys

WORD = r"""[^\s(){}\[\],;.:@"`]+"""
HEAD = re.compile(r"^\s*(?:(?:pub|abbrev|unfoldable|data|record|ruleset)\s+)*(" + WORD + r")(?:\s+\{[^}]*\})*\s*:(?:\s|$)")
TURNS = re.compile(r"[a-z0-9'][A-Z]|[\w'’]-[\w'’]")
# what Rattle makes for a proof of a function, and so spells itself: goals, invariants, measures, hooks of a walk
MADE = re.compile(r"^(?:returns|invariant|decreases|overflow|bounds|slice_bounds|loop|if|then|else|in|calls)-")


def snake(name):
    name = re.sub(r"([a-z0-9'])([A-Z])", lambda m: m[1] + "_" + m[2].lower(), name)
    return name.replace("-", "_")


def main(write):
    root = pathlib.Path("crates")
    antt = sorted(p for p in root.rglob("*.antt") if "out" not in p.parts)
    rest = sorted(p for p in [*root.rglob("*.rt"), *root.rglob("*.edit")] if "out" not in p.parts)
    texts = {p: p.read_text(encoding="utf-8") for p in [*antt, *rest]}
    own = set()
    for p in antt:
        for line in texts[p].splitlines():
            head = HEAD.match(line)
            if head and p.name not in ("Answers.antt", "Invariants.antt"):
                own.add(head[1])
    turned = {n: snake(n) for n in own if n[0].islower() and TURNS.search(n) and not MADE.match(n)}
    taken = {n for n in own if n not in turned}
    # laws that port.py turned, as the library had their spelling, and that have a definition's words
    late = {"all_right", "front_of", "laid_out", "made_told", "one_on", "sum_below", "to_back", "used_sound"}
    late = {n: n + "_lem" for n in late & taken}
    taken = (taken - set(late)) | set(late.values())
    for old in sorted(turned, key=lambda n: ("-" in n, n)):  # definitions first: a law of the same words gets `_lem`
        new = turned[old]
        if new in taken:
            new += "_lem"
            print("falls together:", old, "becomes", new)
        if new in taken:
            print("left:", old, "falls together with", new)
            del turned[old]
            continue
        taken.add(new)
        turned[old] = new
    if not write:
        for old, new in sorted(turned.items()):
            print(old, new)
    print(len(turned), "names", file=sys.stderr)
    word = re.compile(WORD)
    changed = 0
    for p, text in texts.items():
        here = {**turned, **late} if p.suffix == ".antt" else turned
        new = word.sub(lambda m: here.get(m[0], m[0]), text)
        if new != text:
            changed += 1
            if write:
                p.write_text(new, encoding="utf-8")
    print(changed, "files", file=sys.stderr)


main("--write" in sys.argv[1:])
