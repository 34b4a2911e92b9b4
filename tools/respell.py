#!/usr/bin/env python3
"""Respells the repository's own names in clauses, specs/ and proofs/: facts and types in camel case, everything else in snake case.

usage: python3 tools/respell.py [--list]        at the top of the repository, once, after the kit's port.py

A name is the repository's own where a line of specs/ or proofs/ declares it. Names that Rattle makes (a goal is declared as
'NAME : goal.NAME') and names of the library keep their spelling. A definition whose new name a function of src/ has already
gets another one, which OTHER gives. It stops, and writes nothing, where two names would fall together.
"""

import os
import re
import sys

PART = r"[A-Za-z0-9_'≢≡≤⊎]+"
NAME = re.compile(rf"(?<![\w'\-])({PART}(?:-{PART})+)(?![\w'\-])")
DECLARED = re.compile(rf"^\s*(?:abbrev |unfoldable |pub )*(?:({PART}(?:-{PART})+) : |(?:record|data) ({PART}(?:-{PART})+)(?= |$))")
OTHER = {
    "first-record": "first_content",
    "record-at": "content_at",
    "front-record": "record_of_front",
    "body-record": "record_of_body",
    "counts-line": "line_of_counts",
    "ending-line": "line_of_ending",
    "first-false": "first_false_from",
    "first-refutation": "first_refutation_of",
    "standing-line": "line_of_standing",
    "bit-and": "testBit_and",
    "bit-or": "testBit_or",
}
# bound by a let, a λ or a module
BOUND = "f-in n-in j-in k-in i-in behind-in is-not not-true not-false is-full is-d is-r new-low on-now yes-it-does true-there same-entry same-refusal false-there A-is same-formula same-position case-of".split()


def texts():
    for folder, dirs, files in os.walk("crates"):
        dirs[:] = sorted(d for d in dirs if d != "out")
        for f in sorted(files):
            if f.endswith((".rt", ".antt", ".edit")):
                yield os.path.join(folder, f)


def declared(path, text):
    """The names that a file of specs/ or proofs/ declares, with whether each is a goal's."""
    if not path.endswith(".antt"):
        return
    for line in text.splitlines():
        m = DECLARED.match(line.split("--")[0])
        if m:
            yield m.group(1) or m.group(2), ": goal." in line


def respelled(name):
    words = name.split("-")
    if name[0].isupper():
        return "".join(w[0].upper() + w[1:] for w in words)
    return OTHER.get(name, "_".join(words))


def main():
    read = {}
    for p in texts():
        with open(p, encoding="utf-8") as f:
            read[p] = f.read()
    own, goals = set(), set()
    for p, t in read.items():
        for name, goal in declared(p, t):
            (goals if goal else own).add(name)
    if not own - goals:
        print("nothing to respell")
        return 0
    turned = {n: respelled(n) for n in own.union(BOUND) - goals}
    known = {w for t in read.values() for w in re.findall(r"[\w']+", t)}
    bad = [f"{n} -> {new}" for n, new in sorted(turned.items()) if new in known or list(turned.values()).count(new) > 1]
    if bad:
        print("fall together with another name:", *bad, sep="\n")
        return 1
    for p, t in read.items():
        new = NAME.sub(lambda m: turned.get(m.group(0), m.group(0)), t)
        if new != t:
            with open(p, "w", encoding="utf-8") as f:
                f.write(new)
    print(f"{len(turned)} names respelled")
    if "--list" in sys.argv:
        print("\n".join(f"{a} {b}" for a, b in sorted(turned.items())))
    return 0


if __name__ == "__main__":
    raise SystemExit(main())
