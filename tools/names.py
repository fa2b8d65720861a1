#!/usr/bin/env python3
"""Rewrites the unfolding lines of the tables that are computed: proofs/Computed.antt of reader, examiner and rehearsal.

    python3 tools/names.py

The line under the signature of `computed` names all that unfolds on request in the specs of the crates that the table reads
through. Run it after a definition was added to those specs, renamed or removed.
"""
import os
import re

CRATES = os.path.join(os.path.dirname(os.path.abspath(__file__)), "..", "crates")

# the crate of a table, the tables below it that it opens whole, the crates whose specs it opens
TABLES = [
    ("reader", [], ["ast", "text", "listing", "reader"]),
    ("examiner", ["reader"], ["rules", "declarations", "output", "reporting", "verdicts", "examiner"]),
    ("rehearsal", ["examiner"], ["turns", "rehearsal"]),
]


def unfoldables(crate):
    """the names that unfold on request in a crate's specs, each behind its module"""
    base = os.path.join(CRATES, crate, "specs")
    for file in sorted(os.listdir(base)):
        if not file.endswith(".antt"):
            continue
        mutual = False
        for line in open(os.path.join(base, file), encoding="utf-8"):
            if line.startswith("unfoldable mutual"):
                mutual = True
                continue
            if line.strip() and not line.startswith((" ", "-")):
                mutual = False
            m = re.match(r"  pub (\S+) :" if mutual else r"unfoldable pub (\S+) :", line)
            if m:
                yield "specs.%s.%s" % (file[:-5], m.group(1))


def opened(below, crates):
    """the unfolding line of a table"""
    names = ["Rattle.%s.proofs.Computed.computed" % c for c in below]
    for crate in crates:
        names += ["Rattle.%s." % crate + n for n in unfoldables(crate)]
    return "unfolding " + " ".join(names)


for table, below, crates in TABLES:
    path = os.path.join(CRATES, table, "proofs", "Computed.antt")
    text = open(path, encoding="utf-8").read()
    new, count = re.subn(r"(?m)^(unfoldable pub computed : .*\n)unfolding .*$", lambda m: m.group(1) + opened(below, crates), text)
    assert count == 1, path
    if new != text:
        open(path, "w", encoding="utf-8").write(new)
        print("rewrote", os.path.relpath(path))
