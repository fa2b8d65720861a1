#!/usr/bin/env python3
"""Brings the names of this repository's definitions and lemmas to today's spelling: words in snake case.

    python3 tools/spelling.py [TOP]

Run once, right after Rattle's port.py, at the top of the repository (or on the copy at TOP). A name that begins in lower case and has a capital inside
is written with underscores (readAt: read_at; takeAll-append: take_all-append; a type keeps its capital: path-Ready). It reads the names off the
.antt files, tells which of the new ones fall together with a name that stood already, and rewrites .antt and .rt files, must-fail edits, and the
names between backquotes in pages. Names of Rust's own (functions, constants, strings) have no capital inside and stay as they are.
"""

import os
import re
import sys

WORD = re.compile(r"(?<![\w'?.·-])(?:[a-z][\w'?]*)(?:-[\w'?≡≢≤<+*∷μ]+)*(?![\w'?-])|(?<=\.)(?:[a-z][\w'?]*)(?:-[\w'?≡≢≤<+*∷μ]+)*(?![\w'?-])")
# the library's words inside names of ours
LIBRARY = {"getD": "get_or"}
# lemmas that would have the new name of what they speak of, by crate
LEMMAS = {
    ("declarations", "after_items"): "after_items_lem",
    ("operands", "first_byte"): "first_byte_lem",
    ("rehearsal", "same_item"): "same_item_lem",
    ("rules", "take_found"): "take_found_lem",
    ("paths", "take_found"): "take_found_lem",
}
# operators whose signs today's gate does not read in a `ghost use` (added after the commit of the spelling, see docs/PORT.md)
OPERATORS = {"<$>": "<∘>"}
# what looks like a name and is none: bytes and strings of Rust
NONE = re.compile(r"^(b'.*|[a-z][A-Z]|aZ_09)$")


def snake(segment):
    if segment in LIBRARY:
        return LIBRARY[segment]
    if not re.match(r"[a-z]", segment):
        return segment
    return re.sub(r"(?<=[a-z0-9₀-₉'])([A-Z])", lambda m: "_" + m.group(1).lower(), segment)


def spelled(name):
    return "-".join(snake(s) for s in name.split("-"))


def files(top):
    for folder, dirs, names in os.walk(os.path.join(top, "crates")):
        dirs[:] = sorted(d for d in dirs if d != "out")
        for name in sorted(names):
            if name.endswith((".antt", ".rt", ".edit")):
                yield os.path.join(folder, name)


def pages(top):
    for folder in ("", "docs", "harness", "contracts"):
        at = os.path.join(top, folder)
        for name in sorted(os.listdir(at) if os.path.isdir(at) else []):
            if name.endswith(".md") and not name.startswith("PORT"):
                yield os.path.join(at, name)


def text(path):
    with open(path, encoding="utf-8") as f:
        return f.read()


def main():
    top = sys.argv[1] if len(sys.argv) > 1 else "."
    found = {}
    for path in files(top):
        for word in WORD.findall(text(path)):
            found.setdefault(word, set()).add(path)
    turned = {w: spelled(w) for w in found if spelled(w) != w and not NONE.match(w)}
    for old, new in sorted(turned.items()):
        if new in found:
            both = found[old] & found[new]
            print(f"look: {old} becomes {new}, which stands already" + (f", in one file with it: {sorted(both)[0]}" if both else ""))
    many = {}
    for old, new in turned.items():
        many.setdefault(new, []).append(old)
    for new, olds in sorted(many.items()):
        if len(olds) > 1:
            print(f"look: {', '.join(sorted(olds))} all become {new}")
    changed = 0
    for path in files(top):
        before = text(path)
        crate = os.path.relpath(path, os.path.join(top, "crates")).split(os.sep)[0]
        lemmas = {old: new for (name, old), new in LEMMAS.items() if name == crate and path.endswith(".antt")}
        after = WORD.sub(lambda m: turned.get(m.group(0), lemmas.get(m.group(0), m.group(0))), before)
        for old, new in OPERATORS.items():
            after = after.replace(old, new)
        if after != before:
            with open(path, "w", encoding="utf-8") as f:
                f.write(after)
            changed += 1
    for path in list(pages(top)) + [os.path.join(top, "tools", "names.py")]:
        if not os.path.exists(path):
            continue
        before = text(path)
        after = re.sub(r"`[^`\n]*`", lambda q: WORD.sub(lambda m: turned.get(m.group(0), m.group(0)), q.group(0)), before)
        if after != before:
            with open(path, "w", encoding="utf-8") as f:
                f.write(after)
            changed += 1
    print(f"spelling: {len(turned)} names, {changed} files")


if __name__ == "__main__":
    main()
