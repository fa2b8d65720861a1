#!/usr/bin/env python3
"""The places of docs/DESIGN-PASS.md in src/, point by point: what reads like the older language. `python3 tools/places.py [POINT]`,
at the top of the repository, prints how many there are, and with a point each of them."""
import collections
import glob
import re
import sys

FILES = sorted(glob.glob("crates/*/src/**/*.rt", recursive=True))
NONE = "Failed Missing Nothing Unknown Over Other Stop Malformed Fault Refused Err Cut Accepted".split()
NUMBERS = r"^(?:pub )?const ([A-Z_]+): (?:u8|u32|usize) = (.*);"
PAIRS = ["listing at", "listing table", "work i", "output writing at", "lines left", "listed left", "d rows taken", "taken out", "places taken",
         "rehearsal due answer", "path due", "input t", "loc x", "first count"]


def read(path):
    return open(path, encoding="utf-8").read()


def enums(text):
    for m in re.finditer(r"^(?:pub )?enum (\w+)[^{]*\{\n(.*?)^\}", text, re.M | re.S):
        lines = [line for line in m.group(2).split("\n") if re.match(r"    [A-Z]", line)]
        yield m, m.group(1), [re.match(r"    (\w+)", line).group(1) for line in lines], any("(" in line for line in lines)


FUNCTION = re.compile(r"""^(?P<indent>\ *)(?:pub\ )?(?:const\ )?(?:extern\ "C"\ )?fn\ (?P<name>\w+)(?:<.*?>)?\((?P<parameters>(?:[^()]|\([^()]*\))*)\)
    (?:(?P<answer>(?:\ ->\ [^{\n]+)?)\ (?P<plain>\{\n.*?^(?P=indent)\})
    |(?P<clauses>.*?)^(?P=indent)(?P<body>\{\n.*?^(?P=indent)\}|\{\}|\{\ .*\ \}$))""", re.M | re.S | re.X)


def functions(text):
    """Name, start, parameters by name and type, clauses, body; with clauses the body stands on lines of its own."""
    for m in FUNCTION.finditer(text):
        parameters = [p.strip() for p in re.split(r",(?![^\[<(]*[\]>)])", m["parameters"]) if p.strip()]
        named = dict(p.replace("mut ", "", 1).split(": ", 1) for p in parameters if ": " in p)
        yield m, m["name"], named, m["clauses"] or m["answer"] or "", m["body"] or m["plain"]


def at(path, text, position, what):
    return f"{path}:{text.count(chr(10), 0, position) + 1}: {what}"


def point_1():
    for path in FILES:
        text = read(path)
        for m, name, variants, payload in enums(text):
            if payload and (len(variants) == 2 or any(v in NONE for v in variants)):
                yield at(path, text, m.start(), f"enum {name} of {', '.join(variants)}")
        for struct in re.finditer(r"^(?:pub )?struct \w+.*?^}", text, re.M | re.S):
            for m in re.finditer(r"^    (?:pub )?(\w+): bool,", struct.group(0), re.M):
                yield at(path, text, struct.start() + m.start(), f"a flag beside a value: {m.group(1)}")
        numbers = [m for m in re.finditer(NUMBERS, text, re.M) if re.search(r"b'.' as u32|^\d$", m.group(2))]
        for m in numbers if len(numbers) > 2 else []:
            yield at(path, text, m.start(), f"a number for a kind or a slot: {m.group(1)}")
        for m in re.finditer(r"^ *number: 0,|=> 0,$", text, re.M):
            yield at(path, text, m.start(), "0 for acceptance or for nothing")
        for m, name, named, clauses, body in functions(text):
            if re.search(r"-> (usize|u32|u64)\b", clauses) and re.search(r"Stores|row_after|wrong_word\b", clauses):
                yield at(path, text, m.start(), f"0 for nothing: fn {name}")
            if "[u32; 7]" in "".join(named.values()):
                yield at(path, text, m.start(), f"an answer in numbers: fn {name}")


def point_2():
    """Functions with the same body up to names, numbers and types; and the same parameter lists with the same first call."""
    seen = collections.defaultdict(list)
    for path in FILES:
        text = read(path)
        for m, name, named, clauses, body in functions(text):
            shape = re.sub(r"//.*", "", body)
            shape = re.sub(r"\b[a-z]\w*\(", "f(", shape)
            shape = re.sub(r"b'.'|\b\d+\b|\b[A-Z_]{2,}\b", "N", shape)
            shape = re.sub(r"\b[A-Z]\w*(::\w+)?\b", "T", shape)
            names = {}
            shape = re.sub(r"\b[a-z_]\w*\b", lambda w: names.setdefault(w.group(0), f"v{len(names)}"), shape)
            shape = " ".join(shape.split())
            if shape.count(";") + shape.count("=>") > 1:
                seen[shape].append(at(path, text, m.start(), f"fn {name}"))
    for group in seen.values():
        if len(group) > 1:
            yield "; ".join(group)


def point_3():
    for path in FILES:
        text = read(path)
        for m in re.finditer(r"^ *(while|loop)\b.*", text, re.M):
            yield at(path, text, m.start(), m.group(0).strip())


def point_4():
    names = r"same_\w+|is_same\w*|wide|\w+_from|\w+_number|print_\w+|digit|bit|length_in|took|line_if|answer_of|refusal|digit_value|nowhere|unplaced"
    for path in FILES:
        text = read(path)
        for m, name, named, clauses, body in functions(text):
            if re.fullmatch(names, name):
                yield at(path, text, m.start(), f"fn {name}")
        for m in re.finditer(r"type_number\(\w+\) [!=]= .*", text):
            yield at(path, text, m.start(), m.group(0))


def point_5():
    facts = collections.defaultdict(set)
    for path in FILES:
        text = read(path)
        for m, name, named, clauses, body in functions(text):
            for pair in PAIRS:
                if all(p in named for p in pair.split()):
                    yield at(path, text, m.start(), f"fn {name}: {pair} travel together")
                    break
            for clause in re.findall(r"requires(?: \w+)? \{ (.*) \}", clauses):
                for fact in re.split(r" × ", clause):
                    fact = re.sub(r"[()]", "", fact).replace(".old", ".now")
                    head = re.match(r"\w+", fact)
                    key = head.group(0) if head and head.group(0)[0].isupper() else fact
                    facts[key].add(at(path, text, m.start(), f"fn {name}"))
    for key, places in sorted(facts.items()):
        if len(places) > 2:
            yield f"the fact `{key}` is required by {len(places)} functions"


def point_6():
    for path in FILES:
        text = read(path)
        for m in re.finditer(r"^.*\b(\w+): \[(?:u8|u32|NamePlace|\[NamePlace; 32\]); \w+\],?$", text, re.M):
            yield at(path, text, m.start(), m.group(0).strip())
        for m in re.finditer(r"^.*let mut (\w+) = \[[^\]]*; (?:\d+|WORK_WORDS|LENT)\];", text, re.M):
            yield at(path, text, m.start(), m.group(0).strip())
        for m in re.finditer(r"^    pub at: usize,\n    pub len: usize,", text, re.M):
            yield at(path, text, m.start(), "a position and a length")


def point_7():
    for path in FILES:
        text = read(path)
        for m, name, named, clauses, body in functions(text):
            for p, t in named.items():
                if (t == "bool" and p in ("writing",)) or t in ("Turn", "Turn<'_>", "Wanted") or (t == "u32" and p == "letter") or (t == "Type" and name.startswith("check_")):
                    yield at(path, text, m.start(), f"fn {name} goes by `{p}: {t}`")


def point_8():
    for path in sorted(glob.glob("crates/*/proofs/**/Answers.antt", recursive=True)):
        for m in re.finditer(r"^(\S+)(?: \w+)* = (search rules|omega arith|refl|search \(rules\))$", read(path), re.M):
            yield f"{path}: {m.group(0)}"


def main():
    for k in range(1, 9):
        if len(sys.argv) > 1 and sys.argv[1] != str(k):
            continue
        places = list(globals()[f"point_{k}"]())
        if len(sys.argv) > 1:
            print("\n".join(places))
        print(f"point {k}: {len(places)} places")


main()
