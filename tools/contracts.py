#!/usr/bin/env python3
"""Stores the sample contracts of contracts/ for the program of crates/contracts_check.

    python3 tools/contracts.py            # after a sample was added, changed or removed
    python3 tools/contracts.py --check    # writes nothing; says which file is not what contracts/ gives

writes crates/contracts_check/data/listings, and crates/contracts_check/stdout, what the program of that crate has to print.
Both follow the samples in the order of their names. A record of data/listings is the length in five digits, byte 10, the
bytes, byte 10; the name of a sample, as in `wait/segwit_vault.listing`, is a record before its listing.

The reports and names come from no examiner. A sample outside contracts/refused is to be accepted: its paths are walked here,
and the script stops if a path does not take its items from the top down, all of them. A sample in contracts/refused has its
report in contracts/refused/answers.txt, a line `FILE REPORT` for each, and no names.
"""
import os
import sys

HERE = os.path.dirname(os.path.abspath(__file__))
ROOT = os.path.dirname(HERE)
SAMPLES = os.path.join(ROOT, "contracts")
CRATE = os.path.join(ROOT, "crates", "contracts_check")

# How many operands follow a line of each letter; an M line says it itself.
OPERANDS = {"v": 0, "n": 0, "b": 0, "s": 0, "l": 2, "c": 2, "m": 2, "u": 1, "h": 1, "z": 1, "g": 1, "S": 2}

# What the op of a wait adds to its operand in the script: bit 22 for units of 512 seconds (BIP 68).
ADDED = {"0": 0, "1": 0, "2": 4194304}


class Sample(Exception):
    """what is wrong with a sample"""


def names():
    """the samples, by their path below contracts/"""
    found = []
    for folder, _, files in os.walk(SAMPLES):
        found += [os.path.relpath(os.path.join(folder, file), SAMPLES) for file in files if file.endswith(".listing")]
    return sorted(name.replace(os.sep, "/") for name in found)


# The report of an accepted listing. Lines are lists of fields and count from 0.


def after_expression(lines, i):
    """the line after the expression or factor at line i"""
    count = int(lines[i][6]) if lines[i][0] == "M" else OPERANDS[lines[i][0]]
    i += 1
    for _ in range(count):
        i = after_expression(lines, i)
    return i


def variables(lines, i, end):
    return [(lines[k][5], k + 1) for k in range(i, end) if lines[k][0] == "v"]


def block_paths(lines, i, met):
    """for the block at line i, after the variables met so far: those that each path meets, and the line after the block"""
    ended = []
    count = int(lines[i][1])
    i += 1
    for _ in range(count):
        kind = lines[i][0]
        i += 1
        if kind == "L":
            continue
        end = after_expression(lines, i)
        met = met + variables(lines, i, end)
        i = end
        if kind == "E":
            ended.append(met)
        if kind == "I":
            for _ in range(2):
                inner, i = block_paths(lines, i, met)
                ended += inner
    return ended, i


def waits(lines):
    """the report lines of the waits"""
    return ["W,%d,%d" % (k + 1, ADDED[lines[k][5]] + int(lines[k][6])) for k in range(len(lines)) if lines[k][0] == "L"]


def accepted_report(listing):
    """the report, and the names of the items as Name gives them"""
    lines = [line.split(",") for line in listing.decode("ascii").splitlines()]
    declared, i = [], 1
    for _ in range(int(lines[0][2])):
        count = int(lines[i][1])
        declared.append([(fields[6], fields[5]) for fields in lines[i + 1 : i + 1 + count]])
        i += 1 + count
    met, end = block_paths(lines, i, [])
    if end != len(lines) or len(met) != len(declared):
        raise Sample("has %d paths, %d declarations, and ends at line %d of %d" % (len(met), len(declared), end, len(lines)))
    report = ["A,%d" % len(met)]
    for path, (items, taken) in enumerate(zip(declared, met)):
        if [name for name, _ in reversed(items)] != [name for name, _ in taken]:
            raise Sample("does not take the items of path %d from the top down, all of them" % path)
        report.append("D,%d,%d" % (path, len(items)))
        for position, ((name, kind), (_, line)) in enumerate(zip(reversed(items), taken)):
            report.append("P,%d,%s,1,%d,%s" % (position, kind, line, name))
    report += waits(lines)
    for path, items in enumerate(declared):
        report += ["N,%d,%d,%s" % (path, position, name) for position, (name, _) in enumerate(reversed(items))]
    return "".join(line + "\n" for line in report)


def stored_answers():
    with open(os.path.join(SAMPLES, "refused", "answers.txt"), encoding="ascii") as lines:
        pairs = [line.split() for line in lines if line.strip()]
    return {"refused/" + file: report + "\n" for file, report in pairs}


# The two files.


def record(data):
    return b"%05d\n%s\n" % (len(data), data)


def made():
    """the bytes of data/listings and of stdout"""
    answers = stored_answers()
    listings, stdout, count, accepted = b"", "", 0, 0
    for name in names():
        with open(os.path.join(SAMPLES, *name.split("/")), "rb") as file:
            listing = file.read()
        refused = name.startswith("refused/")
        if refused and name not in answers:
            raise Sample("%s has no line in contracts/refused/answers.txt" % name)
        try:
            report = answers.pop(name) if refused else accepted_report(listing)
        except (Sample, IndexError, KeyError, ValueError) as fault:
            raise Sample("%s: %r" % (name, fault)) from fault
        listings += record(name.encode()) + record(listing)
        stdout += name + "\n" + report
        count += 1
        accepted += not refused
    for name in answers:
        raise Sample("contracts/refused/answers.txt has a line for %s, which does not exist" % name)
    return listings, (stdout + "%d listings, %d accepted\n" % (count, accepted)).encode()


def main(words):
    if words not in ([], ["--check"]):
        print("usage: python3 tools/contracts.py [--check]", file=sys.stderr)
        return 2
    try:
        listings, stdout = made()
    except Sample as fault:
        print(fault, file=sys.stderr)
        return 1
    differ = 0
    for parts, data in (("data", "listings"), listings), (("stdout",), stdout):
        file = os.path.join(CRATE, *parts)
        old = open(file, "rb").read() if os.path.exists(file) else None
        if old == data:
            continue
        differ += 1
        shown = "/".join(("crates", "contracts_check") + parts)
        if words:
            print("%s is not what contracts/ gives; python3 tools/contracts.py writes it" % shown)
        else:
            os.makedirs(os.path.dirname(file), exist_ok=True)
            with open(file, "wb") as out:
                out.write(data)
            print("%s written" % shown)
    if not differ:
        print("crates/contracts_check has the samples of contracts/ as they are")
    return 1 if words and differ else 0


if __name__ == "__main__":
    sys.exit(main(sys.argv[1:]))
