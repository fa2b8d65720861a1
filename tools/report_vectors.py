#!/usr/bin/env python3
"""Stores listings with Check's answers and Report's texts for the program of crates/report_vectors.

    python3 tools/report_vectors.py FILE...            # writes the two files below
    python3 tools/report_vectors.py FILE... --check    # writes nothing; says which of them is not what the files give

writes crates/report_vectors/stdin, the records that the program is handed, and crates/report_vectors/stdout, the lines that it
has to print. A FILE has the answers of a model that is independent of the examiner: on each line a listing in hex, - for no
bytes; Check's answer as number,start,end,line,column; and Report's text in hex, parted by blanks. Lines that begin with # are
skipped.

A record is the length in five digits, byte 10, the listing's bytes, byte 10. For each listing the program prints its index, from
0 over all files, with the number that Check answers, and then the text of its report.
"""
import os
import sys

HERE = os.path.dirname(os.path.abspath(__file__))
CRATE = os.path.join(os.path.dirname(HERE), "crates", "report_vectors")

# Five digits say no more.
MOST_BYTES = 99999


class Malformed(Exception):
    """what is wrong with a file of answers"""


def record(data):
    return b"%05d\n%s\n" % (len(data), data)


def unhex(text):
    return b"" if text == "-" else bytes.fromhex(text)


def numbers(answer):
    """the five numbers of an answer"""
    found = [int(field) for field in answer.split(",")]
    if len(found) != 5:
        raise ValueError("an answer has five numbers")
    return found


def case(line):
    """a listing, the number that Check answers, and the text of its report"""
    words = line.split()
    if len(words) != 3:
        raise ValueError("%d columns, and three are due" % len(words))
    listing, answer, text = unhex(words[0]), words[1], unhex(words[2])
    if len(listing) > MOST_BYTES:
        raise ValueError("a listing of %d bytes, and a record holds %d" % (len(listing), MOST_BYTES))
    number = numbers(answer)[0]
    if text.startswith(b"A,") != (number == 0) or text.startswith(b"R,") and text != b"R,%s\n" % answer.encode():
        raise ValueError("the text of the report is not that of the answer")
    return listing, number, text


def cases(name):
    """the cases of a file, in its order"""
    with open(name, encoding="ascii") as lines:
        for at, line in enumerate(lines, 1):
            if not line.strip() or line.startswith("#"):
                continue
            try:
                yield case(line)
            except ValueError as fault:
                raise Malformed("line %d: %s" % (at, fault)) from fault


def made(names):
    """the bytes of stdin and of stdout"""
    stdin, stdout, accepted = [], [], 0
    for name in names:
        try:
            for listing, answer, text in cases(name):
                stdout.append(b"%d,%d\n" % (len(stdin), answer) + text)
                stdin.append(record(listing))
                accepted += answer == 0
        except (OSError, UnicodeDecodeError, Malformed) as fault:
            raise Malformed("%s: %s" % (name, fault)) from fault
    stdout.append(b"%d listings, %d accepted, 0 words of work wrong\n" % (len(stdin), accepted))
    return b"".join(stdin), b"".join(stdout)


def stored(name, data, check):
    """writes a file if it is another, or says so; true if it is another"""
    file = os.path.join(CRATE, name)
    old = open(file, "rb").read() if os.path.exists(file) else None
    if old == data:
        return False
    if check:
        print("crates/report_vectors/%s is not what the answers give" % name)
        return True
    os.makedirs(CRATE, exist_ok=True)
    with open(file, "wb") as out:
        out.write(data)
    print("crates/report_vectors/%s written" % name)
    return True


def main(words):
    check = words[-1:] == ["--check"]
    names = words[:-1] if check else words
    if not names or any(name.startswith("-") for name in names):
        print("usage: python3 tools/report_vectors.py FILE... [--check]", file=sys.stderr)
        return 2
    try:
        stdin, stdout = made(names)
    except Malformed as fault:
        print(fault, file=sys.stderr)
        return 1
    differ = [stored(name, data, check) for name, data in (("stdin", stdin), ("stdout", stdout))]
    if not any(differ):
        print("crates/report_vectors has these answers")
    return 1 if check and any(differ) else 0


if __name__ == "__main__":
    sys.exit(main(sys.argv[1:]))
