#!/usr/bin/env python3
"""Stores rehearsals with their answers for the program of crates/rehearse.

    python3 tools/rehearsal_vectors.py FILE            # writes the two files below
    python3 tools/rehearsal_vectors.py FILE --check    # writes nothing; says which of them is not what FILE gives

writes crates/rehearse/stdin, the records that the program is handed, and crates/rehearse/stdout, the lines that it has to print.
FILE has the answers of a model that is independent of the examiner: after a line `listing HEX` the calls that are made on it,

    open PATH -> ANSWER
    lay PATH,DUE NAME TYPE -> ANSWER
    back PATH,DUE -> ANSWER

where the listing and a name are in hex, - for no bytes, and ANSWER is the line that is due. Lines that begin with # are skipped.
A record is the length in five digits, byte 10, the bytes, byte 10; what its bytes say stands in crates/rehearse/src/main.rt.
"""
import os
import sys

HERE = os.path.dirname(os.path.abspath(__file__))
CRATE = os.path.join(os.path.dirname(HERE), "crates", "rehearse")


class Malformed(Exception):
    """what is wrong with the file of answers"""


def record(data):
    return b"%05d\n%s\n" % (len(data), data)


def unhex(text):
    return b"" if text == "-" else bytes.fromhex(text)


def called(words):
    """the bytes of a call's record"""
    if len(words) == 2 and words[0] == "open":
        return b"o,%s" % words[1].encode()
    if len(words) == 4 and words[0] == "lay":
        return b"l,%s,%s,%s" % (words[1].encode(), words[3].encode(), unhex(words[2]))
    if len(words) == 2 and words[0] == "back":
        return b"b,%s" % words[1].encode()
    raise ValueError("no call")


def made(lines):
    """the bytes of stdin and of stdout"""
    stdin, stdout, calls = [], [], 0
    for at, line in enumerate(lines, 1):
        words, _, answer = line.strip().partition(" -> ")
        words = words.split()
        try:
            if not words or words[0].startswith("#"):
                continue
            if words[0] == "listing" and len(words) == 2:
                stdin.append(record(b"t" + unhex(words[1])))
                continue
            stdin.append(record(called(words)))
        except ValueError as fault:
            raise Malformed("line %d: %s" % (at, fault)) from fault
        stdout.append(answer + "\n")
        calls += 1
    stdout.append("%d calls, 0 words of work wrong\n" % calls)
    return b"".join(stdin), "".join(stdout).encode()


def stored(name, data, check):
    """writes a file if it is another, or says so; true if it is another"""
    file = os.path.join(CRATE, name)
    old = open(file, "rb").read() if os.path.exists(file) else None
    if old == data:
        return False
    if check:
        print("crates/rehearse/%s is not what the answers give" % name)
        return True
    with open(file, "wb") as out:
        out.write(data)
    print("crates/rehearse/%s written" % name)
    return True


def main(words):
    check = words[1:] == ["--check"]
    if len(words) != 1 and not check:
        print("usage: python3 tools/rehearsal_vectors.py FILE [--check]", file=sys.stderr)
        return 2
    try:
        with open(words[0], encoding="ascii") as lines:
            stdin, stdout = made(lines)
    except (OSError, UnicodeDecodeError, Malformed) as fault:
        print("%s: %s" % (words[0], fault), file=sys.stderr)
        return 1
    differ = [stored(name, data, check) for name, data in (("stdin", stdin), ("stdout", stdout))]
    if not any(differ):
        print("crates/rehearse has these answers")
    return 1 if check and any(differ) else 0


if __name__ == "__main__":
    sys.exit(main(sys.argv[1:]))
