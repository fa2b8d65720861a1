#!/usr/bin/env python3
"""Writes the vectors of reading: listings, and what reading each one answers.

    python3 tools/reading_vectors.py

writes crates/reading_vectors/data/listings, and crates/reading_vectors/stdout, what the program of that crate has to
print. The same two files come out each time: the seed is fixed.

The answers come from `read`, a model of its own after document 01 and its readings in docs/DECISIONS.md. It goes another
way than the definitions of crates/*/specs: a line is split at its commas and each field is tested by itself, and the shape
of a contract is a stack of what is still due, with no recursion. Listings made by hand carry the answer they were made for,
and the script stops where the model says otherwise.

How the listings are made, in the order of the file:

    short work   three listings that the program also reads with work memory one word too short
    forms        each of the 21 forms in a contract of few lines, with the least and the greatest of each field
    fields       the same contracts with one field at fault: each fault that `faults` has for the field, a field
                 missing, a field too many, no byte 10, more bytes in front, behind
    kinds        at each place of a contract a line of each of the 21 forms
    ends         a contract with all forms cut after each line, in each line, and with one line too many
    ceilings     each at its limit and one past
    order        lines with two faults: 1 before 2 before 3 before 4
    bytes        listings of no byte, of one, of few
    contracts    random contracts that are read
    damage       those with bytes or lines changed
    stretched    those with a name, a literal, a count or a depth brought near its ceiling or past it
    seconds      waits in units of 512 seconds (op 2), good and at fault, and ops that no wait has; no section before this
                 one has op 2

A record of data/listings is a head of 13 bytes, `length,number,line` in 5, 1 and 4 digits and byte 10, then as many bytes
as the length says, then byte 10. The number is 0 and the line the count of lines where the listing is read.
"""
import os
import random
import re

HERE = os.path.dirname(os.path.abspath(__file__))
CRATE = os.path.join(HERE, "..", "crates", "reading_vectors")

# The model.

MAX_BYTES = 32768
MAX_LINES = 1024
MAX_DEPTH = 32
WORD = 2**32 - 1


def natural(text, most):
    """the number that text spells with no sign and no leading zero, if it is at most `most`"""
    if re.fullmatch(rb"0|[1-9][0-9]{0,19}", text) and int(text) <= most:
        return int(text)
    return None


def word(text):
    return natural(text, WORD)


def signed(text):
    if text[:1] == b"-":
        v = natural(text[1:], 2**63)
        return -v if v else None
    return natural(text, 2**63 - 1)


def up_to(last):
    """an enum number, or a bit"""
    return lambda text: natural(text, last)


def name(text):
    return text if re.fullmatch(rb"[A-Za-z0-9_]+", text) else None


def literal(text):
    return text if re.fullmatch(rb"(?:[0-9a-f][0-9a-f])*", text) else None


W = [word] * 4
TARGET, TYPE, LOCKTIME = up_to(2), up_to(3), up_to(2)
LOGIC, COMPARE, MATH, UNARY, HASH = up_to(1), up_to(7), up_to(3), up_to(4), up_to(1)
BIT = up_to(1)

# letter: where a line of the form may stand, and its fields
FORMS = {
    b"T": ("contract", [TARGET, word]),
    b"D": ("declaration", [word]),
    b"P": ("item", W + [TYPE, name]),
    b"B": ("block", [word]),
    b"I": ("statement", W + [BIT]),
    b"L": ("statement", W + [LOCKTIME, signed]),
    b"V": ("statement", W),
    b"E": ("statement", W),
    b"v": ("expression", W + [name]),
    b"n": ("expression", W + [signed]),
    b"b": ("expression", W + [BIT]),
    b"s": ("expression", W + [literal, BIT]),
    b"l": ("expression", W + [LOGIC]),
    b"c": ("expression", W + [COMPARE]),
    b"m": ("expression", W + [MATH]),
    b"u": ("expression", W + [UNARY]),
    b"h": ("expression", W + [HASH]),
    b"z": ("expression", W),
    b"g": ("expression", W),
    b"S": ("factor", W),
    b"M": ("factor", W + [word, word]),
}


def values(line):
    """the letter of a line and the values of its fields, or None where it has no form"""
    texts = line.split(b",")
    if texts[0] not in FORMS:
        return None
    fields = FORMS[texts[0]][1]
    if len(texts) != 1 + len(fields):
        return None
    out = [f(t) for f, t in zip(fields, texts[1:])]
    return None if None in out else (texts[0], out)


def past_ceiling(letter, v, depth):
    """whether a line passes a ceiling, standing at this depth of blocks or of expressions"""
    if letter == b"T":
        return v[1] > 32
    if letter == b"D":
        return v[0] > 32
    if letter == b"P":
        return len(v[5]) > 32
    if letter == b"B":
        return depth > MAX_DEPTH
    if FORMS[letter][0] == "statement":
        return False
    return (
        depth > MAX_DEPTH
        or letter == b"v" and len(v[4]) > 32
        or letter == b"s" and len(v[4]) > 2400
        or letter == b"M" and v[5] > 64
    )


def opens(letter, v, depth):
    """what is due after a line: how many, where they may stand, how deep"""
    if letter == b"T":
        return [(v[1], "declaration", 0), (1, "block", 1)]
    if letter == b"D":
        return [(v[0], "item", 0)]
    if letter == b"B":
        return [(v[0], "statement", depth)]
    if letter == b"I":
        return [(1, "expression", 1), (1 + v[4], "block", depth + 1)]
    if letter in b"VE":
        return [(1, "expression", 1)]
    if letter in b"lcmS":
        return [(2, "expression", depth + 1)]
    if letter in b"uhz":
        return [(1, "expression", depth + 1)]
    if letter == b"g":
        return [(1, "factor", depth + 1)]
    if letter == b"M":
        return [(v[5], "factor", depth + 1)]
    return []


def read(listing):
    """number and line of the refusal, or 0 and the count of lines"""
    if len(listing) > MAX_BYTES:
        return 1, 0
    due = [(1, "contract", 0)]
    at = line = 0
    while True:
        line += 1
        while due and due[-1][0] == 0:
            due.pop()
        if at == len(listing):
            return (3, line) if due else (0, line - 1)
        end = listing.find(b"\n", at)
        found = values(listing[at:end]) if end >= 0 else None
        if found is None:
            return 2, line
        letter, v = found
        if not due or due[-1][1] != FORMS[letter][0]:
            return 3, line
        count, kind, depth = due.pop()
        if line > MAX_LINES or past_ceiling(letter, v, depth):
            return 4, line
        due.append((count - 1, kind, depth))
        due += reversed(opens(letter, v, depth))
        at = end + 1


# The listings.

rng = random.Random(20260101)
records = []
known = set()


def add(listing, answer=None):
    """keeps a listing, if it is new; `answer` is what it was made for"""
    got = read(listing)
    if answer is not None and got != answer:
        raise SystemExit("made for %r, read as %r: %r" % (answer, got, listing[:400]))
    if listing not in known:
        known.add(listing)
        records.append((listing, got))


def lines(*parts):
    """lines, each ended by byte 10; a list stands for its elements"""
    out = b""
    for p in parts:
        out += lines(*p) if isinstance(p, list) else p + b"\n"
    return out


TRUE = b"b,0,0,0,0,1"
WAIT = b"L,0,0,0,0,0,0"
RETURN = b"E,0,0,0,0"
NOT = b"u,0,0,0,0,4"
ZERO_W = [b"0"] * 4
HEAD = [b"T,0,0", b"B,1"]
ONE_RETURN = HEAD + [RETURN]
ONE_CHECK = ONE_RETURN + [b"g,0,0,0,0"]

# letter: the lines before, fields that are good, the lines after
PLACES = {
    b"T": ([], [b"0", b"0"], [b"B,0"]),
    b"D": ([b"T,0,1"], [b"0"], [b"B,0"]),
    b"P": ([b"T,0,1", b"D,1"], ZERO_W + [b"0", b"a"], [b"B,0"]),
    b"B": ([b"T,0,0"], [b"0"], []),
    b"I": (HEAD, ZERO_W + [b"0"], [TRUE, b"B,0"]),
    b"L": (HEAD, ZERO_W + [b"0", b"0"], []),
    b"V": (HEAD, ZERO_W, [TRUE]),
    b"E": (HEAD, ZERO_W, [TRUE]),
    b"v": (ONE_RETURN, ZERO_W + [b"a"], []),
    b"n": (ONE_RETURN, ZERO_W + [b"0"], []),
    b"b": (ONE_RETURN, ZERO_W + [b"0"], []),
    b"s": (ONE_RETURN, ZERO_W + [b"6a", b"0"], []),
    b"l": (ONE_RETURN, ZERO_W + [b"0"], [TRUE, TRUE]),
    b"c": (ONE_RETURN, ZERO_W + [b"0"], [TRUE, TRUE]),
    b"m": (ONE_RETURN, ZERO_W + [b"0"], [TRUE, TRUE]),
    b"u": (ONE_RETURN, ZERO_W + [b"0"], [TRUE]),
    b"h": (ONE_RETURN, ZERO_W + [b"0"], [TRUE]),
    b"z": (ONE_RETURN, ZERO_W, [TRUE]),
    b"g": (ONE_RETURN, ZERO_W, [b"S,0,0,0,0", TRUE, TRUE]),
    b"S": (ONE_CHECK, ZERO_W, [TRUE, TRUE]),
    b"M": (ONE_CHECK, ZERO_W + [b"0", b"0"], []),
}

# the field whose value says what follows: it has to stay 0 where the contract is to be read
COUNTS = {b"T": 1, b"D": 0, b"B": 0, b"I": 4, b"M": 5}


def written(letter, fields):
    return b",".join([letter] + fields)


def placed(letter, line):
    before, _, after = PLACES[letter]
    return lines(before, line, after)


def where(letter):
    """the line at which the form of this letter stands in its contract"""
    return len(PLACES[letter][0]) + 1


def good(letter):
    return list(PLACES[letter][1])


def last_of(field):
    """the greatest number of a field, None where it is no number"""
    if field is word:
        return WORD
    if field is signed:
        return 2**63 - 1
    if field in (name, literal):
        return None
    return max(k for k in range(10) if field(b"%d" % k) is not None)


def last_used(field):
    """the greatest number that `forms` and the random contracts give a field: op 2 of a wait stands in `seconds`"""
    return 1 if field is LOCKTIME else last_of(field)


def forms():
    for letter, (_, fields) in FORMS.items():
        add(placed(letter, written(letter, good(letter))), (0, where(letter) + len(PLACES[letter][2])))
        for i, field in enumerate(fields):
            if i == COUNTS.get(letter):
                continue
            texts = [b"1", b"%d" % (last_used(field) or 0)]
            if field is name:
                texts = [b"_", b"0", b"Zz09_", b"AZaz", b"a" * 32]
            if field is literal:
                texts = [b"", b"00", b"ff", b"0123456789abcdef", b"c3a9", b"6a" * 40]
            if field is signed:
                texts += [b"-1", b"-9223372036854775808", b"-2147483648", b"4294967296"]
            for t in texts:
                row = good(letter)
                row[i] = t
                add(placed(letter, written(letter, row)), (0, where(letter) + len(PLACES[letter][2])))
    add(lines(HEAD, b"I,0,0,0,0,1", TRUE, b"B,0", b"B,0"), (0, 6))
    for op in range(8):
        add(lines(ONE_RETURN, b"c,1,2,3,4,%d" % op, TRUE, TRUE), (0, 6))
    add(lines(b"T,1,2", b"D,0", b"D,0", b"B,0"), (0, 4))


# faults of a number of at most `last`
def number_faults(t, last):
    return [
        b"", b"0" + t, b"00", b"+" + t, b"+1", b"-0", b" " + t, t + b" ", t + b"\r", t + b"\t", t + b".0", b"0x1", b"1e3",
        b"a", b"-", b"/", b":", b"\xb2", b"\x00", t + b"\x00", b"%d" % (last + 1), b"1" + b"0" * 30, b"9" * 5000,
    ]


def faults(field, t):
    if field is name:
        return [b"", b" a", b"a ", b"a\r", b"a-b", b"a.b", b"\xc3\xa9", b"a\x00", b"@", b"[", b"`", b"{", b"/", b":", b"^", b"\x7f", b'"a"']
    if field is literal:
        return [b"6", b"616", b"6A", b"A6", b"6g", b"g6", b"6`", b" 61", b"61 ", b"61\r", b"0x61", b"6:", b"/6", b'""', b"\x00\x00", b"6" * 2401, b"61" * 1200 + b"6"]
    if field is signed:
        return number_faults(t, 2**63 - 1) + [
            b"-9223372036854775809", b"18446744073709551616", b"-18446744073709551615", b"--1", b"-01", b"-00", b"-+1", b"- 1", b"1-", b"-" + b"9" * 5000,
        ]
    out = number_faults(t, last_of(field)) + [b"-1"]
    if field is word:
        out += [b"18446744073709551616", b"18446744073709551617", b"04294967295"]
    else:
        out += [b"4294967296", b"10", b"9"]
    return out


def fields():
    for letter, (_, kinds) in FORMS.items():
        at = where(letter)
        row = good(letter)
        for i, field in enumerate(kinds):
            for t in faults(field, row[i]):
                if field not in (name, literal) and i + 1 < len(kinds):
                    t = t[:40]
                bad = list(row)
                bad[i] = t
                add(placed(letter, written(letter, bad)), (2, at))
            add(placed(letter, written(letter, row[:i] + row[i + 1:])), (2, at))
            add(placed(letter, written(letter, row[:i] + [b"0"] + row[i:])), (2, at))
        line = written(letter, row)
        for bad in (
            line + b",", line + b",0", line + b",,", b"," + line, b" " + line, line + b" ", line + b"\r", b"\xef\xbb\xbf" + line,
            letter, letter + b",", letter * 2 + line[1:], letter + b";" + line[2:], letter.swapcase() * 2 + line[1:],
            line.replace(b",", b", "), line.replace(b",", b";"), line[1:], b"",
        ):
            add(placed(letter, bad), (2, at))
        add(lines(PLACES[letter][0]) + line, (2, at))
        add(lines(PLACES[letter][0]) + line[:-1], (2, at))
        add(lines(PLACES[letter][0]) + line + b"\r\n", (2, at))
        add(lines(PLACES[letter][0]) + line + b"\x00\n", (2, at))


# a good line of each form
SAMPLES = {letter: written(letter, good(letter)) for letter in FORMS}

# what is due, and lines after which it is
DUE = [
    ("contract", []),
    ("declaration", [b"T,0,1"]),
    ("declaration", [b"T,0,2", b"D,0"]),
    ("item", [b"T,0,1", b"D,1"]),
    ("item", [b"T,0,1", b"D,2", b"P,0,0,0,0,0,a"]),
    ("block", [b"T,0,0"]),
    ("block", [b"T,0,1", b"D,1", b"P,0,0,0,0,0,a"]),
    ("statement", HEAD),
    ("statement", [b"T,0,0", b"B,2", WAIT]),
    ("statement", [b"T,0,0", b"B,2", RETURN, TRUE]),
    ("expression", ONE_RETURN),
    ("expression", HEAD + [b"V,0,0,0,0"]),
    ("expression", HEAD + [b"I,0,0,0,0,0"]),
    ("expression", ONE_RETURN + [b"l,0,0,0,0,0"]),
    ("expression", ONE_RETURN + [b"c,0,0,0,0,0", TRUE]),
    ("expression", ONE_RETURN + [b"m,0,0,0,0,0", NOT, TRUE]),
    ("expression", ONE_RETURN + [NOT]),
    ("expression", ONE_RETURN + [b"h,0,0,0,0,0"]),
    ("expression", ONE_RETURN + [b"z,0,0,0,0"]),
    ("expression", ONE_CHECK + [b"S,0,0,0,0"]),
    ("expression", ONE_CHECK + [b"S,0,0,0,0", b"v,0,0,0,0,a"]),
    ("factor", ONE_CHECK),
    ("factor", ONE_CHECK + [b"M,0,0,0,0,1,1"]),
    ("factor", ONE_CHECK + [b"M,0,0,0,0,1,2", b"S,0,0,0,0", TRUE, TRUE]),
    ("factor", ONE_CHECK + [b"M,0,0,0,0,1,2", b"M,0,0,0,0,0,0"]),
    ("block", HEAD + [b"I,0,0,0,0,0", TRUE]),
    ("block", HEAD + [b"I,0,0,0,0,1", TRUE, b"B,0"]),
    ("statement", HEAD + [b"I,0,0,0,0,1", TRUE, b"B,1"]),
    ("end", [b"T,0,0", b"B,0"]),
    ("end", ONE_RETURN + [TRUE]),
    ("end", HEAD + [b"I,0,0,0,0,0", TRUE, b"B,0"]),
    ("end", HEAD + [b"I,0,0,0,0,1", TRUE, b"B,0", b"B,0"]),
    ("end", ONE_CHECK + [b"M,0,0,0,0,0,0"]),
]


def kinds():
    for due, before in DUE:
        for letter, (kind, _) in FORMS.items():
            if kind != due:
                add(lines(before, SAMPLES[letter]), (3, len(before) + 1))
        add(lines(before, b""), (2, len(before) + 1))
        add(lines(before) + b"x", (2, len(before) + 1))
        add(lines(before), (0, len(before)) if due == "end" else (3, len(before) + 1))


# a contract with all forms, operands and factors in every place
WHOLE = [
    b"T,2,3", b"D,2", b"P,0,1,1,0,2,p", b"P,3,4,1,3,3,c", b"D,0", b"D,1", b"P,9,10,2,3,0,n", b"B,4",
    b"L,1,2,3,4,1,65535", b"V,5,6,7,8", b"l,1,1,1,1,1", b"c,2,2,2,2,7", b"m,3,3,3,3,3", b"n,4,4,4,4,-7", b"z,5,5,5,5",
    b"s,6,6,6,6,,1", b"u,7,7,7,7,3", b"n,8,8,8,8,0", b"u,9,9,9,9,4", b"g,1,1,1,1", b"M,2,2,2,2,2,3", b"S,3,3,3,3",
    b"v,4,4,4,4,sig", b"s,5,5,5,5,02ff,0", b"M,6,6,6,6,0,0", b"M,7,7,7,7,1,1", b"S,8,8,8,8", b"v,9,9,9,9,t", b"s,1,1,1,1,00,1",
    b"I,20,60,3,0,1", b"v,23,24,3,3,c", b"B,1", b"I,1,2,3,4,0", b"b,1,1,1,1,0", b"B,0",
    b"B,2", b"L,4,3,2,1,0,-1", b"E,50,58,6,0", b"h,53,58,6,3,1", b"v,53,54,6,3,n", b"E,0,0,0,0", b"g,0,0,0,0", b"S,0,0,0,0", TRUE, TRUE,
]


def ends():
    text = lines(WHOLE)
    add(text, (0, len(WHOLE)))
    for k in range(len(WHOLE)):
        head = lines(WHOLE[:k])
        add(head, (3, k + 1))
        add(head + WHOLE[k], (2, k + 1))
        add(head + WHOLE[k][:rng.randrange(1, len(WHOLE[k]))], (2, k + 1))
        add(lines(WHOLE[:k], WHOLE[k + 1:]))
        add(lines(WHOLE[:k + 1], WHOLE[k:]))
    add(text + b"\n", (2, len(WHOLE) + 1))
    add(text + text, (3, len(WHOLE) + 1))
    add(text + b"B,0", (2, len(WHOLE) + 1))


def sized(total):
    """a contract that is read if `total` is small enough: verifies of long literals, `total` bytes in all"""
    row = b"V,0,0,0,0\ns,0,0,0,0,%s,0\n"
    count = -(-total // (len(row) + 2400 - 2))
    head = b"T,0,0\nB,%d\n" % count
    left = total - len(head)
    out = head
    for k in range(count, 0, -1):
        digits = min(2400, (left // k - len(row) + 2) // 2 * 2)
        piece = row % (b"5c" * (digits // 2))
        if k == 1:
            digits = (left - len(row) + 2) // 2 * 2
            piece = row % (b"5c" * (digits // 2))
            piece = piece.replace(b"s,0,", b"s,10,", left - len(piece))
        out += piece
        left -= len(piece)
    assert len(out) == total and out.count(b"\n") == 2 + 2 * count
    return out


def ceilings():
    # bytes
    for total in (32766, 32767, 32768):
        add(sized(total), (0, sized(total).count(b"\n")))
    full = sized(32768)
    add(sized(32769), (1, 0))
    add(full[:-1] + b"0", (2, full.count(b"\n")))
    add(full[:-1], (2, full.count(b"\n")))
    add(b"\n" * 32768, (2, 1))
    add(b"\n" * 32769, (1, 0))
    add(b"T" * 32768, (2, 1))
    add(b"\x00" * 65536, (1, 0))
    # lines
    for count, more, answer in (
        (1022, [], (0, 1024)),
        (1021, [], (0, 1023)),
        (1023, [WAIT], (4, 1025)),
        (1023, [], (3, 1025)),
        (1023, [b""], (2, 1025)),
        (1023, [b"L,0,0,0,0,3,0"], (2, 1025)),
        (1023, [TRUE], (3, 1025)),
        (1023, [b"v,0,0,0,0," + b"a" * 33], (3, 1025)),
        (1022, [WAIT], (3, 1025)),
        (1022, [b""], (2, 1025)),
        (4294967295, [WAIT], (4, 1025)),
    ):
        add(lines(b"T,0,0", b"B,%d" % count, [WAIT] * min(count, 1022), more), answer)
    add(lines(b"T,0,0", b"B,1023", [WAIT] * 1022) + WAIT, (2, 1025))
    waits = lines(b"T,0,0", b"B,1022", [WAIT] * 1020)
    add(waits + lines(RETURN, TRUE, WAIT), (4, 1025))
    add(waits + lines(WAIT, RETURN, TRUE), (4, 1025))
    add(waits + lines(b"I,0,0,0,0,0", TRUE, b"B,0"), (4, 1025))
    add(waits + lines(b"I,0,0,0,0,0", TRUE), (3, 1025))
    add(lines(b"T,0,32", [[b"D,32", [b"P,0,0,0,0,0,a"] * 32]] * 32, b"B,0"), (4, 1025))
    add(lines(b"T,0,32", [[b"D,32", [b"P,0,0,0,0,0,a"] * 32]] * 31, b"D,0", b"B,0"), (4, 1025))
    add(lines(b"T,0,32", [[b"D,30", [b"P,0,0,0,0,0,a"] * 30]] * 32, b"B,0"), (0, 994))
    add(lines(b"T,0,31", [[b"D,32", [b"P,0,0,0,0,0,a"] * 32]] * 31, b"B,0"), (4, 1025))
    checks = lines(b"T,0,0", b"B,1", RETURN, b"g,0,0,0,0", b"M,0,0,0,0,1,16", [[b"M,0,0,0,0,1,64", [b"M,0,0,0,0,0,0"] * 64]] * 15)
    add(checks + lines(b"M,0,0,0,0,0,43", [b"M,0,0,0,0,0,0"] * 43), (0, 1024))
    add(checks + lines(b"M,0,0,0,0,0,44", [b"M,0,0,0,0,0,0"] * 44), (4, 1025))
    # declarations, items
    for n in (0, 1, 31, 32):
        add(lines(b"T,0,%d" % n, [b"D,0"] * n, b"B,0"), (0, n + 2))
        add(lines(b"T,0,1", b"D,%d" % n, [b"P,0,0,0,0,3,x"] * n, b"B,0"), (0, n + 3))
        add(lines(b"T,0,%d" % n, [b"D,0"] * (n + 1), b"B,0"), (3, n + 2))
        add(lines(b"T,0,1", b"D,%d" % n, [b"P,0,0,0,0,3,x"] * (n + 1), b"B,0"), (3, n + 3))
    add(lines(b"T,0,33", [b"D,0"] * 33, b"B,0"), (4, 1))
    add(lines(b"T,0,33"), (4, 1))
    add(lines(b"T,0,1", b"D,33", [b"P,0,0,0,0,3,x"] * 33, b"B,0"), (4, 2))
    add(lines(b"T,0,32", [b"D,1", b"P,9,9,9,9,2,y"] * 32, b"B,0"), (0, 66))
    # names, literals
    for n, number in ((31, 0), (32, 0), (33, 4), (64, 4), (5000, 4)):
        x = b"q" * n
        add(lines(b"T,0,1", b"D,1", b"P,1,2,3,4,0," + x, b"B,0"), (number, 3 if number else 4))
        add(lines(ONE_RETURN, b"v,1,2,3,4," + x), (number, 4))
    for n, number in ((0, 0), (520, 0), (521, 0), (1199, 0), (1200, 0), (1201, 4), (4000, 4)):
        add(lines(ONE_RETURN, b"s,1,2,3,4,%s,1" % (b"0a" * n)), (number, 4))
    # factors
    one = [b"S,0,0,0,0", TRUE, TRUE]
    for n in (0, 1, 63, 64):
        add(lines(ONE_CHECK, b"M,0,0,0,0,1,%d" % n, one * n), (0, 5 + 3 * n))
        add(lines(ONE_CHECK, b"M,0,0,0,0,1,%d" % n, one * (n + 1)), (3, 6 + 3 * n))
        add(lines(ONE_CHECK, b"M,0,0,0,0,1,1", b"M,0,0,0,0,0,%d" % n, one * n), (0, 6 + 3 * n))
    add(lines(ONE_CHECK, b"M,0,0,0,0,1,65", one * 65), (4, 5))
    add(lines(ONE_CHECK, b"M,0,0,0,0,65,64", one * 64), (0, 197))
    add(lines(ONE_CHECK, b"M,0,0,0,0,1,1", b"M,0,0,0,0,1,65"), (4, 6))
    add(lines(ONE_CHECK, b"M,0,0,0,0,4294967295,1", one), (0, 8))
    # depth of expressions: n lines that each add one level, then what is due
    for line in (NOT, b"h,0,0,0,0,0", b"z,0,0,0,0"):
        add(lines(ONE_RETURN, [line] * 31, TRUE), (0, 35))
        add(lines(ONE_RETURN, [line] * 32, TRUE), (4, 36))
        add(lines(ONE_RETURN, [line] * 33, TRUE), (4, 36))
    for line in (b"l,0,0,0,0,1", b"c,0,0,0,0,2", b"m,0,0,0,0,3"):
        add(lines(ONE_RETURN, [line] * 31, [TRUE] * 32), (0, 66))
        add(lines(ONE_RETURN, [line] * 32, [TRUE] * 33), (4, 36))
        add(lines(ONE_RETURN, [line, TRUE] * 31, TRUE), (0, 66))
        add(lines(ONE_RETURN, [line, TRUE] * 32, TRUE), (4, 67))
        add(lines(ONE_RETURN, [line, TRUE] * 31, NOT, TRUE), (4, 67))
    check = [b"g,0,0,0,0", b"S,0,0,0,0"]
    add(lines(ONE_RETURN, check * 15, NOT, [TRUE] * 16), (0, 50))
    add(lines(ONE_RETURN, check * 15, NOT, NOT, [TRUE] * 16), (4, 36))
    add(lines(ONE_RETURN, check * 16, [TRUE] * 17), (4, 36))
    add(lines(ONE_RETURN, NOT, check * 15, [TRUE] * 16), (0, 50))
    add(lines(ONE_RETURN, NOT, check * 15, NOT, [TRUE] * 16), (4, 36))
    add(lines(ONE_RETURN, NOT, check * 16, [TRUE] * 17), (4, 36))
    add(lines(ONE_RETURN, check * 15, TRUE, NOT, [TRUE] * 15), (0, 50))
    add(lines(ONE_RETURN, check * 15, TRUE, NOT, NOT, [TRUE] * 15), (4, 37))
    add(lines(ONE_RETURN, [NOT] * 30, b"g,0,0,0,0", b"M,0,0,0,0,0,0"), (0, 35))
    add(lines(ONE_RETURN, [NOT] * 30, b"g,0,0,0,0", b"M,0,0,0,0,0,1", b"M,0,0,0,0,0,0"), (4, 36))
    add(lines(ONE_RETURN, [NOT] * 31, b"g,0,0,0,0", b"M,0,0,0,0,0,0"), (4, 36))
    add(lines(ONE_RETURN, [NOT] * 31, b"g,0,0,0,0", b"S,0,0,0,0", TRUE, TRUE), (4, 36))
    inner = b"M,0,0,0,0,1,1"
    add(lines(ONE_CHECK, [inner] * 30, b"M,0,0,0,0,0,0"), (0, 35))
    add(lines(ONE_CHECK, [inner] * 31, b"M,0,0,0,0,0,0"), (4, 36))
    add(lines(ONE_CHECK, [inner] * 29, one), (0, 36))
    add(lines(ONE_CHECK, [inner] * 29, b"S,0,0,0,0", TRUE, NOT, TRUE), (4, 37))
    add(lines(ONE_CHECK, [inner] * 30, one), (4, 36))
    add(lines(ONE_CHECK, [inner] * 31, b"S,0,0,0,0", TRUE, TRUE), (4, 36))
    # each verify, condition and return begins again at depth 1
    deep = [NOT] * 31 + [TRUE]
    add(lines(b"T,0,0", b"B,2", b"V,0,0,0,0", deep, RETURN, deep), (0, 68))
    add(lines(b"T,0,0", b"B,2", b"V,0,0,0,0", deep, RETURN, NOT, deep), (4, 69))
    add(lines(HEAD, b"I,0,0,0,0,0", deep, b"B,1", RETURN, deep), (0, 69))
    add(lines(HEAD, b"I,0,0,0,0,0", NOT, deep, b"B,1", RETURN, deep), (4, 36))
    # depth of blocks
    nest = [b"I,0,0,0,0,0", TRUE, b"B,1"]
    other = [b"I,0,0,0,0,1", TRUE, b"B,0", b"B,1"]
    add(lines(HEAD, nest * 31, RETURN, TRUE), (0, 97))
    add(lines(HEAD, nest * 32, RETURN, TRUE), (4, 98))
    add(lines(HEAD, nest * 31, b"I,0,0,0,0,0", TRUE), (3, 98))
    add(lines(HEAD, nest * 31, b"I,0,0,0,0,0", TRUE, TRUE), (3, 98))
    add(lines(HEAD, nest * 31, b"I,0,0,0,0,0", deep, b"B,0"), (4, 129))
    add(lines(HEAD, other * 31, RETURN, TRUE), (0, 128))
    add(lines(HEAD, other * 32, RETURN, TRUE), (4, 129))
    add(lines(b"T,0,0", b"B,2", nest * 31, RETURN, TRUE, nest * 31, WAIT), (0, 191))
    add(lines(b"T,0,0", b"B,2", nest * 31, RETURN, TRUE, nest * 32, WAIT), (4, 193))
    # counts with no ceiling of their own
    add(lines(b"T,0,0", b"B,4294967295"), (3, 3))
    add(lines(b"T,0,0", b"B,4294967295", WAIT, WAIT), (3, 5))
    add(lines(b"T,0,0", b"B,4294967295", WAIT, b"B,0"), (3, 4))
    add(lines(HEAD, b"I,0,0,0,0,0", TRUE, b"B,4294967295", [WAIT] * 5), (3, 11))
    add(lines(b"T,0,4294967295"), (4, 1))
    add(lines(b"T,0,1", b"D,4294967295"), (4, 2))
    add(lines(ONE_CHECK, b"M,0,0,0,0,0,4294967295"), (4, 5))
    add(lines(b"T,0,0", b"B,65536", [WAIT] * 3), (3, 6))
    add(lines(b"T,0,0", b"B,256"), (3, 3))


def order():
    long_name, long_bytes = b"a" * 33, b"61" * 1201
    add(lines(b"T,0,33,"), (2, 1))
    add(lines(b"T,3,33"), (2, 1))
    add(lines(b"v,0,0,0,0," + long_name), (3, 1))
    add(lines(b"D,33"), (3, 1))
    add(lines(b"M,0,0,0,0,0,65"), (3, 1))
    add(lines(b"T,0,1", b"P,0,0,0,0,0," + long_name), (3, 2))
    add(lines(b"T,0,1", b"D,1", b"P,0,0,0,0,4," + long_name), (2, 3))
    add(lines(b"T,0,1", b"D,1", b"P,0,0,0,0,0," + long_name + b"-"), (2, 3))
    add(lines(b"T,0,1", b"D,1", b"P,0,0,0,0,0," + long_name, b"x"), (4, 3))
    add(lines(ONE_RETURN, b"s,0,0,0,0,%s,2" % long_bytes), (2, 4))
    add(lines(ONE_RETURN, b"s,0,0,0,0,%s6,0" % long_bytes), (2, 4))
    add(lines(HEAD, b"s,0,0,0,0,%s,0" % long_bytes), (3, 3))
    add(lines(HEAD, b"B,0"), (3, 3))
    add(lines(ONE_RETURN, [NOT] * 32, b"B,0"), (3, 36))
    add(lines(ONE_RETURN, [NOT] * 32, b"b,0,0,0,0,2"), (2, 36))
    add(lines(ONE_RETURN, [NOT] * 32), (3, 36))
    add(lines(ONE_RETURN, [NOT] * 32) + TRUE, (2, 36))
    add(lines(ONE_RETURN, [NOT] * 32, b"v,0,0,0,0," + long_name), (4, 36))
    add(lines(ONE_RETURN, [NOT] * 31, b"g,0,0,0,0", TRUE), (3, 36))
    add(lines(ONE_RETURN, [NOT] * 31, b"g,0,0,0,0", b"M,0,0,0,0,0,-1"), (2, 36))
    add(lines(ONE_RETURN, [NOT] * 31, b"g,0,0,0,0"), (3, 36))
    add(lines(b"T,0,0", b"B,0", b"T,0,33"), (3, 3))
    add(lines(b"T,0,0", b"B,0", b"v,0,0,0,0," + long_name), (3, 3))
    add(lines(b"T,0,0", b"B,0", b"v,0,0,0,0,"), (2, 3))
    add(lines(b"T,0,1", b"x", b"B,0"), (2, 2))
    add(lines(b"T,0,1", b"B,0", b"x"), (3, 2))
    add(lines(b"T,0,1", b"D,33", b"x"), (4, 2))
    add(lines(b"x") + b"\n" * 32767, (1, 0))
    add(lines(b"x") + b"\n" * 32766, (2, 1))


def few_bytes():
    add(b"", (3, 1))
    add(b"\n", (2, 1))
    add(b"\n\n", (2, 1))
    for b in b"\x00\t\r ,-/09:ATBDZ_avz~\x7f\x80\xc3\xff":
        add(bytes([b]), (2, 1))
    for text in (b"T", b"T,", b"T,0", b"T,0,", b"T,0,0", b",", b",,", b"T\n", b"T,\n", b"T,0\n", b"\r\n", b"B,0\n", b"T,0,0\r\nB,0\r\n", b"T,0,0\n\nB,0\n", b"\nT,0,0\nB,0\n", b"T,0,0\nB,0\n\n", b"T,0,0\nB,0", b"T,0,0B,0\n"):
        add(text)
    add(bytes(range(256)), (2, 1))


def random_word():
    return b"%d" % rng.choice([0, 1, 7, 9, 10, 99, 100, 65535, 65536, 2147483647, 2147483648, WORD, rng.randrange(2**32), rng.randrange(500), rng.randrange(500)])


def random_name(longest):
    letters = b"ABCDEFGHIJKLMNOPQRSTUVWXYZabcdefghijklmnopqrstuvwxyz0123456789_"
    return bytes(rng.choice(letters) for _ in range(rng.choice([1, 1, 2, 3, 8, rng.randint(1, longest)])))


def random_signed():
    v = rng.choice([0, 1, 65535, 2147483647, 2147483648, 4294967295, 4294967296, 2**63 - 1, rng.randrange(2**63), rng.randrange(1000)])
    return b"%d" % (v if rng.random() < 0.6 else -v - (v > 0 and rng.random() < 0.1))


def random_fields(letter):
    """fields that are good, counts left to the caller"""
    out = []
    for field in FORMS[letter][1]:
        if field is word:
            out.append(random_word())
        elif field is signed:
            out.append(random_signed())
        elif field is name:
            out.append(random_name(32))
        elif field is literal:
            out.append(bytes(rng.randrange(256) for _ in range(rng.choice([0, 1, 2, 20, 32, 33]))).hex().encode())
        else:
            out.append(b"%d" % rng.randint(0, last_used(field)))
    return out


def expression(depth):
    letter = rng.choice([b"v", b"n", b"b", b"s"] if depth == 0 or rng.random() < 0.3 else [b"l", b"c", b"m", b"u", b"h", b"z", b"g", b"g"])
    out = [written(letter, random_fields(letter))]
    if letter in b"lcm":
        out += expression(depth - 1) + expression(depth - 1)
    elif letter in b"uhz":
        out += expression(depth - 1)
    elif letter == b"g":
        out += factor(depth)
    return out


def factor(depth):
    letter = b"M" if depth > 1 and rng.random() < 0.4 else b"S"
    row = random_fields(letter)
    if letter == b"S":
        return [written(letter, row)] + expression(max(0, depth - 2)) + expression(0)
    count = rng.choice([0, 1, 2, 3])
    row[5] = b"%d" % count
    out = [written(letter, row)]
    for _ in range(count):
        out += factor(depth - 1)
    return out


def block(depth, width):
    count = rng.randint(0, width)
    out = [b"B,%d" % count]
    for _ in range(count):
        letter = rng.choice(b"LVEI" if depth else b"LVE")
        letter = bytes([letter])
        row = random_fields(letter)
        out.append(written(letter, row))
        if letter != b"L":
            out += expression(rng.randint(0, 4))
        if letter == b"I":
            for _ in range(1 + int(row[4])):
                out += block(depth - 1, width)
    return out


def random_contract():
    """the lines of a contract that is read"""
    while True:
        count = rng.choice([0, 1, 1, 2, 3, rng.randint(0, 32)])
        out = [b"T,%d,%d" % (rng.randrange(3), count)]
        for _ in range(count):
            items = rng.choice([0, 1, 2, 3])
            out.append(b"D,%d" % items)
            out += [written(b"P", random_fields(b"P")) for _ in range(items)]
        out += block(rng.randint(0, 5), rng.randint(1, 4))
        if read(lines(out)) == (0, len(out)) and len(lines(out)) < 9000:
            return out


def damaged(rows):
    """the bytes of a contract with one thing changed"""
    text = lines(rows)
    at = rng.randrange(len(text))
    i, j = rng.randrange(len(rows)), rng.randrange(len(rows))
    how = rng.randrange(10)
    if how == 0:
        return text[:at] + bytes([text[at] ^ 1 << rng.randrange(8)]) + text[at + 1:]
    if how == 1:
        return text[:at] + text[at + 1:]
    if how == 2:
        return text[:at] + bytes([rng.choice(b"0123456789,-\naTz \r")]) + text[at:]
    if how == 3:
        return text[:at]
    if how == 4:
        rows = list(rows)
        rows[i], rows[j] = rows[j], rows[i]
        return lines(rows)
    if how == 5:
        return lines(rows[:i], rows[i + 1:])
    if how == 6:
        return lines(rows[:i], rows[j], rows[i:])
    if how == 7:
        places = [k for k, c in enumerate(text) if c in b"0123456789"]
        at = rng.choice(places)
        return text[:at] + bytes([rng.choice(b"0123456789")]) + text[at + 1:]
    if how == 8:
        # a count changed by one
        counts = [k for k, r in enumerate(rows) if r[:1] in b"TDBM"]
        k = rng.choice(counts)
        head, n = rows[k].rsplit(b",", 1)
        return lines(rows[:k], b"%s,%d" % (head, int(n) + 1 if int(n) == 0 or rng.random() < 0.5 else int(n) - 1), rows[k + 1:])
    cut = sorted((at, rng.randrange(len(text) + 1)))
    return text[:cut[0]] + text[cut[1]:]


def stretched(rows):
    """the bytes of a contract with something brought near its ceiling"""
    how = rng.choice(["name", "literal", "count", "expression", "expression", "block"])
    letters = {"name": b"Pv", "literal": b"s", "count": b"TDM", "expression": b"vnbslcmuhzg", "block": b"ILVE"}[how]
    places = [k for k, r in enumerate(rows) if r[:1] in letters]
    if not places:
        return stretched(rows)
    k = rng.choice(places)
    cut = rows[k].split(b",")
    if how == "name":
        cut[-1] = random_name(32)[:1] * rng.choice([31, 32, 33, 34])
    elif how == "literal":
        cut[5] = b"0f" * rng.choice([1199, 1200, 1201])
    elif how == "count":
        cut[-1] = b"%d" % (rng.choice([-1, 0, 1, 2]) + (64 if cut[0] == b"M" else 32))
    elif how == "expression":
        return lines(rows[:k], [NOT] * rng.randint(24, 33), rows[k:])
    else:
        return lines(rows[:k], [b"I,0,0,0,0,0", TRUE, b"B,1"] * rng.randint(24, 33), rows[k:])
    return lines(rows[:k], b",".join(cut), rows[k + 1:])


def contracts(count, each):
    """random contracts, `each` times as many that are damaged, and as many that are stretched"""
    made = [random_contract() for _ in range(count)]
    for rows in made:
        add(lines(rows), (0, len(rows)))
    for rows in made:
        for _ in range(each):
            add(damaged(rows))
    for rows in made:
        add(stretched(rows))


def with_ops(rows, op):
    """the lines of a contract, each wait with the op that `op` gives it"""
    out = []
    for row in rows:
        cut = row.split(b",")
        if cut[0] == b"L":
            cut[5] = op()
        out.append(b",".join(cut))
    return out


def seconds():
    at = where(b"L")
    units = b"L,0,0,0,0,2,0"
    # the op, and texts near it
    for op in (b"0", b"1", b"2"):
        add(placed(b"L", b"L,0,0,0,0,%s,0" % op), (0, at))
    for op in (3, 4, 5, 6, 7, 8, 9, 12, 20, 22, 255, 256, 258, 65538, 4294967295, 4294967298, 18446744073709551618):
        add(placed(b"L", b"L,0,0,0,0,%d,0" % op), (2, at))
    for op in (b"02", b"002", b"+2", b"-2", b"-3", b" 2", b"2 ", b"2\r", b"2\x00", b"2.0", b"0x2", b"2e0", b"2s", b"03", b"+3", b"\xb2", b"\xc2\xb2"):
        add(placed(b"L", b"L,0,0,0,0,%s,0" % op), (2, at))
    # the operand: any of 64 bits is read, and its faults are those of the other ops
    for t in (b"1", b"168", b"65535", b"65536", b"4194304", b"4194472", b"4259839", b"4294967296", b"9223372036854775807", b"-1", b"-65536", b"-9223372036854775808"):
        add(placed(b"L", b"L,1,2,3,4,2," + t), (0, at))
    for t in faults(signed, b"0"):
        add(placed(b"L", b"L,0,0,0,0,2," + t), (2, at))
    # a field missing, a field too many, no byte 10
    for bad in (
        b"L,0,0,0,0,2", b"L,0,0,0,2,0", b"L,2,0", b"L,2", units + b",", units + b",0", units + b",512", b"L,0,0,0,0,2,0,0,0",
        b"L,0,0,0,0,,2,0", b"L,0,0,0,0;2;0", b"l,0,0,0,0,2,0", b"O,0,0,0,0,2,0",
    ):
        add(placed(b"L", bad), (2, at))
    add(lines(HEAD) + units, (2, at))
    add(lines(HEAD) + units + b"\r\n", (2, at))
    # where another kind is due it is 3, and op 3 is 2 before that
    for due, before in DUE:
        if due != "statement":
            add(lines(before, units), (3, len(before) + 1))
        add(lines(before, b"L,0,0,0,0,3,0"), (2, len(before) + 1))
    # in each place of a block, in nested blocks, and at the last line
    add(lines(b"T,0,0", b"B,3", WAIT, b"L,0,0,0,0,1,0", units), (0, 5))
    add(lines(b"T,0,0", b"B,3", units, b"L,0,0,0,0,3,0", units), (2, 4))
    add(lines(b"T,1,0", b"B,2", units, RETURN, TRUE), (0, 5))
    add(lines(b"T,2,0", b"B,2", RETURN, TRUE, units), (0, 5))
    add(lines(HEAD, b"I,0,0,0,0,1", TRUE, b"B,1", units, b"B,2", units, units), (0, 9))
    add(lines(HEAD, b"I,0,0,0,0,1", TRUE, b"B,1", units, b"B,2", units), (3, 9))
    add(lines(HEAD, b"I,0,0,0,0,0", TRUE, b"B,1", units, units), (3, 7))
    add(lines(HEAD, [b"I,0,0,0,0,0", TRUE, b"B,1"] * 31, units), (0, 96))
    add(lines(b"T,0,0", b"B,1022", [units] * 1022), (0, 1024))
    add(lines(b"T,0,0", b"B,1023", [WAIT] * 1022, units), (4, 1025))
    add(lines(b"T,0,0", b"B,1022", [WAIT] * 1022, units), (3, 1025))
    # random contracts with waits of each op; the same with one wait of op 3
    for _ in range(40):
        rows = with_ops(random_contract(), lambda: b"%d" % rng.randint(0, 2))
        add(lines(rows), (0, len(rows)))
        waits = [k for k, row in enumerate(rows) if row[:1] == b"L"]
        if waits:
            k = rng.choice(waits)
            add(lines(rows[:k], with_ops(rows[k : k + 1], lambda: b"3"), rows[k + 1:]), (2, k + 1))


# What the program prints.


def short_work():
    """with work of 16383 words: 5 at 0,0,0,0 whatever the listing"""
    add(lines(WHOLE), (0, len(WHOLE)))
    add(b"", (3, 1))
    add(sized(32769), (1, 0))


def main():
    short_work()
    short = len(records)
    assert short == 3, "the program reads the first three with short work"
    forms()
    fields()
    kinds()
    ends()
    ceilings()
    order()
    few_bytes()
    contracts(150, 4)
    seconds()
    os.makedirs(os.path.join(CRATE, "data"), exist_ok=True)
    with open(os.path.join(CRATE, "data", "listings"), "wb") as out:
        for listing, (number, line) in records:
            out.write(b"%05d,%d,%04d\n" % (len(listing), number, line) + listing + b"\n")
    with open(os.path.join(CRATE, "stdout"), "wb") as out:
        for i, (listing, (number, line)) in enumerate(records):
            if i < short:
                out.write(b"%d with short work,5,0\n" % i)
            out.write(b"%d,%d,%d\n" % (i, number, line))
        out.write(b"%d listings, 0 differ, 0 words of work wrong\n" % len(records))
    tally = [sum(1 for _, (n, _) in records if n == k) for k in range(5)]
    print("%d listings, %d bytes: %d read, %s refused by 1 to 4" % (len(records), sum(len(x) for x, _ in records), tally[0], tally[1:]))


if __name__ == "__main__":
    main()
