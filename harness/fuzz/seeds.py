"""Writes each record of a file of listings (five digits, byte 10, the bytes, byte 10) of at most 2000 bytes as a file of its own;
and once more with op 2 for all its waits, if it has one: the stored listings have no op 2.

    python3 harness/fuzz/seeds.py LISTINGS FOLDER
"""
import os
import re
import sys

OP = re.compile(rb"^(L,\d+,\d+,\d+,\d+),[01],", re.M)


def records(data):
    at = 0
    while at < len(data):
        size = int(data[at:at + 5])
        yield data[at + 6:at + 6 + size]
        at += 6 + size + 1


def store(folder, name, listing):
    with open(os.path.join(folder, name), "wb") as out:
        out.write(listing)


def main(path, folder):
    for k, listing in enumerate(records(open(path, "rb").read())):
        if len(listing) <= 2000:
            store(folder, "%05d" % k, listing)
            in_seconds = OP.sub(rb"\1,2,", listing)
            if in_seconds != listing:
                store(folder, "%05d-op-2" % k, in_seconds)


main(sys.argv[1], sys.argv[2])
