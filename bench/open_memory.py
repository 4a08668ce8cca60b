#!/usr/bin/env python3
"""Measures the peak memory of an opening, and opens a store with a sparse tail.

    python3 bench/open_memory.py [PROGRAM]

Two archives are written as files: one of four contents of 64 MiB, and one of 300,000 contents of 20 bytes. Each is
opened by an `ask` for an origin that is not there. Above the peak of an `ask` on an archive of no event, an opening may
take 1.3 times the bytes of all bodies and 400 bytes an object. Then the store of a small archive is made a terabyte
long by a hole after its last run, and is opened all the same, with less than 16 MiB. The program is the built one, outside
the gate.
"""
import hashlib
import os
import struct
import sys
import tempfile

from launched import launch
from program import find_program
from verdict import Verdict

LARGE = (4, 64 << 20)
SMALL = (300_000, 20)
MOST_OBJECTS = 4096
MOST_BYTES = 8_388_608
TIMES_BODIES = 1.3
BYTES_AN_OBJECT = 400
TAIL = 1 << 40
MOST_OF_SPARSE = 1 << 24
NOT_FOUND = b"404"


def content(number, size):
    """A content of this many bytes, which no other number has: its id and its body."""
    body = struct.pack(">Q", number) + bytes(size - 8)
    return hashlib.sha1(b"blob %d\0" % size + body).digest(), body


def batch_record(begin, end, count):
    payload = struct.pack(">IQQI", 1, begin, end, count)
    return b"\x01B" + struct.pack(">I", len(payload)) + payload


def batch_size(size):
    """How many bodies of this size a batch may have: all but the last have to be within its limit of bytes."""
    return min(MOST_OBJECTS, MOST_BYTES // size + 1)


def write_archive(folder, count, size):
    """An archive of this many contents of this size, in batches that are within the limits."""
    os.mkdir(folder)
    step = batch_size(size)
    end = 0
    with open(os.path.join(folder, "0"), "wb") as ledger, open(os.path.join(folder, "1"), "wb") as store:
        ledger.write(b"SWHARC1\n")
        for first in range(0, count, step):
            begin = end
            batch = range(first, min(first + step, count))
            for number in batch:
                id, body = content(number, size)
                end += store.write(struct.pack(">BQ", 1, size) + id + body)
            ledger.write(batch_record(begin, end, len(batch)))
        ledger.write(b"\0")
    return folder


def peak_of_asking(program, archive):
    """The most bytes that the process held at once."""
    ran = launch(program, "ask", archive, "/api/1/origin/https%3A%2F%2Fe.org%2Fnone/visits/")
    if not ran.said.startswith(NOT_FOUND):
        sys.exit("%s is not opened: %r" % (archive, ran.said[:200]))
    return ran.peak


def main():
    program = find_program()
    verdict = Verdict()
    with tempfile.TemporaryDirectory() as folder:
        empty = peak_of_asking(program, write_archive(os.path.join(folder, "empty"), 0, 20))
        for name, (count, size) in (("large", LARGE), ("small", SMALL)):
            archive = write_archive(os.path.join(folder, name), count, size)
            peak = peak_of_asking(program, archive) - empty
            most = TIMES_BODIES * count * size + BYTES_AN_OBJECT * count
            print("%d contents of %d bytes: %.2f times the bodies, %.0f bytes an object"
                  % (count, size, peak / (count * size), (peak - count * size) / count))
            verdict.at_most("peak of opening %d contents, bytes" % count, peak, int(most))
        sparse = write_archive(os.path.join(folder, "sparse"), 10, 20)
        os.truncate(os.path.join(sparse, "1"), TAIL)
        peak = peak_of_asking(program, sparse) - empty
        verdict.below("peak of opening a store with a sparse tail, bytes", peak, MOST_OF_SPARSE)
    verdict.end()


if __name__ == "__main__":
    main()
