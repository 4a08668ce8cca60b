#!/usr/bin/env python3
"""Times the reading of a held snapshot of many branches, 10,000 and 100,000.

    python3 bench/snapshot_branches.py [PROGRAM]

An archive is written whose one batch holds the snapshot, and the program is asked for an origin that it does not know,
for which it opens the archive and reads each object anew. The larger snapshot may take at most fifteen times as long
as the smaller one, by medians of the processor's times. The program is the built one, outside the gate.
"""
import hashlib
import os
import struct
import sys
import tempfile

from launched import launch, median_seconds, rounds_of
from program import find_program
from verdict import Verdict

SIZES = (10_000, 100_000)
MOST_TIMES = 15
ROUNDS = 5


def snapshot_of(count):
    """A snapshot of this many branches that lead nowhere."""
    return b"".join(b"dangling refs/heads/branch%06d\x000:" % number for number in range(count))


def write_archive(folder, body):
    name = hashlib.sha1(b"snapshot %d\x00" % len(body) + body).digest()
    run = b"\x05" + struct.pack(">Q", len(body)) + name + body
    payload = struct.pack(">IQQI", 1, 0, len(run), 1)
    record = b"B" + struct.pack(">I", len(payload)) + payload
    os.mkdir(folder)
    with open(os.path.join(folder, "0"), "wb") as ledger:
        ledger.write(b"SWHARC1\n\x01" + record + b"\x00")
    with open(os.path.join(folder, "1"), "wb") as store:
        store.write(run)


def ask(program, folder):
    ran = launch(program, "ask", folder, "/api/1/origin/https://none.example/visits/")
    if ran.status != 1 or not ran.said.startswith(b"404 21\n"):
        sys.exit("not opened: %r" % ran.said)
    return ran


def main():
    program = find_program()
    with tempfile.TemporaryDirectory() as folder:
        runs = []
        for count in SIZES:
            archive = os.path.join(folder, "archive%d" % count)
            write_archive(archive, snapshot_of(count))
            runs.append(lambda archive=archive: ask(program, archive))
        took = list(map(median_seconds, rounds_of(ROUNDS, *runs)))
    for count, seconds in zip(SIZES, took):
        print("%7d branches: %7.3f s" % (count, seconds))
    verdict = Verdict()
    verdict.at_most("ten times the branches of a snapshot, times as long", took[1] / took[0], MOST_TIMES)
    verdict.end()


if __name__ == "__main__":
    main()
