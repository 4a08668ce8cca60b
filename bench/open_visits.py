#!/usr/bin/env python3
"""Times the opening of an archive with one full visit of a snapshot of 10,000 files, and with 256 of them.

    python3 bench/open_visits.py [PROGRAM]

What is closed once is not walked again: the opening with 256 visits may take at most 1.3 times as long as that with
one, by the medians of the processor's times of runs in turn. Each opening is an `ask` for an origin that is not there. The
program is the built one, outside the gate.
"""
import hashlib
import os
import struct
import sys
import tempfile

from launched import launch, median_seconds, rounds_of
from program import find_program
from verdict import Verdict

FILES = 10_000
VISITS = (1, 256)
BATCH = 4096
MOST_TIMES = 1.3
ROUNDS = 11
ORIGIN = b"https://e.org/p"
WORDS = {1: b"blob", 2: b"tree", 3: b"commit", 5: b"snapshot"}


def made(kind, body):
    """An object: its kind's number, its id and its body."""
    return kind, hashlib.sha1(b"%s %d\0" % (WORDS[kind], len(body)) + body).digest(), body


def objects_of(count):
    """A snapshot of one revision of a folder of this many files, and all that it reaches; the snapshot comes last."""
    files = [made(1, b"%099d\n" % number) for number in range(count)]
    folder = made(2, b"".join(b"100644 file%06d\0" % place + id for place, (_, id, _) in enumerate(files)))
    head = b"tree %s\n" % folder[1].hex().encode()
    person = b"A <a@e.org> 1000000000 +0000\n"
    revision = made(3, head + b"author " + person + b"committer " + person + b"\nfirst\n")
    snapshot = made(5, b"revision refs/heads/main\x0020:" + revision[1])
    return files + [folder, revision, snapshot]


def record(kind, rest):
    payload = struct.pack(">I", 1) + rest
    return b"\x01" + kind + struct.pack(">I", len(payload)) + payload


def write_archive(folder, objects, visits):
    ledger, store = [b"SWHARC1\n"], b""
    for begin in range(0, len(objects), BATCH):
        batch = objects[begin:begin + BATCH]
        run = b"".join(struct.pack(">BQ", kind, len(body)) + id + body for kind, id, body in batch)
        ledger.append(record(b"B", struct.pack(">QQI", len(store), len(store) + len(run), len(batch))))
        store += run
    for number in range(1, visits + 1):
        ledger.append(record(b"O", struct.pack(">BQ", 1, 1_000_000_000) + ORIGIN))
        ledger.append(record(b"T", struct.pack(">BQB", 3, number, 1) + objects[-1][1] + ORIGIN))
    os.mkdir(folder)
    with open(os.path.join(folder, "0"), "wb") as file:
        file.write(b"".join(ledger) + b"\0")
    with open(os.path.join(folder, "1"), "wb") as file:
        file.write(store)


def ask(program, archive, origin):
    return launch(program, "ask", archive, "/api/1/origin/%s/visits/" % origin)


def open_archive(program, archive):
    ran = ask(program, archive, "https://none.example")
    if ran.status != 1 or not ran.said.startswith(b"404 21\n"):
        sys.exit("not opened: %r" % ran.said)
    return ran


def main():
    program = find_program()
    objects = objects_of(FILES)
    with tempfile.TemporaryDirectory() as folder:
        for visits in VISITS:
            write_archive(os.path.join(folder, str(visits)), objects, visits)
            said = ask(program, os.path.join(folder, str(visits)), ORIGIN.decode()).said
            if said.count(b'"full"') != visits:
                sys.exit("not %d full visits: %r" % (visits, said[:200]))
        runs = [lambda visits=visits: open_archive(program, os.path.join(folder, str(visits))) for visits in VISITS]
        took = list(map(median_seconds, rounds_of(ROUNDS, *runs)))
    for visits, seconds in zip(VISITS, took):
        print("%4d visits: %7.3f s" % (visits, seconds))
    verdict = Verdict()
    verdict.at_most("opening with 256 visits, times that with one", took[1] / took[0], MOST_TIMES)
    verdict.end()


if __name__ == "__main__":
    main()
