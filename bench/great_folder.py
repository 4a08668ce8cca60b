#!/usr/bin/env python3
"""Names folders whose files have 2^32 bytes together, and one byte more, by `identify dir`.

    python3 bench/great_folder.py [PROGRAM]

The first is to be named as its directory is, whose id is made here of its entries; of the second the limit is to be told.
The files are holes, so that the folders take no room on the disk. The program is the built one, outside the gate.
"""
import hashlib
import os
import subprocess
import sys
import tempfile

from program import find_program
from verdict import Verdict

FILE_BYTES = 67_108_864
FILES = 64


def id_of(kind, body):
    """The id of an object of this kind and body (git objects)."""
    return hashlib.sha1(b"%s %d\0" % (kind, len(body)) + body).digest()


def line_of(zeros):
    """What is printed of the folder whose last file is empty."""
    entries = b"".join(b"100644 %02d\0" % number + (zeros if number < FILES else id_of(b"blob", b"")) for number in range(FILES + 1))
    return b"swh:1:dir:%s\n" % id_of(b"tree", entries).hex().encode()


def make_folder(path, last):
    """A folder of 64 files of zeros and a last file of so many."""
    os.mkdir(path)
    for number in range(FILES + 1):
        with open(os.path.join(path, "%02d" % number), "wb") as file:
            file.truncate(FILE_BYTES if number < FILES else last)


def fault_of(program, path, last, expected):
    """How the naming of a folder whose last file has so many bytes ends otherwise than expected."""
    make_folder(path, last)
    done = subprocess.run([program, "identify", "dir", path], stdout=subprocess.PIPE)
    ended = (done.returncode, done.stdout)
    return None if ended == expected else "status %d, printed %r, not %r" % (ended + (expected,))


def main():
    program = find_program()
    named = (0, line_of(id_of(b"blob", bytes(FILE_BYTES))))
    verdict = Verdict()
    with tempfile.TemporaryDirectory() as room:
        verdict.as_told("files of 2^32 bytes together", fault_of(program, os.path.join(room, "whole"), 0, named))
        verdict.as_told("one byte more", fault_of(program, os.path.join(room, "more"), 1, (1, b"swharc: limit stream\n")))
    verdict.end()


if __name__ == "__main__":
    main()
