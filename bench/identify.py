#!/usr/bin/env python3
"""Times `identify cnt` of a file of 64 MiB beside sha1sum of the same file, and takes its peak memory; and takes that of
`identify dir` of a folder of 300 files of 1 MiB.

    python3 bench/identify.py [PROGRAM]

The program may take at most twice as long as sha1sum in the same run, and hold less than one and a half times the file
in memory. Both are run in turn, and the median of each one's times counts, which are the processor's. Of a folder it may hold no
more than 64 MB beside the largest file: the ids of its files are kept, and not their bytes. The program is the built one, outside
the gate.
"""
import hashlib
import os
import sys
import tempfile

from launched import launch_well, median_seconds, rounds_of
from program import find_program
from verdict import Verdict

FILE_BYTES = 67_108_864
MOST_TIMES = 2.0
MOST_MEMORY = 1.5
ROUNDS = 5
FILES = 300
PIECE_BYTES = 1_048_576
MOST_BESIDE_FILE = 64_000_000


def identify(program, kind, path, expected):
    ran = launch_well(program, "identify", kind, path)
    if ran.said != expected:
        sys.exit("printed %r, not %r" % (ran.said, expected))
    return ran


def make_file(path):
    """A file of bytes that do not repeat, and the identifier of its content."""
    name = hashlib.sha1(b"blob %d\0" % FILE_BYTES)
    with open(path, "wb") as file:
        for _ in range(FILE_BYTES // PIECE_BYTES):
            piece = os.urandom(PIECE_BYTES)
            name.update(piece)
            file.write(piece)
    return b"swh:1:cnt:%s\n" % name.hexdigest().encode()


def make_folder(path):
    """A folder of files of bytes that do not repeat, and the identifier of its directory."""
    os.mkdir(path)
    entries = b""
    for number in range(FILES):
        piece = os.urandom(PIECE_BYTES)
        with open(os.path.join(path, "file%03d" % number), "wb") as file:
            file.write(piece)
        content = hashlib.sha1(b"blob %d\0" % PIECE_BYTES + piece).digest()
        entries += b"100644 file%03d\0" % number + content
    name = hashlib.sha1(b"tree %d\0" % len(entries) + entries)
    return b"swh:1:dir:%s\n" % name.hexdigest().encode()


def main():
    program = find_program()
    with tempfile.TemporaryDirectory() as room:
        path, folder = os.path.join(room, "file"), os.path.join(room, "folder")
        expected = make_file(path)
        ours, theirs = rounds_of(ROUNDS, lambda: identify(program, "cnt", path, expected), lambda: launch_well("sha1sum", path))
        beside = identify(program, "dir", folder, make_folder(folder)).peak - PIECE_BYTES
    peak = max(ran.peak for ran in ours)
    print("swharc %.3f s, sha1sum %.3f s; peak %d bytes" % (median_seconds(ours), median_seconds(theirs), peak))
    verdict = Verdict()
    verdict.at_most("naming a file, times of sha1sum", median_seconds(ours) / median_seconds(theirs), MOST_TIMES)
    verdict.below("its peak, times the file", peak / FILE_BYTES, MOST_MEMORY)
    verdict.at_most("peak of a folder beside its largest file, in MB", beside / 1e6, MOST_BESIDE_FILE / 1e6)
    verdict.end()


if __name__ == "__main__":
    main()
