#!/usr/bin/env python3
"""Measures the memory and the time of one commit with 200,000 changes of paths at depth 3.

    python3 bench/many_changes.py [PROGRAM]

Three streams are loaded, each of one blob and one commit: one that sets 200,000 paths once, in 10,000 folders of 20 files;
one that sets 2,000 paths a hundred times each; and one that sets a path and deletes its uppermost folder in turn. Each
may take a second of the processor. Above the peak of a load of an empty stream, each may hold 64 MB. Beside it stands the time
of `git fast-import` of the same stream, in the same run. The program is the built one, outside the gate.
"""
import os
import tempfile

from load_history import import_stream, load
from program import find_program
from verdict import Verdict

CHANGES = 200_000
MOST_BYTES = 64 << 20
MOST_SECONDS = 1.0
HEAD = b"""blob
mark :1
data 2
x

commit refs/heads/main
mark :2
committer A <a@e.org> 1000000000 +0000
data 6
first

"""


def set_path(number):
    return b"M 100644 :1 a%02d/b%02d/f%02d\n" % (number // 2_000 % 100, number // 20 % 100, number % 20)


def delete_folder(number):
    return b"D a%02d\n" % (number // 2_000 % 100)


def shapes():
    """The name of each stream, and the change of each number."""
    yield "each path once", set_path
    yield "2,000 paths in turn", lambda number: set_path(number % 2_000)
    yield "set and deleted", lambda number: set_path(number) if number % 2 else delete_folder(number)


def main():
    program = find_program()
    verdict = Verdict()
    with tempfile.TemporaryDirectory() as folder:
        stream = os.path.join(folder, "stream")
        open(stream, "wb").close()
        empty = load(program, folder, stream).peak
        for name, change in shapes():
            with open(stream, "wb") as out:
                out.write(HEAD + b"".join(map(change, range(CHANGES))) + b"\n")
            ran = load(program, folder, stream)
            print("%s: swharc %.2f s, git fast-import %.2f s" % (name, ran.seconds, import_stream(folder, stream).seconds))
            verdict.at_most("%s: seconds of 200,000 changes" % name, ran.seconds, MOST_SECONDS)
            verdict.at_most("%s: peak of 200,000 changes, MB" % name, (ran.peak - empty) / 2**20, MOST_BYTES >> 20)
    verdict.end()


if __name__ == "__main__":
    main()
