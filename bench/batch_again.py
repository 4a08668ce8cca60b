#!/usr/bin/env python3
"""Measures the memory that a second visit by the same batch takes beside the first.

    python3 bench/batch_again.py [PROGRAM]

A batch of some 160 MB, of blobs of 16 KiB, one tree that has them all and one commit, is loaded into a new archive, and then
once more, as the next visit of its origin, when all of it is held. The second visit may take 1.25 times the memory of the
first at most: the batch is read part by part, and what is held already is shared with the archive and not kept a second time.

Some 350 MB of the folder for temporary files (TMPDIR) are taken. The program is the built one, outside the gate.
"""
import hashlib
import os
import random
import subprocess
import sys
import tempfile

from launched import launch
from program import find_program
from verdict import Verdict

BLOB = 1 << 14
BLOBS = 10_240
MOST_TIMES = 1.25
MEGABYTE = 1 << 20


def write_object(file, kind, body):
    """Writes an object as `git cat-file --batch` does, and answers its id."""
    name = hashlib.sha1(b"%s %d\0" % (kind, len(body)) + body)
    file.write(b"%s %s %d\n%s\n" % (name.hexdigest().encode(), kind, len(body), body))
    return name


def write_batch(batch, refs):
    """A batch of many blobs, each of other bytes, of a tree and a commit, and the refs that name the commit."""
    noise = random.Random(5)
    with open(batch, "wb") as file:
        entries = [b"100644 file%05d\0%s" % (number, write_object(file, b"blob", noise.randbytes(BLOB)).digest())
                   for number in range(BLOBS)]
        tree = write_object(file, b"tree", b"".join(entries))
        commit = write_object(file, b"commit", b"tree %s\nauthor A <a@e.org> 1 +0000\ncommitter A <a@e.org> 1 +0000\n\nall\n"
                              % tree.hexdigest().encode())
    with open(refs, "wb") as file:
        file.write(b"%s refs/heads/main\n" % commit.hexdigest().encode())


def load(program, archive, jobs):
    """A load of the batch."""
    ran = launch(program, "load", archive, jobs)
    if ran.status or b"\tfull\t" not in ran.said:
        sys.exit("not full: %r" % ran.said[:200])
    return ran


def main():
    program = find_program()
    verdict = Verdict()
    with tempfile.TemporaryDirectory() as scratch:
        archive, jobs, batch, refs = (os.path.join(scratch, name) for name in ("archive", "jobs", "batch", "refs"))
        write_batch(batch, refs)
        with open(jobs, "w") as file:
            file.write("batch\thttps://e.org/p\t%s\t%s\n" % (batch, refs))
        subprocess.run([program, "init", archive], check=True, stdout=subprocess.DEVNULL)
        first = load(program, archive, jobs)
        again = load(program, archive, jobs)
        print("%d MB: loaded in %.2f s with a peak of %d MB, again in %.2f s with %d MB" % (
            os.path.getsize(batch) // MEGABYTE, first.seconds, first.peak // MEGABYTE, again.seconds, again.peak // MEGABYTE))
        verdict.at_most("the second visit by a batch, times the memory of the first", again.peak / first.peak, MOST_TIMES)
    verdict.end()


if __name__ == "__main__":
    main()
