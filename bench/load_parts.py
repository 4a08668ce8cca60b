#!/usr/bin/env python3
"""Measures the memory that a load of a long stream takes beside what the archive holds.

    python3 bench/load_parts.py [PROGRAM]

A stream of 1 GB, of blobs of 1 MB and one commit that has them all, is loaded into a new archive, and then once more, as
another origin, when all of it is held. What the archive holds in memory is the peak of an `ask` of it. Above that a load
may hold 300 MB: the stream is read part by part, and what was sent, or is held, is not kept beside the archive. Then the
same of half the stream: what a load holds does not grow with its length.

Some 3 GB of the folder for temporary files (TMPDIR) are taken. The program is the built one, outside the gate.
"""
import os
import random
import subprocess
import sys
import tempfile

from launched import launch
from program import find_program
from verdict import Verdict

BLOB = 1 << 20
BLOBS = 1_024
MOST = 300
MEGABYTE = 1 << 20


def write_stream(path, blobs):
    """A stream of so many blobs, each of other bytes, and one commit that has them all."""
    noise = random.Random(3)
    with open(path, "wb") as file:
        for number in range(1, blobs + 1):
            file.write(b"blob\nmark :%d\ndata %d\n%s\n" % (number, BLOB, noise.randbytes(BLOB)))
        file.write(b"commit refs/heads/main\nauthor A <a@e.org> 1 +0000\ncommitter A <a@e.org> 1 +0000\ndata 4\nall\n")
        for number in range(1, blobs + 1):
            file.write(b"M 100644 :%d folder%02d/file%d\n" % (number, number % 32, number))
        file.write(b"\n")


def load(program, archive, jobs, origin, stream):
    """A load of a stream as one of its origin's visits."""
    with open(jobs, "w") as file:
        file.write("fast\t%s\t%s\trefs/heads/main\n" % (origin, stream))
    ran = launch(program, "load", archive, jobs)
    if ran.status or b"\tfull\t" not in ran.said:
        sys.exit("not full: %r" % ran.said[:200])
    return ran


def measure(program, scratch, blobs, verdict):
    archive, jobs, stream = (os.path.join(scratch, "%s%d" % (name, blobs)) for name in ("archive", "jobs", "stream"))
    write_stream(stream, blobs)
    subprocess.run([program, "init", archive], check=True, stdout=subprocess.DEVNULL)
    first = load(program, archive, jobs, "https://e.org/one", stream)
    again = load(program, archive, jobs, "https://e.org/two", stream)
    _, held, status, said = launch(program, "ask", archive, "/api/1/origin/https://e.org/two/visits/")
    if status:
        sys.exit("the archive does not answer: %r" % said[:200])
    print("%d MB: loaded in %.2f s with a peak of %d MB, again in %.2f s with %d MB; the archive holds %d MB" % (
        blobs * BLOB // MEGABYTE, first.seconds, first.peak // MEGABYTE, again.seconds, again.peak // MEGABYTE, held // MEGABYTE))
    for what, ran in (("load", first), ("second load", again)):
        verdict.at_most("a %s of %d MB, MB beside the archive" % (what, blobs * BLOB // MEGABYTE),
                        (ran.peak - held) / MEGABYTE, MOST)
    os.remove(stream)


def main():
    program = find_program()
    verdict = Verdict()
    with tempfile.TemporaryDirectory() as scratch:
        for blobs in (BLOBS // 2, BLOBS):
            measure(program, scratch, blobs, verdict)
    verdict.end()


if __name__ == "__main__":
    main()
