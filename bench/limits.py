#!/usr/bin/env python3
"""Loads inputs of as many bytes as one may have, 4,294,967,296, and of one more, and says how each load ends.

    python3 bench/limits.py [PROGRAM]

What no test of the gate shows, since each takes several seconds. A stream of comments, a batch of one content 4,096 times
over, a batch of as many long objects, and refs that are all of what a tag leads to are read to their ends, and the visits are
full; with a byte more behind them the limit is told. Of a batch whose last object has a byte more its LF stands above the
limit, which is told; where it is cut there, the object breaks. A line of refs above the limit passes it before its form is
judged, and a line that is too long one byte before the limit is told to be too long.

The line that `load` prints is compared, its status too, and of what is full what `check` then counts. Each input comes through
a named pipe, so that nothing is written to a disk; what a load stops reading is let go. The processor time of each load is told,
and bounded: a bound that is missed says that a limit is met by a slow way. The program is the built one, outside the gate.
"""
import hashlib
import os
import subprocess
import sys
import tempfile
import threading
import typing

from program import find_program
from verdict import Verdict

PIECE = 1 << 20
MOST = 1 << 12
MOST_SECONDS = 40
FULL = "full\tswh:1:snp:%s" % hashlib.sha1(b"snapshot 0\0").hexdigest()
LIMIT = "failed\tlimit stream"

STREAM = "fast\tu\te", "e"
BATCH = "batch\tu\tb\tr", "b"
REFS = "batch\tu\tb\tr", "r"


class Row(typing.NamedTuple):
    """A long input: what it is, its job with the part of it that is long, a piece of it, how many of these come first, what
    comes behind them, how the load ends, and how many objects are held where it is full."""
    what: str
    input: tuple
    piece: bytes
    times: int
    rest: bytes
    told: str
    objects: typing.Optional[int] = None


def blob(byte, size):
    """A content in a batch, with its header and without its LF, whose body is a byte so many times."""
    body = byte * size
    name = hashlib.sha1(b"blob %d\0" % size + body).hexdigest()
    return b"%s blob %d\n" % (name.encode(), size) + body


def skipped_line(length):
    """A line of so many bytes, 45 or more, of what a tag leads to."""
    return b"1" * 40 + b" " + b"a" * (length - 45) + b"^{}\n"


# A line of a stream, and an object of a batch: a header of 54 bytes, a body and an LF. Both have a mebibyte.
COMMENT = b"#" + b"x" * (PIECE - 2) + b"\n"
OBJECT = blob(b"x", PIECE - 55) + b"\n"
LONGER = blob(b"x", PIECE - 54)

ROWS = [
    Row("a stream of the limit", STREAM, COMMENT, MOST, b"", FULL, 1),
    Row("a stream above the limit", STREAM, COMMENT, MOST, b"\n", LIMIT),
    Row("a batch of the limit", BATCH, OBJECT, MOST, b"", FULL, 2),
    Row("a header above the limit", BATCH, OBJECT, MOST, b"x\n", LIMIT),
    Row("a body whose LF is above the limit", BATCH, OBJECT, MOST - 1, LONGER + b"\n", LIMIT),
    Row("a body that is cut at the limit", BATCH, OBJECT, MOST - 1, LONGER, "failed\tbatch %d" % ((MOST - 1) * PIECE)),
    Row("refs of the limit", REFS, skipped_line(PIECE), MOST, b"", FULL, 1),
    Row("refs above the limit", REFS, skipped_line(PIECE), MOST, b"\n", LIMIT),
    Row("a line above the limit", REFS, skipped_line(PIECE), MOST - 1, skipped_line(PIECE - 1) + b"a\n", LIMIT),
    Row("a line that is too long below the limit", REFS, skipped_line(PIECE), MOST - 2,
        skipped_line(PIECE - 1) + b"a" * (PIECE + 1), "failed\tlimit line"),
]


def feed(pipe, row):
    """Writes the long part of an input, as far as it is read."""
    try:
        with open(pipe, "wb", buffering=0) as file:
            for text in [row.piece] * row.times + [row.rest]:
                left = memoryview(text)
                while left:
                    left = left[file.write(left):]
    except BrokenPipeError:
        pass


def load(program, scratch, row):
    """The status of a load, what it printed, and the processor seconds that it took."""
    pipe = os.path.join(scratch, row.input[1])
    os.mkfifo(pipe)
    feeding = threading.Thread(target=feed, args=(pipe, row))
    feeding.start()
    running = subprocess.Popen([program, "load", "A", "J"], cwd=scratch, stdout=subprocess.PIPE)
    said = running.stdout.read()
    _, status, used = os.wait4(running.pid, 0)
    running.returncode = os.waitstatus_to_exitcode(status)
    # Where the pipe was never opened, it is now, and closed.
    os.close(os.open(pipe, os.O_RDONLY | os.O_NONBLOCK))
    feeding.join()
    return running.returncode, said.decode(), used.ru_utime + used.ru_stime


def try_row(verdict, program, row):
    job, part = row.input
    with tempfile.TemporaryDirectory() as scratch:
        with open(os.path.join(scratch, "J"), "w") as file:
            file.write(job + "\n")
        for other in "ebr":
            if other != part:
                open(os.path.join(scratch, other), "w").close()
        subprocess.run([program, "init", "A"], cwd=scratch, check=True, stdout=subprocess.DEVNULL)
        status, said, took = load(program, scratch, row)
        counted = subprocess.run([program, "check", "A"], cwd=scratch, check=True, stdout=subprocess.PIPE, text=True).stdout
    is_told = (status, said) == (0 if row.told == FULL else 1, "u\t1\t%s\n" % row.told)
    verdict.as_told(row.what, None if is_told else "status %d, %r" % (status, said[:200]))
    if row.objects is not None:
        is_held = counted == "objects %d closed 1 visits 1\n" % row.objects
        verdict.as_told(row.what + ", and what is held", None if is_held else repr(counted))
    verdict.at_most(row.what + ", processor seconds", took, MOST_SECONDS)


def main():
    if not len(COMMENT) == len(OBJECT) == len(LONGER) == PIECE:
        sys.exit("a piece of another length than %d bytes" % PIECE)
    program, verdict = find_program(), Verdict()
    for row in ROWS:
        try_row(verdict, program, row)
    verdict.end()


if __name__ == "__main__":
    main()
