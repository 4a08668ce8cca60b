#!/usr/bin/env python3
"""Shows how the time of the built program grows: each kind of work is done at one size and at four times that size.

    python3 bench/growth.py [PROGRAM]

Four times the work may take at most eight times as long, so that n log n passes and what is quadratic does not. A time is
the processor's, for the program alone, and the least of a few runs; less than FLOOR counts as FLOOR. Seven kinds are one
commit of many changes; the others are a long history, many branches, many tags, an opening and a check. The program is the
built one, outside the gate.
"""
import os
import shutil
import subprocess
import sys
import tempfile

from open_memory import write_archive
from program import find_program
from verdict import Verdict

TIMES = 4
MOST_TIMES = 8
FLOOR = 0.01
ROUNDS = 3
PERSON = b"A <a@e.org> 1000000000 +0000"
MAIN = b"refs/heads/main"


class Stream:
    """A stream, written part by part."""

    def __init__(self):
        self.parts = []
        self.mark = 0

    def add(self, *parts):
        self.parts += parts

    def next_mark(self):
        self.mark += 1
        return self.mark

    def blob(self, body):
        """Adds a blob, and answers its mark."""
        mark = self.next_mark()
        self.add(b"blob\nmark :%d\ndata %d\n%s\n" % (mark, len(body), body))
        return mark

    def commit(self, changes):
        """Adds a commit on top of the last one, and answers its mark."""
        mark = self.next_mark()
        self.add(b"commit %s\nmark :%d\ncommitter %s\ndata 0\n" % (MAIN, mark, PERSON), *changes, b"\n")
        return mark

    def files(self, paths):
        """Adds a commit that sets one small file at each path, and answers its mark."""
        blob = self.blob(b"small\n")
        return self.commit(b"M 100644 :%d %s\n" % (blob, path) for path in paths)


def names(count):
    return [b"file%06d" % number for number in range(count)]


def flat(stream, count):
    """Files of one folder, each with a blob of its own."""
    blobs = [stream.blob(name) for name in names(count)]
    stream.commit(b"M 100644 :%d %s\n" % row for row in zip(blobs, names(count)))


def backwards(stream, count):
    """Files of one folder, from the last name to the first."""
    stream.files(reversed(names(count)))


def inline(stream, count):
    """Files of one folder whose bytes stand in the commit."""
    stream.commit(b"M 100644 inline %s\ndata %d\n%s\n" % (name, len(name), name) for name in names(count))


def renames(stream, count):
    """Each file of a folder gets another name."""
    stream.files(names(count))
    stream.commit(b"R %s new-%s\n" % (name, name) for name in names(count))


def deletes(stream, count):
    """Each file of a folder is deleted."""
    stream.files(names(count))
    stream.commit(b"D %s\n" % name for name in names(count))


def spread(stream, count):
    """Files of folders of folders, ten in each."""
    stream.files(b"a%d/b%d/%s" % (number // 100, number // 10, name) for number, name in enumerate(names(count)))


def history(stream, count):
    """Commits of one change each, over 1,000 files in 20 folders."""
    paths = [b"folder%d/%s" % (number % 20, name) for number, name in enumerate(names(1_000))]
    stream.files(paths)
    for number in range(count):
        blob = stream.blob(b"%d" % number)
        stream.commit([b"M 100644 :%d %s\n" % (blob, paths[number % 1_000])])


def refs(stream, count):
    """Branches at one commit."""
    commit = stream.files([b"file"])
    for name in names(count):
        stream.add(b"reset refs/heads/%s\nfrom :%d\n\n" % (name, commit))


def tags(stream, count):
    """Tags of one commit, each with a message."""
    commit = stream.files([b"file"])
    for name in names(count):
        stream.add(b"tag %s\nfrom :%d\ntagger %s\ndata 4\ntag\n" % (name, commit, PERSON))


LOADS = ((flat, 5_000), (backwards, 5_000), (inline, 5_000), (renames, 2_500), (deletes, 2_500), (spread, 10_000),
         (history, 1_000), (refs, 15_000), (tags, 5_000))
OPENED = 50_000


def seconds(*command):
    """What the processor spent on a command, and its status."""
    with subprocess.Popen(command, stdout=subprocess.DEVNULL) as running:
        _, status, used = os.wait4(running.pid, 0)
        running.returncode = os.waitstatus_to_exitcode(status)
    return used.ru_utime + used.ru_stime, running.returncode


def least(run):
    """The least of a few runs; one that takes long is not done again."""
    times = []
    while len(times) < ROUNDS and sum(times) < 10:
        times.append(run())
    return max(min(times), FLOOR)


def time_load(program, folder, make, count):
    """The seconds of a load into a new archive."""
    stream = Stream()
    make(stream, count)
    with open(os.path.join(folder, "stream"), "wb") as file:
        file.writelines(stream.parts)
    archive, jobs = os.path.join(folder, "archive"), os.path.join(folder, "jobs")
    with open(jobs, "w") as file:
        file.write("fast\thttps://e.org/p\t%s\n" % os.path.join(folder, "stream"))

    def once():
        shutil.rmtree(archive, ignore_errors=True)
        subprocess.run([program, "init", archive], check=True, stdout=subprocess.DEVNULL)
        took, status = seconds(program, "load", archive, jobs)
        if status:
            sys.exit("%s of %d: status %d" % (make.__name__, count, status))
        return took
    return least(once)


def time_reading(folder, count, status, program, word, *words):
    """The seconds of a command on an archive of so many contents, where it ends with this status."""
    archive = os.path.join(folder, "contents%d" % count)
    if not os.path.exists(archive):
        write_archive(archive, count, 20)

    def once():
        took, ended = seconds(program, word, archive, *words)
        if ended != status:
            sys.exit("%s of %d contents: status %d" % (word, count, ended))
        return took
    return least(once)


def works(program, folder):
    """The name of each work, its size, and what does it at a size."""
    for make, count in LOADS:
        yield make.__name__, count, lambda size, make=make: time_load(program, folder, make, size)
    yield "opening", OPENED, lambda size: time_reading(folder, size, 1, program, "ask", "/api/1/origin/none/visits/")
    yield "checking", OPENED, lambda size: time_reading(folder, size, 0, program, "check")


def main():
    program = find_program()
    verdict = Verdict()
    with tempfile.TemporaryDirectory() as folder:
        for name, count, run in works(program, folder):
            small, large = run(count), run(TIMES * count)
            print("%s: %d in %.3f s, %d in %.3f s" % (name, count, small, TIMES * count, large))
            verdict.at_most("%s: four times as many, times as long" % name, large / small, MOST_TIMES)
    verdict.end()


if __name__ == "__main__":
    main()
