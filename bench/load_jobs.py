#!/usr/bin/env python3
"""Times the load of job files of 32 and of 256 jobs, each of a small stream of its own, into one new archive.

    python3 bench/load_jobs.py [PROGRAM]

Loading is linear in the jobs: eight times as many may take at most twelve times as long, by medians of the processor's times of
rounds in turn. The program is the built one, outside the gate.
"""
import os
import shutil
import subprocess
import sys
import tempfile

from launched import launch_well, median_seconds, rounds_of
from program import find_program
from verdict import Verdict

SIZES = (32, 256)
MOST_TIMES = 12
ROUNDS = 5


def stream_of(number):
    """A stream of one file and one commit, which no other number has."""
    data = b"file %d\n" % number
    return (b"blob\nmark :1\ndata %d\n%s\ncommit refs/heads/main\nmark :2\ncommitter A <a@e.org> %d +0000\n"
            b"data 6\nfirst\n\nM 100644 :1 file\n\n" % (len(data), data, 1_000_000_000 + number))


def write_jobs(folder, count):
    """A job file of this many streams."""
    path = os.path.join(folder, "jobs%d" % count)
    with open(path, "w") as jobs:
        for number in range(count):
            stream = os.path.join(folder, "stream%d" % number)
            with open(stream, "wb") as file:
                file.write(stream_of(number))
            jobs.write("fast\thttps://e.org/%d\t%s\n" % (number, stream))
    return path


def load(program, folder, jobs, count):
    archive = os.path.join(folder, "archive")
    shutil.rmtree(archive, ignore_errors=True)
    subprocess.run([program, "init", archive], check=True, stdout=subprocess.DEVNULL)
    ran = launch_well(program, "load", archive, jobs)
    if ran.said.count(b"\t1\tfull\t") != count:
        sys.exit("not all full: %r" % ran.said[:400])
    return ran


def main():
    program = find_program()
    with tempfile.TemporaryDirectory() as folder:
        runs = [lambda count=count, jobs=write_jobs(folder, count): load(program, folder, jobs, count) for count in SIZES]
        took = list(map(median_seconds, rounds_of(ROUNDS, *runs)))
    for count, seconds in zip(SIZES, took):
        print("%d jobs: %.3f s, %.2f ms a job" % (count, seconds, 1000 * seconds / count))
    verdict = Verdict()
    verdict.at_most("eight times the jobs, times as long", took[1] / took[0], MOST_TIMES)
    verdict.end()


if __name__ == "__main__":
    main()
