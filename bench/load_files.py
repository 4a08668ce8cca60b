#!/usr/bin/env python3
"""Times the load of one commit with many files, 10,000 and 100,000 of 100 bytes each.

    python3 bench/load_files.py [PROGRAM]

All files stand in one folder. Loading is n log n: the larger stream may take at most twelve times as long as the smaller
one, and at most a sixtieth of the time of `git fast-import`, which loads the same streams in the same run. Ten loads of the
smaller stream are timed in a row, so that both times are about as long, and what else the machine does in them weighs alike;
rounds of both go in turn, and the median of each counts. Times are the processor's. The program is the built one, outside the
gate.
"""
import os
import shutil
import statistics
import subprocess
import sys
import tempfile

from launched import launch_well
from program import find_program
from verdict import Verdict

SIZES = (10_000, 100_000)
IN_A_ROW = {10_000: 10, 100_000: 1}
FILE_BYTES = 100
MOST_TIMES = 12
LEAST_OF_IMPORT = 60
ROUNDS = 5


def stream_of(count):
    """A stream of one commit with this many files, each of its own bytes."""
    parts = []
    for number in range(1, count + 1):
        data = b"%0*d\n" % (FILE_BYTES - 1, number)
        parts.append(b"blob\nmark :%d\ndata %d\n%s\n" % (number, len(data), data))
    parts.append(b"commit refs/heads/main\nmark :%d\n" % (count + 1))
    parts.append(b"committer A <a@e.org> 1000000000 +0000\ndata 6\nfirst\n\n")
    for number in range(1, count + 1):
        parts.append(b"M 100644 :%d file%d\n" % (number, number))
    parts.append(b"\n")
    return b"".join(parts)


def time_load(program, folder, stream):
    archive = os.path.join(folder, "archive")
    shutil.rmtree(archive, ignore_errors=True)
    jobs = os.path.join(folder, "jobs")
    with open(jobs, "w") as file:
        file.write("fast\thttps://e.org/p\t%s\n" % stream)
    subprocess.run([program, "init", archive], check=True, stdout=subprocess.DEVNULL)
    ran = launch_well(program, "load", archive, jobs)
    if b"\tfull\t" not in ran.said:
        sys.exit("not full: %r" % ran.said)
    return ran.seconds


def time_import(folder, stream):
    bare = os.path.join(folder, "bare.git")
    shutil.rmtree(bare, ignore_errors=True)
    subprocess.run(["git", "init", "--quiet", "--bare", bare], check=True)
    return launch_well("git", "-C", bare, "fast-import", "--quiet", given=stream).seconds


def mean_of_loads(program, folder, stream, count):
    """The mean time of loads in a row."""
    times = IN_A_ROW[count]
    return sum(time_load(program, folder, stream) for _ in range(times)) / times


def main():
    program = find_program()
    with tempfile.TemporaryDirectory() as folder:
        streams = {count: os.path.join(folder, "stream%d" % count) for count in SIZES}
        for count, stream in streams.items():
            with open(stream, "wb") as file:
                file.write(stream_of(count))
        rounds = [[mean_of_loads(program, folder, streams[count], count) for count in SIZES] for _ in range(ROUNDS)]
        best = dict(zip(SIZES, map(statistics.median, zip(*rounds))))
        for count, stream in streams.items():
            git = time_import(folder, stream)
            print("%7d files: swharc %7.3f s (%8.0f files/s), git fast-import %7.3f s (%8.0f files/s)"
                  % (count, best[count], count / best[count], git, count / git))
    verdict = Verdict()
    verdict.at_most("ten times the files of one commit, times as long", best[SIZES[1]] / best[SIZES[0]], MOST_TIMES)
    verdict.at_least("times as fast as git fast-import", git / best[SIZES[1]], LEAST_OF_IMPORT)
    verdict.end()


if __name__ == "__main__":
    main()
