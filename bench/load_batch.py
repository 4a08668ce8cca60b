#!/usr/bin/env python3
"""Times the load of batches beside `sha1sum` and `git unpack-objects` of the same objects, by the processor's time, in one run.

    python3 bench/load_batch.py [PROGRAM]

Three repositories are made with git and written out by `git cat-file --batch-all-objects --batch` and
`git show-ref --head -d`: one of 300 MB in three commits, from the files of this machine, and two of small files, with about
10,000 and 100,000 objects. Each batch is loaded into a new archive, summed, and unpacked from a pack of the same objects.

The large one has to be loaded at 0.45 of the rate of `sha1sum` or more, and at least as fast as it is unpacked; ten times the
objects may take at most twelve times as long. Ten loads of the smaller one are timed in a row, so that both times are about
as long, and the two take turns, so that what else the machine does weighs alike on both. The ids of the snapshot's branches
are git's. The program is the built one, outside the gate.
"""
import json
import os
import shutil
import statistics
import subprocess
import sys
import tempfile
import typing

from launched import launch, launch_well
from load_history import commit, git, large_commits, repository
from program import find_program
from verdict import Verdict

LEAST_OF_SUM = 0.45
MOST_TIMES = 12
ROUNDS = 5
# Of so many files, and so many loads are timed in a row.
SMALL = {9_800: 10, 98_000: 1}


class Batch(typing.NamedTuple):
    """A batch and its refs, the pack of its objects, and how many loads of it are timed in a row."""
    name: str
    batch: str
    refs: str
    pack: str
    times: int


def small_commits(files):
    yield commit(0, [(b"folder%03d/file%06d" % (n % 100, n), b"file %d\n" % n) for n in range(files)])


def make_batch(scratch, name, commits, times):
    """The batch of a repository that is made of these commits."""
    bare = repository(os.path.join(scratch, name + ".git"))
    feeding = subprocess.Popen(["git", "-C", bare, "fast-import", "--quiet"], stdin=subprocess.PIPE)
    for text in commits:
        feeding.stdin.write(text)
    feeding.stdin.close()
    if feeding.wait():
        sys.exit("git made no repository")
    subprocess.run(["git", "-C", bare, "symbolic-ref", "HEAD", "refs/heads/main"], check=True)
    batch, refs = os.path.join(scratch, name + ".batch"), os.path.join(scratch, name + ".refs")
    with open(batch, "wb") as file:
        subprocess.run(["git", "-C", bare, "cat-file", "--batch-all-objects", "--batch"], check=True, stdout=file)
    with open(refs, "wb") as file:
        file.write(git(bare, "show-ref", "--head", "-d"))
    pack = os.path.join(scratch, name + ".pack")
    make_pack(bare, pack)
    return Batch(name, batch, refs, pack, times)


def load(program, scratch, batch, refs):
    """The seconds that a load of the batch took, the most bytes that it held, and the branches of its snapshot."""
    archive, jobs = os.path.join(scratch, "archive"), os.path.join(scratch, "jobs")
    shutil.rmtree(archive, ignore_errors=True)
    subprocess.run([program, "init", archive], check=True, stdout=subprocess.DEVNULL)
    with open(jobs, "w") as file:
        file.write("batch\thttps://e.org/p\t%s\t%s\n" % (batch, refs))
    ran = launch(program, "load", archive, jobs)
    if b"\tfull\t" not in ran.said:
        sys.exit("not full: %r" % ran.said[:200])
    snapshot = ran.said.strip().rpartition(b":")[2].decode()
    asked = subprocess.run([program, "ask", archive, "/api/1/snapshot/%s/" % snapshot], check=True, stdout=subprocess.PIPE)
    branches = json.loads(asked.stdout.split(b"\n", 1)[1])["branches"]
    return ran.seconds, ran.peak, {name: branch["target"] for name, branch in branches.items()}


def make_pack(bare, pack):
    with open(pack, "wb") as file:
        subprocess.run(["git", "-C", bare, "pack-objects", "--all", "--stdout", "-q"], check=True, stdout=file,
                       stdin=subprocess.DEVNULL)


def time_unpack(scratch, pack):
    fresh = os.path.join(scratch, "new.git")
    shutil.rmtree(fresh, ignore_errors=True)
    repository(fresh)
    return launch_well("git", "-C", fresh, "unpack-objects", "-q", given=pack).seconds


def mean_of_loads(program, scratch, one):
    """The mean time of the loads in a row, the most bytes that the last held, and the branches of its snapshot."""
    loads = [load(program, scratch, one.batch, one.refs) for _ in range(one.times)]
    return sum(took for took, _, _ in loads) / one.times, loads[-1][1], loads[-1][2]


def measure(program, scratch, batches, verdict):
    """Of each batch the medians of some rounds, in which all take turns: seconds of load and of sum; and those of unpacking."""
    rounds = [[(mean_of_loads(program, scratch, one), launch_well("sha1sum", one.batch).seconds) for one in batches]
              for _ in range(ROUNDS)]
    for one, turns in zip(batches, zip(*rounds)):
        took = statistics.median(loaded[0] for loaded, _ in turns)
        summed = statistics.median(seconds for _, seconds in turns)
        unpacked = time_unpack(scratch, one.pack)
        print("%-10s %9d bytes: swharc %7.3f s, peak %d bytes; sha1sum %7.3f s (%.2f of its rate), unpack-objects %7.3f s"
              % (one.name, os.path.getsize(one.batch), took, min(loaded[1] for loaded, _ in turns), summed, summed / took,
                 unpacked))
        with open(one.refs) as file:
            wanted = {line.split()[1]: line.split()[0] for line in file if not line.rstrip().endswith("^{}")}
        told = turns[0][0][2]
        verdict.as_told("the branches of " + one.name, None if told == wanted else "%s" % told)
        yield took, summed, unpacked


def main():
    program = find_program()
    verdict = Verdict()
    with tempfile.TemporaryDirectory() as scratch:
        (large,) = measure(program, scratch, [make_batch(scratch, "large", large_commits(), 1)], verdict)
        fewer, more = measure(program, scratch, [make_batch(scratch, "small%d" % files, small_commits(files), times)
                                                 for files, times in SMALL.items()], verdict)
    verdict.at_least("the large batch, of sha1sum's rate", large[1] / large[0], LEAST_OF_SUM)
    verdict.at_least("the large batch, times as fast as git unpack-objects", large[2] / large[0], 1)
    verdict.at_most("ten times the objects, times as long", more[0] / fewer[0], MOST_TIMES)
    verdict.end()


if __name__ == "__main__":
    main()
