#!/usr/bin/env python3
"""Times the load of folders beside `git add -A` and `git write-tree` of the same folder in a new repository, in one run, by the
processor's time and medians of rounds in turn.

    python3 bench/load_folder.py [PROGRAM]

Two folders are made, of 10,000 files in 100 folders and of 100,000 files in 1,000. Each is loaded into a new archive, and the
snapshot's branch leads to the tree that git makes of it. The larger one has to be loaded at least three times as fast as git
adds it and writes its tree; and it may take at most twelve times as long as the smaller one. The program is the built one,
outside the gate.
"""
import json
import os
import shutil
import statistics
import subprocess
import sys
import tempfile

from launched import launch, launch_well, rounds_of
from program import find_program
from verdict import Verdict

SIZES = ((10_000, 100), (100_000, 1_000))
LEAST_OF_ADD = 3
MOST_TIMES = 12
ROUNDS = 3


def make_folder(folder, files, folders):
    for number in range(folders):
        os.makedirs(os.path.join(folder, "folder%04d" % number))
    for number in range(files):
        with open(os.path.join(folder, "folder%04d" % (number % folders), "file%06d" % number), "w") as file:
            file.write("file %d of %d\n" % (number, files))


def load(program, scratch, folder):
    """The seconds that a load of the folder took, the most bytes that it held, and the id of its directory."""
    archive, jobs = os.path.join(scratch, "archive"), os.path.join(scratch, "jobs")
    shutil.rmtree(archive, ignore_errors=True)
    subprocess.run([program, "init", archive], check=True, stdout=subprocess.DEVNULL)
    with open(jobs, "w") as file:
        file.write("dir\thttps://e.org/p\t%s\n" % folder)
    ran = launch(program, "load", archive, jobs)
    if b"\tfull\t" not in ran.said:
        sys.exit("not full: %r" % ran.said[:200])
    snapshot = ran.said.strip().rpartition(b":")[2].decode()
    asked = subprocess.run([program, "ask", archive, "/api/1/snapshot/%s/" % snapshot], check=True, stdout=subprocess.PIPE)
    return ran.seconds, ran.peak, json.loads(asked.stdout.split(b"\n", 1)[1])["branches"]["HEAD"]["target"]


def add(scratch, folder):
    """The seconds that git took for the same folder, and the id of its tree."""
    bare = os.path.join(scratch, "new.git")
    shutil.rmtree(bare, ignore_errors=True)
    subprocess.run(["git", "init", "--quiet", "--bare", bare], check=True)
    git = ["git", "--git-dir", bare, "--work-tree", folder]
    added, written = launch_well(*git, "add", "-A"), launch_well(*git, "write-tree")
    return added.seconds + written.seconds, written.said.strip().decode()


def main():
    program = find_program()
    verdict = Verdict()
    best = {}
    with tempfile.TemporaryDirectory() as scratch:
        for files, folders in SIZES:
            folder = os.path.join(scratch, "folder%d" % files)
            make_folder(folder, files, folders)
            loads, adds = rounds_of(ROUNDS, lambda: load(program, scratch, folder), lambda: add(scratch, folder))
            best[files] = statistics.median(one[0] for one in loads), statistics.median(one[0] for one in adds)
            print("%7d files in %5d folders: swharc %7.3f s, peak %d bytes; git add and write-tree %7.3f s"
                  % (files, folders, best[files][0], min(one[1] for one in loads), best[files][1]))
            trees = {one[-1] for one in loads + adds}
            verdict.as_told("the tree of %d files" % files, None if len(trees) == 1 else "ids %s" % sorted(trees))
            shutil.rmtree(folder)
    small, large = (best[files] for files, _ in SIZES)
    verdict.at_least("100,000 files, times as fast as git add and write-tree", large[1] / large[0], LEAST_OF_ADD)
    verdict.at_most("ten times the files, times as long", large[0] / small[0], MOST_TIMES)
    verdict.end()


if __name__ == "__main__":
    main()
