#!/usr/bin/env python3
"""Times cooking beside `git fast-export` and `git checkout-index`, by the processor's time, in one run.

    python3 bench/cook.py [PROGRAM]

Two histories of 5,000 commits, each of two changes, one over 3,000 files in 300 folders and one over 8 files in 2, are loaded,
and their snapshots cooked; and a folder of 100,000 files in 1,000 folders is loaded, and its directory cooked. The time and
the memory of an opening, which is that of an `ask` for the name, are taken off. A cooked stream has each commit with all of
its files, so a history has to be cooked at least as fast as `git fast-export --full-tree` writes the same; and the one of few
files as fast as a `git fast-export` that writes the changes alone, whose time is printed for both. The folder has to be cooked
at least 0.8 times as fast as `git checkout-index -a -f` makes it. Each may hold 200 bytes an object beside what is held. What
was cooked is loaded again, to the same name. The program is the built one, outside the gate.
"""
import json
import os
import shutil
import statistics
import subprocess
import sys
import tempfile

from launched import beyond, launch, launch_well, median_seconds, rounds_of
from load_folder import make_folder
from load_history import git, history_commits, make_stream
from program import find_program
from verdict import Verdict

COMMITS = 5_000
FEW_FILES, FEW_FOLDERS = 8, 2
FILES, FOLDERS = 100_000, 1_000
LEAST_OF_EXPORT = 1
LEAST_OF_CHECKOUT = 0.8
BYTES_AN_OBJECT = 200
WINDOW = 1_114_112
ROUNDS = 3


def load(program, scratch, line):
    """A new archive of this one job; its path, and the SWHID of the snapshot."""
    archive = os.path.join(scratch, "archive")
    shutil.rmtree(archive, ignore_errors=True)
    subprocess.run([program, "init", archive], check=True, stdout=subprocess.DEVNULL)
    jobs = os.path.join(scratch, "jobs")
    with open(jobs, "w") as file:
        file.write(line + "\n")
    said = subprocess.run([program, "load", archive, jobs], check=True, stdout=subprocess.PIPE).stdout
    if b"\tfull\t" not in said:
        sys.exit("not full: %r" % said[:200])
    return archive, said.split(b"\t")[3].strip().decode()


def ask(program, archive, path):
    return json.loads(subprocess.run([program, "ask", archive, path], check=True, stdout=subprocess.PIPE).stdout.split(b"\n", 1)[1])


def remove(out):
    shutil.rmtree(out, ignore_errors=True)
    for path in (out, out + ".modes"):
        if os.path.isfile(path):
            os.remove(path)


def cook(program, archive, name, out):
    remove(out)
    return launch_well(program, "cook", archive, name, out)


def open_archive(program, archive):
    return launch(program, "ask", archive, "/api/1/origin/none/get/")


def beside(opened, cooked):
    """The seconds and the bytes that cooking takes beside an opening."""
    peak = statistics.median(one.peak for one in cooked) - statistics.median(one.peak for one in opened)
    return beyond("cooking", median_seconds(cooked), median_seconds(opened)), peak


def export(bare, path, *words):
    """Has git write a stream to a path."""
    return launch_well("sh", "-c", 'out=$1; shift; exec git "$@" >"$out"', "sh", path, "-C", bare, "fast-export", "--all", *words)


def measure_history(program, scratch, verdict, what, commits):
    stream, _, objects, _ = make_stream(scratch, what.replace(" ", "-"), commits)
    archive, name = load(program, scratch, "fast\thttps://e.org/p\t%s\trefs/heads/main" % stream)
    out = os.path.join(scratch, "cooked")
    paths = [os.path.join(scratch, which) for which in ("changes", "whole")]
    opened, cooked, changes, whole = rounds_of(
        ROUNDS, lambda: open_archive(program, archive), lambda: cook(program, archive, name, out),
        lambda: export(stream + ".git", paths[0]), lambda: export(stream + ".git", paths[1], "--full-tree"))
    took, held = beside(opened, cooked)
    changes, whole = median_seconds(changes), median_seconds(whole)
    print("%s: cooked in %.3f s (%d bytes), written by git fast-export in %.3f s (%d bytes), with --full-tree in %.3f s (%d bytes)"
          % (what, took, os.path.getsize(out), changes, os.path.getsize(paths[0]), whole, os.path.getsize(paths[1])))
    _, again = load(program, scratch, "fast\thttps://e.org/p\t%s\trefs/heads/main" % out)
    verdict.as_told("the cooked %s loads to its name" % what, None if again == name else again)
    verdict.at_least("%s, times as fast as fast-export --full-tree" % what, whole / took, LEAST_OF_EXPORT)
    verdict.at_most("%s, bytes beside what is held" % what, held, BYTES_AN_OBJECT * objects + WINDOW)
    return changes / took


def measure_folder(program, scratch, verdict):
    folder = os.path.join(scratch, "folder")
    make_folder(folder, FILES, FOLDERS)
    archive, snapshot = load(program, scratch, "dir\thttps://e.org/p\t%s" % folder)
    head = ask(program, archive, "/api/1/snapshot/%s/" % snapshot.rpartition(":")[2])["branches"]["HEAD"]["target"]
    out, made = os.path.join(scratch, "out"), os.path.join(scratch, "made")
    bare = os.path.join(scratch, "new.git")
    git_words = ["git", "--git-dir", bare, "--work-tree"]
    subprocess.run(["git", "init", "--quiet", "--bare", bare], check=True)
    subprocess.run([*git_words, folder, "add", "-A"], check=True)

    def check_out():
        shutil.rmtree(made, ignore_errors=True)
        os.mkdir(made)
        return launch_well(*git_words, made, "checkout-index", "-a", "-f")

    opened, cooked, checked = rounds_of(ROUNDS, lambda: open_archive(program, archive),
                                        lambda: cook(program, archive, "swh:1:dir:" + head, out), check_out)
    took, held = beside(opened, cooked)
    checked = median_seconds(checked)
    print("folder of %d files: cooked in %.3f s, made by git checkout-index in %.3f s" % (FILES, took, checked))
    named = subprocess.run([program, "identify", "dir", out], stdout=subprocess.PIPE).stdout.strip().decode()
    verdict.as_told("the cooked folder has its name", None if named == "swh:1:dir:" + head else named)
    verdict.at_least("folder, times as fast as git checkout-index", checked / took, LEAST_OF_CHECKOUT)
    verdict.at_most("folder, bytes beside what is held", held, BYTES_AN_OBJECT * (FILES + FOLDERS + 2) + WINDOW)


def main():
    program = find_program()
    verdict = Verdict()
    with tempfile.TemporaryDirectory() as scratch:
        measure_history(program, scratch, verdict, "history", history_commits(COMMITS))
        beside_changes = measure_history(program, scratch, verdict, "history of few files",
                                         history_commits(COMMITS, FEW_FILES, FEW_FOLDERS))
        verdict.at_least("history of few files, times as fast as git fast-export", beside_changes, LEAST_OF_EXPORT)
        measure_folder(program, scratch, verdict)
    verdict.end()


if __name__ == "__main__":
    main()
