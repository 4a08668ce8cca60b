#!/usr/bin/env python3
"""Copies an archive again and again while loads write it, the file `0` before the file `1`, and opens each copy.

    python3 bench/copies.py [PROGRAM [SECONDS]]

Both files only grow, and what the ledger names stands in the store before it is named: so a copy of the ledger, and of the store
behind it, stands for a front of the history. Loads of four jobs follow each other for twenty seconds, unless told otherwise. Each
copy has to be whole by `check`, and to have all visits of the copy before it, those that had ended as they were. The program is
the built one, outside the gate.
"""
import os
import random
import shutil
import subprocess
import sys
import tempfile
import threading
import time

from killed_loads import ENDS, ORIGINS, Archive
from program import find_program
from verdict import Verdict

SECONDS = 20
LEAST_COPIES = 20


def load_until(archive, end, loads):
    """Loads job files until the moment has come."""
    while time.monotonic() < end:
        archive.write_jobs()
        status, printed = archive.run("load", "A", "jobs")
        loads.append(None if status == 0 else "status %d: %r" % (status, printed))


def copy_archive(source, target):
    """Copies the two files, the ledger first, as any tool may that reads a file from its beginning."""
    shutil.rmtree(target, ignore_errors=True)
    os.mkdir(target)
    for name in "01":
        shutil.copyfile(os.path.join(source, name), os.path.join(target, name))


def fault_of(copy, before):
    """What is wrong with a copy, where the one before it had these visits; and its own visits."""
    checked = subprocess.run([copy.program, "check", "A"], cwd=copy.folder, stdout=subprocess.PIPE)
    if checked.returncode:
        return "check: status %d, %r" % (checked.returncode, checked.stdout), before
    found = copy.visits_now()
    for origin in ORIGINS:
        if len(found[origin]) < len(before[origin]):
            return "%s has fewer visits" % origin, found
        for old, new in zip(before[origin], found[origin]):
            if old["status"] in ENDS and old != new:
                return "%r became %r" % (old, new), found
    return None, found


def main():
    program = find_program()
    seconds = int(sys.argv[2]) if len(sys.argv) > 2 else SECONDS
    verdict = Verdict()
    with tempfile.TemporaryDirectory() as room:
        folders = [os.path.join(room, name) for name in ("loaded", "copied")]
        for folder in folders:
            os.mkdir(folder)
        loaded, copy = (Archive(program, folder, random.Random(7)) for folder in folders)
        loads, copies, wrong, visits = [], 0, None, {origin: [] for origin in ORIGINS}
        end = time.monotonic() + seconds
        loading = threading.Thread(target=load_until, args=(loaded, end, loads))
        loading.start()
        while time.monotonic() < end and wrong is None:
            copy_archive(os.path.join(folders[0], "A"), os.path.join(folders[1], "A"))
            wrong, visits = fault_of(copy, visits)
            copies += 1
        loading.join()
        wrong = wrong or next(filter(None, loads), None)
    print("%d copies beside %d loads" % (copies, len(loads)))
    verdict.as_told("copies of an archive that is written", wrong)
    verdict.at_least("copies", copies, LEAST_COPIES)
    verdict.end()


if __name__ == "__main__":
    main()
