#!/usr/bin/env python3
"""Judges the order in which the built program writes files and syncs them, as `strace` shows it.

    python3 bench/device_order.py [PROGRAM]

It wants `strace` (Debian: apt-get install strace). A list of what is wanted has the writes in their order, each with
what has to be synced after the write before it and before this one. It fails where a write is another one, or where
one of these barriers is missing. No proof can see this: that a barrier does what it says is what the proofs rest on.
"""
import os
import re
import shutil
import subprocess
import sys
import tempfile

from program import TOP, find_program
from verdict import Verdict

STREAM = os.path.join(TOP, "examples", "first.fi")
JOB = "fast\thttps://e.org/p\t%s\n" % STREAM
CALLS = "openat,open,creat,write,pwrite64,pwritev,pwritev2,writev,fsync,fdatasync,ftruncate,mkdir,mkdirat"
CALL = re.compile(r"^(?:\d+ +)?(\w+)\((.*)\) += (-?\d+)")
ON_FILE = re.compile(r"^\d+<(.*?)>")
BYTES = re.compile(r'"((?:\\x[0-9a-f]{2})*)"(?:\.\.\.)?, (\d+)(?:, (\d+))?$')


class Wrong(Exception):
    pass


def trace(program, room, *words):
    """The calls of a run in a folder: ("sync", path), ("write", path, start, end, first byte) and ("make", path)."""
    log = os.path.join(room, "trace")
    done = subprocess.run(["strace", "-f", "-y", "-xx", "-s", "1", "-e", "trace=" + CALLS, "-o", log, program]
                          + list(words), cwd=room, stdout=subprocess.PIPE, stderr=subprocess.PIPE)
    with open(log) as lines:
        calls = [call for line in lines for call in read_call(line, room)]
    os.remove(log)
    return done.returncode, done.stdout, calls


def plain(text, room):
    """A path as strace writes it, from the folder of the run on."""
    path = bytes.fromhex(text.replace("\\x", "")).decode()
    return os.path.relpath(path, os.path.realpath(room)) if path.startswith("/") else os.path.normpath(path)


def read_call(line, room):
    found = CALL.match(line)
    if found is None or int(found.group(3)) < 0:
        return
    name, given = found.group(1), found.group(2)
    on = ON_FILE.match(given)
    path = plain(on.group(1), room) if on is not None and on.group(1).startswith("\\x2f") else None
    if name in ("fsync", "fdatasync"):
        yield "sync", path
    elif name == "pwrite64":
        first, length, at = BYTES.search(given).groups()
        yield "write", path, int(at), int(at) + int(length), int(first[2:4], 16)
    elif name in ("mkdir", "mkdirat") or "O_CREAT" in given:
        yield "make", plain(re.search(r'"((?:\\x[0-9a-f]{2})*)', given).group(1), room)
    elif name not in ("open", "openat") and (name != "write" or path is not None):
        raise Wrong("a call that this script does not read: %s" % line.strip())


def judge(calls, wanted):
    """Each of `wanted` is a pair: the barriers that are owed, and then a write, or None at the end."""
    calls = [call for call in calls if call[0] != "make"]
    for owed, write in wanted:
        synced = set()
        while calls and calls[0][0] == "sync":
            synced.add(calls.pop(0)[1])
        if not set(owed) <= synced:
            raise Wrong("before %r no barrier on %s" % (write, ", ".join(sorted(set(owed) - synced))))
        got = calls.pop(0) if calls else None
        if got != (("write",) + write if write else None):
            raise Wrong("wanted %r, got %r" % (write, got))


def making(folder, above):
    """The making of an archive in a folder, under the folders above it."""
    ledger, store = folder + "/0", folder + "/1"
    return [([ledger, store, folder] + above, (ledger, 0, 1, 0)), ([ledger], (ledger, 1, 9, ord("W"))),
            ([ledger], (ledger, 0, 1, ord("S"))), ([ledger], None)]


def loading(folder):
    """The load of examples/first.fi into a new archive: an opening, a mark, a batch and a mark, each with its gate."""
    ledger, store = folder + "/0", folder + "/1"
    wanted, owed = [], [ledger, store, folder]
    for gate, end, kind in ((8, 42, "O"), (42, 77, "T"), (77, 107, "B"), (107, 162, "T")):
        if kind == "B":
            wanted.append((owed, (store, 0, 338, 1)))
            owed = [store]
        wanted.append((owed, (ledger, gate + 1, end + 1, ord(kind))))
        wanted.append(([ledger], (ledger, gate, gate + 1, 1)))
        owed = [ledger]
    return wanted + [(owed, None)]


def run(program, room, wanted, status, *words):
    ended, printed, calls = trace(program, room, *words)
    if ended != status:
        raise Wrong("status %d, not %d: %r" % (ended, status, printed))
    judge(calls, wanted)
    return calls


def an_archive(program, room):
    """Made, loaded and asked."""
    run(program, room, making("A", ["."]), 0, "init", "A")
    run(program, room, loading("A"), 0, "load", "A", "jobs")
    calls = run(program, room, [(["A/0", "A/1"], None)], 0, "ask", "A", "/api/1/origin/https://e.org/p/visits/")
    if any(call[0] == "make" for call in calls):
        raise Wrong("asking makes a file")


def folders_above(program, room):
    """Each folder that is made has its name in the one above."""
    run(program, room, making("e/f", ["e", "."]), 0, "init", "e/f")


def a_killed_making(program, room):
    """Files and folders that an earlier run made, of which nothing was synced."""
    os.makedirs(os.path.join(room, "k/l"))
    for file in "01":
        open(os.path.join(room, "k/l", file), "w").close()
    run(program, room, making("k/l", ["k", "."]), 0, "init", "k/l")


def a_lost_store(program, room):
    """A store that is absent is made at the first write, and its name is synced before a record speaks of it."""
    run(program, room, making("s", ["."]), 0, "init", "s")
    os.remove(os.path.join(room, "s/1"))
    wanted = loading("s")
    wanted[0] = (["s/0", "s"], wanted[0][1])
    at = next(i for i, (_, write) in enumerate(wanted) if write[0] == "s/1") + 1
    wanted[at] = (["s/1", "s"], wanted[at][1])
    run(program, room, wanted, 0, "load", "s", "jobs")


def nothing_there(program, room):
    """What only reads, and what finds no archive, makes nothing."""
    for words in (("ask", "none", "/x"), ("load", "none", "jobs")):
        calls = run(program, room, [([], None)], 3, *words)
        if calls or os.path.exists(os.path.join(room, "none")):
            raise Wrong("%s of a folder that is not there makes it" % words[0])


def main():
    program = find_program()
    if shutil.which("strace") is None:
        print("strace is not there (Debian: apt-get install strace)")
        sys.exit(2)
    verdict = Verdict()
    with tempfile.TemporaryDirectory() as room:
        with open(os.path.join(room, "jobs"), "w") as file:
            file.write(JOB)
        for case in (an_archive, folders_above, a_killed_making, a_lost_store, nothing_there):
            try:
                case(program, room)
                verdict.as_told(case.__name__)
            except Wrong as wrong:
                verdict.as_told(case.__name__, wrong)
    verdict.end()


if __name__ == "__main__":
    main()
