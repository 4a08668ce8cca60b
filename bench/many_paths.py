#!/usr/bin/env python3
"""Measures how long it takes to refuse what a small batch makes long without end: forty folders with 2^40 paths.

    python3 bench/many_paths.py [PROGRAM]

A batch of forty trees, each with two entries to the next, and one commit over the first, is loaded. The last tree has one file,
once an empty one and once one of bytes. Cooked as a folder, and as the stream of the commit, by `cook` and by the read API, it
is too long, and is refused as that in less than a second. The ids are computed here. The program is the built one, outside
the gate.
"""
import hashlib
import os
import subprocess
import tempfile

from launched import launch
from program import find_program
from verdict import Verdict

LEVELS = 40
MOST_SECONDS = 1.0


def named(kind, body):
    """The id of a body of git's kind, and the object as a batch has it."""
    name = hashlib.sha1(b"%s %d\0" % (kind, len(body)) + body).hexdigest()
    return name, b"%s %s %d\n%s\n" % (name.encode(), kind, len(body), body)


def entry(mode, name, target):
    return b"%s %s\0" % (mode, name) + bytes.fromhex(target)


def make_batch(content):
    """A batch, the id of its first tree, and that of its commit."""
    blob, text = named(b"blob", content)
    tree, more = named(b"tree", entry(b"100644", b"f", blob))
    text += more
    for _ in range(LEVELS):
        tree, more = named(b"tree", entry(b"40000", b"a", tree) + entry(b"40000", b"b", tree))
        text += more
    person = b"A <a@e.org> 1000000000 +0000"
    commit, more = named(b"commit", b"tree %s\nauthor %s\ncommitter %s\n\nfirst\n" % (tree.encode(), person, person))
    return text + more, tree, commit


def judge(verdict, what, command, status, printed):
    took, _, ended, said = launch(*command)
    wrong = None if (ended, said) == (status, printed) else "status %d, %r" % (ended, said[:200])
    verdict.as_told(what, wrong)
    verdict.below("%s: seconds" % what, took, MOST_SECONDS)


def main():
    program = find_program()
    verdict = Verdict()
    with tempfile.TemporaryDirectory() as folder:
        archive = os.path.join(folder, "A")
        subprocess.run([program, "init", archive], check=True, stdout=subprocess.PIPE)
        for what, content in ("empty files", b""), ("files of two bytes", b"x\n"):
            batch, tree, commit = make_batch(content)
            paths = [os.path.join(folder, name) for name in ("batch", "refs", "jobs", "out")]
            with open(paths[0], "wb") as file:
                file.write(batch)
            with open(paths[1], "w", encoding="ascii") as file:
                file.write("%s refs/heads/main\n" % commit)
            with open(paths[2], "w", encoding="ascii") as file:
                file.write("batch\thttps://e.org/%d\t%s\t%s\n" % (len(content), paths[0], paths[1]))
            subprocess.run([program, "load", archive, paths[2]], check=True, stdout=subprocess.PIPE)
            for kind, name in ("dir", tree), ("rev", commit):
                swhid = "swh:1:%s:%s" % (kind, name)
                line = "swharc: uncarried %s length\n" % swhid
                judge(verdict, "%s: cook of a %s" % (what, kind), [program, "cook", archive, swhid, paths[3]], 1, line.encode())
            body = '{"error":"uncarried","name":"swh:1:rev:%s","why":"length"}' % commit
            reply = "422 %d\n%s\n" % (len(body), body)
            path = "/api/1/cook/swh:1:rev:%s/" % commit
            judge(verdict, "%s: cook/ of a rev" % what, [program, "ask", archive, path], 1, reply.encode())
    verdict.end()


if __name__ == "__main__":
    main()
