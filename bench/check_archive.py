#!/usr/bin/env python3
"""Times `check` beside `git fsck --full` of the same objects and `sha1sum` of the store, in one run.

    python3 bench/check_archive.py [PROGRAM]

Two archives are written as files, each of one full visit: of 1,000,000 contents of 20 bytes in 1,000 folders, and of 1 GB
in 16,000 contents. Each is checked, and its objects are imported into a new repository, which is checked. Of the small bodies
a check may take at most the time of fsck, and of the large ones at most twice that of `sha1sum`. Each time is the processor's,
and the median of rounds in turn. Then a chain of 300,000 revisions and a folder 100,000 deep are checked, which wants no deep
stack. What is printed has to be the number of objects, all of them closed, and one visit. The program is the built one, outside
the gate.
"""
import hashlib
import os
import struct
import subprocess
import sys
import tempfile

from launched import launch, launch_well, median_seconds, rounds_of
from open_memory import MOST_BYTES, MOST_OBJECTS, batch_record
from open_visits import ORIGIN, WORDS, record
from program import find_program
from verdict import Verdict

SMALL = (1_000, 1_000, 20)
LARGE = (16, 1_000, 65_536)
REVISIONS = 300_000
DEPTH = 100_000
ROUNDS = 3
MOST_OF_FSCK = 1.0
MOST_OF_SUM = 2.0
PERSON = b"A <a@e.org> 1000000000 +0000"
CONTENT, DIRECTORY, REVISION, SNAPSHOT = 1, 2, 3, 5


class Writer:
    """Writes the two files of an archive, object by object."""

    def __init__(self, folder):
        os.mkdir(folder)
        self.folder = folder
        self.ledger = open(os.path.join(folder, "0"), "wb")
        self.store = open(os.path.join(folder, "1"), "wb")
        self.ledger.write(b"SWHARC1\n")
        self.begin = self.end = self.waiting = self.bytes = self.count = 0

    def add(self, kind, body):
        """Adds an object, and answers its id."""
        if self.waiting == MOST_OBJECTS or self.bytes > MOST_BYTES:
            self.flush()
        id = hashlib.sha1(b"%s %d\0" % (WORDS[kind], len(body)) + body).digest()
        self.end += self.store.write(struct.pack(">BQ", kind, len(body)) + id + body)
        self.waiting += 1
        self.count += 1
        self.bytes += len(body)
        return id

    def flush(self):
        self.ledger.write(batch_record(self.begin, self.end, self.waiting))
        self.begin, self.waiting, self.bytes = self.end, 0, 0

    def finish(self, revision):
        """Adds a snapshot of the revision and a full visit of it, and answers the number of objects."""
        snapshot = self.add(SNAPSHOT, b"revision refs/heads/main\x0020:" + revision)
        self.flush()
        self.ledger.write(record(b"O", struct.pack(">BQ", 1, 1_000_000_000) + ORIGIN))
        self.ledger.write(record(b"T", struct.pack(">BQB", 3, 1, 1) + snapshot + ORIGIN))
        self.ledger.write(b"\0")
        self.ledger.close()
        self.store.close()
        return self.count


def revision_of(tree, parents=()):
    lines = [b"tree " + tree.hex().encode()] + [b"parent " + parent.hex().encode() for parent in parents]
    return b"\n".join(lines + [b"author " + PERSON, b"committer " + PERSON, b"", b"first\n"])


def body_of(number, size):
    return struct.pack(">Q", number) + b"." * (size - 8)


def write_files(folder, shape):
    """An archive of folders of files; the number of its objects, and its revision."""
    folders, files, size = shape
    writer = Writer(folder)
    root = []
    for number in range(folders):
        ids = [writer.add(CONTENT, body_of(number * files + file, size)) for file in range(files)]
        listing = b"".join(b"100644 f%04d\0" % file + id for file, id in enumerate(ids))
        root.append(b"40000 d%04d\0" % number + writer.add(DIRECTORY, listing))
    revision = writer.add(REVISION, revision_of(writer.add(DIRECTORY, b"".join(root))))
    return writer.finish(revision), revision


def write_chain(folder):
    """An archive of a chain of revisions; the number of its objects."""
    writer = Writer(folder)
    tree = writer.add(DIRECTORY, b"")
    revision = writer.add(REVISION, revision_of(tree))
    for _ in range(1, REVISIONS):
        revision = writer.add(REVISION, revision_of(tree, [revision]))
    return writer.finish(revision)


def write_depth(folder):
    """An archive of a folder in a folder, and so on; the number of its objects."""
    writer = Writer(folder)
    tree = writer.add(DIRECTORY, b"100644 f\0" + writer.add(CONTENT, b"deep\n"))
    for _ in range(1, DEPTH):
        tree = writer.add(DIRECTORY, b"40000 a\0" + tree)
    return writer.finish(writer.add(REVISION, revision_of(tree)))


def repository_of(folder, shape, revision):
    """A repository of the same files, in a pack."""
    folders, files, size = shape
    subprocess.run(["git", "init", "--quiet", "--bare", folder], check=True)
    importing = subprocess.Popen(["git", "-C", folder, "fast-import", "--quiet"], stdin=subprocess.PIPE)
    give = importing.stdin.write
    give(b"commit refs/heads/main\nauthor %s\ncommitter %s\ndata 6\nfirst\n" % (PERSON, PERSON))
    for number in range(folders):
        for file in range(files):
            give(b"M 100644 inline d%04d/f%04d\ndata %d\n" % (number, file, size)
                 + body_of(number * files + file, size) + b"\n")
    importing.stdin.close()
    if importing.wait():
        sys.exit("git fast-import failed")
    head = subprocess.run(["git", "-C", folder, "rev-parse", "refs/heads/main"], check=True, stdout=subprocess.PIPE)
    if head.stdout.strip() != revision.hex().encode():
        sys.exit("git names the revision %r" % head.stdout)
    return folder


def check(program, archive, objects):
    ran = launch(program, "check", archive)
    if ran.said != b"objects %d closed %d visits 1\n" % (objects, objects):
        sys.exit("of %d objects was printed: %r" % (objects, ran.said))
    return ran


def main():
    program = find_program()
    verdict = Verdict()
    with tempfile.TemporaryDirectory() as folder:
        for name, shape in (("small", SMALL), ("large", LARGE)):
            archive = os.path.join(folder, name)
            objects, revision = write_files(archive, shape)
            repository = repository_of(archive + ".git", shape, revision)
            took, sums, fsck = map(median_seconds, rounds_of(
                ROUNDS, lambda: check(program, archive, objects), lambda: launch_well("sha1sum", os.path.join(archive, "1")),
                lambda: launch_well("git", "-C", repository, "fsck", "--full", "--no-progress")))
            print("%d objects: checked in %.2f s; fsck %.2f s; sha1sum %.2f s" % (objects, took, fsck, sums))
            if name == "small":
                verdict.at_most("check of the small archive, times of git fsck", took / fsck, MOST_OF_FSCK)
        verdict.at_most("check of the large archive, times of sha1sum", took / sums, MOST_OF_SUM)
        for name, write in (("chain of %d revisions" % REVISIONS, write_chain), ("folder %d deep" % DEPTH, write_depth)):
            archive = os.path.join(folder, name)
            objects = write(archive)
            verdict.as_told("check of a %s, in %.2f s" % (name, check(program, archive, objects).seconds))
    verdict.end()


if __name__ == "__main__":
    main()
