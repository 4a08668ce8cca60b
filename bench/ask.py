#!/usr/bin/env python3
"""Times replies of `ask` beside `cat` and git, which give the same bytes, names and ids, in one run.

    python3 bench/ask.py [PROGRAM]

Three archives are written as files: of a content of 64 MiB, of a folder of 100,000 entries, and of a chain of 300,000
revisions; and a file, a repository of the folder alone and one of the same chain. All is read from a pipe. What an `ask`
for as many paths that are none takes is subtracted, which is mostly the opening. `raw/` of the content may be no slower
than half the rate of `cat`, the folder's entries may take three times as long as `git cat-file -p` of the tree, and the
log of the last revision less than twice as long as `git log -100 --format=%H`; it is asked for 100 times in one run, since
it takes less than an opening differs from the next. Each time is the processor's, and the median of runs in turn; where an
opening takes more than a reply with its opening the script ends. The program is the built one, outside the gate.
"""
import json
import os
import subprocess
import sys
import tempfile
import typing

from check_archive import CONTENT, DIRECTORY, PERSON, REVISION, Writer, revision_of
from launched import beyond, launch, launch_well, median_seconds, rounds_of
from program import find_program
from verdict import Verdict

CONTENT_BYTES = 64 << 20
ENTRIES = 100_000
REVISIONS = 300_000
LOGGED = 100
LOGS = 100
ROUNDS = 9
NO_PATH = "/api/1/none/"


class Case(typing.NamedTuple):
    """An archive, a path that is asked for in it so many times by one run, and what gives the same."""
    archive: str
    path: str
    times: int
    other: list


def ask(program, case, path):
    ran = launch(program, "ask", case.archive, *[path] * case.times)
    if ran.status not in (0, 1):
        sys.exit("ask %s: status %d" % (path, ran.status))
    return ran


def medians(program, case):
    """What one reply takes beyond an opening, and what its peer takes."""
    opened, replied, peer = map(median_seconds, rounds_of(
        ROUNDS, lambda: ask(program, case, NO_PATH), lambda: ask(program, case, case.path), lambda: launch_well(*case.other)))
    reply = beyond("asking for " + case.path[:40], replied, opened) / case.times
    print("%s..: opened in %.3f s, then %.4f s; %s %.4f s" % (case.path[:40], opened, reply, case.other[0], peer))
    return reply, peer


def body_of(program, archive, path):
    """The body of the reply to a path."""
    asked = subprocess.run([program, "ask", archive, path], stdout=subprocess.PIPE)
    head, _, body = asked.stdout.partition(b"\n")
    if asked.returncode != 0 or head != b"200 %d" % (len(body) - 1):
        sys.exit("%s: %r" % (path, head))
    return body[:-1]


def output_of(command, given=None):
    return subprocess.run(command, input=given, check=True, stdout=subprocess.PIPE).stdout


def content_case(program, folder):
    """A content, and a file of the same bytes."""
    archive, file = os.path.join(folder, "content"), os.path.join(folder, "file")
    body = os.urandom(1 << 20) * (CONTENT_BYTES >> 20)
    with open(file, "wb") as out:
        out.write(body)
    writer = Writer(archive)
    id = writer.add(CONTENT, body)
    writer.finish(writer.add(REVISION, revision_of(writer.add(DIRECTORY, b"100644 file\0" + id))))
    path = "/api/1/raw/swh:1:cnt:%s/" % id.hex()
    if body_of(program, archive, path) != body:
        sys.exit("another body")
    return Case(archive, path, 1, ["cat", file])


def folder_case(program, folder):
    """A folder of entries of one file, and a repository in which the same tree stands."""
    archive, repository = os.path.join(folder, "entries"), os.path.join(folder, "entries.git")
    writer = Writer(archive)
    id = writer.add(CONTENT, b"")
    listing = b"".join(b"100644 file%06d\0" % number + id for number in range(ENTRIES))
    tree = writer.add(DIRECTORY, listing)
    writer.finish(writer.add(REVISION, revision_of(tree)))
    output_of(["git", "init", "--quiet", "--bare", repository])
    named = output_of(["git", "-C", repository, "hash-object", "-t", "tree", "-w", "--stdin"], listing)
    path = "/api/1/directory/%s/" % named.decode().strip()
    names = [entry["name"] for entry in json.loads(body_of(program, archive, path))]
    if names != ["file%06d" % number for number in range(ENTRIES)]:
        sys.exit("other entries")
    return Case(archive, path, 1, ["git", "-C", repository, "cat-file", "-p", tree.hex()])


def repository_of(folder):
    """A repository of a chain of revisions, in a pack."""
    output_of(["git", "init", "--quiet", "--bare", folder])
    commit = b"commit refs/heads/main\nauthor %s\ncommitter %s\ndata 6\nfirst\n\n" % (PERSON, PERSON)
    output_of(["git", "-C", folder, "fast-import", "--quiet"], commit * REVISIONS)
    return folder


def chain_case(program, folder):
    """A chain of revisions, and a repository of the same ones."""
    archive, repository = os.path.join(folder, "chain"), repository_of(os.path.join(folder, "chain.git"))
    writer = Writer(archive)
    tree = writer.add(DIRECTORY, b"")
    revision = writer.add(REVISION, revision_of(tree))
    for _ in range(1, REVISIONS):
        revision = writer.add(REVISION, revision_of(tree, [revision]))
    writer.finish(revision)
    path = "/api/1/revision/%s/log/" % revision.hex()
    log = ["git", "-C", repository, "log", "-%d" % LOGGED, "--format=%H", "refs/heads/main"]
    if json.loads(body_of(program, archive, path)) != output_of(log).decode().split():
        sys.exit("another log")
    return Case(archive, path, LOGS, log)


def main():
    program = find_program()
    verdict = Verdict()
    with tempfile.TemporaryDirectory() as folder:
        reply, cat = medians(program, content_case(program, folder))
        verdict.at_least("raw/ of %d bytes, times the rate of cat" % CONTENT_BYTES, cat / reply, 0.5)
        reply, printing = medians(program, folder_case(program, folder))
        verdict.at_most("directory/ of %d entries, times git cat-file -p" % ENTRIES, reply / printing, 3)
        reply, logging = medians(program, chain_case(program, folder))
        verdict.below("log/ of %d revisions, times git log" % LOGGED, reply / logging, 2)
    verdict.end()


if __name__ == "__main__":
    main()
