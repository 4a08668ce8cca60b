#!/usr/bin/env python3
"""Times the opening of archives beside `sha1sum` of their two files and `git fsck --full` of the same objects, in one run.

    python3 bench/open_archive.py [PROGRAM]

Three archives without visits are written as files: of 100,000 and of 1,000,000 contents of 20 bytes, and of 1 GB in 16,000
contents; and one with a full visit, which reaches 1,000,000 contents in 1,000 folders. Each is opened by an `ask` for an
origin that is not there, and summed; its objects are imported into a new repository, which is checked. An opening of small
bodies may take at most half the time of the check, that of the large ones at most 1.6 times that of `sha1sum`, and that of the
million at most 12 times that of the hundred thousand. Each time is the processor's, and the median of rounds in turn. Above the
peak of an opening of nothing, an opening may hold 1.3 times the bodies, 400 bytes an object, and one run. The program is the
built one, outside the gate.
"""
import os
import subprocess
import sys
import tempfile
import typing

import check_archive
from launched import launch, launch_well, median_seconds, rounds_of
from open_memory import MOST_BYTES, batch_size, content, peak_of_asking, write_archive
from program import find_program
from verdict import Verdict

ROUNDS = 3
MOST_OF_CHECK = 0.5
MOST_OF_SUM = 1.6
LARGE_BODY = 65_536
SHAPES = ((100_000, 20), (1_000_000, 20), (16_000, LARGE_BODY))
MOST_OF_TEN = 12
TIMES_BODIES = 1.3
BYTES_AN_OBJECT = 400


def repository_of(folder, count, size):
    """A repository of the same contents, in a pack."""
    subprocess.run(["git", "init", "--quiet", "--bare", folder], check=True)
    importing = subprocess.Popen(["git", "-C", folder, "fast-import", "--quiet"], stdin=subprocess.PIPE)
    for number in range(count):
        _, body = content(number, size)
        importing.stdin.write(b"blob\ndata %d\n" % size + body + b"\n")
    importing.stdin.close()
    if importing.wait():
        sys.exit("git fast-import failed")
    return folder


def longest_run(size):
    """The bytes of a run, of which one at a time is held."""
    return (29 + size) * batch_size(size)


class Case(typing.NamedTuple):
    """An archive and a repository of the same objects, and how many objects and bytes of bodies they have."""

    what: str
    archive: str
    repository: str
    objects: int
    bodies: int
    run: int


def contents_case(folder, count, size):
    archive = write_archive(os.path.join(folder, "A%d" % count), count, size)
    repository = repository_of(os.path.join(folder, "R%d" % count), count, size)
    return Case("%d contents" % count, archive, repository, count, count * size, longest_run(size))


def visited_case(folder):
    archive = os.path.join(folder, "visited")
    objects, revision = check_archive.write_files(archive, check_archive.SMALL)
    repository = check_archive.repository_of(archive + ".git", check_archive.SMALL, revision)
    bodies = os.path.getsize(os.path.join(archive, "1")) - 29 * objects
    return Case("%d visited objects" % objects, archive, repository, objects, bodies, MOST_BYTES)


def measure(verdict, program, case, empty):
    """Judges the opening of a case, and answers its seconds."""
    opening, sums, check = map(median_seconds, rounds_of(
        ROUNDS, lambda: launch(program, "ask", case.archive, "/api/1/origin/https%3A%2F%2Fe.org%2Fnone/visits/"),
        lambda: launch_well("sha1sum", *(os.path.join(case.archive, name) for name in "01")),
        lambda: launch("git", "-C", case.repository, "fsck", "--full", "--no-progress", "--no-dangling")))
    peak = peak_of_asking(program, case.archive) - empty
    most = TIMES_BODIES * case.bodies + BYTES_AN_OBJECT * case.objects + case.run
    print("%s: opened in %.2f s; fsck %.2f s; sha1sum %.2f s" % (case.what, opening, check, sums))
    if case.bodies >= LARGE_BODY * case.objects:
        verdict.at_most("opening %s, times of sha1sum" % case.what, opening / sums, MOST_OF_SUM)
    else:
        verdict.at_most("opening %s, times of git fsck" % case.what, opening / check, MOST_OF_CHECK)
    verdict.at_most("its peak, MB", peak / 2**20, most / 2**20)
    return opening


def main():
    program = find_program()
    verdict = Verdict()
    with tempfile.TemporaryDirectory() as folder:
        empty = peak_of_asking(program, write_archive(os.path.join(folder, "empty"), 0, 20))
        openings = [measure(verdict, program, contents_case(folder, *shape), empty) for shape in SHAPES]
        measure(verdict, program, visited_case(folder), empty)
    verdict.at_most("opening ten times the contents, times as long", openings[1] / openings[0], MOST_OF_TEN)
    verdict.end()


if __name__ == "__main__":
    main()
