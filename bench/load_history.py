#!/usr/bin/env python3
"""Times the load of whole histories beside `git fast-import` and `sha1sum` of the same stream, by the processor's time, in one run.

    python3 bench/load_history.py [PROGRAM]

Four repositories are made with git and written out by `git fast-export --all`: one of 300 MB in three commits, from the
files of this machine; one of 200 MB in one blob of 60 MB and many small ones; and two of 5,000 and 10,000 commits, each of two
changes, over 3,000 files in 300 folders. Each stream is loaded into a new archive, imported into a new repository, and
summed.

The large one may take at most an eighth of the time of fast-import, and at most 2.5 times that of `sha1sum`; the history
of 5,000 commits at most the time of fast-import; the longer one at most 2.4 times that of the shorter. Above the peak of
a load of an empty stream, a load may hold 1.3 times the bodies that are made and their lists of children (21 bytes for
each entry of a directory), 400 bytes an object, and one window; what it would be without the children is printed too. The
program is the built one, outside the gate.
"""
import os
import random
import shutil
import statistics
import subprocess
import sys
import tempfile

from launched import launch, launch_well, median_seconds, rounds_of
from program import find_program
from verdict import Verdict

LARGE_BYTES = 300 << 20
LARGE_COMMITS = 3
BLOB_BYTES = 60 << 20
SMALL_BYTES = 140 << 20
COMMITS = (5_000, 10_000)
FILES, FOLDERS = 3_000, 300
CHANGES = 2
ROUNDS = 3
MOST_OF_IMPORT = 0.125
MOST_OF_SUM = 2.5
MOST_OF_HISTORY = 2.4
TIMES_BODIES = 1.3
BYTES_AN_OBJECT = 400
BYTES_A_CHILD = 21
WINDOW = 1_114_112
PERSON = b"A <a@e.org> %d +0000"
ROOTS = ("/usr/lib", "/usr/share", "/usr/bin", "/opt")


def git(folder, *words, **options):
    return subprocess.run(["git", "-C", folder, *words], check=True, stdout=subprocess.PIPE, **options).stdout


def repository(folder):
    subprocess.run(["git", "init", "--quiet", "--bare", folder], check=True)
    return folder


def machine_files(bytes_wanted):
    """Files of this machine, by their contents, until there are this many bytes."""
    total = 0
    for root in ROOTS:
        for folder, folders, names in os.walk(root):
            folders.sort()
            for name in sorted(names):
                path = os.path.join(folder, name)
                if os.path.islink(path) or not os.path.isfile(path) or os.path.getsize(path) > 16 << 20:
                    continue
                with open(path, "rb") as file:
                    body = file.read()
                total += len(body)
                yield path[1:].encode(), body
                if total >= bytes_wanted:
                    return


def quoted(path):
    return b'"' + b"".join(b"\\%03o" % byte if byte in b'"\\\n' or byte > 126 or byte < 32 else bytes((byte,))
                           for byte in path) + b'"'


def commit(number, changes):
    """A commit of these changes, each a path and a body."""
    person = PERSON % (1_000_000_000 + number)
    message = b"change %d\n" % number
    parts = [b"commit refs/heads/main\nauthor %s\ncommitter %s\ndata %d\n%s" % (person, person, len(message), message)]
    for path, body in changes:
        parts.append(b"M 100644 inline %s\ndata %d\n%s\n" % (quoted(path), len(body), body))
    return b"".join(parts) + b"\n"


def large_commits():
    files = list(machine_files(LARGE_BYTES))
    size = -(-len(files) // LARGE_COMMITS)
    for number in range(LARGE_COMMITS):
        yield commit(number, files[number * size:(number + 1) * size])


def blob_commits():
    noise = random.Random(1)
    yield commit(0, [(b"large", noise.randbytes(BLOB_BYTES))])
    small = 4_096
    yield commit(1, [(b"small/%d/%d" % (n % 100, n), noise.randbytes(small)) for n in range(SMALL_BYTES // small)])


def history_commits(count, files=FILES, folders=FOLDERS):
    """The first commit has all files, and each other one changes some."""
    noise = random.Random(2)

    def path(number):
        return b"folder%03d/file%04d" % (number % folders, number)

    yield commit(0, [(path(number), b"file %d\n" % number) for number in range(files)])
    for number in range(1, count):
        yield commit(number, [(path(changed), b"file %d of %d\n" % (changed, number))
                              for changed in noise.sample(range(files), CHANGES)])


def entries_of(tree):
    """How many entries a tree's body has."""
    count = place = 0
    while place < len(tree):
        place = tree.index(0, place) + 21
        count += 1
    return count


def children_of(bare):
    """How many entries all directories of a repository have together."""
    objects = git(bare, "cat-file", "--batch-all-objects", "--batch-check=%(objecttype) %(objectname)").split(b"\n")
    trees = b"".join(line[5:] + b"\n" for line in objects if line.startswith(b"tree "))
    given = git(bare, "cat-file", "--batch", input=trees)
    count = place = 0
    while place < len(given):
        end = given.index(b"\n", place)
        size = int(given[place:end].split()[2])
        count += entries_of(given[end + 1:end + 1 + size])
        place = end + 2 + size
    return count


def make_stream(folder, name, commits):
    """A repository of these commits, made and written out by git; the path of its stream, the bytes of the bodies, the
    objects, and the entries of the directories."""
    bare = repository(os.path.join(folder, name + ".git"))
    feeding = subprocess.Popen(["git", "-C", bare, "fast-import", "--quiet"], stdin=subprocess.PIPE)
    for text in commits:
        feeding.stdin.write(text)
    feeding.stdin.close()
    if feeding.wait():
        sys.exit("git made no repository")
    stream = os.path.join(folder, name)
    with open(stream, "wb") as file:
        subprocess.run(["git", "-C", bare, "fast-export", "--all"], check=True, stdout=file)
    sizes = git(bare, "cat-file", "--batch-all-objects", "--batch-check=%(objectsize)").split()
    return stream, sum(map(int, sizes)), len(sizes), children_of(bare)


def load(program, folder, stream):
    """A load into a new archive."""
    archive = os.path.join(folder, "archive")
    shutil.rmtree(archive, ignore_errors=True)
    subprocess.run([program, "init", archive], check=True, stdout=subprocess.DEVNULL)
    jobs = os.path.join(folder, "jobs")
    with open(jobs, "w") as file:
        file.write("fast\thttps://e.org/p\t%s\trefs/heads/main\n" % stream)
    ran = launch(program, "load", archive, jobs)
    if b"\tfull\t" not in ran.said:
        sys.exit("%s is not full: %r" % (stream, ran.said[:200]))
    return ran


def import_stream(folder, stream):
    bare = os.path.join(folder, "new.git")
    shutil.rmtree(bare, ignore_errors=True)
    repository(bare)
    return launch_well("git", "-C", bare, "fast-import", "--quiet", given=stream)


def measure(program, folder, name, commits, empty):
    """Medians of some rounds, in turn: seconds of load, import and sum; and the peak of memory and its bound, in MB."""
    stream, bodies, objects, children = make_stream(folder, name, commits)
    loads, imports, sums = rounds_of(ROUNDS, lambda: load(program, folder, stream), lambda: import_stream(folder, stream),
                                     lambda: launch_well("sha1sum", stream))
    took, imported, summed = map(median_seconds, (loads, imports, sums))
    peak = statistics.median(one.peak for one in loads) - empty
    without = TIMES_BODIES * bodies + BYTES_AN_OBJECT * objects + WINDOW
    most = without + TIMES_BODIES * BYTES_A_CHILD * children
    print("%-8s %9d bytes: swharc %7.3f s, git fast-import %7.3f s (%.2f times), sha1sum %7.3f s (%.2f of its rate); "
          "%d bodies of %d bytes, peak %d of %d bytes (%d without the children)"
          % (name, os.path.getsize(stream), took, imported, imported / took, summed, summed / took, objects, bodies, peak, most,
             without))
    return took, imported, summed, peak / 2**20, most / 2**20


def main():
    program = find_program()
    with tempfile.TemporaryDirectory() as folder:
        nothing = os.path.join(folder, "nothing")
        open(nothing, "w").close()
        empty = load(program, folder, nothing).peak
        large = measure(program, folder, "large", large_commits(), empty)
        blob = measure(program, folder, "blob", blob_commits(), empty)
        shorter, longer = (measure(program, folder, "history%d" % count, history_commits(count), empty) for count in COMMITS)
    verdict = Verdict()
    verdict.at_most("the large stream, times of git fast-import", large[0] / large[1], MOST_OF_IMPORT)
    verdict.at_most("the large stream, times of sha1sum", large[0] / large[2], MOST_OF_SUM)
    verdict.at_most("5,000 commits, times of git fast-import", shorter[0] / shorter[1], 1.0)
    verdict.at_most("twice the commits, times as long", longer[0] / shorter[0], MOST_OF_HISTORY)
    for name, one in (("large stream", large), ("blob", blob), ("5,000 commits", shorter), ("10,000 commits", longer)):
        verdict.at_most("peak of %s, MB" % name, *one[3:])
    verdict.end()


if __name__ == "__main__":
    main()
