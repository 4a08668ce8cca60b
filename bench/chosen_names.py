#!/usr/bin/env python3
"""Times the load and the opening of 70,000 files whose ids were chosen, beside as many that were not.

    python3 bench/chosen_names.py [PROGRAM [FILES]]

The chosen ones collide in a hash map of the kit: their keys (the kind's number and the id) begin their search in one
32nd of the table, where each goes past all that stand there. Finding them takes 32 SHA-1 a file. Loading and opening
them may take at most one and a half times as long as the others, by medians of processor times of rounds in turn. The script
compiles a few lines of C for the map's hash with `cc`. The program is the built one, outside the gate.
"""
import hashlib
import os
import shutil
import subprocess
import sys
import tempfile

from launched import launch, median_seconds, rounds_of
from program import find_program
from verdict import Verdict

FILES = 70_000
CHOSEN_BITS = 5
GROUP_LOAD = 9
MOST_TIMES = 1.5
ROUNDS = 3

# Reads ids of 20 bytes; writes for each the table's 32 bits, in the machine's order.
HASH = r"""
#include <stdint.h>
#include <stdio.h>

static uint64_t fold(uint64_t a, uint64_t b) {
    unsigned __int128 product = (unsigned __int128)a * b;
    return (uint64_t)product ^ (uint64_t)(product >> 64);
}

static uint64_t feed(uint64_t state, uint64_t word, uint64_t length) {
    return fold(state ^ word, 0x9e3779b97f4a7c15ULL ^ (2 * length));
}

int main(void) {
    unsigned char id[20];
    while (fread(id, 1, 20, stdin) == 20) {
        uint64_t state = feed(0x243f6a8885a308d3ULL, 21, 8);
        uint64_t kind = 1;
        state = feed(state, kind | kind << 8 | kind << 16, 1);
        for (int i = 0; i < 20; i++) {
            uint64_t byte = id[i];
            state = feed(state, byte | byte << 8 | byte << 16, 1);
        }
        uint32_t bits = (uint32_t)(state ^ (state >> 32));
        fwrite(&bits, 4, 1, stdout);
    }
    return 0;
}
"""


def groups_for(count):
    """How many groups a table of this many entries has: a power of two."""
    groups = 1
    while groups * GROUP_LOAD < count:
        groups *= 2
    return groups


def body_of(number):
    return b"%d\n" % number


def hashes(folder, ids):
    """The table's 32 bits for the key of each content's id."""
    source = os.path.join(folder, "hash.c")
    program = os.path.join(folder, "hash")
    with open(source, "w") as file:
        file.write(HASH)
    subprocess.run(["cc", "-O2", "-o", program, source], check=True)
    done = subprocess.run([program], input=b"".join(ids), stdout=subprocess.PIPE, check=True)
    return memoryview(done.stdout).cast("I")


def choose(folder, count):
    """Numbers of bodies whose keys begin in the first 32nd of the table, and as many first numbers."""
    first = groups_for(count) >> CHOSEN_BITS
    last_bits = groups_for(count) - 1
    chosen = []
    begin = 0
    step = 1_000_000
    while len(chosen) < count:
        numbers = range(begin, begin + step)
        bodies = (body_of(number) for number in numbers)
        ids = [hashlib.sha1(b"blob %d\0" % len(body) + body).digest() for body in bodies]
        found = hashes(folder, ids)
        chosen.extend(number for number, bits in zip(numbers, found) if bits & last_bits < first)
        begin += step
    return chosen[:count], list(range(count))


def write_stream(path, numbers):
    """A stream of one commit with these bodies as its files."""
    with open(path, "wb") as file:
        for mark, number in enumerate(numbers, 1):
            body = body_of(number)
            file.write(b"blob\nmark :%d\ndata %d\n%s\n" % (mark, len(body), body))
        file.write(b"commit refs/heads/main\nmark :%d\n" % (len(numbers) + 1))
        file.write(b"committer A <a@e.org> 1000000000 +0000\ndata 6\nfirst\n\n")
        for mark in range(1, len(numbers) + 1):
            file.write(b"M 100644 :%d file%d\n" % (mark, mark))
        file.write(b"\n")


def load(program, archive, stream):
    shutil.rmtree(archive, ignore_errors=True)
    subprocess.run([program, "init", archive], check=True, stdout=subprocess.DEVNULL)
    jobs = archive + ".jobs"
    with open(jobs, "w") as file:
        file.write("fast\thttps://e.org/p\t%s\n" % stream)
    ran = launch(program, "load", archive, jobs)
    if b"\tfull\t" not in ran.said:
        sys.exit("not full: %r" % ran.said)
    return ran


def ask(program, archive):
    ran = launch(program, "ask", archive, "/api/1/origin/https://none.example/visits/")
    if ran.status != 1 or not ran.said.startswith(b"404 21\n"):
        sys.exit("not opened: %r" % ran.said)
    return ran


def main():
    program = find_program()
    count = int(sys.argv[2]) if len(sys.argv) > 2 else FILES
    verdict = Verdict()
    with tempfile.TemporaryDirectory() as folder:
        runs = []
        for which, numbers in zip(("chosen", "others"), choose(folder, count)):
            stream, archive = (os.path.join(folder, which + part) for part in (".stream", ".archive"))
            write_stream(stream, numbers)
            runs.append(lambda archive=archive, stream=stream: load(program, archive, stream))
            runs.append(lambda archive=archive: ask(program, archive))
        chosen_load, chosen_open, load_others, open_others = map(median_seconds, rounds_of(ROUNDS, *runs))
        for what, chosen, others in (("load", chosen_load, load_others), ("open", chosen_open, open_others)):
            print("%s of %d files: chosen %.3f s, others %.3f s" % (what, count, chosen, others))
            verdict.at_most("%s of chosen names, times the others" % what, chosen / others, MOST_TIMES)
    verdict.end()


if __name__ == "__main__":
    main()
