#!/usr/bin/env python3
"""Kills loads of the built program at random moments, and looks at what each left of its archive.

    python3 bench/killed_loads.py [PROGRAM [TIMES]]

One archive is loaded into, 300 times unless told otherwise: each run has four jobs, and is killed by SIGKILL at a moment
that is drawn from the time of a whole run. Then the archive has to open; the visits that were there have to be there,
those that had ended as they were; of each origin at most this run's visit may have come; and what the run had printed has
to stand. Every tenth archive is loaded into without being killed, and has to take it. The program is the built one,
outside the gate. A killed program leaves what it gave the system, so this tries no loss of power: that is proved.
"""
import json
import os
import random
import signal
import subprocess
import sys
import tempfile
import time
import urllib.parse

from program import find_program
from verdict import Verdict

TIMES = 300
ORIGINS = ["https://e.org/%d" % number for number in range(8)]
JOBS = 4
ENDS = ("full", "partial", "not_found", "failed")


class Wrong(Exception):
    pass


def stream_of(noise):
    """A stream of a few commits, each with some files, of which some were in other streams."""
    parts = []
    for number in range(noise.randrange(1, 6)):
        person = b"A <a@e.org> %d +0000" % (1_000_000_000 + number)
        parts.append(b"commit refs/heads/main\ncommitter %s\ndata 0\n" % person)
        for _ in range(noise.randrange(1, 8)):
            body = b"%d\n" % noise.randrange(1000) * noise.randrange(1, 200)
            parts.append(b"M 100644 inline f%d\ndata %d\n%s\n" % (noise.randrange(20), len(body), body))
        parts.append(b"\n")
    return b"".join(parts)


class Archive:
    """An archive, and the visits that it had when it was last asked."""

    def __init__(self, program, folder, noise):
        self.program, self.folder, self.noise = program, folder, noise
        self.visits = {origin: [] for origin in ORIGINS}
        self.run("init", "A")

    def run(self, *words):
        done = subprocess.run([self.program, *words], cwd=self.folder, stdout=subprocess.PIPE)
        return done.returncode, done.stdout

    def write_jobs(self):
        """Writes a job file, and answers its origins."""
        origins = self.noise.sample(ORIGINS, JOBS)
        with open(os.path.join(self.folder, "jobs"), "w") as jobs:
            for number, origin in enumerate(origins):
                with open(os.path.join(self.folder, "s%d" % number), "wb") as stream:
                    stream.write(stream_of(self.noise))
                jobs.write("fast\t%s\ts%d\n" % (origin, number))
        return origins

    def load(self):
        """Loads a new job file whole, and answers how long that took."""
        origins = self.write_jobs()
        begun = time.monotonic()
        status, printed = self.run("load", "A", "jobs")
        took = time.monotonic() - begun
        if status:
            raise Wrong("a load ended with status %d: %r" % (status, printed))
        self.look(origins, printed)
        return took

    def kill_load(self, most):
        """Kills a load of a new job file, and looks at what it left."""
        origins = self.write_jobs()
        running = subprocess.Popen([self.program, "load", "A", "jobs"], cwd=self.folder, stdout=subprocess.PIPE)
        time.sleep(self.noise.random() * most)
        running.send_signal(signal.SIGKILL)
        printed, _ = running.communicate()
        self.look(origins, printed)
        return running.returncode == -signal.SIGKILL

    def visits_now(self):
        """The visits of each origin, by one opening, the oldest first."""
        paths = ["/api/1/origin/%s/visits/" % urllib.parse.quote(origin, safe="") for origin in ORIGINS]
        status, left = self.run("ask", "A", *paths)
        if status > 1:
            raise Wrong("asking ended with status %d: %r" % (status, left))
        found = {}
        for origin in ORIGINS:
            head, left = left.split(b"\n", 1)
            code, length = map(int, head.split(b" "))
            body, left = left[:length], left[length + 1:]
            if code not in (200, 404):
                raise Wrong("%s was asked for: %d %r" % (origin, code, body))
            found[origin] = json.loads(body)[::-1] if code == 200 else []
        return found

    def look(self, loaded, printed):
        """Compares the visits with those of the last look, and with the lines of a run of these jobs."""
        found = self.visits_now()
        for origin in ORIGINS:
            before, now = self.visits[origin], found[origin]
            if not len(before) <= len(now) <= len(before) + (origin in loaded):
                raise Wrong("%s had %d visits, and has %d" % (origin, len(before), len(now)))
            for old, new in zip(before, now):
                if old["status"] in ENDS and old != new or old["date"] != new["date"]:
                    raise Wrong("%r became %r" % (old, new))
            self.visits[origin] = now
        for line in printed.decode().splitlines():
            origin, visit, status, detail = line.split("\t")
            told = self.visits[origin][int(visit) - 1]
            if told["status"] != status or told["snapshot"] != detail.removeprefix("swh:1:snp:"):
                raise Wrong("%r was printed, and the visit is %r" % (line, told))


def main():
    program = find_program()
    times = int(sys.argv[2]) if len(sys.argv) > 2 else TIMES
    noise = random.Random(5)
    verdict = Verdict()
    with tempfile.TemporaryDirectory() as folder:
        archive = Archive(program, folder, noise)
        whole = max(archive.load() for _ in range(3))
        killed = 0
        try:
            for number in range(times):
                killed += archive.kill_load(whole)
                if number % 10 == 9:
                    archive.load()
            verdict.as_told("%d loads that were to be killed" % times)
        except Wrong as wrong:
            verdict.as_told("%d loads that were to be killed" % times, "after %d: %s" % (number, wrong))
        unended = sum(visit["status"] not in ENDS for visits in archive.visits.values() for visit in visits)
    print("%d were killed; %d visits have no end" % (killed, unended))
    verdict.at_least("loads that were killed", killed, 1)
    verdict.end()


if __name__ == "__main__":
    main()
