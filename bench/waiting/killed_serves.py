#!/usr/bin/env python3
"""Kills a server of the built program at random moments, while clients post loads and read, and looks at what it left.

    python3 bench/killed_serves.py [PROGRAM [TIMES]]

100 times unless told otherwise: four clients post streams to one server, each load on a connection of its own, and note each reply;
two others read. At a moment that is drawn from the time of a whole run the server is killed by SIGKILL. Then the archive has to open;
each noted visit has to be there, with its status and its snapshot; of each client at most one visit more may be there than it noted;
visits that had ended are as they were; and a server at the same port begins at once. A killed program leaves what it gave the system,
so this tries no loss of power: that is proved.
"""
import http.client
import json
import random
import subprocess
import sys
import tempfile
import threading
import time
import urllib.parse

from killed_loads import ENDS, Wrong, stream_of
from program import find_program
from serving import Server, free_port
from verdict import Verdict

TIMES = 100
CLIENTS, READERS = 4, 2
LOADS = 6


def origin_of(client):
    return "https://e.org/%d" % client


def visits_path(client):
    return "/api/1/origin/%s/visits/" % urllib.parse.quote(origin_of(client), safe="")


class Client(threading.Thread):
    """Posts some streams, one after the other, and keeps what was replied."""

    def __init__(self, server, number, seed):
        super().__init__()
        self.server, self.number, self.noise, self.noted = server, number, random.Random(seed), []

    def run(self):
        for _ in range(LOADS):
            try:
                status, body = self.server.post("/api/1/load/fast/%s/" % urllib.parse.quote(origin_of(self.number), safe=""), stream_of(self.noise))
                self.noted.append((status, json.loads(body)))
            except (OSError, http.client.HTTPException):
                return


class Reader(threading.Thread):
    """Reads until the server is gone. Visits never become fewer."""

    def __init__(self, server, number):
        super().__init__()
        self.server, self.number, self.wrong = server, number, None

    def run(self):
        most = 0
        while True:
            try:
                status, body = self.server.get(visits_path(self.number))
            except (OSError, http.client.HTTPException):
                return
            count = len(json.loads(body)) if status == 200 else 0
            if status not in (200, 404) or count < most:
                self.wrong = "%d after %d visits: %d %r" % (count, most, status, body[:200])
                return
            most = count


def serve_and_kill(program, archive, port, noise, most):
    """Starts a server with its clients, and kills it at a moment before `most` seconds, or lets the clients end where there is none;
    the clients, and how long they took."""
    with Server(program, archive, port=port) as server:
        clients = [Client(server, number, noise.random()) for number in range(CLIENTS)]
        readers = [Reader(server, number) for number in range(READERS)]
        begun = time.monotonic()
        for one in clients + readers:
            one.start()
        if most is not None:
            time.sleep(noise.random() * most)
            server.process.kill()
        for client in clients:
            client.join()
        took = time.monotonic() - begun
        server.process.kill()
        for reader in readers:
            reader.join()
            if reader.wrong:
                raise Wrong("a client that reads saw " + reader.wrong)
    return clients, took


def visits_now(program, archive):
    done = subprocess.run([program, "ask", archive, *map(visits_path, range(CLIENTS))], stdout=subprocess.PIPE)
    if done.returncode > 1:
        raise Wrong("asking ended with status %d: %r" % (done.returncode, done.stdout[-200:]))
    left, found = done.stdout, []
    for _ in range(CLIENTS):
        head, left = left.split(b"\n", 1)
        code, length = map(int, head.split(b" "))
        found.append(json.loads(left[:length])[::-1] if code == 200 else [])
        left = left[length + 1:]
    return found


def look(client, before, now):
    """Compares the visits of a client's origin with those before, and with what was replied."""
    noted = client.noted
    if not len(before) + len(noted) <= len(now) <= len(before) + len(noted) + 1:
        raise Wrong("%d visits after %d, of which %d were noted" % (len(now), len(before), len(noted)))
    for old, new in zip(before, now):
        if old["status"] in ENDS and old != new or old["date"] != new["date"]:
            raise Wrong("%r became %r" % (old, new))
    for status, line in noted:
        told = now[line["visit"] - 1]
        snapshot = line["detail"].removeprefix("swh:1:snp:")
        if status != 200 or told["status"] != line["status"] or told["snapshot"] != snapshot:
            raise Wrong("%d %r was replied, and the visit is %r" % (status, line, told))


def main():
    program = find_program()
    times = int(sys.argv[2]) if len(sys.argv) > 2 else TIMES
    noise, verdict, port = random.Random(6), Verdict(), free_port()
    with tempfile.TemporaryDirectory() as folder:
        archive = folder + "/A"
        subprocess.run([program, "init", archive], check=True, stdout=subprocess.PIPE)
        wrong, cut, visits = None, 0, [[] for _ in range(CLIENTS)]
        try:
            whole = None
            for number in range(times + 1):
                clients, took = serve_and_kill(program, archive, port, noise, whole)
                whole = whole or took
                now = visits_now(program, archive)
                for client, before, after in zip(clients, visits, now):
                    look(client, before, after)
                cut += number > 0 and any(len(client.noted) < LOADS for client in clients)
                visits = now
        except Wrong as fault:
            wrong = "after %d: %s" % (number, fault)
        verdict.as_told("%d servers that were to be killed" % times, wrong)
    unended = sum(visit["status"] not in ENDS for some in visits for visit in some)
    print("%d were killed within their loads; %d visits have no end" % (cut, unended))
    verdict.at_least("servers that were killed within their loads", cut, 1)
    verdict.end()


if __name__ == "__main__":
    main()
