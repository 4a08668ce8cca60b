#!/usr/bin/env python3
"""Tries real clients on a server of the built program: curl, Python, Node, Chromium, nginx in front, ab and wrk, and clients that are
slow, that go away, or that rest.

    python3 bench/clients.py [PROGRAM]

Each gets what the archive has, whatever others do; where a load is posted, its line is replied and the visit is there. A client that is
not there is said to be left out, and nothing is judged of it. Debian's packages have all of them.
"""
import http.client
import json
import pathlib
import re
import shutil
import socket
import subprocess
import tempfile
import time
import urllib.parse

from program import find_program
from serving import HOST, PATIENCE, Server, free_port, wait_for
from verdict import Verdict

LARGE = 64 << 20
POSTED = 3 << 20
RESTING = 200
HEAD = b"GET %s HTTP/1.1\r\nHost: e.org\r\n\r\n"

# What docs/USE.md shows for a server that everybody may read and nobody may post to.
NGINX = """
worker_processes 1; daemon off; pid nginx.pid; error_log stderr;
events {} http { access_log off; client_max_body_size 64m;
  client_body_temp_path b; proxy_temp_path p; fastcgi_temp_path f; uwsgi_temp_path u; scgi_temp_path s;
  upstream swharc { server 127.0.0.1:%d; }
  server { listen 127.0.0.1:%d;
    add_header Access-Control-Allow-Origin *;
    location = /api/1/known/ { proxy_pass http://swharc/api/1/known/; }
    location / { limit_except GET { deny all; } proxy_pass http://swharc; }
    location ^~ /api/1/cook/ { limit_except GET { deny all; } proxy_read_timeout 600s; proxy_pass http://swharc; } } }
"""


def found(program):
    return shutil.which(program) or shutil.which(program, path="/usr/sbin")


def said_by(*command, given=None, status=0):
    done = subprocess.run(list(map(str, command)), input=given, stdout=subprocess.PIPE, stderr=subprocess.PIPE, timeout=2 * PATIENCE)
    return done.stdout if done.returncode == status else b"status %d: %s" % (done.returncode, done.stderr[-300:])


def stream_of(size):
    """A stream of one commit of one file."""
    return (b"commit refs/heads/main\ncommitter A <a@e.org> 1000000000 +0000\ndata 0\nM 100644 inline f\ndata %d\n%s\n" % (size, b"x" * size))


def same(got, wanted):
    return None if got == wanted else "%r, not %r" % (got[:300], wanted[:300])


class Tried:
    """An archive of a small and a large file, its server, and what the server has to reply."""

    def __init__(self, program, folder):
        self.program, self.folder = program, folder
        self.archive, inputs = folder / "A", folder / "in"
        inputs.mkdir()
        (inputs / "small").write_bytes(b"version 1\n")
        with open(inputs / "large", "wb") as file:
            file.truncate(LARGE)
        (folder / "jobs").write_text("dir\thttps://e.org/f\t%s\n" % inputs)
        self.run("init", self.archive)
        self.run("load", self.archive, folder / "jobs")
        small, large = (self.run("identify", "cnt", inputs / name).decode().strip() for name in ("small", "large"))
        self.json_path = "/api/1/content/sha1_git:%s/" % small.rpartition(":")[2]
        self.raw_path, self.large_path = "/api/1/raw/%s/" % small, "/api/1/raw/%s/" % large
        self.json = self.run("ask", self.archive, self.json_path).partition(b"\n")[2][:-1]
        self.server = Server(program, self.archive)

    def run(self, *words):
        return subprocess.run([self.program, *words], check=True, stdout=subprocess.PIPE).stdout

    def load_path(self, origin):
        return "/api/1/load/fast/%s/" % urllib.parse.quote(origin, safe="")

    def is_full(self, origin):
        status, body = self.server.get("/api/1/origin/%s/visits/" % urllib.parse.quote(origin, safe=""))
        return None if status == 200 and json.loads(body)[0]["status"] == "full" else "%d %r" % (status, body)


def try_curl(it, verdict):
    url = it.server.url(it.json_path)
    verdict.as_told("curl: GET", same(said_by("curl", "-s", url), it.json))
    head = said_by("curl", "-s", "-I", url)
    wrong = None if b"\r\nContent-Length: %d\r\n" % len(it.json) in head and head.endswith(b"\r\n\r\n") else repr(head)
    verdict.as_told("curl: HEAD", wrong)
    verdict.as_told("curl: --http1.0", same(said_by("curl", "-s", "--http1.0", url), it.json))
    origin, stream = "https://e.org/curl", it.folder / "stream"
    stream.write_bytes(stream_of(POSTED))
    said = said_by("curl", "-s", "--data-binary", "@%s" % stream, it.server.url(it.load_path(origin)))
    full = said.startswith(b"{") and json.loads(said)["status"] == "full"
    verdict.as_told("curl: a POST of 3 MB", None if full else repr(said))
    verdict.as_told("and its visit is there", it.is_full(origin))
    command = "curl", "-s", "-o", "/dev/null", "-w", "%{http_code}", "-X", "POST", "-T", "-", it.server.url(it.load_path(origin))
    verdict.as_told("curl: a chunked body is refused", same(said_by(*command, given=stream_of(10)), b"501"))


def try_python(it, verdict):
    link = it.server.connection()
    got = []
    for method in ("HEAD", "GET", "HEAD", "GET"):
        link.request(method, it.json_path)
        reply = link.getresponse()
        got.append((reply.status, reply.getheader("Content-Length"), reply.read()))
    length = str(len(it.json))
    wanted = [(200, length, b""), (200, length, it.json)] * 2
    link.close()
    verdict.as_told("Python: HEAD and GET on one connection", None if got == wanted else repr(got))


def try_node(it, verdict):
    script = "const got = await (await fetch('%s')).text(); const head = await fetch('%s', {method: 'HEAD'}); process.stdout.write(got + head.status);"
    url = it.server.url(it.json_path)
    verdict.as_told("Node: fetch", same(said_by("node", "--input-type=module", "-e", script % (url, url)), it.json + b"200"))


def try_chromium(it, verdict):
    page = said_by("chromium", "--headless", "--no-sandbox", "--disable-gpu", "--user-data-dir=%s" % (it.folder / "profile"), "--dump-dom",
                   it.server.url(it.json_path))
    verdict.as_told("Chromium shows JSON", None if it.json.replace(b"&", b"&amp;") in page else repr(page[-300:]))


def try_nginx(it, verdict):
    port = free_port()
    (it.folder / "nginx.conf").write_text(NGINX % (it.server.port, port))
    nginx = subprocess.Popen([found("nginx"), "-p", it.folder, "-c", "nginx.conf"], stderr=subprocess.DEVNULL)
    try:
        wait_for(port, nginx, "nginx")
        url = "http://%s:%d" % (HOST, port)
        verdict.as_told("nginx in front: GET", same(said_by("curl", "-s", url + it.json_path), it.json))
        size = said_by("curl", "-s", "-o", "/dev/null", "-w", "%{size_download}", url + it.large_path)
        verdict.as_told("nginx in front: 64 MiB", same(size, b"%d" % LARGE))
        refused = "curl", "-s", "-o", "/dev/null", "-w", "%{http_code}", "--path-as-is", "-d", "x"
        verdict.as_told("a posted load is refused there", same(said_by(*refused, url + it.load_path("https://e.org/x")), b"403"))
        hidden = url + "/api/1/load/fast/a/../../../known/"
        verdict.as_told("and one in the clothes of known/", same(said_by(*refused, hidden), b"400"))
        known = json.dumps([it.raw_path.split("/")[-2]])
        said = said_by("curl", "-s", "-d", known, url + "/api/1/known/")
        verdict.as_told("known/ is not", None if said.startswith(b"{") and b"true" in said else repr(said))
    finally:
        nginx.terminate()
        nginx.wait()


def try_ab(it, verdict):
    said = said_by("ab", "-q", "-n", "2000", "-c", "4", it.server.url(it.json_path)).decode()
    whole = re.search(r"Complete requests:\s+2000\n", said) and re.search(r"Failed requests:\s+0\n", said) and "Non-2xx" not in said
    verdict.as_told("ab: 2,000 requests", None if whole else said[-400:])


def try_wrk(it, verdict):
    said = said_by("wrk", "-t1", "-c1", "-d3s", it.server.url(it.json_path)).decode()
    whole = int((re.search(r"(\d+) requests in", said) or [0, 0])[1]) > 1000 and "Non-2xx" not in said
    verdict.as_told("wrk: three seconds on kept connections", None if whole else said)


def last_byte(link):
    """When the other side ends, and what it sent."""
    got = bytearray()
    while piece := link.recv(1 << 16):
        got += piece
    return bytes(got)


def try_slow(it, verdict):
    """A byte each 0.3 s of a head that never ends is given up, and others go on then."""
    begun = time.monotonic()
    with socket.create_connection((HOST, it.server.port), timeout=PATIENCE) as link:
        try:
            for _ in range(200):
                link.sendall(b"x")
                time.sleep(0.3)
        except OSError:
            pass
    took = time.monotonic() - begun
    verdict.at_most("seconds until a client of a byte each 0.3 s is given up", took, 40)
    verdict.as_told("and others are served then", same(it.server.get(it.json_path)[1], it.json))


def try_reset(it, verdict):
    """A client that goes away within a reply of 64 MiB ends that connection alone."""
    with socket.create_connection((HOST, it.server.port), timeout=PATIENCE) as link:
        link.sendall(HEAD % it.large_path.encode())
        link.recv(1000)
        link.setsockopt(socket.SOL_SOCKET, socket.SO_LINGER, b"\1\0\0\0\0\0\0\0")
    verdict.as_told("a client that resets its connection", same(it.server.get(it.json_path)[1], it.json))


def try_half(it, verdict):
    """A reply goes out behind the end of what a client sends; one that is too long is refused before all of it came."""
    with socket.create_connection((HOST, it.server.port), timeout=PATIENCE) as link:
        link.sendall(HEAD % it.json_path.encode())
        link.shutdown(socket.SHUT_WR)
        verdict.as_told("a client that ends what it sends", None if last_byte(link).endswith(it.json) else "no reply")
    with socket.create_connection((HOST, it.server.port), timeout=PATIENCE) as link:
        link.sendall(b"POST /api/1/known/ HTTP/1.1\r\nContent-Length: %d\r\n\r\n" % (80 << 20))
        try:
            link.sendall(b"x" * (8 << 20))
        except OSError:
            pass
        said = last_byte(link)
        verdict.as_told("a body that is too long, with 8 MiB of it sent", None if said.startswith(b"HTTP/1.1 413 ") else repr(said[:200]))


def try_resting(it, verdict):
    """Clients that only connect are let go after a while, each for a few seconds at most, and the one behind them is served."""
    resting = [socket.create_connection((HOST, it.server.port), timeout=PATIENCE) for _ in range(RESTING)]
    for link in resting[2:]:
        link.close()
    begun = time.monotonic()
    verdict.as_told("%d clients that rest" % RESTING, same(it.server.get(it.json_path)[1], it.json))
    verdict.at_most("seconds until the one behind them is served", time.monotonic() - begun, 20)
    for link in resting[:2]:
        link.close()


def main():
    program, verdict = find_program(), Verdict()
    with tempfile.TemporaryDirectory() as name:
        it = Tried(program, pathlib.Path(name))
        with it.server:
            tries = [("curl", try_curl), (None, try_python), ("node", try_node), ("chromium", try_chromium), ("nginx", try_nginx), ("ab", try_ab),
                     ("wrk", try_wrk), (None, try_slow), (None, try_reset), (None, try_half), (None, try_resting)]
            for needed, body in tries:
                if needed is not None and found(needed) is None:
                    print("%s is not there, and left out" % needed)
                    continue
                try:
                    body(it, verdict)
                except (OSError, http.client.HTTPException, subprocess.SubprocessError) as fault:
                    verdict.as_told(body.__name__, repr(fault))
    verdict.end()


if __name__ == "__main__":
    main()
