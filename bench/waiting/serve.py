#!/usr/bin/env python3
"""How much of the processor `serve` takes for a request, beside a server in C with the same calls, and beside nginx with files.

    python3 bench/serve.py [PROGRAM]

Each of the three answers the same bytes: a small reply on kept connections (`wrk`), one on a connection each (`ab`), and one of 64 MiB
(`curl`). What is compared is the processor time of the server itself, by request or by reply, in rounds in which they take turns, by
medians: the clients' own time does not matter. The server in C is compiled here; `wrk`, `ab` and nginx are Debian's packages. Last, what
a connection that rests holds of memory.
"""
import pathlib
import re
import shutil
import socket
import statistics
import subprocess
import sys
import tempfile
import time

from program import find_program
from serving import HOST, Server, free_port, processor_seconds, wait_for
from verdict import Verdict

ROUNDS = 5
SECONDS = 2
CONNECTIONS = 4000
LARGE, LARGE_TIMES = 64 << 20, 4
KEPT_BOUND, EACH_BOUND, LARGE_BOUND, LARGE_NGINX_BOUND, REST_BOUND = 3, 1.6, 0.8, 0.5, 256 << 10

PLAIN_SERVER = r"""
#include <arpa/inet.h>
#include <netinet/in.h>
#include <netinet/tcp.h>
#include <stdio.h>
#include <stdlib.h>
#include <string.h>
#include <sys/socket.h>
#include <sys/time.h>
#include <time.h>
#include <unistd.h>

/* A reply for each head that ends, small or large by the first letter of the path; a connection ends after 1,000 or by its head. */
static char piece[65536], small[1024], large_head[256];

static int put(int link, const char *bytes, size_t size) {
  while (size > 0) {
    ssize_t count = send(link, bytes, size, MSG_NOSIGNAL);
    if (count <= 0) return 0;
    bytes += count, size -= count;
  }
  return 1;
}

int main(int count, char **words) {
  size_t size = atol(words[2]), held = 0;
  char *large = calloc(size, 1);
  int on = 1, doors = socket(AF_INET, SOCK_STREAM, 0);
  struct sockaddr_in address = {.sin_family = AF_INET, .sin_port = htons(atoi(words[1])), .sin_addr = {htonl(INADDR_LOOPBACK)}};
  setsockopt(doors, SOL_SOCKET, SO_REUSEADDR, &on, sizeof on);
  if (bind(doors, (void *)&address, sizeof address) || listen(doors, 128)) return 1;
  snprintf(small, sizeof small, "HTTP/1.1 200 OK\r\nContent-Length: %zu\r\nContent-Type: application/json\r\n\r\n%s", strlen(words[3]), words[3]);
  snprintf(large_head, sizeof large_head, "HTTP/1.1 200 OK\r\nContent-Length: %zu\r\nContent-Type: application/octet-stream\r\n\r\n", size);
  for (;;) {
    int link = accept(doors, 0, 0);
    struct timeval most = {30, 0};
    struct timespec now;
    setsockopt(link, IPPROTO_TCP, TCP_NODELAY, &on, sizeof on);
    setsockopt(link, SOL_SOCKET, SO_RCVTIMEO, &most, sizeof most);
    setsockopt(link, SOL_SOCKET, SO_SNDTIMEO, &most, sizeof most);
    held = 0;
    for (int requests = 0; requests < 1000; requests++) {
      ssize_t got;
      clock_gettime(CLOCK_MONOTONIC, &now);
      while ((got = recv(link, piece + held, sizeof piece - held - 1, 0)) > 0) {
        held += got, piece[held] = 0;
        if (strstr(piece, "\r\n\r\n")) break;
      }
      if (got <= 0) break;
      int is_large = strstr(piece, "/raw/") != 0, closes = strstr(piece, "onnection: close") || strstr(piece, "HTTP/1.0");
      clock_gettime(CLOCK_MONOTONIC, &now);
      if (is_large ? !put(link, large_head, strlen(large_head)) || !put(link, large, size) : !put(link, small, strlen(small))) break;
      held = 0;
      if (closes) break;
    }
    shutdown(link, SHUT_WR);
    while (recv(link, piece, sizeof piece, 0) > 0) { }
    close(link);
  }
}
"""

NGINX = """
worker_processes 1; daemon off; pid nginx.pid; error_log stderr; master_process off;
events {} http { access_log off; sendfile on; keepalive_requests 1000; default_type application/json;
  client_body_temp_path b; proxy_temp_path p; fastcgi_temp_path f; uwsgi_temp_path u; scgi_temp_path s;
  server { listen 127.0.0.1:%d; root %s; } }
"""


class Peer:
    """A server that is compared: its name, its process, its port, and its paths of a small and a large reply."""

    def __init__(self, name, process, port, small, large):
        self.name, self.process, self.port, self.small, self.large = name, process, port, small, large

    def url(self, path):
        return "http://%s:%d%s" % (HOST, self.port, path)

    def taken(self, client):
        """What the server takes of the processor for one of the requests that a client makes; the client answers how many."""
        before = processor_seconds(self.process.pid)
        requests = client(self)
        return (processor_seconds(self.process.pid) - before) / requests


def output_of(*command):
    return subprocess.run(command, check=True, stdout=subprocess.PIPE, stderr=subprocess.STDOUT, text=True).stdout


def kept(peer):
    said = output_of("wrk", "-t1", "-c1", "-d%ds" % SECONDS, peer.url(peer.small))
    return int(re.search(r"(\d+) requests in", said)[1])


def each(peer):
    said = output_of("ab", "-q", "-n", str(CONNECTIONS), "-c", "1", peer.url(peer.small))
    return int(re.search(r"Complete requests:\s+(\d+)", said)[1])


def large(peer):
    for _ in range(LARGE_TIMES):
        size = int(output_of("curl", "-s", "-o", "/dev/null", "-w", "%{size_download}", peer.url(peer.large)))
        if size != LARGE:
            sys.exit("%s gave %d bytes" % (peer.name, size))
    return LARGE_TIMES


def compiled(folder):
    source, program = folder / "plain.c", folder / "plain"
    source.write_text(PLAIN_SERVER)
    subprocess.run(["gcc", "-O2", "-o", program, source], check=True)
    return program


def start_peers(program, folder, server, small_path, large_path, body):
    """The three servers, by name."""
    port = free_port()
    plain = subprocess.Popen([compiled(folder), str(port), str(LARGE), body])
    peers = [Peer("serve", server.process, server.port, small_path, large_path), Peer("C", plain, port, "/small", "/raw/")]
    root = folder / "root"
    root.mkdir()
    (root / "small.json").write_text(body)
    with open(root / "large", "wb") as file:
        file.truncate(LARGE)
    port = free_port()
    (folder / "nginx.conf").write_text(NGINX % (port, root))
    nginx = subprocess.Popen([shutil.which("nginx", path="/usr/sbin:/usr/bin"), "-p", folder, "-c", "nginx.conf"], stderr=subprocess.DEVNULL)
    peers.append(Peer("nginx", nginx, port, "/small.json", "/large"))
    for peer in peers:
        wait_for(peer.port, peer.process, peer.name)
    return peers


def medians(peers, client):
    """What each peer takes for a request, by the median of rounds in which they take turns."""
    taken = {peer.name: [] for peer in peers}
    for _ in range(ROUNDS):
        for peer in peers:
            taken[peer.name].append(peer.taken(client))
    return {name: statistics.median(some) for name, some in taken.items()}


def at_rest(server):
    """What a connection on which nothing comes holds."""
    before = server.held_bytes()
    with socket.create_connection((HOST, server.port)):
        time.sleep(1)
        return server.held_bytes() - before


def make_archive(program, folder):
    """An archive with a file of the large size; the paths of a small and of the large reply, and the small one's body."""
    archive, large_file = str(folder / "A"), folder / "in" / "large"
    large_file.parent.mkdir()
    with open(large_file, "wb") as file:
        file.truncate(LARGE)
    (folder / "jobs").write_text("dir\thttps://e.org/f\t%s\n" % large_file.parent)
    subprocess.run([program, "init", archive], check=True, stdout=subprocess.PIPE)
    subprocess.run([program, "load", archive, folder / "jobs"], check=True, stdout=subprocess.PIPE)
    name = output_of(program, "identify", "cnt", str(large_file)).strip()
    return archive, "/api/1/content/sha1_git:%s/" % name.rpartition(":")[2], "/api/1/raw/%s/" % name


def main():
    program, verdict = find_program(), Verdict()
    lacking = [tool for tool in ("wrk", "ab", "curl", "gcc") if shutil.which(tool) is None]
    if lacking or shutil.which("nginx", path="/usr/sbin:/usr/bin") is None:
        sys.exit("%s is not there" % (lacking or ["nginx"])[0])
    with tempfile.TemporaryDirectory() as name:
        folder = pathlib.Path(name)
        archive, small_path, large_path = make_archive(program, folder)
        with Server(program, archive) as server:
            rest = at_rest(server)
            body = server.get(small_path)[1].decode()
            peers = start_peers(program, folder, server, small_path, large_path, body)
            try:
                for what, client, bound in (("a small reply on a kept connection", kept, KEPT_BOUND), ("a connection each", each, EACH_BOUND)):
                    taken = medians(peers, client)
                    print("%s: %s" % (what, ", ".join("%s %.1f us" % (name, 1e6 * one) for name, one in taken.items())))
                    verdict.at_most(what + ", by C", taken["serve"] / taken["C"], bound)
                taken = medians(peers, large)
                print("64 MiB: %s" % ", ".join("%s %.1f ms" % (name, 1e3 * one) for name, one in taken.items()))
                verdict.at_least("the rate of 64 MiB, of C's", taken["C"] / taken["serve"], LARGE_BOUND)
                verdict.at_least("the rate of 64 MiB, of nginx's", taken["nginx"] / taken["serve"], LARGE_NGINX_BOUND)
            finally:
                for peer in peers[1:]:
                    peer.process.kill()
        verdict.at_most("bytes held by a connection at rest", rest, REST_BOUND)
    verdict.end()


if __name__ == "__main__":
    main()
