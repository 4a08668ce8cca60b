"""A server of the built program over an archive, on loopback."""
import http.client
import os
import socket
import subprocess
import sys
import time

HOST = "127.0.0.1"
MOST_CONNECTIONS = 1_000_000
PATIENCE = 60
LISTENS = "0A"


def free_port():
    with socket.socket() as some:
        some.bind((HOST, 0))
        return some.getsockname()[1]


def is_listening(port):
    """Whether a socket of this machine listens at a port. Nobody connects, so that the server counts no link."""
    with open("/proc/net/tcp") as table:
        rows = [line.split() for line in table.readlines()[1:]]
    return any(row[1].endswith(":%04X" % port) and row[3] == LISTENS for row in rows)


def wait_for(port, process, what):
    until = time.monotonic() + PATIENCE
    while not is_listening(port):
        if process.poll() is not None or time.monotonic() > until:
            sys.exit("%s does not listen" % what)
        time.sleep(0.01)


class Server:
    """`swharc serve` over an archive, with one worker; it ends after so many connections, or when it is told to."""

    def __init__(self, program, archive, connections=MOST_CONNECTIONS, port=None):
        self.port = port or free_port()
        words = ["--workers", "1", "--connections", str(connections)]
        self.process = subprocess.Popen([program, "serve", archive, "%s:%d" % (HOST, self.port), *words], stdout=subprocess.PIPE)
        wait_for(self.port, self.process, "the server")

    def __enter__(self):
        return self

    def __exit__(self, *fault):
        self.process.kill()
        self.process.communicate()

    def url(self, path):
        return "http://%s:%d%s" % (HOST, self.port, path)

    def connection(self):
        return http.client.HTTPConnection(HOST, self.port, timeout=PATIENCE)

    def get(self, path):
        """The status and the body of a reply, on a connection of its own."""
        with_it = self.connection()
        with_it.request("GET", path, headers={"Connection": "close"})
        reply = with_it.getresponse()
        return reply.status, reply.read()

    def post(self, path, body):
        with_it = self.connection()
        with_it.request("POST", path, body, headers={"Connection": "close"})
        reply = with_it.getresponse()
        return reply.status, reply.read()

    def end(self):
        """What it printed when it ended by itself."""
        printed, _ = self.process.communicate(timeout=PATIENCE)
        return self.process.returncode, printed

    def processor_seconds(self):
        """What it took of the processor so far."""
        return processor_seconds(self.process.pid)

    def held_bytes(self):
        """What it holds of memory."""
        with open("/proc/%d/statm" % self.process.pid) as sizes:
            return int(sizes.read().split()[1]) * os.sysconf("SC_PAGE_SIZE")


def processor_seconds(pid):
    with open("/proc/%d/stat" % pid) as stat:
        fields = stat.read().rpartition(")")[2].split()
    return (int(fields[11]) + int(fields[12])) / os.sysconf("SC_CLK_TCK")
