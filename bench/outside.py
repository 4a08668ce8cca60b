#!/usr/bin/env python3
"""Tries what the built program makes of the system: folders that are not there, archives that may only be read, links in
the place of files, several runs at once, interrupted reads, writes and barriers that fail, and a limit on the size of files.

    python3 bench/outside.py [PROGRAM]

Interrupted reads, and writes and barriers that fail, want `strace` (Debian: apt-get install strace). Run as root, it asks
a read-only archive as nobody.
"""
import contextlib
import fcntl
import os
import re
import resource
import shutil
import signal
import subprocess
import tempfile

from program import TOP, find_program
from verdict import Verdict

STREAM = os.path.join(TOP, "examples", "first.fi")
VISITS = "/api/1/origin/https://e.org/p/visits/"
NOBODY = 65534


class Wrong(Exception):
    pass


class Room:
    """A folder in which the program is run."""

    def __init__(self, program, folder):
        self.program, self.folder = program, folder
        os.chmod(folder, 0o755)
        self.write("jobs", b"fast\thttps://e.org/p\tstream\n")
        shutil.copy(STREAM, self.path("stream"))

    def path(self, name):
        return os.path.join(self.folder, name)

    def write(self, name, data):
        with open(self.path(name), "wb") as file:
            file.write(data)

    def run(self, *words, before=None, prefix=(), timeout=None):
        done = subprocess.run(list(prefix) + [self.program] + list(words), cwd=self.folder, stdout=subprocess.PIPE,
                              stderr=subprocess.DEVNULL, preexec_fn=before, timeout=timeout)
        return done.returncode, done.stdout

    def expect(self, status, front, *words, **options):
        ended, printed = self.run(*words, **options)
        if ended != status or not printed.startswith(front):
            raise Wrong("%r: status %d, %r; wanted %d, %r" % (words, ended, printed, status, front))

    def archive(self, name):
        self.expect(0, b"made\n", "init", name)
        self.expect(0, b"https://e.org/p\t1\tfull\t", "load", name, "jobs")


def no_name(room):
    """The empty name is no folder."""
    for words in (("init", ""), ("load", "", "jobs"), ("ask", "", "/x")):
        room.expect(4, b"swharc: outside disk\n", *words)


def not_there(room):
    """Asking and loading make nothing."""
    room.expect(3, b"swharc: not made\n", "load", "none", "jobs")
    room.expect(3, b"swharc: not made\n", "ask", "none", "/x")
    if os.path.exists(room.path("none")):
        raise Wrong("a folder was made")


def not_a_folder(room):
    """An input's path through a file leads nowhere; a job file's likewise. A folder is no file there, and a file no folder."""
    room.archive("A")
    room.write("through", b"fast\thttps://e.org/q\tstream/x\n")
    room.expect(1, b"https://e.org/q\t1\tnot_found\t-\n", "load", "A", "through")
    room.expect(2, b"swharc: no job file\n", "load", "A", "stream/x")
    room.expect(2, b"swharc: no job file\n", "load", "A", "A")
    room.expect(1, b"swharc: not found\n", "identify", "cnt", "A")
    room.expect(1, b"swharc: not found\n", "identify", "dir", "stream")
    crossed = (b"fast", b"A"), (b"dir", b"stream"), (b"dir", b"A\tA"), (b"batch", b"A\tstream"), (b"batch", b"stream\tA")
    for visit, (kind, paths) in enumerate(crossed, 2):
        room.write("crossed", b"%s\thttps://e.org/q\t%s\n" % (kind, paths))
        room.expect(1, b"https://e.org/q\t%d\tnot_found\t-\n" % visit, "load", "A", "crossed")
    room.expect(4, b"swharc: outside disk\n", "init", "stream")


def become_nobody():
    if os.geteuid() == 0:
        os.setgid(NOBODY)
        os.setuid(NOBODY)


def only_read(room):
    """Who may not write an archive may ask it, and a load is told as a disk that fails."""
    room.archive("A")
    for name in ("A/0", "A/1"):
        os.chmod(room.path(name), 0o444)
    os.chmod(room.path("A"), 0o555)
    room.expect(0, b"200 ", "ask", "A", VISITS, before=become_nobody)
    room.expect(4, b"https://e.org/p\t", "load", "A", "jobs", before=become_nobody)
    room.expect(0, b"200 ", "ask", "A", VISITS)


@contextlib.contextmanager
def locked(path, how):
    with open(path, "rb") as file:
        fcntl.flock(file, how)
        yield


def at_once(room):
    """Those who ask or check go beside each other; who writes goes alone."""
    room.archive("A")
    with locked(room.path("A/0"), fcntl.LOCK_SH):
        room.expect(0, b"200 ", "ask", "A", VISITS)
        room.expect(0, b"objects 4 ", "check", "A")
        room.expect(4, b"swharc: outside disk\n", "load", "A", "jobs")
        room.expect(4, b"swharc: outside disk\n", "init", "A")
    with locked(room.path("A/0"), fcntl.LOCK_EX):
        room.expect(4, b"swharc: outside disk\n", "ask", "A", VISITS)
        room.expect(4, b"swharc: outside disk\n", "check", "A")
    room.expect(0, b"200 ", "ask", "A", VISITS)


def several_readings(room):
    """Checks beside each other, and an ask beside a check. Where `strace` is there each is held for a second at a barrier."""
    room.archive("A")
    slowed = ["strace", "-f", "-o", "/dev/null", "-e", "inject=fdatasync:delay_enter=1000000:when=1"]
    prefix = slowed if shutil.which("strace") else []
    wanted = {"check": b"objects 4 closed 4 visits 1\n", "ask": b"200 "}
    runs = [(word, subprocess.Popen(prefix + [room.program, word, "A"] + more, cwd=room.folder, stdout=subprocess.PIPE))
            for word, more in (("check", []), ("check", []), ("ask", [VISITS]), ("check", []), ("ask", [VISITS]))]
    for word, run in runs:
        printed = run.communicate()[0]
        if run.returncode != 0 or not printed.startswith(wanted[word]):
            raise Wrong("%s: status %d, %r" % (word, run.returncode, printed))


def not_ordinary(room):
    """A link in the place of a file, or a pipe, is a disk that fails: nothing is written through it, and nobody waits."""
    room.archive("A")
    room.write("other", b"kept")
    link = {"link": lambda path: os.symlink(room.path("other"), path), "own": lambda path: os.symlink("kept", path),
            "dangling": lambda path: os.symlink("nowhere", path), "pipe": os.mkfifo, "folder": os.mkdir}
    runs = (("init", "A"), ("load", "A", "jobs"), ("ask", "A", VISITS), ("check", "A"))
    for file in ("A/0", "A/1"):
        path, kept = room.path(file), room.path("A/kept")
        os.rename(path, kept)
        with open(kept, "rb") as held:
            before = held.read()
        for kind, make in link.items():
            make(path)
            for words in runs:
                room.expect(4, b"swharc: outside disk\n", *words, timeout=60)
            remove = os.rmdir if kind == "folder" else os.remove
            remove(path)
        with open(kept, "rb") as held:
            if held.read() != before:
                raise Wrong("%s was written through a link" % file)
        os.rename(kept, path)
    with open(room.path("other"), "rb") as held:
        if held.read() != b"kept" or os.path.exists(room.path("A/nowhere")):
            raise Wrong("something was written through a link")
    room.expect(0, b"objects 4 ", "check", "A")


def several_makings(room):
    """Of several makings at once at most one makes the archive; another is refused, or fails, and spoils nothing."""
    for turn in range(20):
        name = "made%d" % turn
        runs = [subprocess.Popen([room.program, "init", name], cwd=room.folder, stdout=subprocess.PIPE)
                for _ in range(4)]
        ends = [(run.communicate()[0], run.returncode) for run in runs]
        if not set(ends) <= {(b"made\n", 0), (b"swharc: made\n", 3), (b"swharc: outside disk\n", 4)}:
            raise Wrong("ends %r" % (ends,))
        if ends.count((b"made\n", 0)) > 1:
            raise Wrong("made twice: %r" % (ends,))
        if (b"made\n", 0) in ends:
            room.expect(1, b"404 ", "ask", name, VISITS)


def size_limit(room):
    """A limit on the size of files is a disk that fails, and no end of the process; what stood before stands."""
    room.archive("A")

    def limited():
        resource.setrlimit(resource.RLIMIT_FSIZE, (400, 400))
    room.write("more", b"fast\thttps://e.org/q\tlonger\n")
    data = b"x" * 1000
    room.write("longer", b"blob\nmark :1\ndata 1000\n" + data + b"\n")
    room.expect(4, b"https://e.org/q\t1\tstopped\tdisk\nswharc: outside disk\n", "load", "A", "more", before=limited)
    room.expect(0, b"200 ", "ask", "A", VISITS)


def full_output(room):
    """Where the signal of the limit is ignored, an output that meets it is an output that fails."""
    room.archive("A")

    def limited():
        resource.setrlimit(resource.RLIMIT_FSIZE, (4, 4))
        signal.signal(signal.SIGXFSZ, signal.SIG_IGN)
    with open(room.path("out"), "wb") as out:
        done = subprocess.run([room.program, "ask", "A", VISITS], cwd=room.folder, stdout=out, preexec_fn=limited,
                              restore_signals=False)
    if done.returncode != 4:
        raise Wrong("status %d" % done.returncode)


def interrupted(room):
    """A read that a signal interrupts is tried again."""
    if shutil.which("strace") is None:
        raise Wrong("strace is not there")
    room.archive("A")
    for call in ("read", "pread64"):
        paths = [word for name in ("A/0", "A/1", "jobs", "stream") for word in ("-P", name)]
        prefix = ["strace", "-f", "-o", "/dev/null", "-e", "inject=%s:error=EINTR:when=1+2" % call] + paths
        room.expect(0, b"https://e.org/p\t", "load", "A", "jobs", prefix=prefix)


CALL = re.compile(r"^\d+ +(\w+)\((\d+)<([^>]*)>(.*) = (-?\d+)")


def calls_of(log):
    """The calls of a run on files of the archive: the call, the file, what it was given besides, and its number."""
    with open(log) as lines:
        found = [CALL.match(line) for line in lines]
    return [(call.group(1), call.group(3)[-3:], call.group(4), int(call.group(5))) for call in found
            if call is not None and call.group(3)[-3:] in ("A/0", "A/1")]


def forgets(calls):
    """The one call that fails is followed at once by the advice to forget all of its file, and nothing is written then."""
    at = next((i for i, call in enumerate(calls) if call[3] < 0), None)
    if at is None:
        return False
    after = calls[at + 1:]
    advised = after[:1] and after[0][:2] == ("fadvise64", calls[at][1]) and ", 0, 0, POSIX_FADV_DONTNEED" in after[0][2]
    if not advised or any(call[0] == "pwrite64" for call in after):
        raise Wrong("after %r: %r" % (calls[at], after))
    return True


def failed_barrier(room):
    """Of a load each write and each barrier fails in turn: the kernel is told to forget the file, and nothing is written
    after it. Then the archive opens, and what is read is what the files hold."""
    if shutil.which("strace") is None:
        raise Wrong("strace is not there")
    log = room.path("calls")
    for call in ("fdatasync", "pwrite64"):
        for number in range(1, 40):
            shutil.rmtree(room.path("A"), ignore_errors=True)
            room.expect(0, b"made\n", "init", "A")
            prefix = ["strace", "-f", "-y", "-o", log, "-e", "trace=fdatasync,pwrite64,pread64,fadvise64", "-e",
                      "inject=%s:error=EIO:when=%d" % (call, number)]
            status, printed = room.run("load", "A", "jobs", prefix=prefix)
            if not forgets(calls_of(log)):
                break
            if status != 4 or not printed.endswith(b"swharc: outside disk\n"):
                raise Wrong("%s %d: status %d, %r" % (call, number, status, printed))
            room.expect(0, b"objects ", "check", "A")
            room.expect(0, b"https://e.org/p\t", "load", "A", "jobs")
        if not 5 < number < 39:
            raise Wrong("%s: %d calls" % (call, number))


def failed_folder_barrier(room):
    """Of a making and of a load each barrier on a folder fails in turn, while those on the files go well: it is a disk that
    fails, and afterwards the archive is made, or was, and opens."""
    if shutil.which("strace") is None:
        raise Wrong("strace is not there")
    log = room.path("calls")
    for words, least in ((("init", "A"), 4), (("load", "A", "jobs"), 2)):
        for number in range(1, 40):
            shutil.rmtree(room.path("A"), ignore_errors=True)
            if words[0] == "load":
                room.expect(0, b"made\n", "init", "A")
            prefix = ["strace", "-f", "-o", log, "-e", "trace=fsync", "-e", "inject=fsync:error=EIO:when=%d" % number]
            status, printed = room.run(*words, prefix=prefix)
            with open(log) as lines:
                if "(INJECTED)" not in lines.read():
                    break
            if status != 4 or not printed.endswith(b"swharc: outside disk\n"):
                raise Wrong("%s, folder %d: status %d, %r" % (words[0], number, status, printed))
            if room.run("init", "A")[0] not in (0, 3):
                raise Wrong("%s, folder %d: not made afterwards" % (words[0], number))
            room.expect(0, b"https://e.org/p\t", "load", "A", "jobs")
        if not least < number < 39:
            raise Wrong("%s: %d barriers on folders" % (words[0], number - 1))


def main():
    program = find_program()
    verdict = Verdict()
    for case in (no_name, not_there, not_a_folder, only_read, at_once, several_readings, not_ordinary, several_makings,
                 size_limit, full_output, interrupted, failed_barrier, failed_folder_barrier):
        with tempfile.TemporaryDirectory() as folder:
            try:
                case(Room(program, folder))
                verdict.as_told(case.__name__)
            except Wrong as wrong:
                verdict.as_told(case.__name__, wrong)
    verdict.end()


if __name__ == "__main__":
    main()
