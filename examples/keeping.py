"""What the scripts that keep something in an archive, or get it back, share: the program, a load, what stands in the archive's store,
and how a failure is told."""
import hashlib
import os
import pathlib
import shutil
import struct
import subprocess
import sys

sys.dont_write_bytecode = True

TOP = pathlib.Path(__file__).resolve().parent.parent
PROGRAM = TOP / "crates" / "swharc" / "out" / "swharc"
MOST_SHOWN = 120
WORDS = {1: b"blob", 2: b"tree", 3: b"commit", 4: b"tag", 5: b"snapshot"}
SNAPSHOT = 5
HEADER = struct.Struct(">BQ20s")


class Failed(Exception):
    """What failed, in one line."""


class NotFull(Failed):
    """A load that did not end in full, with the detail of its line."""

    def __init__(self, detail):
        super().__init__("not loaded in full: %s" % detail.decode("utf-8", "replace"))
        self.detail = detail


def show(line):
    sys.stdout.buffer.write(line + b"\n")
    sys.stdout.buffer.flush()


def plain_surroundings():
    """The variables of the surroundings without those of git, of which some choose another repository."""
    return {name: value for name, value in os.environ.items() if not name.startswith("GIT_")}


def line_at(path, place):
    """The beginning of the line that stands at this byte of a file, as it may be shown."""
    with open(path, "rb") as file:
        file.seek(place)
        return ascii(file.readline(MOST_SHOWN).rstrip(b"\n"))[1:]


def need_programs(*others):
    for program, means in (*others, (PROGRAM, "examples/first-run builds it")):
        if shutil.which(program) is None:
            raise Failed("%s is not there: %s" % (program, means))


def swharc(*words):
    """What the program prints. A line of its own, about what failed, is told as it stands."""
    done = subprocess.run([PROGRAM, *words], stdout=subprocess.PIPE)
    last = (done.stdout.splitlines() or [b""])[-1]
    if last.startswith(b"swharc: "):
        sys.stdout.buffer.write(done.stdout[:-len(last) - 1])
        raise Failed(last.decode("utf-8", "replace"))
    if done.returncode not in (0, 1):
        raise Failed("swharc %s: status %d" % (words[0], done.returncode))
    return done.stdout


def load(archive, folder, *job):
    """Loads one job, of which `folder` takes the job file, and shows its line; the id of the snapshot. The archive is made where
    it is not there."""
    jobs = os.path.join(folder, "jobs")
    with open(jobs, "wb") as file:
        file.write(b"\t".join(map(os.fsencode, job)) + b"\n")
    if not os.path.lexists(archive):
        swharc("init", archive)
    line = swharc("load", archive, jobs).rstrip(b"\n")
    show(line)
    _, _, ended, detail = line.split(b"\t")
    if ended != b"full":
        raise NotFull(detail)
    return bytes.fromhex(detail.rpartition(b":")[2].decode())


def stored(archive, wanted):
    """Of the objects that are wanted the kind, the id and the body, from the archive's store, which has each once: objects one
    after another, each behind a header."""
    with open(os.path.join(archive, "1"), "rb") as store:
        while len(head := store.read(HEADER.size)) == HEADER.size:
            kind, size, id = HEADER.unpack(head)
            if id in wanted:
                yield kind, id, store.read(size)
            else:
                store.seek(size, os.SEEK_CUR)


def id_of(kind, body):
    """The id that bytes have as an object of a kind."""
    return hashlib.sha1(b"%s %d\0" % (WORDS[kind], len(body)) + body).digest()


def snapshot_body(archive, id):
    """The body of the snapshot of this id."""
    for kind, found, body in stored(archive, {id}):
        if kind == SNAPSHOT:
            return body
    raise Failed("the store does not have the snapshot")


def branches_of(body):
    """The branches of a snapshot's body: the word of what each leads to, its name, and its target."""
    while body:
        word, _, rest = body.partition(b" ")
        name, _, rest = rest.partition(b"\0")
        length, _, rest = rest.partition(b":")
        yield word, name, rest[:int(length)]
        body = rest[int(length):]


def end_with(script, body, *words):
    """Does what a script is for. What fails is told in one line, with status 1."""
    try:
        body(*words)
    except Failed as failed:
        sys.exit("%s: %s" % (script, failed))
    except OSError as fault:
        sys.exit("%s: %s: %s" % (script, fault.filename or "standard output", fault.strerror))
