"""A command of which the processor time and the peak of memory are measured.

Times are those of the processor, of a command and of all that it starts: what else the machine does weighs little on them.
"""
import statistics
import subprocess
import sys
import typing

# A process takes over the peak of the one that starts it, so that one is small.
LAUNCHER = """
import resource, subprocess, sys
done = subprocess.run(sys.argv[1:], stdout=subprocess.PIPE, stderr=subprocess.STDOUT)
used = resource.getrusage(resource.RUSAGE_CHILDREN)
print(used.ru_utime + used.ru_stime, used.ru_maxrss, done.returncode)
sys.stdout.flush()
sys.stdout.buffer.write(done.stdout)
"""


class Ran(typing.NamedTuple):
    """The seconds that a command took of the processor, the most bytes that it held, its status, and what it printed."""
    seconds: float
    peak: int
    status: int
    said: bytes


def launch(*command, cwd=None, given=None):
    """Runs a command to its end; the file of the path `given` is its input."""
    launcher = [sys.executable, "-S", "-c", LAUNCHER, *command]
    with open(given or "/dev/null", "rb") as file:
        done = subprocess.run(launcher, cwd=cwd, check=True, stdin=file, stdout=subprocess.PIPE)
    first, said = done.stdout.split(b"\n", 1)
    seconds, kilobytes, status = first.split()
    return Ran(float(seconds), int(kilobytes) * 1024, int(status), said)


def launch_well(*command, given=None):
    """Runs a command that has to end with status 0."""
    ran = launch(*command, given=given)
    if ran.status:
        sys.exit("%s: status %d, %r" % (command[0], ran.status, ran.said[:200]))
    return ran


def rounds_of(rounds, *runs):
    """What some runs come to in so many rounds, in which they take turns: of each run a list."""
    return [list(turns) for turns in zip(*[[run() for run in runs] for _ in range(rounds)])]


def median_seconds(ran):
    """The median of the times of a run."""
    return statistics.median(one.seconds for one in ran)


def beyond(what, seconds, part):
    """What a run takes beyond a part of it. A figure that makes no sense ends the script."""
    if seconds <= part:
        sys.exit("%s took %.4f s, and a part of it %.4f s: the machine is too busy for this figure" % (what, seconds, part))
    return seconds - part
