#!/usr/bin/env python3
"""Runs the examples of the documents: each line behind a `$` of README.md and docs/USE.md, in their order.

    python3 bench/documents.py [PROGRAM]

What stands below a command is compared with what it prints, digits of dates apart; a command below which nothing stands has to
end with status 0. All commands of a document go through one shell, for which `swharc` is the built program, and git's person and
dates are fixed; its /tmp is a new one (`unshare`), so that the paths are those of the documents. The first run and the
gate are left out, and so is what wants a tool that is not there.
"""
import os
import re
import shutil
import subprocess
import sys
import tempfile

from program import TOP, find_program
from verdict import Verdict

PERSON = {"GIT_AUTHOR_NAME": "A", "GIT_AUTHOR_EMAIL": "a@e.org", "GIT_COMMITTER_NAME": "A", "GIT_COMMITTER_EMAIL": "a@e.org",
          "GIT_AUTHOR_DATE": "1000000000 +0000", "GIT_COMMITTER_DATE": "1000000000 +0000", "GIT_CONFIG_GLOBAL": os.devnull,
          "GIT_CONFIG_COUNT": "0"}
DOCUMENTS = ("README.md", "docs/USE.md")
# What builds or proves the program, and what wants a tool that is not there.
BUILDS, TOOLS = ("examples/first-run", "rt ci"), ("fossil",)
END = "end of a command"
INSIDE = "--inside"


def examples_of(document):
    """The commands of a document, each with the lines below it."""
    examples = []
    with open(os.path.join(TOP, document), encoding="utf-8") as file:
        for line in file:
            text = line[4:].rstrip("\n") if line.startswith("    ") else None
            if text is None:
                examples.append(None)
            elif text.startswith("$ "):
                examples.append((text[2:], []))
            elif examples and examples[-1] is not None:
                examples[-1][1].append(text)
    return [example for example in examples if example is not None]


def is_left_out(command):
    return command in BUILDS or any(tool in command.split() and shutil.which(tool) is None for tool in TOOLS)


def run_all(examples):
    """What each command prints, and its status."""
    marker = "echo; echo '%s' $status\n" % END
    script = "".join("{ %s\n} 2>&1; status=$?\n%s" % (command, marker) for command, _ in examples)
    done = subprocess.run(["bash"], input=script, stdout=subprocess.PIPE, stderr=subprocess.STDOUT, text=True)
    parts = re.split(r"\n%s (\d+)\n" % END, done.stdout)
    return [(printed.rstrip("\n"), int(status)) for printed, status in zip(parts[0::2], parts[1::2])]


def without_dates(text):
    return re.sub(r'"date":\d+', '"date":', text)


def judge(document, verdict):
    """Runs the examples of a document in a folder of its own."""
    examples = [example for example in examples_of(document) if not is_left_out(example[0])]
    with tempfile.TemporaryDirectory() as room:
        for part in ("examples", "crates"):
            shutil.copytree(os.path.join(TOP, part), os.path.join(room, part))
        os.chdir(room)
        answers = run_all(examples)
        os.chdir("/")
    wrong = None if len(answers) == len(examples) else "%d of %d commands came to an end" % (len(answers), len(examples))
    for (command, below), (printed, status) in zip(examples, answers):
        if below and without_dates("\n".join(below)) != without_dates(printed) or not below and status != 0:
            wrong = wrong or "of `%s`: %r, status %d" % (command, printed, status)
    verdict.as_told("%d commands of %s" % (len(examples), document), wrong)


def lay(program, room):
    """Lays what the run needs into a folder, which is going to be its /tmp; where the script then stands, and the program."""
    top = os.path.join(room, "top")
    for part in ("bench", "docs", "examples"):
        shutil.copytree(os.path.join(TOP, part), os.path.join(top, part))
    shutil.copy(os.path.join(TOP, "README.md"), top)
    os.makedirs(os.path.join(top, "crates/swharc/out"))
    shutil.copy(program, os.path.join(top, "crates/swharc/out/swharc"))
    return "/tmp/top/bench/documents.py", "/tmp/top/crates/swharc/out/swharc"


def run_inside(program):
    """Runs this script again, over a /tmp of its own."""
    with tempfile.TemporaryDirectory() as room:
        script, inner = lay(program, room)
        command = ["sh", "-c", 'mount --bind "$0" /tmp && exec "$@"', room, sys.executable, script, inner, INSIDE]
        return subprocess.run(["unshare", "-rm", *command]).returncode


def main():
    program = find_program()
    if sys.argv[2:] != [INSIDE]:
        sys.exit(run_inside(program))
    os.environ.update(PERSON)
    os.environ["TMPDIR"] = "/tmp"
    os.environ["PATH"] = os.path.dirname(program) + os.pathsep + os.environ["PATH"]
    verdict = Verdict()
    for document in DOCUMENTS:
        judge(document, verdict)
        for name in set(os.listdir("/tmp")) - {"top"}:
            subprocess.run(["rm", "-rf", "/tmp/" + name])
    verdict.end()


if __name__ == "__main__":
    main()
