#!/usr/bin/env python3
"""Tries the scripts that keep a git repository, a folder and an export, as somebody would who has never done it.

    python3 bench/keeping.py [PROGRAM]

A repository with an octopus and a signed merge, a submodule, a note, odd names, tags of tags, of trees and of blobs, an empty
tree that git does not store, refs to a tree and a blob, and a commit that was amended away is kept by `examples/archive-git`; so
are a shallow clone, a repository of SHA-256, one with a broken ref and one with a corrupt object, each of which is refused in one
line. `examples/restore-git` makes the repository again, with the same refs, HEAD and objects, of which `git fsck` tells no fault; a
snapshot that is not held, a folder that is not empty and refs that git does not take are told in a line each. A working tree with links, programs and odd names is kept by `examples/archive-folder`, whose directory has git's id, and
made again by `cook` and `examples/restore-modes`; one with a pipe and a bad name is refused with both named. An export that fails
is not loaded by `examples/archive-export`, and one that ends well is. The scripts run the built program, whatever PROGRAM says.
"""
import os
import pathlib
import shutil
import subprocess
import tempfile

from program import TOP, find_program
from verdict import Verdict

EXAMPLES = pathlib.Path(TOP) / "examples"
PERSON = {"GIT_AUTHOR_NAME": "A", "GIT_AUTHOR_EMAIL": "a@e.org", "GIT_COMMITTER_NAME": "A", "GIT_COMMITTER_EMAIL": "a@e.org",
          "GIT_AUTHOR_DATE": "1000000000 +0000", "GIT_COMMITTER_DATE": "1000000000 +0000", "GIT_CONFIG_GLOBAL": os.devnull}
EMPTY_TREE = "4b825dc642cb6eb9a060e54bf8d69288fbee4904"


class Repository:
    """A git repository in a folder."""

    def __init__(self, path, *options):
        self.path = path
        subprocess.run(["git", "init", "-q", "-b", "main", *options, str(path)], check=True)

    @classmethod
    def at(cls, path):
        """One that is there."""
        it = cls.__new__(cls)
        it.path = path
        return it

    def git(self, *words, given=None):
        done = subprocess.run(["git", "-C", str(self.path), *words], check=True, input=given, stdout=subprocess.PIPE,
                              stderr=subprocess.DEVNULL, env=dict(os.environ, **PERSON))
        return done.stdout.decode("utf-8", "surrogateescape").strip()

    def commit(self, message, **files):
        for name, text in files.items():
            (self.path / name).write_text(text)
        self.git("add", "-A")
        self.git("commit", "-q", "--allow-empty", "-m", message)
        return self.git("rev-parse", "HEAD")


def signed(repository, commit):
    """The same commit with a signature's header: git takes any text for one."""
    body = repository.git("cat-file", "commit", commit)
    head, _, message = body.partition("\n\n")
    text = head + "\ngpgsig -----BEGIN PGP SIGNATURE-----\n \n AAAA\n -----END PGP SIGNATURE-----\n\n" + message + "\n"
    return repository.git("hash-object", "-t", "commit", "-w", "--stdin", given=text.encode())


def make_repository(path):
    """A repository with what is seldom in one; the id of a commit that no ref reaches any more."""
    it = Repository(path)
    first = it.commit("first", **{"f": "1\n", "a b": "2\n", "\u00fc\"\\": "3\n"})
    sides = []
    for side in "xyz":
        it.git("checkout", "-q", "-b", side, first)
        sides.append(it.commit(side, **{side: side}))
    it.git("checkout", "-q", "main")
    it.git("merge", "-q", "--no-edit", *sides)
    gone = it.commit("gone", g="gone\n")
    it.git("commit", "-q", "--amend", "-m", "amended")
    it.git("update-ref", "refs/heads/main", signed(it, "HEAD"))
    it.git("update-index", "--add", "--cacheinfo", "160000,%s,module" % first)
    it.git("commit", "-q", "-m", "module")
    it.git("notes", "add", "-m", "a note", first)
    it.git("tag", "-a", "v1", "-m", "v1")
    it.git("tag", "-a", "v2", "v1", "-m", "of a tag")
    it.git("tag", "-a", "t", "HEAD^{tree}", "-m", "of a tree")
    it.git("tag", "-a", "b", "HEAD:f", "-m", "of a blob")
    it.git("update-ref", "refs/odd/tree", "HEAD^{tree}")
    it.git("update-ref", "refs/odd/blob", "HEAD:f")
    it.git("update-ref", "refs/heads/empty", it.git("commit-tree", "-m", "empty", EMPTY_TREE))
    return it, gone


def run(script, *words, **more):
    """The status of a script, and what it printed on each of the two outputs."""
    done = subprocess.run([EXAMPLES / script, *map(str, words)], stdout=subprocess.PIPE, stderr=subprocess.PIPE, **more)
    return done.returncode, done.stdout.decode("utf-8", "replace"), done.stderr.decode("utf-8", "replace")


def is_refused(said, *words):
    """What is wrong where a script did not end with status 1, one line, and these words in it."""
    status, _, errors = said
    is_line = errors.count("\n") == 1 and all(word in errors for word in words)
    return None if status == 1 and is_line else "status %d, %r" % (status, errors)


def try_git(verdict, program, room):
    it, gone = make_repository(room / "repository")
    status, printed, errors = run("archive-git", it.path, room / "A")
    refs = it.git("for-each-ref").count("\n") + 1
    same = printed.count("\nsame ")
    whole = status == 0 and same == refs and "different" not in printed and "absent" not in printed
    verdict.as_told("a repository is kept", None if whole else "status %d, %s%s" % (status, printed, errors))
    asked = subprocess.run([program, "ask", room / "A", "/api/1/revision/%s/" % gone], stdout=subprocess.PIPE).stdout
    verdict.as_told("what was amended away is not", None if asked.startswith(b"404 ") else asked.decode())
    around = dict(os.environ, GIT_DIR=str(room / "elsewhere"))
    status, printed, errors = run("archive-git", "--url", "https://e.org/p", it.path, room / "B", env=around)
    kept = status == 0 and printed.startswith("https://e.org/p\t1\tfull\t")
    verdict.as_told("another GIT_DIR is not heeded", None if kept else printed + errors)
    status, printed, errors = run("archive-git", "--all-objects", it.path, room / "B")
    asked = subprocess.run([program, "ask", room / "B", "/api/1/revision/%s/" % gone], stdout=subprocess.PIPE).stdout
    verdict.as_told("--all-objects keeps it", None if status == 0 and asked.startswith(b"200 ") else printed + errors)
    try_restore(verdict, room, it)


def objects_of(it):
    return sorted(it.git("rev-list", "--objects", "--no-object-names", "--all").split())


def try_restore(verdict, room, it):
    """What `try_git` kept in the archive A comes out as it was."""
    words = room / "A", it.path.as_uri(), room / "restored"
    status, printed, errors = run("restore-git", *words)
    again = Repository.at(room / "restored")
    same = status == 0 and again.git("for-each-ref") == it.git("for-each-ref") and objects_of(again) == objects_of(it)
    verdict.as_told("a repository comes out again", None if same else "status %d, %s%s" % (status, printed, errors))
    heads = [repository.git("symbolic-ref", "HEAD") for repository in (again, it)]
    verdict.as_told("with its HEAD", None if heads[0] == heads[1] else heads[0])
    said = again.git("status", "--porcelain")
    verdict.as_told("and its files", None if said == "" else said)
    checked = subprocess.run(["git", "-C", again.path, "fsck", "--full", "--no-dangling"], stdout=subprocess.PIPE, stderr=subprocess.STDOUT)
    verdict.as_told("git fsck has no fault to find", None if checked.returncode == 0 else repr(checked.stdout))
    verdict.as_told("a folder that is not empty", is_refused(run("restore-git", *words), "no empty folder"))
    unknown = run("restore-git", room / "A", "swh:1:snp:" + "1" * 40, room / "none")
    verdict.as_told("a snapshot that is not held", is_refused(unknown, "no snapshot"))


def try_odd_refs(verdict, room):
    """Refs that a stream may have and git does not take."""
    stream = room / "odd.fi"
    commit = b"commit %s\ncommitter A <a@e.org> 1 +0000\ndata 2\nm\n\n"
    stream.write_bytes(commit % b"refs/heads/a..b" + commit % b"refs/heads/good")
    run("archive-export", "--head", "refs/heads/good", "https://e.org/odd", room / "O", "--", "cat", stream)
    status, printed, errors = run("restore-git", "--bare", room / "O", "https://e.org/odd", room / "odd.git")
    refs = Repository.at(room / "odd.git").git("for-each-ref", "--format=%(refname)")
    told = status == 1 and printed.startswith("left out  refs/heads/a..b: ") and refs == "refs/heads/good" and not errors
    verdict.as_told("a ref that git does not take is told", None if told else "status %d, %s%s" % (status, printed, errors))


def try_faulty(verdict, room):
    it = Repository(room / "plain")
    it.commit("first", f="1\n")
    it.commit("second", f="2\n")
    subprocess.run(["git", "clone", "-q", "--depth", "1", it.path.as_uri(), str(room / "shallow")], check=True)
    verdict.as_told("a shallow clone", is_refused(run("archive-git", room / "shallow", room / "C"), "shallow"))
    other = Repository(room / "sha256", "--object-format=sha256")
    other.commit("first", f="1\n")
    verdict.as_told("a repository of SHA-256", is_refused(run("archive-git", other.path, room / "C"), "SHA-256"))
    broken = it.path / ".git" / "refs" / "heads" / "broken"
    broken.write_text("1" * 40 + "\n")
    verdict.as_told("a broken ref", is_refused(run("archive-git", it.path, room / "C"), "refs/heads/broken"))
    broken.unlink()
    blob = it.git("rev-parse", "HEAD~1:f")
    path = it.path / ".git" / "objects" / blob[:2] / blob[2:]
    path.chmod(0o644)
    path.write_bytes(b"no object")
    verdict.as_told("a corrupt object", is_refused(run("archive-git", it.path, room / "C"), blob))
    path.unlink()
    verdict.as_told("an object that lacks", is_refused(run("archive-git", it.path, room / "C"), blob))
    verdict.as_told("no repository", is_refused(run("archive-git", room, room / "C"), "not a git repository"))


def try_folder(verdict, program, room):
    it = Repository(room / "tree")
    (it.path / "in" / "side").mkdir(parents=True)
    (it.path / "in" / "side" / "\u00fc \"x\"\\\n").write_text("odd\n")
    (it.path / "run").write_text("#!/bin/sh\n")
    (it.path / "run").chmod(0o755)
    (it.path / "link").symlink_to("in/side")
    (it.path / "dangling").symlink_to("../none")
    module = Repository(it.path / "module")
    commit = module.commit("first", f="1\n")
    it.git("add", "-A")
    tree = it.git("write-tree")
    status, printed, errors = run("archive-folder", "--url", "https://e.org/t", it.path, room / "D")
    told = status == 0 and printed.endswith("\nswh:1:dir:%s\n" % tree)
    verdict.as_told("a working tree has git's id", None if told else "%s, not %s%s" % (tree, printed, errors))
    out = room / "out"
    subprocess.run([program, "cook", room / "D", "swh:1:dir:" + tree, out], check=True, stdout=subprocess.PIPE)
    subprocess.run([EXAMPLES / "restore-modes", out], check=True)
    again = Repository(room / "again")
    shutil.copytree(out, again.path, symlinks=True, dirs_exist_ok=True)
    again.git("add", "-A")
    again.git("update-index", "--add", "--cacheinfo", "160000,%s,module" % commit)
    verdict.as_told("and comes out again", None if again.git("write-tree") == tree else again.git("ls-files", "-s"))
    os.mkfifo(it.path / "pipe")
    (pathlib.Path(os.fsdecode(os.fsencode(it.path) + b"/\xff"))).write_text("x")
    status, _, errors = run("archive-folder", it.path, room / "D")
    both = status == 1 and "pipe: " in errors and "UTF-8" in errors and "Traceback" not in errors
    verdict.as_told("all faults of a folder are told", None if both else errors)


def try_export(verdict, room):
    it = Repository(room / "exported")
    it.commit("first", f="1\n")
    export = ["git", "-C", it.path, "fast-export", "--all"]
    status, printed, errors = run("archive-export", "--head", "refs/heads/main", "https://e.org/x", room / "E", "--", *export)
    verdict.as_told("an export is kept", None if status == 0 and "\tfull\t" in printed else printed + errors)
    failing = run("archive-export", "https://e.org/y", room / "E", "--", "sh", "-c", "%s; exit 3" % " ".join(map(str, export)))
    verdict.as_told("one that fails is not", is_refused(failing, "status 3"))
    bad = run("archive-export", "https://e.org/z", room / "E", "--", "printf", "nonsense\\n")
    verdict.as_told("the line that is none is shown", is_refused(bad, "nonsense"))


def main():
    program = find_program()
    verdict = Verdict()
    with tempfile.TemporaryDirectory() as folder:
        room = pathlib.Path(folder)
        try_git(verdict, program, room)
        try_faulty(verdict, room)
        try_odd_refs(verdict, room)
        try_folder(verdict, program, room)
        try_export(verdict, room)
    verdict.end()


if __name__ == "__main__":
    main()
