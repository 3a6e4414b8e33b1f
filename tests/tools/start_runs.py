"""Checkouts in which `start` is run. The programs are stand-ins for a native one: the model behind the words of
`nfs4state`. What makes one a proved program is its stamp or its release, as for a native one."""
import hashlib
import os
import shutil
import subprocess
import sys

from dev.building import archive
from dev.building.archive import Proved
from nfs4tools.processes import PATIENCE, TOP

ROW = ["tools/send_rows", "{host}", "{port}", "samples/two_owners.rows"]
PASSES = "1 rows: 0 failed\n"
# A program that answers as the model does. The words behind it make each one another file.
PROGRAM = """#!/bin/sh
# {name}
command=$1
shift
case $command in
    audit) exec {python} {top}/tools/model/journal.py "$@" ;;
    *) exec {python} {top}/tools/model/serve.py "$@" ;;
esac
"""
SHELLS = [shell for shell in ("dash", "bash", "busybox") if shutil.which(shell)]


def program_text(name):
    return PROGRAM.format(name=name, python=sys.executable, top=TOP)


class Tree:
    """A checkout of its own with `start`, in which a test puts the servers that are to be there."""

    def __init__(self, folder, shell="sh"):
        self.folder, self.shell = folder, shell
        for name in ("tools", "samples", "crates"):
            os.symlink(os.path.join(TOP, name), folder / name)
        shutil.copy(os.path.join(TOP, "start"), folder / "start")
        (folder / ".gitignore").write_text("/out\n/dist\n/tools\n/crates\n/samples\n")
        self.git("init", "-q")
        self.commit("first")

    def git(self, *words):
        words = ["git", "-c", "user.name=a", "-c", "user.email=a@b", *words]
        return subprocess.run(words, cwd=self.folder, check=True, stdout=subprocess.PIPE, text=True).stdout.strip()

    def commit(self, text):
        """Commits a change, and returns its commit."""
        (self.folder / "file").write_text(text)
        self.git("add", "-A")
        self.git("commit", "-qm", text)
        return self.git("rev-parse", "HEAD")

    def head(self):
        return self.git("rev-parse", "HEAD")

    def put(self, path, content, is_program=False):
        target = self.folder / path
        target.parent.mkdir(parents=True, exist_ok=True)
        target.write_bytes(content if isinstance(content, bytes) else content.encode())
        if is_program:
            target.chmod(0o755)
        return target

    def put_proved(self, commit=None):
        program = self.put("out/proved/nfs4state", program_text("proved"), is_program=True)
        self.put("out/proved/commit", f"{commit or self.head()}\n")
        self.put("out/proved/stamp", f"sum of all sources {hashlib.sha256(program.read_bytes()).hexdigest()}")

    def put_release(self, commit=None):
        found = Proved(program_text("released").encode(), "0.2", commit or self.head(), "rattle-kit-13f", "xdr 85\n")
        data, name = archive.packed("0.2", found), archive.archive_of("0.2")
        self.put(f"dist/{name}", data)
        self.put("dist/SHA256SUMS", f"{hashlib.sha256(data).hexdigest()}  {name}\n")

    def put_unproved(self, commit=None):
        self.put("out/unproved/nfs4state", program_text("unproved"), is_program=True)
        self.put("out/unproved/commit", f"{commit or self.head()}\n")

    def words(self, *words):
        shell = ["busybox", "sh"] if self.shell == "busybox" else [self.shell]
        return [*shell, str(self.folder / "start"), *words]

    def run(self, *words, **how):
        """Runs `start` with these words: its status, output and lines."""
        given = {"stdin": subprocess.DEVNULL, "cwd": self.folder, "timeout": PATIENCE} | how
        ran = subprocess.run(self.words(*words), stdout=subprocess.PIPE, stderr=subprocess.PIPE, text=True, **given)
        return ran.returncode, ran.stdout, ran.stderr

    def first_line(self, *words):
        """What it says of its server, with a command that does nothing."""
        status, _, lines = self.run(*words, "--", "true")
        assert status == 0, lines
        return lines.partition("; files: ")[0]


def without(tree, *beginnings):
    """An environment that has no commands of these beginnings, and a program that doesn't look for them."""
    folder = tree.folder / "out/bin"
    folder.mkdir(parents=True)
    for directory in os.environ["PATH"].split(":"):
        for name in os.listdir(directory) if os.path.isdir(directory) else []:
            if not name.startswith(beginnings) and not os.path.lexists(folder / name):
                os.symlink(os.path.join(directory, name), folder / name)
    return {"PATH": str(folder)}


def own_seconds(seconds):
    """About so many seconds, for which no other process of the machine sleeps."""
    return f"{seconds}.{os.getpid()}"


def is_sleeping(seconds):
    """Whether a command `sleep` with these seconds runs."""
    return subprocess.run(["pgrep", "-xf", f"sleep {seconds}"], stdout=subprocess.DEVNULL).returncode == 0
