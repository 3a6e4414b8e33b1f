"""Copies of the sources, from which programs are built: the checkout itself is never changed by a build, and says of
the program that it is of no release."""
import os
import re
import shutil
import subprocess
from dataclasses import dataclass

from nfs4tools.processes import TOP

# The file with what the program says of its build, and that text.
BUILD_FILE = "crates/nfs4state/src/build.rt"
BUILD_TEXT = re.compile(r'"nfs4state ([0-9]+\.[0-9]+), of no release\\n"')
# What a build reads of the tree.
SOURCES = ("crates", "crates.txt", "HANDLES")
UNTRACKED = ("--others", "--exclude-standard")


class Unbuildable(Exception):
    """Nothing can be built; the text says why, and what would be right."""


@dataclass(frozen=True)
class Commit:
    """The commit of a checkout, and whether all tracked files are as they are there."""

    full: str
    is_clean: bool

    @property
    def short(self) -> str:
        """The first eight digits, and `+` if the tree isn't clean."""
        return self.full[:8] + ("" if self.is_clean else "+")


def git(*words: str) -> str:
    """What git prints of this checkout."""
    ran = subprocess.run(["git", "-C", TOP, *words], stdout=subprocess.PIPE, stderr=subprocess.PIPE, text=True)
    if ran.returncode:
        raise Unbuildable(f"{TOP} is no checkout of the sources: git says: {ran.stderr.strip()}")
    return ran.stdout


def commit_here() -> Commit:
    """The commit that is checked out. A tree isn't clean if a tracked file is changed, or a source isn't tracked."""
    changed = git("status", "--porcelain", "--untracked-files=no") + git("ls-files", *UNTRACKED, *SOURCES)
    return Commit(git("rev-parse", "HEAD").strip(), not changed.strip())


def version_here() -> str:
    """The version that the sources have: that of the last release."""
    with open(os.path.join(TOP, BUILD_FILE), encoding="utf-8") as file:
        found = BUILD_TEXT.search(file.read())
    if found is None:
        raise Unbuildable(f"{BUILD_FILE} has no text `nfs4state VERSION, of no release`")
    return found[1]


def kit_here() -> str:
    """The name of the toolchain that is here, without its letter."""
    if shutil.which("rt") is None:
        raise Unbuildable("the toolchain (`rt`) isn't on the PATH: without it there are the release and the model")
    version = subprocess.run(["rt", "version"], stdout=subprocess.PIPE, text=True, check=True).stdout
    found = re.match(r"rattle-kit-[0-9]+", version)
    if found is None:
        raise Unbuildable(f"`rt version` says {version.strip()!r}; rattle-kit-13 proves these sources")
    return found[0]


def copy_sources(room: str, text: str) -> None:
    """Copies the sources, as they stand in the checkout, to a folder, in which the program has this text of its
    build."""
    for path in git("ls-files", "-z", "--cached", *UNTRACKED, *SOURCES).split("\0"):
        origin, target = os.path.join(TOP, path), os.path.join(room, path)
        if path and os.path.exists(origin):
            os.makedirs(os.path.dirname(target), exist_ok=True)
            shutil.copyfile(origin, target)
    put_text(room, text)


def copy_commit(room: str, commit: str, text: str) -> None:
    """Copies the sources of a commit in the same way."""
    packed = subprocess.run(["git", "-C", TOP, "archive", commit, *SOURCES], stdout=subprocess.PIPE, check=True).stdout
    subprocess.run(["tar", "-x", "-C", room], input=packed, check=True)
    put_text(room, text)


def put_text(room: str, text: str) -> None:
    path = os.path.join(room, BUILD_FILE)
    with open(path, encoding="utf-8") as source:
        new, count = BUILD_TEXT.subn(lambda _: f'"{text}\\n"', source.read())
    if count != 1:
        raise Unbuildable(f"{BUILD_FILE} has {count} texts `nfs4state VERSION, of no release`; it has to have one")
    with open(path, "w", encoding="utf-8") as changed:
        changed.write(new)
