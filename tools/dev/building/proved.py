"""The program, proved and built in a copy of the sources, in which it says of which commit it is and what proves it.

If the gate has proved all libraries of these sources here, the copy is lent them, and `rt run` proves the program
alone. Else `rt ci` proves the program and all below it. Both compile what was proved. A stamp beside the program then
ends with the program's SHA-256; without such a stamp no command of this repository takes a program for a proved one."""
import hashlib
import os
import re
import shutil
import subprocess
import tempfile
import time
from collections.abc import Callable
from dataclasses import dataclass, field

from dev.building.copies import (
    BUILD_FILE,
    Commit,
    Unbuildable,
    commit_here,
    copy_commit,
    copy_sources,
    kit_here,
    version_here,
)
from dev.building.libraries import Libraries
from dev.building.telling import tell, telling
from nfs4tools.processes import TOP

PROGRAM = "nfs4state"
# What a folder of a proved program has.
PROGRAM_FILE = PROGRAM
OBJECT_FILE = f"{PROGRAM}.o"
STAMP_FILE = "stamp"
COMMIT_FILE = "commit"
LOG_FILE = "log"
PROVED_HERE = os.path.join(TOP, "out/proved")
# Lines of the toolchain's gate that tell of a crate.
DONE = re.compile(r"rt: (\w+) (?:proved$|is kept: )")
# The words that prove all crates of a copy, and those that prove its program over libraries that are built.
WHOLE, ALONE = ("rt", "ci"), ("rt", "run", "--", "--version")
# What the toolchain says of a crate that is proved.
IS_PROVED = re.compile(r"^logic=proved functions=[0-9]+", re.M)


def sum_of(path: str) -> str:
    with open(path, "rb") as file:
        return hashlib.sha256(file.read()).hexdigest()


def is_stamped(folder: str, stamp_file: str = STAMP_FILE) -> bool:
    """Whether the program in this folder is the one for which its stamp was written."""
    try:
        with open(os.path.join(folder, stamp_file), encoding="utf-8") as stamp:
            return stamp.read().endswith(sum_of(os.path.join(folder, PROGRAM_FILE)))
    except FileNotFoundError:
        return False


def is_of(folder: str, commit: Commit) -> bool:
    """Whether this folder has a program that was proved for this commit."""
    try:
        with open(os.path.join(folder, COMMIT_FILE), encoding="utf-8") as file:
            return commit.is_clean and file.read().strip() == commit.full and is_stamped(folder)
    except FileNotFoundError:
        return False


def put(folder: str, name: str, text: str) -> None:
    with open(os.path.join(folder, name), "w", encoding="utf-8") as file:
        file.write(text)


def crates_below(lines: list[str], name: str) -> set[str]:
    """The crate and those that it stands on, by the lines of crates.txt."""
    uses = {
        line.partition(":")[0].split()[0]: line.partition(":")[2].split()
        for line in lines
        if line.strip() and not line.startswith("#")
    }
    found, left = set[str](), [name]
    while left:
        crate = left.pop()
        if crate in uses and crate not in found:
            found.add(crate)
            left += uses[crate]
    return found


def keep_program_alone(room: str) -> int:
    """Leaves in a copy of the sources the program and what is below it, without mutants: how many crates."""
    path = os.path.join(room, "crates.txt")
    with open(path, encoding="utf-8") as file:
        lines = file.read().splitlines()
    wanted = crates_below(lines, PROGRAM)
    put(room, "crates.txt", "".join(f"{line}\n" for line in lines if line.partition(":")[0] in wanted))
    for name in os.listdir(os.path.join(room, "crates")):
        folder = os.path.join(room, "crates", name)
        if name not in wanted:
            shutil.rmtree(folder)
        else:
            shutil.rmtree(os.path.join(folder, "must-fail"), ignore_errors=True)
    subprocess.run(["git", "init", "-q", room], check=True)
    return len(wanted)


@dataclass
class Proof:
    """A run of the toolchain over a copy, by these words."""

    room: str
    number_of_crates: int
    log: str
    words_of_run: tuple[str, ...] = WHOLE
    done: set[str] = field(default_factory=set)
    begun: float = field(default_factory=time.monotonic)

    def words(self) -> str:
        """How far it is."""
        minutes, seconds = divmod(int(time.monotonic() - self.begun), 60)
        under_way = ", ".join(sorted(self.under_way())) or "none yet"
        return (
            f"{len(self.done)} of {self.number_of_crates} crates are proved; under way: {under_way}; "
            f"{minutes} min {seconds:02} s since it began"
        )

    def under_way(self) -> set[str]:
        """The crates that a process of the prover works on in this copy."""
        found = set[str]()
        for number in filter(str.isdigit, os.listdir("/proc")):
            try:
                if os.readlink(f"/proc/{number}/cwd").startswith(os.path.join(self.room, "crates") + os.sep):
                    found.add(os.path.basename(os.readlink(f"/proc/{number}/cwd")))
            except OSError:
                pass
        return found - self.done

    def run(self) -> None:
        # `rt run` is of the crate in whose folder it runs.
        folder = os.path.join(self.room, "crates", PROGRAM) if self.words_of_run == ALONE else self.room
        process = subprocess.Popen(
            self.words_of_run,
            cwd=folder,
            stdin=subprocess.DEVNULL,
            stdout=subprocess.PIPE,
            stderr=subprocess.STDOUT,
            text=True,
            errors="replace",
        )
        assert process.stdout is not None
        with open(self.log, "w", encoding="utf-8") as log, telling(self.words):
            for line in process.stdout:
                log.write(line)
                log.flush()
                found = DONE.match(line)
                self.done |= {found[1]} if found else set()
        if process.wait():
            raise Unbuildable(f"it isn't proved: {self.log} has why")


def build_proved(out: str, version: str | None = None) -> None:
    """Proves and builds the program of the checkout, in this version or that of the last release, and leaves it in the
    folder `out`, with its object, stamp, commit and the log of the proof."""
    commit = commit_here()
    text = f"{PROGRAM} {version or version_here()} ({commit.short}), proved by {kit_here()}"
    build_copy(out, text, lambda room: copy_sources(room, text))
    put(out, COMMIT_FILE, commit.full + ("" if commit.is_clean else "+") + "\n")


def build_commit(out: str, version: str, commit: str) -> None:
    """The same of a commit, in this version."""
    text = f"{PROGRAM} {version} ({commit[:8]}), proved by {kit_here()}"
    build_copy(out, text, lambda room: copy_commit(room, commit, text))
    put(out, COMMIT_FILE, commit + "\n")


def build_copy(out: str, text: str, copy: Callable[[str], None]) -> None:
    """Proves and builds the program of a copy that this makes, and leaves it in the folder with its stamp."""
    os.makedirs(out, exist_ok=True)
    for name in (PROGRAM_FILE, OBJECT_FILE, STAMP_FILE, COMMIT_FILE):
        if os.path.exists(os.path.join(out, name)):
            os.remove(os.path.join(out, name))
    with tempfile.TemporaryDirectory(prefix="build_proved-") as room:
        copy(room)
        number, log = keep_program_alone(room), os.path.join(out, LOG_FILE)
        if Libraries().lend(room, PROGRAM):
            prove_alone(room, number, log)
        else:
            prove_whole(room, number, log)
        made = os.path.join(room, "crates", PROGRAM, "out")
        for name in (PROGRAM_FILE, OBJECT_FILE):
            shutil.copy(os.path.join(made, name), os.path.join(out, name))
    put_stamp(out)
    tell(f"{text}: built as {os.path.join(out, PROGRAM_FILE)}")


def prove_alone(room: str, number: int, log: str) -> None:
    """Proves and builds the program of a copy that was lent its libraries."""
    with open(os.path.join(room, "crates.txt"), encoding="utf-8") as file:
        lent = crates_below(file.read().splitlines(), PROGRAM) - {PROGRAM}
    tell(f"{len(lent)} libraries were proved here by the gate, and are lent")
    Proof(os.path.realpath(room), number, log, ALONE, lent).run()
    with open(log, encoding="utf-8", errors="replace") as file:
        is_proved = IS_PROVED.search(file.read()) is not None
    if not is_proved or not is_stamped(os.path.join(room, "crates", PROGRAM, "out"), f"{PROGRAM}.stamp"):
        raise Unbuildable(f"the toolchain doesn't say that it proved the program: {log} has what it says")


def prove_whole(room: str, number: int, log: str) -> None:
    """Proves and builds the program of a copy and all below it."""
    Proof(os.path.realpath(room), number, log).run()
    if not os.path.exists(os.path.join(room, "crates", PROGRAM, "out", OBJECT_FILE)):
        # The toolchain has kept this program from an earlier run, without its object: it is proved once more.
        with open(os.path.join(room, BUILD_FILE), "a", encoding="utf-8") as file:
            file.write(f"// {time.time_ns()}\n")
        Proof(os.path.realpath(room), number, log).run()


def put_stamp(folder: str) -> None:
    put(folder, STAMP_FILE, f"{kit_here()} {sum_of(os.path.join(folder, PROGRAM_FILE))}")


def take_from_gate(out: str = PROVED_HERE) -> None:
    """Takes the program that `rt ci` has just proved and built in the checkout, and marks its libraries as proved."""
    os.makedirs(out, exist_ok=True)
    shutil.copy(os.path.join(TOP, "crates", PROGRAM, "out", PROGRAM_FILE), os.path.join(out, PROGRAM_FILE))
    put_stamp(out)
    commit = commit_here()
    put(out, COMMIT_FILE, commit.full + ("" if commit.is_clean else "+") + "\n")
    Libraries().mark()
