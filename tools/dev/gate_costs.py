"""Runs commands one after the other, and prints what they cost:

    gate_costs [--keep FILE] [COMMAND.. [then COMMAND..]..]
    gate_costs --from FILE

- how long each command took, and how busy the machine was
- the processor seconds of each crate: its library or program, its tests, and its mutants
- what has to be proved and tried again if a body of a crate changes

Without a command it runs the commands of `.ci/run`, all from nothing: `rt ci --anew`, `tools/try_edits --all`, and
the others. If all end well, it keeps their processor minutes for tools/dev/release_numbers, in
tools/dev/release_numbers.json.

With --keep it writes what it saw to FILE when a command ends. With --from it prints the tables of such a file.

It looks at the prover's processes below a command every tenth of a second. Each process counts up to the last look.
If a command fails, no further command is run, and the status is that command's."""
import argparse
import json
import os
import re
import resource
import shutil
import subprocess
import sys
import time
from collections import Counter, defaultdict
from collections.abc import Iterator, Sequence
from typing import Any

from dev.clause_index import crates
from dev.release_numbers import keep_numbers

TOP = os.path.dirname(os.path.dirname(os.path.dirname(os.path.abspath(__file__))))
THEN = "then"
# How the lines of `.ci/run` begin that something is kept for, and what makes them try all of it again.
ANEW = {"rt ci": "--anew", "tools/try_edits": "--all"}
PARTS = ("library", "tests", "mutants")
# How the folders begin in which `rt ci` and `tools/try_edits` check mutants of a crate.
OF_MUTANTS = ("rt-edit", "try-edits-", "try_edits-")
TICK = os.sysconf("SC_CLK_TCK")
# What was seen of commands and crates, as JSON keeps it.
Run = dict[str, Any]


# Watching.


def read(path: str) -> str:
    try:
        with open(path, "rb") as file:
            return file.read().decode(errors="replace")
    except OSError:
        return ""


def times_of(process: str) -> list[str]:
    """What the system says of a process behind its name, from its state on; nothing of one that is gone."""
    return read(f"/proc/{process}/stat").rpartition(")")[2].split()


def is_below(process: str, top: str) -> bool:
    """Whether a process is another, or was started by it or by one below it. Others may have runs of their own."""
    while process not in (top, "0", ""):
        process = "".join(times_of(process)[1:2])
    return process == top


def part_of(words: Sequence[str], folder: str) -> str:
    """Which part of a crate this process of the prover is for."""
    # No check of a whole crate is of some functions only.
    if "--only" in words or any(name.startswith(OF_MUTANTS) for name in folder.split("/")):
        return "mutants"
    return "tests" if "--test" in words or any(word.endswith("_tests.o") for word in words) else "library"


def provers(top: str) -> Iterator[tuple[tuple[str, str], str, str, float]]:
    """The prover's processes below another: for each what no other has, the crate, the part, and the seconds so far."""
    for process in filter(str.isdigit, os.listdir("/proc")):
        words = read(f"/proc/{process}/cmdline").split("\0")
        if os.path.basename(words[0]) != "rattle" or "--crate-name" not in words:
            continue
        times = times_of(process)
        try:
            folder = os.readlink(f"/proc/{process}/cwd")
        except OSError:
            continue
        if times and is_below(process, top):
            crate, seconds = words[words.index("--crate-name") + 1], (int(times[11]) + int(times[12])) / TICK
            # With the moment at which it began, since a process number is used again.
            yield (process, times[19]), crate, part_of(words, folder), seconds


def busy() -> float:
    """For how many seconds the machine's processors were busy since it was started."""
    user, nice, system, _, _, interrupts, more = map(int, read("/proc/stat").split()[1:8])
    return (user + nice + system + interrupts + more) / TICK


class Watch:
    """What is seen while a command runs: the prover's processes; and by crates for how long any of theirs was there,
    and for how many seconds the machine's processors were busy meanwhile."""

    def __init__(self, top: int) -> None:
        self.top, self.load = str(top), 0.0
        self.processes: dict[tuple[str, str], tuple[str, str, float]] = {}
        self.beside: dict[str, Any] = defaultdict(Counter)
        self.begun = self.now = time.monotonic()
        self.busy_at_first = self.busy = busy()

    def look(self) -> None:
        was, busy_then = self.now, self.busy
        self.now, self.busy = time.monotonic(), busy()
        self.load += os.getloadavg()[0] * (self.now - was)
        found = {key: (crate, part, seconds) for key, crate, part, seconds in provers(self.top)}
        self.processes |= found
        for crate in {crate for crate, _, _ in found.values()}:
            self.beside[crate].update(wall=self.now - was, busy=self.busy - busy_then)

    def add_to(self, run: Run, words: Sequence[str], status: int | None, seconds: float) -> None:
        """Adds to a run what was seen of a command that has ended."""
        wall = self.now - self.begun
        run["commands"].append(
            {
                "words": words[-1] if words[:-1] == ["bash", "-c"] else " ".join(words),
                "status": status,
                "wall": wall,
                "seconds": seconds,
                "prover": sum(seconds for _, _, seconds in self.processes.values()),
                "busy": (self.busy - self.busy_at_first) / wall,
                "load": self.load / wall,
            }
        )
        for crate, part, seconds in self.processes.values():
            run["crates"][crate][part] += seconds
        for crate, found in self.beside.items():
            run["crates"][crate].update(found)


def taken_below() -> float:
    """The processor seconds of the commands that have ended."""
    used = resource.getrusage(resource.RUSAGE_CHILDREN)
    return used.ru_utime + used.ru_stime


def watch(words: Sequence[str], run: Run) -> int:
    """Runs a command, adds to the run what is seen of it, and gives its status."""
    before = taken_below()
    program = subprocess.Popen(words)
    watched = Watch(program.pid)
    try:
        while program.poll() is None:
            watched.look()
            time.sleep(0.1)
    except KeyboardInterrupt:
        # The command has been told too.
        program.wait()
    watched.look()
    watched.add_to(run, words, program.returncode, taken_below() - before)
    return program.returncode


def begun() -> Run:
    """A run of which nothing is seen yet, with what there is to know of the machine."""
    model = re.search(r"model name\s*: (.*)", read("/proc/cpuinfo"))
    free = re.findall(r"MemAvailable:\s*(\d+)", read("/proc/meminfo"))
    kit = ["no kit"]
    if shutil.which("rt"):
        kit = subprocess.run(["rt", "version"], capture_output=True, text=True).stdout.split() or kit
    return {
        "date": time.strftime("%Y-%m-%d %H:%M"),
        "kit": kit[0],
        "processors": os.cpu_count(),
        "model": model[1] if model else "of an unknown kind",
        "free": int(free[0]) * 1024,
        "commands": [],
        "crates": defaultdict(Counter),
    }


# Printing.


def table(head: Sequence[str], rows: Sequence[Sequence[object]]) -> None:
    """A table in Markdown, of texts and numbers; where there is None stands nothing."""
    print("| " + " | ".join(head) + " |\n" + "|---" * len(head) + "|")
    for row in rows:
        cells = ["" if cell is None else str(cell) for cell in row] + [""] * (len(head) - len(row))
        print("| " + " | ".join(cells) + " |")
    print()


def whole(seconds: float | None) -> str | None:
    return None if seconds is None else f"{seconds:,.0f}"


def minutes(seconds: float) -> str:
    return f"{seconds / 60:,.1f}"


def tell_commands(run: Run) -> None:
    print(
        f"{run['date']}, {run['kit']}, {run['processors']} processors ({run['model']}), "
        f"{run['free'] / 1e9:.1f} GB of memory free at the beginning.\n"
    )
    done = run["commands"]
    wall = sum(it["wall"] for it in done)
    means = {key: sum(it[key] * it["wall"] for it in done) / wall for key in ("busy", "load")}
    sums = {key: sum(it[key] for it in done) for key in ("wall", "seconds", "prover")}
    rows = [(f"`{it['words']}`".replace("|", "\\|"), it) for it in done] + [("all", sums | means)] * (len(done) > 1)
    table(
        ("Command", "Minutes", "Processor minutes", "The prover's", "Busy processors", "By the command", "Load"),
        [
            (
                name,
                *(minutes(it[key]) for key in ("wall", "seconds", "prover")),
                f"{it['busy']:.1f}",
                f"{it['seconds'] / it['wall']:.1f}",
                f"{it['load']:.1f}",
            )
            for name, it in rows
        ],
    )


def crates_above() -> dict[str, list[str]]:
    """By the crates of crates.txt: the crate itself, and all that are over it."""
    below: dict[str, set[str]] = {}
    for name, names in crates().items():
        # Each stands after those that it depends on.
        below[name] = {name}.union(*(below.get(it, ()) for it in names))
    return {name: [it for it in below if name in below[it]] for name in below}


def prices_of(crates: dict[str, Any]) -> dict[str, tuple[float, float]]:
    """What is proved and tried again where a body of a crate changes, in seconds: proofs, and mutants. A crate has no
    price where one above it wasn't seen."""
    prices = {}
    for name, again in crates_above().items():
        if all(it in crates for it in again):
            mutants = sum(crates[it].get("mutants", 0) for it in again)
            prices[name] = sum(crates[it].get(part, 0) for it in again for part in PARTS) - mutants, mutants
    return prices


def tell_crates(crates: dict[str, Any]) -> None:
    print(
        "What each crate takes, in processor seconds, and how many of the machine's processors were busy meanwhile;\n"
        "and what a change of one of its bodies has proved and tried again, in processor minutes:\n"
    )
    total = {name: sum(it.get(part, 0) for part in PARTS) for name, it in crates.items()}
    prices, rows = prices_of(crates), []
    for name in sorted(total, key=total.__getitem__, reverse=True):
        it, price = crates[name], prices.get(name, ())
        rows.append(
            (
                f"`{name}`",
                *(whole(it.get(part)) for part in PARTS),
                whole(total[name]),
                f"{it['busy'] / it['wall']:.1f}",
                *map(minutes, (*price, sum(price))[: 3 * len(price)]),
            )
        )
    sums = [sum(it.get(part, 0) for it in crates.values()) for part in PARTS]
    table(
        ("Crate", "Library or program", "Tests", "Mutants", "All", "Busy", "Proofs again", "Mutants again", "A change"),
        [*rows, ("all", *map(whole, (*sums, sum(sums))))],
    )


def tell(run: Run) -> None:
    tell_commands(run)
    tell_crates(run["crates"])


# Running.


def commands_in(words: Sequence[str]) -> list[list[str]]:
    """The commands, which the word `then` parts."""
    commands: list[list[str]] = [[]]
    for word in words:
        if word == THEN:
            commands.append([])
        else:
            commands[-1].append(word)
    for command in commands:
        if not command or not shutil.which(command[0]):
            sys.exit(f"gate_costs: there is no program {command[0] if command else 'before or behind `then`'}")
    return commands


def commands_of_gate() -> list[list[str]]:
    """The lines of `.ci/run`, each for a shell, with nothing that is kept."""
    with open(".ci/run", encoding="utf-8") as lines:
        commands = [line for line in lines.read().splitlines() if not re.match(r"#|set |cd |trap |wait |$", line)]
    # What goes on beside others there is run like them here.
    commands = [re.sub(r" & \w+=\$!$", "", it) for it in commands]
    for first, word in ANEW.items():
        commands = [f"{it} {word}" if f"{it} ".startswith(f"{first} ") else it for it in commands]
    return [["bash", "-c", it] for it in commands]


def write(run: Run, path: str) -> None:
    with open(path, "w", encoding="utf-8") as file:
        json.dump(run, file, indent=1)


def main() -> int:
    parser = argparse.ArgumentParser(description=__doc__, formatter_class=argparse.RawDescriptionHelpFormatter)
    parser.add_argument("--keep", metavar="FILE", type=lambda path: os.path.abspath(path))
    parser.add_argument("--from", metavar="FILE", dest="stored")
    parser.add_argument("words", metavar="COMMAND", nargs=argparse.REMAINDER)
    given = parser.parse_args()
    if given.stored:
        with open(given.stored, encoding="utf-8") as file:
            tell(json.load(file))
            return 0
    if not given.words:
        os.chdir(TOP)
    commands = commands_in(given.words) if given.words else commands_of_gate()
    run, status = begun(), 0
    if given.keep:
        # Better now than after an hour.
        open(given.keep, "a", encoding="utf-8").close()
    for command in commands:
        status = status or watch(command, run)
        if given.keep:
            write(run, given.keep)
    if not given.words and status == 0:
        seconds = sum(command["seconds"] for command in run["commands"])
        keep_numbers("gate", {"minutes": round(seconds / 60), "kit": run["kit"], "date": run["date"]})
    tell(run)
    return status
