"""Checks crates from nothing, and prints for each crate which of its functions took the prover most, in processor
seconds. Without a name it checks all crates of crates.txt.

If a function took more than SECONDS (40), or a crate isn't proved, the status is 1.

The libraries below a crate are in crates/*/out/rlib. `rt ci` leaves them there in a clean clone, and `rt lib` in a
crate's folder makes one. A crate that has tests is checked with them. A crate has one process with one job, and N
crates are checked at once.

A check into an empty folder writes a file when a module ends. The module took what the process took since the file
before it. `Lts` is the borrow checker's part, `Proof` and `Tie` are the proof itself. The modules of a function are
those whose names begin with its path.

The prover counts some things as functions of their own:

- a closure, and what calls it (`+FnMut::call_mut`, `+FnOnce::call_once`)
- what drops the values of a type (`Destruct::drop`)"""
import argparse
import glob
import os
import re
import signal
import subprocess
import sys
import tempfile
import time
from bisect import bisect
from collections import Counter, defaultdict
from collections.abc import Iterator, Sequence, Set
from typing import Any

from dev.edits_kept import toolchain

TOP = os.path.dirname(os.path.dirname(os.path.dirname(os.path.abspath(__file__))))
TICK = os.sysconf("SC_CLK_TCK")
# Processor seconds by names. A counter has whole numbers by its type alone.
Costs = Counter[str]


def taken_by(group: int) -> float:
    """The processor seconds that a group of processes has taken so far, with those of it that have ended. The first of
    them is looked at before those that it waits for, so that none counts twice."""
    ticks = 0
    for process in sorted(filter(str.isdigit, os.listdir("/proc")), key=lambda it: it != str(group)):
        try:
            with open(f"/proc/{process}/stat", "rb") as file:
                words = file.read().rpartition(b")")[2].split()
        except OSError:
            continue
        if int(words[2]) == group:
            ticks += sum(map(int, words[11:15]))
    return ticks / TICK


class Check:
    """A check of a crate from nothing, that goes on or has ended."""

    def __init__(self, kit: str, crate: Any) -> None:
        self.crate = crate
        self.kept = tempfile.TemporaryDirectory(prefix="function-costs-")
        self.said = tempfile.TemporaryFile("w+", encoding="utf-8", errors="replace")
        # What it had taken at which moment.
        self.looks: list[tuple[float, float]] = [(time.time(), 0)]
        self.process = subprocess.Popen(
            [
                f"{kit}/bin/rattle",
                "check",
                *crate.words(["--jobs", "1"], crate.has_tests(), keeps=False),
                "--incremental",
                self.kept.name,
            ],
            cwd=crate.folder,
            stdin=subprocess.DEVNULL,
            stdout=self.said,
            stderr=self.said,
            process_group=0,
        )

    def goes_on(self) -> bool:
        """Looks at what it has taken, and says whether it goes on."""
        self.looks.append((time.time(), max(taken_by(self.process.pid), self.looks[-1][1])))
        return self.process.poll() is None

    def taken_at(self, moment: float) -> float:
        """What it had taken at a moment: of what it took between two looks, the part up to then."""
        after = min(max(bisect(self.looks, (moment, 0)), 1), len(self.looks) - 1)
        (begun, before), (ended, then) = self.looks[after - 1 : after + 1]
        return before + (then - before) * min(max((moment - begun) / (ended - begun), 0), 1)

    def modules(self) -> Iterator[tuple[str, float]]:
        """What each module took."""
        files = sorted(
            (os.stat(path).st_mtime, path) for path in glob.glob(f"{self.kept.name}/*/*") if os.path.isfile(path)
        )
        for (begun, _), (ended, path) in zip(files, files[1:]):
            yield os.path.basename(path).removesuffix(".oantt"), self.taken_at(ended) - self.taken_at(begun)

    def functions(self) -> tuple[dict[str, Costs], Costs]:
        """What each function took, by kinds of its modules; and by their names what the modules took that are of no
        function."""
        self.said.seek(0)
        names = set(re.findall(rf"^fn {self.crate.name}::(\S+): ", self.said.read(), re.M))
        functions, others = defaultdict[str, Costs](Counter), Costs()
        for module, seconds in self.modules():
            name, kind = owner(self.crate.name, names, module)
            (functions[name] if name else others).update({kind: seconds})
        return functions, others

    def end(self) -> None:
        if self.process.poll() is None:
            os.killpg(self.process.pid, signal.SIGKILL)
            self.process.wait()
        self.kept.cleanup()


def owner(crate: str, names: Set[str], module: str) -> tuple[str | None, str]:
    """The function that a module belongs to, and what kind of its modules it is; no function, and the module, where it
    is of a type, or of another file. Functions that call one another have modules in common, below a name that begins
    with `+`."""
    path = re.match(rf"Rattle-{crate}[-.](?:proofs|specs\.contracts)\.(.+)", module)
    words = path[1].split(".") if path else []
    for count in range(len(words), 0, -1):
        name = "::".join(words[:count])
        if name in names or words[count - 1].startswith("+"):
            return name, "".join(words[count : count + 1]).partition("-")[0] or "contract"
    return None, module


def dearest_of(taken: Costs, count: int) -> str:
    return ", ".join(f"{name} {seconds:.1f}" for name, seconds in taken.most_common(count))


def tell(check: Check, most: float, dearest: int) -> bool:
    """Prints what the functions took, and gives whether the crate is proved, and no function took too much."""
    name, (functions, others) = check.crate.name, check.functions()
    total = Counter({path: kinds.total() for path, kinds in functions.items()})
    (begun, _), (ended, taken) = check.looks[0], check.looks[-1]
    print(
        f"{name}: {taken:.0f} processor seconds, {total.total():.0f} of them for {len(total)} functions; "
        f"it had {taken / (ended - begun):.2f} of a processor"
    )
    wrong = [path for path in total if total[path] > most]
    for place, (path, seconds) in enumerate(total.most_common()):
        if place < dearest or seconds > most:
            print(f"{seconds:8.1f}  {path} ({dearest_of(functions[path], 2)})" + "  TOO MUCH" * (path in wrong))
    print(f"{others.total():8.1f}  for no function ({dearest_of(others, 3)})")
    if check.process.returncode:
        check.said.seek(0)
        print("function_costs: not proved:\n" + "".join(check.said.readlines()[-8:]))
    sys.stdout.flush()
    return not wrong and not check.process.returncode


def chosen(names: Sequence[str], crates: dict[str, Any]) -> list[Any]:
    """The crates of these names, or all, over libraries that are there."""
    unknown = [name for name in names if name not in crates]
    asked = [crates[name] for name in names or crates if name in crates]
    lacking = {below.name for crate in asked for below in crate.below() if not os.path.isdir(below.rlib)}
    if unknown or lacking:
        sys.exit(
            "function_costs: "
            + (
                f"no crate {', '.join(unknown)}"
                if unknown
                else f"not built, by `rt ci` or `rt lib`: {', '.join(sorted(lacking))}"
            )
        )
    return asked


def main() -> int:
    parser = argparse.ArgumentParser(description=__doc__, formatter_class=argparse.RawDescriptionHelpFormatter)
    parser.add_argument("--jobs", type=int, default=1)
    parser.add_argument("--most", metavar="SECONDS", type=float, default=40)
    parser.add_argument("--dearest", metavar="N", type=int, default=10)
    parser.add_argument("names", metavar="NAME", nargs="*")
    given = parser.parse_args()
    kit, rtlib = toolchain()
    waiting = chosen(given.names, {crate.name: crate for crate in rtlib.crates_below(TOP)})
    running, is_well = list[Check](), True
    signal.signal(signal.SIGTERM, lambda *_: sys.exit(1))
    try:
        while waiting or running:
            while waiting and len(running) < given.jobs:
                running.append(Check(kit, waiting.pop(0)))
            time.sleep(0.1)
            for check in [it for it in running if not it.goes_on()]:
                is_well = tell(check, given.most, given.dearest) and is_well
                running.remove(check)
                check.end()
    finally:
        for check in running:
            check.end()
    return 0 if is_well else 1
