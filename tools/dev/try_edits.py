"""Tries the edits of crates that the prover must refuse, `crates/NAME/mutants/*.edit`: of the crates that are named, or
of all.

An edit is a file, with the lines of the edits that `rt ci` tries:

- a line that says what should refuse it
- `function: PATH`, the function with the contract, as a check prints it after the crate's name
- `file: src/..`
- pairs of lines `old:` and `new:`

One copy of a crate has as many edits as have different functions. One check asks only for these functions, over the
libraries that `rt ci` built. It also asks for the function that `crates/NAME/mutants/control` names. That function has
no edit, calls into the crates below, and must be proved. An edit whose function calls a function with an edit waits
for another check.

An edit passes if it is REFUSED: a goal that its function has without the edit, too, isn't proved. It fails in each
other case, and the case is printed:

- it is proved
- only the written proof doesn't fit any more, because it names what is gone, or its terms have other types
- a function that it calls isn't proved
- it can't be applied or compiled
- the prover could not decide

If a written answer has another type, the edit is tried again with the answer as a fact, from which `grind` may prove
the goal. Then the edit means the same.

What was refused is kept in ~/.cache/nfs4state/edits, under a sum of everything that it depends on, and isn't tried
again. With --all all are tried.

By hand it first builds the libraries that changed. With --after-ci it takes the libraries of `rt ci`, which has just
ended, unchanged. With --jobs N it tries N crates at once. With --at-least N it fails if there are fewer edits. With
--said FOLDER the folder gets what each check printed."""
import argparse
import os
import re
import subprocess
import sys
import tempfile
import threading
import time
from collections import Counter
from collections.abc import Sequence
from concurrent.futures import ThreadPoolExecutor
from typing import Any

from dev import edits_kept
from dev.edit_verdicts import (
    ASK,
    BAD,
    CALLEE,
    MEND,
    REFUSED,
    UNSURE,
    Report,
    Verdict,
    ask_for_goals,
    judge,
    listed,
    mend,
)
from dev.edits import chosen, control_of, copy_with, edits_of, strays_of, Edit

TOP = os.path.dirname(os.path.dirname(os.path.dirname(os.path.abspath(__file__))))
# A check that takes longer than this many seconds is ended.
LONGEST = 1800
# What a check may take of memory, in bytes, by the largest that was seen.
MEMORY = 5_300_000_000
PRINTING = threading.Lock()


def say(text: str) -> None:
    with PRINTING:
        print(text, flush=True)


class Tries:
    """The tries of a crate's edits."""

    def __init__(self, crate: Any, files: str, prover: Sequence[str], said: str | None) -> None:
        # The sum of its files, with which the edits are read.
        self.crate, self.files, self.prover, self.said = crate, files, prover, said
        self.edits, self.control = edits_of(crate.folder, crate.name), control_of(crate.folder)
        self.verdicts: dict[str, Verdict] = {}
        self.kept, self.checks, self.seconds, self.work = 0, 0, 0.0, ""
        # What is known of functions: which others with edits they call, and the names of their goals.
        self.calls, self.goals = dict[str, set[str]](), dict[str, dict[str, bool]]()
        # What is known of edits: which answers are tried as facts, and what was said where goals are asked for.
        self.mends, self.asks = dict[str, Any](), dict[str, Any]()
        for edit in self.edits:
            if edit.bad:
                self.settle(edit, Verdict(BAD, edit.bad))

    def settle(self, edit: Edit, verdict: Verdict) -> None:
        self.verdicts[edit.name] = verdict
        say(f"{edit.crate}/{edit.name}: {verdict.kind}: {verdict.text}")

    def run(self) -> None:
        begun = time.monotonic()
        waiting = [edit for edit in self.edits if edit.name not in self.verdicts]
        # A check begins with what those before proved of functions and lemmas that are the same in it.
        with tempfile.TemporaryDirectory(prefix="try_edits-work-") as self.work:
            while waiting or self.asks:
                if waiting:
                    batch = chosen(waiting, self.calls)
                    waiting = [edit for edit in waiting if edit not in batch] + self.tried(batch)
                else:
                    waiting = self.asked()
        self.seconds = time.monotonic() - begun

    def check(self, room: str, functions: Sequence[str]) -> Report:
        """What the prover says of the functions in a copy of the crate."""
        words = [*self.prover, *self.crate.words(["--jobs", "1"], keeps=False), "--incremental", self.work]
        for function in functions:
            words += ["--only", function]
        status: int | None = None
        try:
            ran = subprocess.run(
                words,
                cwd=room,
                timeout=LONGEST,
                errors="replace",
                stdin=subprocess.DEVNULL,
                stdout=subprocess.PIPE,
                stderr=subprocess.STDOUT,
            )
            status, text = ran.returncode, ran.stdout
        except subprocess.TimeoutExpired:
            text = f"no end after {LONGEST} s"
        self.checks += 1
        if self.said:
            with open(os.path.join(self.said, f"{self.crate.name}.{self.checks}"), "w", encoding="utf-8") as out:
                out.write(f"{' '.join(functions)}\nstatus {status}\n{text}")
        return Report(status, text, self.crate.name)

    def tried(self, batch: list[Edit]) -> list[Edit]:
        """Tries edits in one copy, and returns those that have to be tried again."""
        with tempfile.TemporaryDirectory(prefix="try_edits-") as room:
            copy_with(batch, self.crate.folder, room)
            for edit in batch:
                if edit.name in self.mends:
                    mend(room, edit.function, self.mends[edit.name])
            report = self.check(room, [edit.function for edit in batch] + [self.control])
        if not report.is_told:
            return self.untold(batch, report)
        control = report.functions.get(self.control)
        if control and control.word == "proved":
            return [edit for edit in batch if self.is_again(edit, report, [it.function for it in batch])]
        for edit in batch:
            self.settle(edit, Verdict(UNSURE, f"the control `{self.control}` isn't proved in its check"))
        return []

    def untold(self, batch: list[Edit], report: Report) -> list[Edit]:
        """Where a check says nothing of functions: what it says of the edits' lines or functions, or else it is made of
        half of the edits at once. Returns those that have to be tried again."""
        lost = re.findall("(?:has no function|several functions are named) `([^`]+)`", report.text)
        for edit in batch:
            faults = [it for it in report.compiler if (it.path, it.line - 1) in edit.changes]
            if faults:
                self.settle(edit, Verdict(BAD, f"it doesn't compile: {faults[0].text[:200]}"))
            elif edit.function in lost:
                self.settle(edit, Verdict(BAD, f"there is no function `{edit.function}`, or several are"))
        left = [edit for edit in batch if edit.name not in self.verdicts]
        if len(left) < len(batch):
            return left
        if len(batch) > 1:
            half = len(batch) // 2
            return self.tried(batch[:half]) + self.tried(batch[half:])
        error = next((line for line in report.text.split("\n") if "error" in line), report.text[-200:])
        self.settle(batch[0], Verdict(UNSURE, f"its check ends with status {report.status}: {error[:200]}"))
        return []

    def is_again(self, edit: Edit, report: Report, edited: Sequence[str]) -> bool:
        """Settles the edit by what its check says, in which these functions had edits, or tells that it has to be tried
        again. Where a goal's name doesn't tell, nothing is settled yet."""
        verdict = judge(edit, report, edited, self.goals.get(edit.function, {}), edit.name in self.mends)
        if verdict.kind == CALLEE:
            self.calls.setdefault(edit.function, set()).update(verdict.more)
        elif verdict.kind == MEND:
            self.mends[edit.name] = verdict.more
        elif verdict.kind == ASK:
            self.asks[edit.name] = edit, report, edited, verdict.more
        else:
            self.settle(edit, verdict)
        return verdict.kind in (CALLEE, MEND)

    def asked(self) -> list[Edit]:
        """Asks whether functions have goals without edits too, where a verdict needs it. Returns the edits that have to
        be tried again."""
        asks, self.asks = self.asks, {}
        goals = sorted({(edit.function, goal) for edit, _, _, unknown in asks.values() for goal in unknown})
        # The prover names those that are there where one isn't, those of like names first.
        names = {asked: f"{asked[1]}-{number}" for number, asked in enumerate(goals)}
        functions = sorted({function for function, _ in goals})
        with tempfile.TemporaryDirectory(prefix="try_edits-") as room:
            copy_with([], self.crate.folder, room)
            for function in functions:
                own = [name for asked, name in names.items() if asked[0] == function]
                ask_for_goals(room, function, self.crate.name, own)
            told = self.check(room, functions).asked
        for (function, goal), name in names.items():
            self.goals.setdefault(function, {})[goal] = goal in told.get(name, ())
        for edit, _, _, unknown in asks.values():
            if any(names[edit.function, goal] not in told for goal in unknown):
                self.settle(edit, Verdict(UNSURE, f"it isn't told whether `{edit.function}` has {listed(unknown)}"))
        return [
            edit
            for edit, report, edited, _ in asks.values()
            if edit.name not in self.verdicts and self.is_again(edit, report, edited)
        ]

    def tell(self) -> tuple[int, int]:
        """Prints how the crate's edits came out, and returns how many were refused, and failed."""
        kinds = Counter(verdict.kind for verdict in self.verdicts.values())
        failed = len(self.edits) - kinds[REFUSED]
        say(
            f"{self.crate.name}: {len(self.edits)} edits: {kinds[REFUSED]} refused, {failed} failed; {self.kept} kept "
            f"from before, {self.checks} checks, {self.seconds:.0f} s"
        )
        return kinds[REFUSED], failed


def try_crate(tries: Tries, kept: edits_kept.Kept, sums: edits_kept.Sums, is_anew: bool) -> None:
    """Tries those of a crate's edits that weren't refused before."""
    names = {edit.name: sums.of_edit(tries.crate, edit, tries.control) for edit in tries.edits}
    for edit in tries.edits:
        if not is_anew and edit.name not in tries.verdicts and kept.has(names[edit.name]):
            tries.verdicts[edit.name] = Verdict(REFUSED, "before")
            tries.kept += 1
    before = set(tries.verdicts)
    tries.run()
    # Where the files changed meanwhile, nobody knows of which of them the verdicts are.
    is_same = edits_kept.sum_of_crate(tries.crate) == tries.files
    for name, verdict in tries.verdicts.items():
        if is_same and verdict.kind == REFUSED and name not in before:
            kept.keep(names[name], f"{tries.crate.name}/{name}: {verdict.text}")


def jobs_here() -> int:
    """As many checks at once as there are processors and memory for, and four at most."""
    with open("/proc/meminfo", encoding="utf-8") as source:
        free = int(re.findall("MemAvailable: *([0-9]+) kB", source.read())[0]) * 1024
    return max(1, min(4, len(os.sched_getaffinity(0)), free // MEMORY))


def options() -> argparse.Namespace:
    parser = argparse.ArgumentParser(description=__doc__, formatter_class=argparse.RawDescriptionHelpFormatter)
    parser.add_argument("--all", action="store_true")
    parser.add_argument("--after-ci", action="store_true")
    parser.add_argument("--jobs", type=int)
    parser.add_argument("--at-least", type=int, default=0)
    parser.add_argument("--said")
    parser.add_argument("names", nargs="*")
    return parser.parse_args()


def main() -> None:
    given = options()
    kit, rtlib = edits_kept.toolchain()
    os.chdir(TOP)
    crates = {crate.name: crate for crate in rtlib.crates_below(TOP)}
    lacking = [name for name in given.names if name not in crates]
    if lacking:
        sys.exit(f"try_edits: crates.txt has no crate {listed(lacking)}")
    said = given.said and os.path.abspath(given.said)
    if said:
        os.makedirs(said, exist_ok=True)
    # Nothing else builds or changes libraries meanwhile.
    held = rtlib.lock(crates.values())
    sums, prover = edits_kept.Sums(kit), [*rtlib.guarded(), f"{kit}/bin/rattle", "check"]
    tries = [
        Tries(crate, sums.of_crate(crate), prover, said)
        for crate in crates.values()
        if os.path.isdir(f"{crate.folder}/mutants") and (not given.names or crate.name in given.names)
    ]
    used = {below.name for it in tries for below in it.crate.below()}
    if not edits_kept.are_built([crate for crate in crates.values() if crate.name in used], sums, given.after_ci, say):
        print("0 passed, 1 failed")
        sys.exit(1)
    # Those with the most crates below take longest.
    tries.sort(key=lambda it: len(it.crate.below()), reverse=True)
    kept = edits_kept.Kept()
    with ThreadPoolExecutor(given.jobs or jobs_here()) as pool:
        list(pool.map(lambda it: try_crate(it, kept, sums, given.all), tries))
    del held
    sys.exit(tell(tries, given.at_least))


def tell(tries: list[Tries], at_least: int) -> int:
    """Prints how all came out, and returns the status."""
    counts = [it.tell() for it in tries]
    refused, failed = (sum(numbers) for numbers in zip(*counts)) if counts else (0, 0)
    strays = [stray for it in tries for stray in strays_of(it.crate.folder)]
    for stray in strays:
        say(f"{stray}: no edit: its name ends in .edit")
    every = refused + failed
    print(f"{every} edits: {refused} refused, {failed} failed")
    if every < at_least:
        print(f"try_edits: there are {every} edits, and at least {at_least} are wanted")
    wrong = failed + len(strays) + (every < at_least)
    print(f"{refused} passed, {wrong} failed")
    return int(wrong > 0)
