"""Runs the tests that need only Python, against the server that a command starts, in less than a minute.

- rows by the model: all rows of this repository, by the independent model
- rows over TCP: each row to a server of its own; or, if the server is the model, by names to one server
- samples: each sample with the files that it is for, as docs/CLIENTS.md runs it
- journals: the journals of these runs are lawful, by the model and by the program's own audit
- changed journals: both refuse the samples' journals with a change, with the same line

Each part has a line with counts and seconds, below what failed. The last line has all counts, and says which server
was judged. The status is 0 if all passed, 1 if anything failed or the time was over, and 2 if the words aren't
right."""
import argparse
import os
import shlex
import shutil
import signal
import sys
import tempfile
import time
from collections.abc import Callable, Iterator
from dataclasses import dataclass

from nfs4tools.built import TOP
from nfs4tools.quick import journals, rows, samples
from nfs4tools.quick.workers import Workers, Late
from nfs4tools.quick.judged_server import SERVE, WORDS, JudgedServer, Kind, Outcome, server_of
from nfs4tools.rows.reading import files_of

DATA, SAMPLES = os.path.join(TOP, "crates/rows/data"), os.path.join(TOP, "samples")
# How many checks that fail are shown of a part, and how many lines of each.
SHOWN, LINES = 10, 30


@dataclass(frozen=True)
class Plan:
    """What is tested: the server that is judged, with the rows and the samples that it gets; and, if there is one, a
    program that gets the rows of this tree besides."""

    judged: JudgedServer
    rows: str
    samples: str
    also: JudgedServer | None = None


class Parts:
    """The parts, one after the other. The last ones look at the journals that the others left in a folder, the room."""

    def __init__(self, plan: Plan, workers: Workers, room: str) -> None:
        self.plan, self.workers, self.room = plan, workers, room
        self.left: list[tuple[str, str]] = []

    def each(self) -> Iterator[tuple[str, Callable[[], Outcome]]]:
        """What each part is called, and what does it."""
        yield "rows by the model", self.by_model
        yield "rows over TCP", self.over_tcp
        if self.plan.also is not None:
            yield "rows of this tree over TCP", self.over_tcp_here
        yield "samples", self.of_samples
        yield "journals", lambda: self.audited(journals.lawful, self.left)
        # The other journals are those of rows.
        sampled = [it for it in self.left if samples.is_left_by_sample(it[1])]
        yield "changed journals", lambda: self.audited(journals.refused, sampled)

    def by_model(self) -> Outcome:
        return self.workers.each(rows.by_model, files_of(DATA))

    def over_tcp(self) -> Outcome:
        return self.sent(self.plan.judged, self.plan.rows)

    def over_tcp_here(self) -> Outcome:
        assert self.plan.also is not None
        return self.sent(self.plan.also, DATA)

    def sent(self, judged: JudgedServer, folder: str) -> Outcome:
        read, outcome = rows.read_all(folder)
        found, note = rows.sendable(judged, read)
        room = tempfile.mkdtemp(dir=self.room)
        outcome.add(self.workers.each(rows.send, rows.batches(judged, found, room)))
        outcome.notes.append(note)
        return self.kept(outcome)

    def of_samples(self) -> Outcome:
        tasks, outcome = samples.runs(self.plan.judged, self.plan.samples, self.room)
        outcome.add(self.workers.each(samples.run_sample, tasks))
        return self.kept(outcome)

    def kept(self, outcome: Outcome) -> Outcome:
        self.left += outcome.journals
        return outcome

    def audited(self, work: Callable[[journals.Audit], Outcome], found: list[tuple[str, str]]) -> Outcome:
        starts = range(0, len(found), rows.TOGETHER)
        tasks = [journals.Audit(self.plan.judged, found[at : at + rows.TOGETHER]) for at in starts]
        return self.workers.each(work, tasks)


def run_parts(plan: Plan, seconds: float) -> Outcome:
    """Runs the parts, and says of each what came of it: all together."""
    total, part = Outcome(), ""
    with tempfile.TemporaryDirectory(prefix="quick_tests-") as room:
        # If processes are ended, what they leave goes with the room.
        tempfile.tempdir = room
        try:
            for part, work in Parts(plan, Workers(seconds), room).each():
                begun = time.monotonic()
                outcome = work()
                tell(part, outcome, time.monotonic() - begun)
                total.add(outcome)
        except Late:
            late = f"{part}: not done in time: all parts together have {seconds:g} s (--seconds)"
            print(late, flush=True)
            total.check(late)
    return total


def tell(part: str, outcome: Outcome, seconds: float) -> None:
    """Prints what failed, as far as that is short, and the line of the part."""
    for lines in outcome.faults[:SHOWN]:
        print("\n".join(lines[:LINES]))
    if len(outcome.faults) > SHOWN:
        print(f".. and {len(outcome.faults) - SHOWN} more")
    counts = ", ".join([f"{outcome.passed} passed", f"{len(outcome.faults)} failed", *outcome.notes])
    print(f"{part}: {counts} ({seconds:.1f} s)", flush=True)


def read_options() -> tuple[argparse.Namespace, Plan]:
    parser = argparse.ArgumentParser(description=__doc__, formatter_class=argparse.RawDescriptionHelpFormatter)
    parser.add_argument(
        "--server",
        metavar='"COMMAND WORDS"',
        help="what starts the server, with `serve` as its last "
        "word if it is the program (the program, if one is built here; else the model)",
    )
    parser.add_argument(
        "--kind",
        choices=[kind.value for kind in Kind],
        help="what is known of the server (unknown; model, if it is the model)",
    )
    parser.add_argument("--named", metavar="WORDS", help="what the last line calls the server")
    parser.add_argument("--rows", metavar="FOLDER", default=DATA, help="the rows that are sent (those of this tree)")
    parser.add_argument("--samples", metavar="FOLDER", default=SAMPLES, help="its samples (those of this tree)")
    parser.add_argument("--also", metavar='"COMMAND WORDS"', help="a program that gets the rows of this tree besides")
    parser.add_argument("--seconds", metavar="N", type=float, default=300, help="for all together (%(default)s)")
    given = parser.parse_args()
    judged = server_of(given.server, given.kind)
    also = None if given.also is None else server_of(given.also, None)
    for folder in given.rows, given.samples:
        if not os.path.isdir(folder):
            parser.error(f"there is no folder {folder}")
    for fault in filter(None, map(fault_of, filter(None, (judged, also)))):
        parser.error(fault)
    return given, Plan(judged, given.rows, given.samples, also)


def fault_of(judged: JudgedServer) -> str | None:
    """Why this can't be started as a server, if it can't."""
    if not judged.command or shutil.which(judged.command[0]) is None:
        return f"there is no program {' '.join(judged.command[:1])}"
    if not judged.is_model and judged.command[-1] != SERVE:
        return f"the server is `{shlex.join(judged.command)}`, whose last word isn't `serve`: --kind model?"
    return None


def run() -> int:
    """The status of the tests."""
    given, plan = read_options()
    signal.signal(signal.SIGTERM, lambda *_: sys.exit(1))
    begun = time.monotonic()
    total = run_parts(plan, given.seconds)
    named = given.named or f"{shlex.join(plan.judged.command)}, {WORDS[plan.judged.kind]}"
    seconds = time.monotonic() - begun
    print(f"{total.passed} passed, {len(total.faults)} failed in {seconds:.0f} s: {named}")
    return 1 if total.faults or not total.passed else 0


def main() -> int:
    try:
        return run()
    except KeyboardInterrupt:
        return 130
