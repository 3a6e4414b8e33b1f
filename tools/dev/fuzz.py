"""Sends random calls to a built `rows`, and between them orders: sweeps, path marks, revocations, owners to forget,
and recalls to take. Replies, outcomes and the journal are compared with the model's, until N LOCKs and LOCKUs were
OK.

Each run is one server and one connection. There are three kinds of runs:

- most operations are LOCK, LOCKU and LOCKT, of a few lock owners of two clients, at the first and the last bytes
- most operations are OPEN, CLOSE and DELEGRETURN of three clients, whose delegations are granted and recalled
- most operations are READ and WRITE, with special stateids and with those of these clients

READ and WRITE work at the first bytes, near the size, at the borders of pages of 4,096 bytes, and at the largest
size. In half of the runs a CLOSE is refused while bytes are locked. Half of the runs have the profile "clients",
unless --profile says which profile all have. Then there are listings too, and sizes that are set. The other
operations with a rule also come.

Each operation is made when the model comes to it, so that most operations name what exists by then. Some are a little
off, and some repeat an earlier operation. At a difference the steps that lead to it are printed as a row, without
needless steps, and the status is 1. It is also 1 if many runs have no READ or WRITE of a case that pages have
(`pages.py`).

With --ids clients of N ids come, and many aren't confirmed. With 300 all slots of clients are taken, again and
again."""
import argparse
import multiprocessing
from collections import Counter
from collections.abc import Iterator
from dataclasses import replace
from typing import Any

from dev.fuzz_calls import Caller, IDS, part_of
from dev.fuzz_model import AGAIN, BACK, LENT, NONE_LEFT, WHAT, YIELDED
from nfs4tools.built import expect_program
from nfs4tools.journal.journal import Recorder, journal_bytes
from nfs4tools.model.pages import CASES, CUTS
from nfs4tools.model.tree import CLIENTS, DEFAULT, PROFILES, Tree
from nfs4tools.rows.by_model import outcome_of
from nfs4tools.rows.differences import words_beside
from nfs4tools.rows.driver import PROGRAM, SHARED
from nfs4tools.rows.orders import order_lines
from nfs4tools.rows.row import Part, Row, Step
from nfs4tools.rows.running import WHOLE, run as run_row
from nfs4tools.wire import Opnum, Status

# The most letters of what came at a difference.
LETTERS = 2000


# In so many operations of a few clients each case of pages comes, and in so many under either profile of sizes too.
ENOUGH, ENOUGH_OF_BOTH = 50_000, 100_000


def judged(row: Row) -> tuple[Row, bytes]:
    """The row with what the model says in the place of what is wanted; and the model's journal."""
    server = Recorder(Tree(DEFAULT if row.document is None else row.document), row.lease)
    steps: list[Step] = []
    for step in row.steps:
        if isinstance(step, Part):
            server.moment = step.moment
            steps.append(part_of(server, step.sent, server.reply(step.sent[4:]), steps))
        else:
            steps.append(outcome_of(server, step))
    return replace(row, steps=steps), journal_bytes(server.journal())


def first_difference(program: str, row: Row, way: int, journal: bytes) -> int | None:
    """The place of the first step of which something else comes, or behind the last one, where the journal is another
    one; or None."""
    outcome = run_row(row, way, WHOLE, path=program)
    if outcome.wrong is not None:
        return outcome.wrong.place
    return None if outcome.journal == journal else len(row.steps)


def run(words: tuple[str, int, int, int, str | None]) -> tuple[int, tuple[Row, int] | None, Counter[Any]]:
    """A run: the row up to the first difference, or None; and what the model answered how often."""
    program, seed, count, ids, profile = words
    caller = Caller(seed, ids, profile)
    for _ in range(count):
        caller.next_step()
    caller.server.counts.update(WHAT[type(entry)] for entry in caller.server.recorded if type(entry) in WHAT)
    row = Row("fuzz.py", 0, "", document=caller.document, lease=caller.lease, is_whole=True, steps=caller.steps)
    place = first_difference(program, row, caller.way, journal_bytes(caller.server.journal()))
    found = None if place is None else (replace(row, steps=row.steps[: place + 1]), caller.way)
    return seed, found, caller.server.counts


def needed(program: str, row: Row, way: int) -> Row:
    """The row without the steps that the difference doesn't need."""
    place = 0
    while place < len(row.steps):
        fewer, journal = judged(replace(row, steps=row.steps[:place] + row.steps[place + 1 :]))
        at = first_difference(program, fewer, way, journal)
        if at is None:
            place += 1
        else:
            row = replace(fewer, steps=fewer.steps[: at + 1])
    return row


def lines_of(row: Row) -> Iterator[str]:
    """The row as it stands in a file."""
    yield from (f"  tree {line}" for line in (row.document or "").splitlines())
    yield f"  lease {row.lease}"
    for step in row.steps:
        if isinstance(step, Part):
            yield from (
                f"  at {step.moment}",
                "  send bytes",
                f"    hex:{step.sent.hex()}",
                "  want bytes",
                f"    hex:{step.wanted.hex()}",
            )
        else:
            yield from (f"  {line}" for line in order_lines(step))


def report(program: str, seed: int, row: Row, way: int) -> None:
    count, (row, journal) = len(row.steps), judged(needed(program, row, way))
    print(f"row fuzz.py, seed {seed}, step {count}{' by threads' * (way == SHARED)}")
    for line in lines_of(row):
        print(line)
    outcome = run_row(row, way, WHOLE, path=program)
    if outcome.wrong is None:
        print("  # The journal of the model (wanted) and of the program, round the first difference")
        for line in words_beside(journal, outcome.journal or b"", "got"):
            print(f"  #{line}")
    else:
        got = str(outcome.wrong.got)
        print(f"  # The last step, of the program: {got[:LETTERS]}{' ..' * (len(got) > LETTERS)}")


def operations_in(counts: Counter[Any]) -> int:
    return sum(number for what, number in counts.items() if isinstance(what, tuple))


def missing_cases(counts: Counter[Any], ids: int, profile: str | None = None) -> list[str]:
    """The cases of pages that should have come, and those of sizes that are set."""
    wanted: list[str] = []
    count = operations_in(counts)
    if ids <= IDS and count >= ENOUGH:
        wanted += CASES
        is_for_clients = profile == CLIENTS or profile is None and count >= ENOUGH_OF_BOTH
        wanted += CUTS if is_for_clients else []
    return [case for case in wanted if not counts[case]]


def tell(counts: Counter[Any], runs: int, calls: int) -> None:
    total = operations_in(counts)
    changes = counts[Opnum.LOCK, Status.OK] + counts[Opnum.LOCKU, Status.OK]
    asked = counts[Opnum.LOCKT, Status.OK] + counts[Opnum.LOCKT, Status.DENIED] + counts[Opnum.LOCK, Status.DENIED]
    print(
        f"fuzz: {runs} runs of {calls} steps agree with the model: {total} operations on the state, of them "
        f"{changes} changes of ranges and {asked} questions or refusals of them"
    )
    for what in [*LENT.values(), *WHAT.values(), BACK, AGAIN, YIELDED, NONE_LEFT, *CASES, *CUTS]:
        print(f"    {what}: {counts.pop(what, 0)}")
    for (opnum, status), number in sorted(counts.items()):
        print(f"    {opnum.name} {status.name}: {number}")


def main() -> int:
    parser = argparse.ArgumentParser()
    parser.add_argument("program", nargs="?", default=PROGRAM, help="a built `rows`")
    parser.add_argument("--seed", type=int, default=0)
    parser.add_argument("--changes", type=int, default=10000)
    parser.add_argument("--calls", type=int, default=200)
    parser.add_argument("--jobs", type=int, default=1)
    parser.add_argument("--ids", type=int, default=IDS, help="ids of clients")
    parser.add_argument("--profile", choices=PROFILES, help="the one of all runs (either)")
    words = parser.parse_args()
    expect_program(words.program)
    counts: Counter[Any] = Counter()
    runs, seed = 0, words.seed
    with multiprocessing.Pool(words.jobs) as pool:
        while counts[Opnum.LOCK, Status.OK] + counts[Opnum.LOCKU, Status.OK] < words.changes:
            seeds = range(seed, seed + 4 * words.jobs)
            runs_of_seeds = [(words.program, it, words.calls, words.ids, words.profile) for it in seeds]
            for found, wrong, answered in pool.imap(run, runs_of_seeds):
                if wrong is not None:
                    report(words.program, found, *wrong)
                    return 1
                counts, runs = counts + answered, runs + 1
            seed = seeds.stop
    missing = missing_cases(counts, words.ids, words.profile)
    if missing:
        print(f"fuzz: no {', '.join(missing)}, so that the runs show too little")
    tell(counts, runs, words.calls)
    return 1 if missing else 0
