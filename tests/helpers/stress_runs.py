"""Runs of plans of `stress_plan.py`, and what they have to come to; `tools/dev/stress` and the gate make them.

The program `rows` of this repository serves what is sent, each connection in a thread of its own with a state that all
share, and gives back for each connection its replies and the numbers of its receipts, and at last the journal. The
journal has to be lawful, by `nfs4state audit` and by the model. Each connection's replies have to be just those that
the answers in its receipts' entries make, where these are asked the operations that it sent, in order: an operation on
the state has the entry of the next receipt, and no other. The numbers of a connection's receipts rise, none stands
twice, and together they are those of all calls in the journal. RENEW has no entry: it is answered as the client is
live, or isn't, in one of the states that the journal leads through between the connection's receipts before it and
after it. Where a lease ends, its client was heard of last at the moment that the journal says, by a call or by a RENEW;
and the ends of one sweep come by rising numbers of the clients, and then of the delegations that it takes; owners are
forgotten last. A client comes and ends and comes again, in the slots of others that have ended: no number is given
twice, and no two that are live have one slot.

Each plan is served twice: where a read brings a call in pieces, and where it brings many calls, which are answered in
batches, and where a CLOSE is refused beside locks. Then, too, other connections have to be answered between the calls
of one. And there are runs in which threads are refused: the connections without one end with `fault: no memory`, with
no reply and no receipt, and the others as ever.

Where something is wrong, a folder has the program's input and its output, as far as they came, and the journal, if
there is one."""
import argparse
import os
from collections import Counter
from tempfile import TemporaryDirectory, mkdtemp
from typing import Any, NamedTuple

from helpers.expecting_client import Wrong
from helpers.preload import preloading
from helpers.reply_oracle import Judge
from helpers.stress_calls import EPOCH, LARGE, LEASE, LINKS, PACE, PIECES, SMALL
from helpers.stress_plan import Plan
from nfs4tools.journal.entries import Call, Expire, Forget, NotJournal, Revoke
from nfs4tools.journal.journal import Journal, read_journal, verdict
from nfs4tools.model.state_parts import SLOTS
from nfs4tools.processes import TOP
from nfs4tools.program import Program
from nfs4tools.rows.driver import Driver, Ended, Failed, PROGRAM as ROWS, SHARED
from nfs4tools.wire import Opnum, Status, Unreadable

# How many of the connections have a thread, in the runs in which threads are refused.
REFUSED_RUNS = (0, 20)
# What has to be among the answers, or a run shows too little.
SUCCESSES = (
    Opnum.SETCLIENTID,
    Opnum.SETCLIENTID_CONFIRM,
    Opnum.OPEN,
    Opnum.OPEN_CONFIRM,
    Opnum.OPEN_DOWNGRADE,
    Opnum.CLOSE,
    Opnum.LOCK,
    Opnum.LOCKT,
    Opnum.LOCKU,
    Opnum.RELEASE_LOCKOWNER,
    Opnum.GETATTR,
    Opnum.DELEGRETURN,
    Opnum.READ,
    Opnum.WRITE,
    Opnum.SETATTR,
    Opnum.READDIR,
)


class Outcome(NamedTuple):
    """What the program gives back: what came of each connection, of which the one that comes alone is the first; how
    many sweeps there were, and how many clients they removed; and the file of the journal."""

    links: list[Ended]
    sweeps: int
    expired: int
    journal: bytes


# What comes of a connection for which no thread could be made.
NOT_BEGUN = Ended("no memory", b"", [])


def expect_journal(outcome: Outcome, program: Program) -> Journal:
    """The journal is lawful, and its calls have one receipt each."""
    is_lawful, line = verdict(outcome.journal)
    if not is_lawful:
        raise Wrong(f"the model says of the journal: {line}")
    if program.audit(outcome.journal) != (0, f"{line}\n".encode(), b""):
        raise Wrong(f"the program says of the journal: {program.audit(outcome.journal)}")
    journal = read_journal(outcome.journal)
    calls = [number for number, entry in enumerate(journal.entries) if isinstance(entry, Call)]
    if sorted(number for link in outcome.links for number in link.receipts) != calls:
        raise Wrong("the receipts aren't those of the journal's calls, each once")
    if sum(isinstance(entry, Expire) for entry in journal.entries) != outcome.expired:
        raise Wrong("the sweeps removed other clients than the journal's")
    return journal


def expect_all(plan: Plan, outcome: Outcome, program: Program, served: int = LINKS) -> Judge:
    """All that has to be, where so many of the connections at once have a thread; and who judged it."""
    sent = [plan.first, *plan.others]
    if len(outcome.links) != len(sent):
        raise Wrong(f"{len(outcome.links)} connections ended")
    if not outcome.sweeps:
        raise Wrong("nobody swept, not even at the end")
    if outcome.links.count(NOT_BEGUN) != LINKS - served:
        raise Wrong(f"{outcome.links.count(NOT_BEGUN)} connections had no thread")
    judge = Judge(expect_journal(outcome, program))
    for place, (data, link) in enumerate(zip(sent, outcome.links)):
        if link == NOT_BEGUN:
            continue
        try:
            if link.fault:
                raise Wrong(f"it ended with '{link.fault}'")
            judge.expect_link(data, link.replies, link.receipts)
        except (Wrong, Unreadable) as wrong:
            raise Wrong(f"connection {place}: {wrong}") from None
    judge.expect_ends()
    judge.expect_numbers()
    return judge


def came_again(entries: list[Any]) -> int:
    """How many owners that were forgotten began once more."""
    gone: set[Any] = set()
    count = 0
    for entry in entries:
        if isinstance(entry, Forget):
            gone.add(entry.owner)
        elif isinstance(entry, Call) and (entry.opnum, entry.answer.status) == (Opnum.OPEN, Status.OK):
            count += entry.arguments.owner in gone
            gone.discard(entry.arguments.owner)
    return count


def is_mixed(order: list[int], place: int) -> bool:
    """Whether another connection's call stands between the first and the last of this one."""
    first, last = order.index(place), len(order) - 1 - order[::-1].index(place)
    return order.count(place) <= last - first


class Tally:
    """What there was in all runs."""

    def __init__(self) -> None:
        self.answers: Counter[tuple[Opnum, Status]] = Counter()
        self.entries = self.sweeps = self.expired = self.revoked = self.forgotten = 0
        # How many clients had a slot that another one had before, and how many owners began that had been forgotten.
        self.again, self.back = 0, 0
        # By how many bytes a read brings: the turns from one connection to another, and the connections between whose
        # first call and whose last one another's came.
        self.turns: Counter[int] = Counter()
        self.mixed: Counter[int] = Counter()
        # Of each RENEW, whether it could be answered only as it was.
        self.renews: list[bool] = []

    def add(self, piece: int, judge: Judge, outcome: Outcome) -> None:
        entries = judge.journal.entries
        calls = [entry for entry in entries if isinstance(entry, Call)]
        self.answers.update((entry.opnum, Status(entry.answer.status)) for entry in calls)
        whose = {number: place for place, link in enumerate(outcome.links) for number in link.receipts}
        order = [whose[number] for number in sorted(whose)]
        self.turns[piece] += sum(a != b for a, b in zip(order, order[1:]))
        self.mixed[piece] += sum(is_mixed(order, place) for place in set(order))
        self.entries, self.renews = self.entries + len(entries), self.renews + judge.renews
        self.sweeps, self.expired = self.sweeps + outcome.sweeps, self.expired + outcome.expired
        self.revoked += sum(isinstance(entry, Revoke) for entry in entries)
        self.forgotten += sum(isinstance(entry, Forget) for entry in entries)
        self.back += came_again(entries)
        self.again += sum(number >= SLOTS for number in frozenset().union(*judge.lives))

    def missing(self) -> list[str]:
        found = [opnum.name for opnum in SUCCESSES if not self.answers[opnum, Status.OK]]
        found += ["DENIED"] * (not self.answers[Opnum.LOCK, Status.DENIED]) + ["Expire"] * (not self.expired)
        found += ["slots given again"] * (not self.again)
        found += ["DELAY"] * (not self.answers[Opnum.OPEN, Status.DELAY]) + ["Revoke"] * (not self.revoked)
        found += ["Forget"] * (not self.forgotten) + ["owners that came again"] * (not self.back)
        found += ["CLOSE beside locks"] * (not self.answers[Opnum.CLOSE, Status.LOCKS_HELD])
        found += [f"calls between others' with reads of {piece}" for piece in PIECES if not self.mixed[piece]]
        # Where reads bring less, the connections take turns far more often.
        found += [f"turns with reads of {SMALL} beside those of {LARGE}"] * (self.turns[SMALL] <= 2 * self.turns[LARGE])
        return found + ["RENEW"] * (True not in self.renews)

    def words(self) -> str:
        good = sum(count for (_, status), count in self.answers.items() if status == Status.OK)
        return (
            f"{self.entries} entries; {self.answers.total()} calls, {good} of them OK, with {self.turns[SMALL]} "
            f"turns from one connection to another, {self.turns[LARGE]} where reads bring many calls; {self.sweeps} "
            f"sweeps removed {self.expired} clients, took {self.revoked} delegations and forgot {self.forgotten} "
            f"owners, of which {self.back} came again; {self.again} clients had a slot that was given before; "
            f"{len(self.renews)} RENEWs are answered as their clients were live, of which {sum(self.renews)} could "
            "be answered only so"
        )


def serve(driver: Driver, plan: Plan) -> Outcome:
    """The connection that comes alone, and then the others, at the moments that follow on those of its calls."""
    driver.begin(SHARED, lease=LEASE, epoch=EPOCH, seats=1 + LINKS, document=plan.document)
    alone = driver.serve([plan.first], 0, plan.piece, PACE)
    at_once = driver.serve(plan.others, plan.moment, plan.piece, PACE, is_swept=True)
    return Outcome(alone.ended + at_once.ended, at_once.sweeps, at_once.expired, driver.end())


def keep(seed: int, driver: Driver, outcome: Outcome | None) -> str:
    """The folder with what there is of a run."""
    folder = mkdtemp(prefix=f"stress{seed}.")
    kept: dict[str, bytes | bytearray] = {"input": driver.orders, "output": driver.answers}
    if outcome:
        kept["journal"] = outcome.journal
    for name, content in kept.items():
        with open(os.path.join(folder, name), "wb") as file:
            file.write(content)
    return folder


def run(
    plan: Plan, program: Program, path: str = ROWS, served: int = LINKS, environment: dict[str, str] | None = None
) -> tuple[Judge, Outcome]:
    """Who judged what comes of a plan, and that, where so many of the connections at once have a thread."""
    outcome = None
    with Driver(path, environment) as driver:
        try:
            outcome = serve(driver, plan)
            return expect_all(plan, outcome, program, served), outcome
        except (Wrong, NotJournal, Failed) as wrong:
            kept = keep(plan.seed, driver, outcome)
            raise Wrong(f"seed {plan.seed}, pieces of {plan.piece}, {served} threads: {wrong}; see {kept}") from wrong


def run_both(seed: int, program: Program, tally: Tally, path: str = ROWS) -> None:
    """A plan is served twice."""
    for piece in PIECES:
        tally.add(piece, *run(Plan(seed, piece), program, path))


def run_refused(seed: int, program: Program, served: int, path: str = ROWS) -> None:
    """A run with threads for the connection that comes alone, for the sweeps, and for so many of those at once."""
    with TemporaryDirectory() as folder:
        source = os.path.join(TOP, "tests/helpers/preloaded/refuse_threads.c")
        run(Plan(seed), program, path, served, preloading(source, folder, MOST_THREADS=str(served + 2)))


def run_all(given: argparse.Namespace, program: Program) -> Tally:
    """All runs of tools/dev/stress by its options, and what it prints of them."""
    tally = Tally()
    for seed in range(given.seed, given.seed + given.runs):
        run_both(seed, program, tally, given.program)
    for served in REFUSED_RUNS:
        run_refused(given.seed, program, served, given.program)
    print(
        f"stress: {2 * given.runs} runs of {LINKS} connections at once (and {len(REFUSED_RUNS)} without most "
        f"threads): {tally.words()}"
    )
    for (opnum, status), count in sorted(tally.answers.items()) if given.counts else ():
        print(f"    {count:7} {opnum.name} {status.name}")
    return tally
