"""Rows by the program `rows`: each on a server of its own, in one of several ways, and what is reported where it goes
wrong."""
from collections.abc import Callable, Iterator
from functools import partial
from typing import Any, NamedTuple

from nfs4tools.journal.entries import Call, Entry, Forget as OwnerForgotten, NotJournal, Revoke as DelegationRevoked
from nfs4tools.journal.journal import read_journal
from nfs4tools.model.tree import DEFAULT
from nfs4tools.rows.driver import (
    ALONE,
    Came,
    Driver,
    Ended,
    Failed,
    Forgotten,
    MEMORY,
    Marked,
    NOT_LIVE,
    Revoked,
    SHARED,
    Swept,
)
from nfs4tools.rows.differences import words_beside
from nfs4tools.rows.orders import Forget, Mark, Order, Pending, Probe, Revoke, Sweep, TakeRecall, order_line
from nfs4tools.rows.row import Part, Row, Step
from nfs4tools.wire import OpenOwner


# A read of the server asks for less than this, so that such pieces don't cut an input.
WHOLE = 1 << 20
PIECE = 1000
# The pieces that an input comes in; one of more bytes than SHORT comes in none of a few bytes.
PIECES, SHORT = (WHOLE, PIECE, 3, 1), 10_000


class Wrong(NamedTuple):
    """What comes instead of what is wanted: by the place of a part or an order among the row's."""

    place: int
    got: Came


class Outcome(NamedTuple):
    """How a run of a row goes: what is wrong, or None; and the file of the journal, which a refused tree leaves
    none of."""

    wrong: Wrong | None
    journal: bytes | None


def run(row: Row, way: int, piece: int, is_again: bool = False, **program: Any) -> Outcome:
    """Runs a row on a server of its own. Its parts are served one after another; with `is_again`, one that goes wrong
    is sent once more to the same server, as by a client that asks again where it was refused memory; a sweep is made
    once more, which removes the clients, takes the delegations and forgets the owners for whose ends there was none;
    and so is a mark, a revocation or a forgetting for which there was none."""
    # In the first way nobody looks at them.
    seats = 0 if way == ALONE else sum(isinstance(step, Part) for step in row.steps) * (2 if is_again else 1)
    document = DEFAULT if row.document is None else row.document
    with Driver(**program) as driver:
        refused = driver.begin(way, lease=row.lease, epoch=row.epoch, seats=seats, document=document)
        if refused:
            got = Ended(f"tree refused ({refused})", b"", [])
            return Outcome(None if is_right(row.steps[0], got) else Wrong(0, got), None)
        came: list[Came] = []
        wrong = first_wrong(driver, row.steps, piece, is_again, came)
        journal = driver.end()
        entries = entries_of(journal)
        if entries is not None:
            expect_receipts(driver.receipts, entries, way)
        return Outcome(wrong or wrongly_ended(row, came, entries), journal)


def entries_of(journal: bytes) -> list[Entry] | None:
    """The entries of a journal; or None, as one that can't be read is told where it is compared."""
    try:
        return read_journal(journal).entries
    except NotJournal:
        return None


def expect_receipts(receipts: list[int], entries: list[Entry], way: int) -> None:
    """The receipts are those of the entries that are calls."""
    calls = [number for number, entry in enumerate(entries) if isinstance(entry, Call)]
    if receipts != (calls if way == SHARED else []):
        raise Failed(f"the receipts {receipts} aren't those of the journal's calls")


def wrongly_ended(row: Row, came: list[Came], entries: list[Entry] | None) -> Wrong | None:
    """The first revocation or forgetting whose entry is another one than the row wants, if one is."""
    for place, (step, got) in enumerate(zip(row.steps, came)):
        if isinstance(got, (Revoked, Forgotten)) and got[1] and entries is not None:
            if entries[got.entry : got.entry + 1] != [entry_wanted(step, row.epoch)]:
                return Wrong(place, got)
    return None


def entry_wanted(step: Any, epoch: int) -> Entry:
    if isinstance(step, Forget):
        assert step.owner is not None
        return OwnerForgotten(OpenOwner(epoch, *step.owner), step.moment)
    return DelegationRevoked(step.state, step.moment)


def first_wrong(driver: Driver, steps: list[Step], piece: int, is_again: bool, came: list[Came]) -> Wrong | None:
    """The first step of which something else comes than is wanted, if there is one; and adds what came of each."""
    for place, step in enumerate(steps):
        got = take(driver, step, piece, is_again)
        if is_again and not is_right(step, got):
            if not may_come_first(step, got):
                return Wrong(place, got)
            got = after(step, got, take(driver, step, piece, is_again))
        if not is_right(step, got):
            return Wrong(place, got)
        came.append(got)
    return None


def take(driver: Driver, step: Step, piece: int, has_room: bool) -> Came:
    """What comes of a part or an order. Where there is room for the replies, none is lost that isn't refused."""
    match step:
        case Sweep(moment):
            return driver.sweep(moment)
        case Mark(client, is_up):
            return driver.mark(client, is_up)
        case Revoke(moment):
            return driver.revoke(moment)
        case Forget(moment):
            return driver.forget(moment)
        case TakeRecall():
            return driver.take_recall(step.xid)
        case Pending():
            return driver.pending()
        case Probe(after):
            return driver.probe(after)
    return driver.serve([step.sent], step.moment, piece, rooms=[len(step.wanted) if has_room else 0]).ended[0]


def may_come_first(step: Any, got: Came) -> bool:
    """Whether this may come of a step, instead of what is wanted, where memory was refused to it. Of a sweep each
    client that is live was removed, kept, or refused. Where delegations are left that are due, it has stopped, and has
    forgotten nobody; and also where owners are left that are. Those of a client that was refused may be among these."""
    match got:
        case Swept(expired, kept, 0, refused, revoked, forgotten, stopped):
            wanted, came = (step.revoked, step.forgotten), (revoked, forgotten)
            is_stopped = stopped == 1 and came < wanted and (revoked == step.revoked or forgotten == 0)
            is_more = refused > 0 and revoked == step.revoked and forgotten > step.forgotten
            is_ended = stopped == 0 and (came == wanted or is_more)
            return bool(expired + kept + refused == step.expired + step.kept) and (is_stopped or is_ended)
        case Marked(error) | Revoked(error, 0, 0) | Forgotten(error, 0, 0):
            return error == MEMORY
    return isinstance(step, Part)


def after(step: Any, first: Came, second: Came) -> Came:
    """What came of a step that was taken twice: what a sweep removed, took and forgot is that of both times. The owners
    of a client that was refused at first don't count, as they go with it where nothing is."""
    if not isinstance(first, Swept) or not isinstance(second, Swept):
        return second
    forgotten = min(first.forgotten + second.forgotten, step.forgotten if first.refused else 2**32)
    return second._replace(
        expired=first.expired + second.expired, revoked=first.revoked + second.revoked, forgotten=forgotten
    )


def wanted_of(step: Order) -> Came:
    """What is to come of an order."""
    match step:
        case Sweep(_, expired, kept, revoked, forgotten):
            # Nobody else renews in between, and there is memory and room in the journal.
            return Swept(expired, kept, changed=0, refused=0, revoked=revoked, forgotten=forgotten, stopped=0)
        case Mark(_, _, is_live):
            return Marked(0 if is_live else NOT_LIVE)
        case TakeRecall(record):
            return record
        case Pending(count):
            return count
        case Probe(_, client):
            return client or 0
    raise TypeError(step)


def is_right(step: Step, got: Any) -> bool:
    if isinstance(step, (Revoke, Forget)):
        # Which delegation or owner it is, the entry says.
        return bool(got[:2] == (0, (step.state if isinstance(step, Revoke) else step.owner) is not None))
    if isinstance(step, Part):
        return bool((got.replies, got.fault) == (step.wanted, step.fault))
    return bool(got == wanted_of(step))


# The ways to run a row: each gives the lines that say what is wrong, of which there are none where it passes.


def run_once(row: Row, **program: Any) -> list[str]:
    """With its input whole, and then in pieces of several lengths, each time on another server."""
    is_short = all(len(step.sent) <= SHORT for step in row.steps if isinstance(step, Part))
    for piece in PIECES:
        if piece >= PIECE or is_short:
            wrong = run(row, ALONE, piece, **program).wrong
            if wrong is not None:
                return lines_of(row, wrong, piece)
    return []


def run_again(row: Row, **program: Any) -> list[str]:
    """Whole, and once more where it goes wrong."""
    return lines_of(row, run(row, ALONE, WHOLE, is_again=True, **program).wrong)


def run_shared(row: Row, **program: Any) -> list[str]:
    """Each part by a thread, with a state that threads share; and then without, which has to leave the same journal.
    Only without, if the row orders what a state that threads share isn't told, or answers otherwise."""
    if row.is_unshared:
        return run_once(row, **program)
    shared = run(row, SHARED, PIECE, **program)
    if shared.wrong is not None:
        return lines_of(row, shared.wrong)
    alone = run(row, ALONE, PIECE, **program)
    if alone.wrong is None and alone.journal != shared.journal:
        return ["    the journal differs from that of a run without shared state"]
    return lines_of(row, alone.wrong)


def run_shared_again(row: Row, **program: Any) -> list[str]:
    """By threads, and once more where it goes wrong."""
    if row.is_unshared:
        return run_again(row, **program)
    return lines_of(row, run(row, SHARED, PIECE, is_again=True, **program).wrong)


def way_of(is_shared: bool, is_again: bool, **program: Any) -> Callable[[Row], list[str]]:
    """How to run a row."""
    once, again = (run_shared, run_shared_again) if is_shared else (run_once, run_again)
    return partial(again if is_again else once, **program)


# Reports.


def lines_of(row: Row, wrong: Wrong | None, piece: int = WHOLE) -> list[str]:
    if wrong is None:
        return []
    step = row.steps[wrong.place]
    return list(lines_of_part(step, wrong.got, piece) if isinstance(step, Part) else lines_of_order(step, wrong.got))


def lines_of_order(order: Order, got: Any) -> Iterator[str]:
    yield f"    wanted {order_line(order)}"
    if isinstance(order, TakeRecall):
        yield from words_beside(order.record, got, "got")
    else:
        names = got._asdict() if hasattr(got, "_asdict") else {"client" if isinstance(order, Probe) else "pending": got}
        yield "    got " + " ".join(f"{name} {number}" for name, number in names.items())


def lines_of_part(part: Part, got: Any, piece: int) -> Iterator[str]:
    if piece < len(part.sent):
        yield f"    with the input in pieces of {piece} bytes:"
    for whose, fault in (("wanted", part.fault), ("got", got.fault)):
        if fault is not None:
            yield f"    {whose} at the end: fault: {fault}"
    yield from words_beside(part.wanted, got.replies, "got")
