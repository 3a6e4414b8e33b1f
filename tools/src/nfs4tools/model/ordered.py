"""Takes the place of the program `rows`: it reads orders on standard input, and writes what came of each to standard
output, in the layouts of driver.py. So rows, and the tools that give orders, can be tried without a built program:

    tools/rows --program tools/model/ordered.py FILE.rows

It differs from the program in four ways:

- it takes the orders of connections one after the other, even if they are to share a state
- it sweeps at each new moment, if it is to sweep meanwhile
- it is never out of memory
- it doesn't look at pieces and reserved memory

If the input isn't as it should be, it ends with status 2 and `rows: invalid input`."""
import os
import sys
from collections.abc import Callable
from typing import Any

from nfs4tools import wire
from nfs4tools.callbacks.messages import recall_call
from nfs4tools.journal.entries import MOMENT_LIMIT
from nfs4tools.journal.journal import LEASE_LIMIT, Recorder, journal_bytes
from nfs4tools.model.recall_queue import Queuing
from nfs4tools.model.state_parts import Unchanged
from nfs4tools.model.tree import Refused, Tree
from nfs4tools.wire import u32

ALONE, SHARED = 0, 1
# The errors of a connection, by the faults that end it.
ERRORS = {"record too long": 3}


class Invalid(Exception):
    """What was read is no order, or ends within one."""


class Input(wire.Reader):
    """Standard input, of which no more is read than is taken."""

    def __init__(self) -> None:
        super().__init__(b"")

    def fixed(self, count: int) -> bytes:
        found = b""
        while len(found) < count:
            more = os.read(0, count - len(found))
            if not more:
                raise Invalid
            found += more
        return found

    def part(self) -> bytes:
        return self.fixed(self.u32())

    def moment(self) -> int:
        return limited(self.u64(), MOMENT_LIMIT)

    def next_order(self) -> int | None:
        """The number of the next order, or None at the end of the input."""
        first = os.read(0, 1)
        return int.from_bytes(first + self.fixed(3), "big") if first else None


def limited(number: int, limit: int) -> int:
    """The number, which has to be from 0 on and below the limit."""
    if not 0 <= number < limit:
        raise Invalid
    return number


def answer(*numbers: int) -> None:
    send(u32(*numbers))


def send(data: bytes) -> None:
    while data:
        data = data[os.write(1, data) :]


class Clock:
    """That of an order's connections, which goes on with their calls."""

    def __init__(self, start: int, pace: int) -> None:
        self.start, self.pace, self.calls, self.last = start, pace, 0, -1

    def moment(self) -> int:
        return self.start + (self.calls // self.pace if self.pace else 0)

    def is_new(self) -> bool:
        """Whether the moment is another one than when this was asked last."""
        last, self.last = self.last, self.moment()
        return last != self.last


class Session:
    """A server, and what it is told."""

    def __init__(self, given: Input) -> None:
        self.input, self.way = given, limited(given.u32(), 2)
        lease, epoch, self.seats = limited(given.u32() - 1, LEASE_LIMIT) + 1, given.u32(), given.u32()
        document = given.part()
        kind = Queuing if self.way == SHARED else Recorder
        try:
            self.server = kind(Tree(document.decode()), lease, epoch)
        except UnicodeDecodeError:
            raise Invalid from None

    def run(self) -> None:
        orders = [self.serve, self.sweep, self.mark, self.revoke, self.take, self.pending, self.probe, self.forget]
        number = self.input.next_order()
        while number is not None:
            orders[limited(number - 1, len(orders))]()
            number = self.input.next_order()
        data = journal_bytes(self.server.journal())
        send(u32(len(data)) + data)

    def serve(self) -> None:
        moment, given = self.input.moment(), self.input
        pace, _, is_swept, count = given.u32(), given.u32(), limited(given.u32(), 2), given.u32()
        sent = [(given.u32(), given.part()) for _ in range(count)]
        if is_swept and self.way == ALONE or self.way == SHARED and count > self.seats:
            raise Invalid
        self.seats -= count * self.way
        clock = Clock(moment, pace)
        swept: list[Any] = []
        for _, data in sent:
            self.serve_one(data, clock, swept if is_swept else None)
        if is_swept:
            swept.append(self.server.sweep(clock.moment()))
        answer(len(swept), sum(it.expired for it in swept))

    def serve_one(self, data: bytes, clock: Clock, swept: Any) -> None:
        """Serves a connection, with sweeps, whose outcomes are added to these, if there are any."""
        receipts: list[int] = []
        replies = b""
        records, fault = wire.split_records(data)
        for record in records:
            if swept is not None and clock.is_new():
                swept.append(self.server.sweep(clock.moment()))
            self.server.moment, before = clock.moment(), len(self.server.recorded)
            reply = self.server.reply(record)
            replies += b"" if reply is None else wire.record(reply)
            receipts += range(before, len(self.server.recorded)) if self.way == SHARED else ()
            clock.calls += isinstance(wire.read_call(record), wire.CompoundCall)
        answer(ERRORS.get(fault or "", 0), rest_of(data, fault))
        send(u32(len(replies)) + replies + u32(len(receipts), *receipts))

    def sweep(self) -> None:
        swept = self.server.sweep(self.input.moment())
        answer(swept.expired, swept.kept, 0, swept.refused, swept.revoked, swept.forgotten, swept.is_stopped)

    def mark(self) -> None:
        client, is_up = self.input.u32(), limited(self.input.u32(), 2)
        answer(error_of(lambda: self.server.mark_path(client, is_up))[0])

    def revoke(self) -> None:
        self.change_alone(self.server.revoke)

    def forget(self) -> None:
        self.change_alone(self.server.forget)

    def change_alone(self, change: Callable[..., Any]) -> None:
        """Makes what is due at the moment that is read; only where no state is shared."""
        moment = self.input.moment()
        if self.way != ALONE:
            raise Invalid
        error, entry = error_of(lambda: change(moment))
        answer(error, entry is not None, entry or 0)

    def take(self) -> None:
        xid, recall = self.input.u32(), self.server.take_recall()
        record = b"" if recall is None else recall_call(xid, recall)
        send(u32(len(record)) + record)

    def pending(self) -> None:
        answer(self.server.waiting() if self.way == SHARED else len(self.server.pending()))

    def probe(self) -> None:
        answer(self.server.probe(self.input.u32()) or 0)


def error_of(change: Callable[..., Any]) -> tuple[int, int | None]:
    """The number of an error, or 0, and then what came of the change."""
    try:
        return 0, change()
    except Unchanged as why:
        return why.args[0], None


def rest_of(data: bytes, fault: Any) -> int:
    """How many bytes are left behind the last whole record."""
    if fault != "input ends inside a record":
        return 0
    return next(count for count in range(1, len(data) + 1) if wire.split_records(data[: len(data) - count])[1] is None)


def run() -> Any:
    try:
        session = Session(Input())
    except Refused as refused:
        return answer(refused.args[0])
    answer(0)
    session.run()


def main() -> int:
    try:
        run()
    except Invalid:
        print("rows: invalid input", file=sys.stderr)
        return 2
    return 0
