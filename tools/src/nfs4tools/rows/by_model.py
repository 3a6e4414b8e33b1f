"""Rows through the model, whose replies are compared with those that the rows want: the work of check_rows.py, and what
tells others what comes of an order."""
import itertools
import sys
from collections.abc import Iterator, Set
from dataclasses import dataclass
from typing import Any

from nfs4tools import wire
from nfs4tools.callbacks.messages import recall_call
from nfs4tools.model.server import Server
from nfs4tools.model.state_parts import DOWN, NOT_LIVE, UNKNOWN, Unchanged
from nfs4tools.model.tree import DEFAULT, Refused, Tree
from nfs4tools.rows.differences import words_beside
from nfs4tools.rows.errors import UNREAD, refusal
from nfs4tools.rows.orders import Forget, Mark, ORDERS, Pending, Probe, Revoke, Sweep, TakeRecall, order_line
from nfs4tools.rows.reading import File, files_of
from nfs4tools.rows.row import Connection, Row


class Unreached(Server):
    """A server whose clients can't be called back, which it finds out at once."""

    def reply(self, record: bytes, refused: Set[int] = frozenset()) -> bytes | None:
        found = super().reply(record, refused)
        called = {recall.stateid.client for recall in self.recalls}
        for it in self.records:
            if it.is_confirmed and (it.path == UNKNOWN or it.number in called):
                it.path = DOWN
        return found


def run(row: Row, kind: type[Any] = Server) -> list[tuple[bytes, str | None, list[Any]]]:
    """For each connection what it gets: bytes, the fault that ends it, and what came of the orders meanwhile."""
    try:
        tree = Tree(DEFAULT if row.document is None else row.document)
    except Refused as refused:
        return [(b"", f"tree refused ({refused.args[0]})", [])]
    server = kind(tree, row.lease, row.epoch)
    return [converse(server, connection) for connection in row.connections]


def converse(server: Server, connection: Connection) -> tuple[bytes, str | None, list[Any]]:
    """Sends a connection's bytes to the server, and does in between what the row says."""
    records, fault = wire.split_records(connection.sent)
    replies, done, ordered = [], 0, []
    server.moment = connection.moment
    for place, stop in [*connection.stops, (len(connection.sent), server.moment)]:
        count = len(wire.split_records(connection.sent[:place])[0])
        replies += [server.reply(record) for record in records[done:count]]
        done = count
        if isinstance(stop, ORDERS):
            ordered.append(outcome_of(server, stop))
        else:
            server.moment = stop
    return b"".join(wire.record(reply) for reply in replies if reply is not None), fault, ordered


def outcome_of(server: Server, order: Any) -> Any:
    """The order, with what came of it in the place of what is wanted."""
    match order:
        case Sweep(moment):
            swept = server.sweep(moment)
            return Sweep(moment, swept.expired, swept.kept, swept.revoked, swept.forgotten)
        case Mark(client, is_up):
            return Mark(client, is_up, is_marked(server, client, is_up))
        case Revoke(moment):
            found: Any = server.due(moment)
            return Revoke(moment, None if server.revoke(moment) is None else found.number)
        case Forget(moment):
            found = [(owner.name.client, owner.name.name) for owner in server.idle(moment)[:1]]
            return Forget(moment, None if server.forget(moment) is None else found[0])
        case TakeRecall():
            recall = server.take_recall()
            return TakeRecall() if recall is None else TakeRecall(recall_call(order.xid, recall))
        case Pending():
            return Pending(len(server.pending()))
        case Probe(after):
            return Probe(after, server.probe(after))


def is_marked(server: Server, client: int, is_up: bool) -> bool:
    """Whether the client is live; then its path is marked."""
    try:
        server.mark_path(client, is_up)
    except Unchanged as why:
        if why.args != (NOT_LIVE,):
            raise
        return False
    return True


def wanted_of(connection: Connection) -> tuple[bytes, str | None, list[Any]]:
    ordered = [stop for _, stop in connection.stops if isinstance(stop, ORDERS)]
    return connection.wanted, connection.fault, ordered


def differences(connection: Connection, got: Any) -> Iterator[str]:
    """Lines that say how what a connection gets differs from what the row wants."""
    replies, fault, ordered = got
    if fault != connection.fault:
        yield f"    ends: wanted {connection.fault}, the model {fault}"
    for wanted, came in zip(wanted_of(connection)[2], ordered):
        if came != wanted:
            yield f"    wanted {order_line(wanted)}, the model {order_line(came)}"
    if connection.wanted != replies:
        yield from words_beside(connection.wanted, replies, "model")


def faults_of(row: Row) -> list[str]:
    """Lines that say what is wrong with the row by the model; none if the model agrees."""
    got, place = run(row), f"{row.file}:{row.line}"
    for number, connection in enumerate(row.connections):
        if got[number : number + 1] != [wanted_of(connection)]:
            return [f"{place}: {row.name}", *differences(connection, got[number])]
    if not row.is_ordering and run(row, Unreached) != got:
        return [f"{place}: it wants a delegation of a client that may have been called in vain: {row.name}"]
    return []


@dataclass
class Counts:
    """How many rows agree with the model, and differ; and how many files can't be read."""

    agreed: int = 0
    differ: int = 0
    unread: int = 0

    def add(self, other: "Counts") -> None:
        self.agreed += other.agreed
        self.differ += other.differ
        self.unread += other.unread

    def is_right(self) -> bool:
        return self.agreed > 0 and not self.differ and not self.unread

    def __str__(self) -> str:
        return f"{self.agreed} rows agree with the model, {self.differ} differ, {self.unread} files not read"


def check_file(file: str) -> tuple[Counts, list[list[str]]]:
    """What comes of the rows of a file; and of each that differs the lines that say what is wrong."""
    try:
        found = File(file).rows
    except UNREAD as error:
        return Counts(unread=1), [[refusal(file, error)]]
    faults = [lines for lines in map(faults_of, found) if lines]
    return Counts(len(found) - len(faults), len(faults)), faults


def check(paths: list[str]) -> int:
    """Checks the rows of files and folders, and says what comes of them: the status."""
    counts = Counts()
    try:
        files = [file for path in paths for file in files_of(path)]
    except OSError as error:
        sys.exit(f"check_rows: {error}")
    for file in files:
        found, faults = check_file(file)
        counts.add(found)
        for line in itertools.chain(*faults):
            print(line)
    print(f"check_rows: {counts}")
    return 0 if counts.is_right() else 1
