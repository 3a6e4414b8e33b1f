"""The conversation of a row with a server on TCP: what it sends, a record at a time, and what is wrong with what comes
back. By `Plain` the bytes are those of the row; by `Named` what a server chooses is bound at its first answer.

A call in which an operation needs a name that an earlier one of the same call is the first to be given is sent in
several by `Named`: each but the last ends with GETFH, and each but the first begins with PUTFH of that handle."""
import os
from typing import Any, NamedTuple

from nfs4tools import wire
from nfs4tools.messages import GETFH, NFS4_OK, PUTFH, PUTROOTFH, SETCLIENTID_CONFIRM, setclientid, split, xid
from nfs4tools.processes import Peer, REPLY_PATIENCE
from nfs4tools.rows.row import Connection, Row
from nfs4tools.rows.reports import Failure
from nfs4tools.send.names import Bound, Names, Operation, Site
from nfs4tools.send.replies import Reply, Value, difference, difference_of_results, first_difference, values_of
from nfs4tools.wire import Opnum, opaque, record, u32

# The seconds in which a reply would come behind the last call, where none is wanted for one of the calls.
SILENCE = 0.25
# Where a call has its credential: behind the xid, CALL, the RPC version, the program, the version and the procedure.
CREDENTIAL = 24


class Asked(NamedTuple):
    """A call of COMPOUND: its bytes up to the number of its operations, that number, its operations, and the bytes
    behind them that can't be read."""

    head: bytes
    count: int  # type: ignore[assignment]
    operations: list[Operation]
    rest: bytes


class NoReply(Exception):
    """No whole reply comes; the argument says how."""


def receive(peer: Peer, seconds: int = REPLY_PATIENCE) -> bytes:
    try:
        reply = peer.receive(seconds)
    except TimeoutError:
        raise NoReply(f"no reply within {seconds} s") from None
    if not split(reply)[0]:
        raise NoReply("the connection ends " + ("within the reply" if reply else "without a reply"))
    return reply


class Plain:
    """Sends the records of a row as they are. A reply has to come within so many seconds."""

    def __init__(self, seconds: int = REPLY_PATIENCE) -> None:
        self.seconds = seconds

    def ask(self, peer: Peer, sent: bytes, wanted: bytes) -> Failure | None:
        """What is wrong with what comes for a record, or None."""
        peer.send(sent)
        got = receive(peer, self.seconds)
        if got == wanted:
            return None
        return Failure(difference(values_of(wanted), values_of(got)) or ": its values by other bytes", wanted, got)

    def end(self) -> Failure | None:
        """What is wrong with the end of the row, or None."""
        return None


# Calls with names.


def asked_of(body: bytes) -> Asked | None:
    """A body as a call of COMPOUND, or None where it is another one."""
    call = wire.read_call(body)
    if not isinstance(call, wire.CompoundCall) or call.minor != 0:
        return None
    reader = call.operations
    operations: list[Operation] = []
    head = body[: reader.at - 4]
    while len(operations) < call.count:
        at = reader.at
        try:
            number = reader.u32()
            arguments = wire.ARGUMENTS[number](reader)
        except (KeyError, wire.Unreadable):
            reader.at = at
            break
        operations.append(Operation(number, arguments, body[at : reader.at]))
    return Asked(head, call.count, operations, body[reader.at :])


def credential_of(head: bytes) -> bytes:
    reader = wire.Reader(head)
    reader.fixed(CREDENTIAL)
    reader.u32(), reader.opaque()
    return head[CREDENTIAL : reader.at]


class Named(Plain):
    """Sends a row to a server that goes on. `word` is what the ids of the row's clients end with."""

    def __init__(self, seconds: int, site: Site, row: Row, word: bytes) -> None:
        super().__init__(seconds)
        self.site, self.names = site, Names(site, row, word)
        # The credentials under which each client came, by the client's id.
        self.clients: dict[bytes, list[bytes]] = {}

    def ask(self, peer: Peer, sent: bytes, wanted: bytes) -> Failure | None:
        values, body = values_of(wanted), sent[4:]
        is_one_fragment = int.from_bytes(sent[:4], "big") == 0x80000000 + len(body)
        asked = asked_of(body) if is_one_fragment else None
        if asked is not None:
            told = self.ask_in_pieces(peer, asked, values)
        else:
            peer.send(record(self.addressed(body)) if is_one_fragment else self.kept(sent))
            told = difference(values, values_of(receive(peer, self.seconds)), self.names)
        return None if told is None else Failure(told, b"", b"")

    def kept(self, sent: bytes) -> bytes:
        """A record in several fragments, as it is."""
        self.names.xid(int.from_bytes(xid(sent), "big"), is_kept=True)
        return sent

    def addressed(self, body: bytes) -> bytes:
        """A call with an xid of its own."""
        return self.as_user(u32(self.names.xid(int.from_bytes(body[:4], "big"))) + body[4:])

    def as_user(self, body: bytes) -> bytes:
        """A call as that of a user, where it is nobody's."""
        is_nobodys = body[4:12] == u32(wire.CALL, 2) and body[CREDENTIAL : CREDENTIAL + 8] == u32(wire.AUTH_NONE, 0)
        if self.site.uid is None or not is_nobodys:
            return body
        user = u32(wire.AUTH_SYS) + opaque(u32(0, 0, self.site.uid, 0, 0))
        return body[:CREDENTIAL] + user + body[CREDENTIAL + 8 :]

    def ask_in_pieces(self, peer: Peer, asked: Asked, wanted: Reply) -> str | None:
        """What is wrong with what comes for a call, which is sent in as many as it takes, or None."""
        self.note_clients(asked)
        at, handle = 0, None
        while True:
            piece = self.next_piece(asked.operations, at, wanted)
            is_last = at + len(piece) == len(asked.operations)
            got = self.take(peer, asked, at, piece, handle, is_last)
            if not is_last:
                got, handle = without_handle(got, len(piece))
            told = first_difference(wanted.head, got.head, self.names) or difference_of_results(
                wanted, got, self.names, at, is_last
            )
            if told or is_last:
                return told or first_difference(wanted.tail, tail_behind(got, at), self.names)
            at += len(piece)

    def note_clients(self, asked: Asked) -> None:
        for operation in asked.operations:
            if operation.number == Opnum.SETCLIENTID:
                credentials = self.clients.setdefault(self.names.own(operation.arguments.id), [])
                credential = credential_of(self.as_user(asked.head))
                credentials += [] if credential in credentials else [credential]

    def next_piece(self, operations: list[Operation], at: int, wanted: Reply) -> list[bytes]:
        """The bytes of the operations from this place on, up to one that needs a name that one of them is given."""
        given: set[Bound] = set()
        piece: list[bytes] = []
        for place, operation in enumerate(operations[at:], at):
            self.names.missing = set()
            data = self.names.spelled(operation)
            has_result = place < len(wanted.results)
            if has_result and self.names.missing & given:
                break
            piece.append(data)
            if has_result:
                given = given.union(*map(self.names.given_by, wanted.results[place].values))
        return piece

    def take(self, peer: Peer, asked: Asked, at: int, piece: list[bytes], handle: bytes | None, is_last: bool) -> Reply:
        """The reply to a piece of a call, without the result of the PUTFH before it."""
        before = [] if handle is None else [u32(PUTFH) + opaque(handle)]
        count = asked.count - at if is_last else len(piece) + 1
        behind = asked.rest if is_last else u32(GETFH)
        head = self.addressed(asked.head) + u32(len(before) + count)
        peer.send(record(head + b"".join(before + piece) + behind))
        got = values_of(receive(peer, self.seconds))
        results = got.results[len(before) :]
        for place, operation in enumerate(asked.operations[at : at + len(results)]):
            if operation.number == PUTROOTFH and place < len(results) and self.site.root is not None:
                # A PUTFH was sent in its place.
                results[place] = results[place]._replace(number=PUTROOTFH)
        return got._replace(results=results)

    def end(self) -> Failure | None:
        """Has the clients of the row begin anew, by which they lose all that they have."""
        if not self.clients:
            return None
        with Peer(self.site.address) as peer:
            for name, credentials in self.clients.items():
                # One that another principal has is refused as long as it has an open.
                if not any([begin_anew(peer, name, credential) for credential in credentials]):
                    return Failure("at the end a client can't restart", b"", b"")
        return None


def without_handle(got: Reply, count: int) -> tuple[Reply, bytes | None]:
    """A reply without the result of the GETFH behind so many operations; and its filehandle, or None where there is
    none, or an operation before it failed."""
    handle = None
    if len(got.results) > count:
        values = got.results[count].values
        handle = values[1].value if values[0].value == NFS4_OK and len(values) > 1 else None
    return got._replace(results=got.results[:count]), handle


def tail_behind(got: Reply, before: int) -> list[Value]:
    """What stands behind the results of the last piece of a call, as if it were the reply to the whole call."""
    return [
        value._replace(value=before + len(got.results)) if value.what == "number of results" else value
        for value in got.tail
    ]


def begin_anew(peer: Peer, name: bytes, credential: bytes) -> bool:
    """Whether the client begins anew with another verifier, and is confirmed."""

    def ask(operation: bytes) -> list[Any]:
        head = u32(1, wire.CALL, 2, wire.NFS4_PROGRAM, wire.NFS_V4, wire.NFSPROC4_COMPOUND) + credential
        peer.send(record(head + u32(wire.AUTH_NONE, 0) + u32(0, 0, 1) + operation))
        results = values_of(receive(peer)).results
        return [value.value for value in results[0].values] if results else []

    first = ask(setclientid(os.urandom(8), name))
    status, given = first[:1], first[1:]
    return status == [NFS4_OK] and ask(u32(SETCLIENTID_CONFIRM) + b"".join(given))[:1] == [NFS4_OK]


# Rows.


def calls_of(connection: Connection) -> tuple[list[tuple[bytes, bytes | None]], bytes]:
    """The records of a connection, each with the reply that is wanted for it or None; and what is wanted that no record
    has."""
    (whole, rest), (replies, part), found = split(connection.sent), split(connection.wanted), []
    for sent in whole + [rest] * bool(rest):
        # A reply has the xid of its call.
        is_answered = bool(replies) and xid(replies[0]) == xid(sent)
        found.append((sent, replies.pop(0) if is_answered else None))
    return found, b"".join(replies) + part


def behind(peer: Peer, is_to_end: bool) -> bytes:
    """What comes behind the last call, when no more is sent: to the end of the connection; or, where a server needn't
    bring that, for a while."""
    peer.finish()
    try:
        return peer.receive_all() if is_to_end else peer.receive_all(SILENCE)
    except TimeoutError:
        if is_to_end:
            raise
        return peer.rest


def failure_of_connection(
    address: tuple[str, int], connection: Connection, sender: Plain, first: int, is_to_end: bool
) -> Failure | None:
    """What is wrong with a connection of a row, up to the first reply that isn't wanted, or None."""
    calls, left = calls_of(connection)
    with Peer(address) as peer:
        for number, (sent, wanted) in enumerate(calls, first):
            if wanted is None:
                peer.send(sent)
                continue
            try:
                failure = sender.ask(peer, sent, wanted)
            except NoReply as error:
                failure = Failure(f": {error}", b"", b"")
            if failure is not None:
                return failure._replace(what=f"call {number}{failure.what}")
        is_silent = any(wanted is None for _, wanted in calls)
        got = behind(peer, is_to_end) if is_to_end or is_silent else b""
    if got == left:
        return None
    return Failure("after the last call: " + ("a reply that isn't wanted" if got else "no reply"), left, got)


def failure_of(address: tuple[str, int], row: Row, sender: Plain, is_to_end: bool = False) -> Failure | None:
    """What is wrong with the first connection of the row that doesn't get what is wanted, or None. Its calls are
    counted from 1, over all of its connections."""
    first, failure = 1, None
    for connection in row.connections:
        failure = failure_of_connection(address, connection, sender, first, is_to_end)
        if failure is not None:
            break
        first += len(calls_of(connection)[0])
    try:
        ended = sender.end()
    except (NoReply, OSError) as error:
        ended = Failure(f"at the end a client can't restart: {error}", b"", b"")
    return failure or ended
