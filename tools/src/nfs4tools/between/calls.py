"""The calls and replies that pass between a client and a server, as far as they can be read, with the places of what
may have to be rewritten. What can't be read has no operations, or those before the one that can't."""
from collections.abc import Callable, Iterable, Mapping
from typing import Any, NamedTuple

from nfs4tools import wire
from nfs4tools.between.vocabulary import ACCEPT_ERRORS, CB_NULL, NULL, OPERATIONS
from nfs4tools.callbacks.messages import address_of
from nfs4tools.journal.words import STATUS_NAMES, words_read
from nfs4tools.model.traces import DENIED_NAMES, LETTERS
from nfs4tools.wire import (
    AUTH_NONE,
    AUTH_SHORT,
    AUTH_SYS,
    CALL,
    KnownLocker,
    LockOwner,
    MSG_DENIED,
    NFS4_PROGRAM,
    NFS_V4,
    NewLocker,
    OpenOwner,
    OperationResult,
    Opnum,
    REPLY,
    Reader,
    SUCCESS,
    Stateid,
    Unreadable,
    u32,
)

# Who asks: an owner, or a state where nothing else is known; what it is comes first.
Who = tuple[str, int, int, bytes | int]
# A change of a record: where what it replaces begins and ends, and the bytes in its place.
Change = tuple[int, int, bytes]

Read = Callable[[Reader], Any]

# The names of operations, and how their arguments are read, by whether they are those of callbacks.
NAMES = {
    False: {number: name for name, number in OPERATIONS.items()},
    True: {number: name for name, number in wire.CALLBACK_OPERATIONS.items()},
}
READS: dict[bool, Mapping[int, Read]] = {False: wire.ALL_ARGUMENTS, True: wire.CALLBACK_ARGUMENTS}
ACCEPTED_NAMES = {number: name for name, number in ACCEPT_ERRORS.items()}
# The word for a reply without a status, such as that to NULL.
ANSWERED = "answered"
# Operations that only say of which file others are.
ON_HANDLES = ("PUTFH", "PUTROOTFH", "PUTPUBFH", "SAVEFH", "RESTOREFH", "GETFH")
# Where the sequence id of the lock owner stands in a LOCK that brings one, behind its number.
NEW_LOCK_SEQID = 52


def request_of(arguments: Any) -> tuple[int, Who | None]:
    """Of an operation with a sequence id: where that stands, behind the operation's number, and who asks, which is an
    open owner, or whose state this is. Nobody asks by any other operation."""
    match arguments:
        case wire.Open(owner=owner):
            return 4, open_owner(owner)
        case wire.Close(stateid=stateid):
            return 4, state(stateid)
        case wire.Locku(stateid=stateid):
            return 8, state(stateid)
        case wire.OpenConfirm(stateid=stateid) | wire.OpenDowngrade(stateid=stateid):
            return 20, state(stateid)
        case wire.Lock(locker=NewLocker(open_stateid=stateid)):
            return 32, state(stateid)
        case wire.Lock(locker=KnownLocker(lock_stateid=stateid)):
            return 48, state(stateid)
    return 0, None


def open_owner(owner: OpenOwner) -> Who:
    return ("open", *owner)


def lock_owner(owner: LockOwner) -> Who:
    return ("lock", *owner)


def state(stateid: Stateid) -> Who:
    """A state by its stateid, which has another seqid from time to time."""
    return ("state", *stateid[1:])


class Operation:
    """An operation of a call: its name, its arguments, and its bytes, which begin at this place of the record. With a
    sequence id, which stands at `seqid_at`, it is a request of `who`."""

    def __init__(self, name: str, read: Read, arguments: Any, begin: int, data: bytes) -> None:
        self.name, self.read, self.arguments, self.begin, self.data = name, read, arguments, begin, data
        self.seqid_at, self.who = request_of(arguments)

    def number_at(self, place: int) -> int:
        return int.from_bytes(self.data[place : place + 4], "big")

    @property
    def number(self) -> int:
        return self.number_at(0)

    @property
    def seqid(self) -> int:
        """The sequence id of a request."""
        return self.number_at(self.seqid_at)

    @property
    def locker(self) -> Who | None:
        """The lock owner that a LOCK brings, or that is released."""
        match self.arguments:
            case wire.Lock(locker=NewLocker(owner=owner)) | wire.ReleaseLockowner(owner=owner):
                return lock_owner(owner)
        return None

    def words(self) -> str:
        shown = " ".join([self.name] + words_read(self.read, self.data[4:]))
        return shown if len(shown) <= LETTERS else f"{shown[:LETTERS]} .."


class Call:
    """A record of one who calls: a client, or with a callback a server."""

    def __init__(self, record: bytes, is_callback: bool) -> None:
        self.record, self.is_callback, self.is_readable = record, is_callback, False
        self.operations: list[Operation] = []
        self.program, self.procedure, self.tag, self.count_at = 0, wire.NFSPROC4_NULL, b"", 0
        try:
            self.read(Reader(record))
        except Unreadable:
            pass
        self.requests = [operation for operation in self.operations if operation.who is not None]
        # A call of several requests isn't judged, as a server keeps the answer to one alone.
        self.is_judged = len(self.requests) == 1

    @property
    def request(self) -> Operation:
        """The first request of an owner, of a call that has one."""
        return self.requests[0]

    @property
    def xid(self) -> int:
        return int.from_bytes(self.record[:4], "big")

    def read(self, reader: Reader) -> None:
        _, kind, rpc_version = reader.u32(), reader.u32(), reader.u32()
        self.program, version, self.procedure = reader.u32(), reader.u32(), reader.u32()
        flavor, _, _, _ = reader.u32(), reader.opaque(), reader.u32(), reader.opaque()
        is_program = self.is_callback or (self.program, version) == (NFS4_PROGRAM, NFS_V4)
        if (kind, rpc_version) != (CALL, 2) or not is_program or flavor not in (AUTH_NONE, AUTH_SYS, AUTH_SHORT):
            raise Unreadable
        if self.procedure == wire.NFSPROC4_COMPOUND:
            self.read_compound(reader)
        self.is_readable = self.procedure in (wire.NFSPROC4_NULL, wire.NFSPROC4_COMPOUND)

    def read_compound(self, reader: Reader) -> None:
        self.tag, minor_version = reader.opaque(), reader.u32()
        if minor_version != 0:
            raise Unreadable
        if self.is_callback:
            reader.u32()
        self.count_at, count = reader.at, reader.u32()
        for _ in range(count):
            self.operations.append(self.read_operation(reader))

    def read_operation(self, reader: Reader) -> Operation:
        begin, number = reader.at, reader.u32()
        read = READS[self.is_callback].get(number)
        if read is None:
            raise Unreadable
        arguments = read(reader)
        return Operation(NAMES[self.is_callback][number], read, arguments, begin, self.record[begin : reader.at])

    @property
    def names(self) -> list[str]:
        """What a rule may call it."""
        if not self.is_readable:
            return []
        if self.procedure == wire.NFSPROC4_NULL:
            return [CB_NULL if self.is_callback else NULL]
        return [operation.name for operation in self.operations]

    def words(self, index: int | None = None) -> str:
        """The operation with this index, if there is such an index; or its request; or the first that isn't on
        filehandles."""
        if not self.is_readable:
            return f"a call of {len(self.record)} bytes that can't be read"
        if not self.operations:
            return "COMPOUND of 0 operations" if self.procedure == wire.NFSPROC4_COMPOUND else self.names[0]
        named = [] if index is None else [self.operations[index]]
        others = [operation for operation in self.operations if operation.name not in ON_HANDLES]
        return (named or self.requests or others or self.operations)[0].words()

    def is_again(self, other: "Call") -> bool:
        """Whether the other one, which comes later, is this one, but maybe for the xid."""
        if is_same_but_for_xid(self, other):
            return True
        return self.is_judged and other.is_judged and self.request.data == other.request.data

    def rewritten(self, changes: Iterable[Change], index: int | None = None) -> bytes:
        """The record with other bytes at some places, each of which is a begin, an end and the bytes; and if an index
        is given, without this operation and those behind it."""
        end = len(self.record)
        if index is not None:
            end = self.operations[index].begin
            changes = [*changes, (self.count_at, self.count_at + 4, u32(index))]
        data = self.record[:end]
        for begin, stop, new in sorted(changes, reverse=True):
            if stop <= end:
                data = data[:begin] + new + data[stop:]
        return data

    def callback(self) -> "Called | None":
        """Of a call with SETCLIENTID: where its client is called back. None of any other call."""
        for operation in self.operations:
            if operation.number == Opnum.SETCLIENTID and not self.is_callback:
                reader, arguments = Reader(operation.data), operation.arguments
                reader.fixed(12), reader.opaque(), reader.u32(), reader.opaque()
                begin = operation.begin + reader.at
                reader.opaque()
                target, end = address_of(arguments.callback), operation.begin + reader.at
                return Called(arguments.id, arguments.callback.program, target, begin, end)
        return None


class Called(NamedTuple):
    """Where a client is called back: its id, the program, the address and port, or None; and where r_addr begins and
    ends in the record."""

    client: bytes
    program: int
    target: tuple[str, int] | None
    begin: int
    end: int


def seqid_change(operation: Operation, place: int, ahead: int) -> Change:
    """The change by which the sequence id at this place is one that is so much lower."""
    seqid = operation.number_at(place)
    return operation.begin + place, operation.begin + place + 4, u32((seqid - ahead) % 2**32)


def is_same_but_for_xid(one: "Call | Reply", other: "Call | Reply") -> bool:
    """Whether two calls or replies have the same bytes behind the xid. They may be long, and are mostly others."""
    return len(one.record) == len(other.record) and one.record[4:] == other.record[4:]


class Reply:
    """A record of one who answers: the status of a COMPOUND with its results, each with its bytes; or why there are
    none. Where it can't be read the status is None."""

    def __init__(self, record: bytes, is_callback: bool = False) -> None:
        self.record, self.status_at, self.count_at = record, 0, 0
        self.status: int | None = None
        self.results: list[tuple[OperationResult, bytes]] = []
        self.refusal: str | None = None
        try:
            self.read(Reader(record), wire.read_callback_result if is_callback else wire.read_result)
        except Unreadable:
            pass

    def read(self, reader: Reader, read_result: Callable[[Reader], OperationResult]) -> None:
        _, kind, is_denied = reader.u32(), reader.u32(), reader.u32()
        if kind != REPLY:
            raise Unreadable
        if is_denied == MSG_DENIED:
            self.refusal = name_of(DENIED_NAMES, reader.u32())
            return
        reader.u32(), reader.opaque()
        state_of_call = reader.u32()
        if state_of_call != SUCCESS:
            self.refusal = name_of(ACCEPTED_NAMES, state_of_call)
            return
        status_at, status = reader.at, reader.u32()
        reader.opaque()
        count_at, count = reader.at, reader.u32()
        self.status, self.status_at, self.count_at = status, status_at, count_at
        for _ in range(count):
            begin, result = reader.at, read_result(reader)
            self.results.append((result, self.record[begin : reader.at]))

    def words(self) -> str:
        if self.status is None:
            return self.refusal or ANSWERED
        return name_of(STATUS_NAMES, self.status)

    def result_of(self, call: Call) -> bytes | None:
        """The bytes of the result of the call's request, or None where that wasn't run."""
        index = call.operations.index(call.request)
        return self.results[index][1] if index < len(self.results) else None


def name_of(names: Mapping[int, str], number: int) -> str:
    return names.get(number, str(number))
