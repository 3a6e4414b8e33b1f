"""What the server keeps of clients, owners, opens, locks and delegations; and what several rules ask of these, of
stateids and of sequence ids. Sections are those of RFC 7530."""
from collections.abc import Callable
from dataclasses import dataclass, field
from typing import Any, NamedTuple

from nfs4tools.model.ranges import READ_MODE, RUNS_LIMIT, Ranges, WRITE_MODE, range_of
from nfs4tools.wire import (
    BOTH,
    Callback,
    KnownLocker,
    Lock,
    LockOwner,
    Lockt,
    Locku,
    NewLocker,
    OpenOwner,
    Opnum,
    Principal,
    READ,
    READW_LT,
    READ_LT,
    Stateid,
    Status,
    u32,
)

HANDLE_HEAD = b"nfh1"
LAST = 2**32 - 1
# A client's number is its slot and, in the upper bits, how many clients had the slot before: its generation. Slot 0 is
# nobody's.
SLOTS, GENERATIONS = 2**8, 2**24

# Why a change that no call asks for isn't made: its client isn't live, its lease isn't over, or the journal is full.
NOT_LIVE, NOT_DUE, FULL = 1, 2, 3


class Unchanged(Exception):
    """A change that isn't made; the argument is the number of the reason."""


class Refusal(Exception):
    """A rule's answer other than OK; what it brings after the status is `rest`."""

    def __init__(self, status: Status, rest: bytes = b"") -> None:
        super().__init__(status)
        self.status, self.rest = status, rest


class Result(NamedTuple):
    """An answer: its status, and the bytes after it."""

    status: Status
    rest: bytes = b""


@dataclass(slots=True)
class Filehandles:
    """Of a COMPOUND: nodes of the tree, or None."""

    current: int | None = None
    saved: int | None = None


@dataclass(slots=True)
class ClientRecord:
    """A client that has introduced itself (section 9.1.1)."""

    id: bytes
    principal: Principal
    verifier: bytes
    callback: Callback
    confirm: int
    number: int
    is_confirmed: bool = False
    # Whether the client can be called back, once it is confirmed: UNKNOWN, UP or DOWN.
    path: str | None = None


class Request(NamedTuple):
    """What is compared to tell a retransmission: the operation with its arguments, and the current filehandle."""

    opnum: Opnum
    arguments: Any
    filehandle: int | None


@dataclass(slots=True)
class LastRequest:
    """The last request of an owner that counted, with its answer, its entry in the journal, and when it came (section
    9.1.8)."""

    seqid: int
    request: Request
    answer: Result
    entry: int
    moment: int


OwnerName = OpenOwner | LockOwner


@dataclass(slots=True)
class Owner:
    """An open owner or a lock owner that is known (section 9.1.5); only an open owner is confirmed (section 9.1.11)."""

    name: OwnerName
    kept: LastRequest
    # The entry by which it became known.
    recorded: int
    is_confirmed: bool = False


@dataclass(slots=True)
class OpenState:
    """An open of an owner on a file (sections 9.9 and 9.11)."""

    owner: OpenOwner
    file: int
    number: int
    pairs: list[tuple[int, int]]
    seqid: int = 1

    def share(self) -> tuple[int, int]:
        return self.pairs[0] if len(self.pairs) == 1 else union(self.pairs)

    @property
    def client(self) -> int:
        return self.owner.client


@dataclass(slots=True)
class LockState:
    """What a lock owner has locked of a file, by an open of its client (section 9.1.4.1)."""

    owner: LockOwner
    open: OpenState
    number: int
    ranges: Ranges = field(default_factory=Ranges)
    seqid: int = 0

    @property
    def file(self) -> int:
        return self.open.file

    @property
    def client(self) -> int:
        return self.owner.client


@dataclass(slots=True)
class Delegation:
    """A file that is lent to a client, for reading or for writing (section 10.4). Its seqid is one for good."""

    client: int
    file: int
    kind: int
    number: int
    # When it was called back first, or None.
    recalled: int | None = None
    seqid = 1


# What a client's path for callbacks is known to be.
UNKNOWN, UP, DOWN = "unknown", "up", "down"


class Recall(NamedTuple):
    """A delegation that is called back: its stateid and the node of its file; and who has it, and where that client
    was to be called, when that was decided."""

    stateid: Stateid
    file: int
    principal: Principal
    callback: Callback


KeptState = OpenState | LockState | Delegation


def union(pairs: list[tuple[int, int]]) -> tuple[int, int]:
    access = deny = 0
    for pair in pairs:
        access, deny = access | pair[0], deny | pair[1]
    return access, deny


def contains(outer: tuple[int, int], inner: tuple[int, int]) -> bool:
    return inner[0] & ~outer[0] == 0 and inner[1] & ~outer[1] == 0


def conflict(one: tuple[int, int], other: tuple[int, int]) -> bool:
    """The access of one meets what the other denies (section 9.9)."""
    return one[0] & other[1] != 0 or one[1] & other[0] != 0


def is_lawful_downgrade(pairs: list[tuple[int, int]], wanted: tuple[int, int]) -> bool:
    """Some of the pairs, one at least, have just this union (section 16.19)."""
    subsets = range(1, 2 ** len(pairs))
    return any(union([pair for place, pair in enumerate(pairs) if subset >> place & 1]) == wanted for subset in subsets)


def next_seqid(seqid: int) -> int:
    """The seqid of a stateid after this one: 0 is left out (section 9.1.4.2)."""
    return 1 if seqid == LAST else seqid + 1


def next_sequence_id(seqid: int) -> int:
    """The sequence id of an owner's request after this one (section 9.1.7)."""
    return 0 if seqid == LAST else seqid + 1


# Anonymous, and READ bypass (section 9.1.4.3).
SPECIAL = Stateid(0, 0, 0, 0), Stateid(LAST, LAST, LAST, LAST)


def is_special(stateid: Stateid) -> bool:
    return stateid in SPECIAL


def answer(rule: Callable[..., bytes], *given: Any) -> Result:
    """What the rule answers to what it is given: OK and its bytes, or its refusal."""
    try:
        return Result(Status.OK, rule(*given))
    except Refusal as refusal:
        return Result(refusal.status, refusal.rest)


def is_first_lock(request: Request) -> bool:
    """A LOCK that names an owner which is to have its first lock state on the file."""
    return request.opnum == Opnum.LOCK and isinstance(request.arguments.locker, NewLocker)


def stateid_of(opnum: Opnum, arguments: Any) -> Stateid:
    """The stateid that names the owner of a sequenced operation other than OPEN."""
    stateid: Stateid = arguments.stateid if opnum != Opnum.LOCK else stateid_of_locker(arguments.locker)
    return stateid


def stateid_of_locker(locker: NewLocker | KnownLocker) -> Stateid:
    return locker.open_stateid if isinstance(locker, NewLocker) else locker.lock_stateid


def sequence_id_of(request: Request) -> int:
    """The sequence id of the owner that the operation is judged by."""
    if request.opnum != Opnum.LOCK:
        seqid: int = request.arguments.seqid
        return seqid
    locker: NewLocker | KnownLocker = request.arguments.locker
    return locker.open_seqid if isinstance(locker, NewLocker) else locker.lock_seqid


def replay(kept: LastRequest, seqid: int, request: Request) -> Result | None:
    """The kept answer to a retransmission of the kept request, or None (section 9.1.8)."""
    return kept.answer if kept.seqid == seqid and kept.request == request else None


def closed_by(kept: LastRequest, stateid: Stateid) -> bool:
    """Whether the kept request closed the open that the stateid names."""
    if kept.request.opnum != Opnum.CLOSE or kept.answer.status != Status.OK:
        return False
    closed: Stateid = kept.request.arguments.stateid
    return closed[1:] == stateid[1:]


def expect_filehandle(filehandle: int | None) -> int:
    """The node of a filehandle, where there is one."""
    if filehandle is None:
        raise Refusal(Status.NOFILEHANDLE)
    return filehandle


def expect_seqid(stateid: Stateid, found: KeptState) -> None:
    """The stateid's seqid is that of the state (section 9.1.4.2)."""
    if stateid.seqid < found.seqid:
        raise Refusal(Status.OLD_STATEID)
    if stateid.seqid > found.seqid:
        raise Refusal(Status.BAD_STATEID)


def expect_range(arguments: Lock | Lockt | Locku) -> tuple[int, int]:
    """The first and the last byte of the range that is named."""
    found = range_of(arguments.offset, arguments.length)
    if found is None:
        raise Refusal(Status.INVAL)
    return found


def expect_runs(ranges: Ranges) -> Ranges:
    if ranges.runs() > RUNS_LIMIT:
        raise Refusal(Status.RESOURCE)
    return ranges


def mode_of(locktype: int) -> int:
    """A lock that the client would wait for is as one that it wouldn't (section 9.6): no waiter is kept."""
    return READ_MODE if locktype in (READ_LT, READW_LT) else WRITE_MODE


def expect_share(share: tuple[int, int]) -> None:
    """An access of READ, WRITE or both, and a deny of no more than both (section 9.9)."""
    if not (READ <= share[0] <= BOTH and share[1] <= BOTH):
        raise Refusal(Status.INVAL)


def handle_of(node: int) -> bytes:
    return HANDLE_HEAD + u32(node)


def slot_of(number: int) -> int:
    """The slot of a client's number."""
    return number % SLOTS
