"""A client that does right, for the tests of `tools/judge`: what a mistake looks like in a journal is shown by this
client with one thing changed.

What it does is made of steps: a step yields the operations of a call and gets their results, so that calls of several
owners can be under way at once. `RightClient.do` takes the steps one after the other. Whatever a client decides by
itself (the next sequence id, which answers count, whose stateid a request has) is a method of its own, which a client
with a bug has another one for. Sections are those of RFC 7530."""
from collections.abc import Callable, Generator, Iterator, Sequence
from dataclasses import dataclass, field
from typing import Any, NamedTuple, Protocol, TypeVar

from helpers.expecting_client import Wrong
from nfs4tools.messages import compound, words
from nfs4tools.wire import (
    BOTH,
    CLAIM_DELEGATE_CUR,
    CLAIM_NULL,
    Callback,
    Claim,
    Close,
    Delegreturn,
    FORMS,
    Getattr,
    KnownLocker,
    Lock,
    LockOwner,
    Lockt,
    Locku,
    Lookup,
    NewLocker,
    Nothing,
    OPEN4_NOCREATE,
    Open,
    OpenConfirm,
    OpenDowngrade,
    OpenOwner,
    Openhow,
    OperationResult,
    Opnum,
    Putfh,
    READ_LT,
    Read,
    Reader,
    ReleaseLockowner,
    Renew,
    Setclientid,
    SetclientidConfirm,
    Stateid,
    Status,
    WRITE_LT,
    Write,
    read_result,
    record,
)

Operation = tuple[Opnum, Any]
Results = list[OperationResult]
Share = tuple[int, int]
T = TypeVar("T")
Steps = Generator[list[Operation], Results, T]

LAST = 2**32 - 1
# The length of bytes that go on to the end of the file.
ENDLESS = 2**64 - 1
ZEROS, ONES = Stateid(0, 0, 0, 0), Stateid(LAST, LAST, LAST, LAST)
NO_CREATE = Openhow(OPEN4_NOCREATE, None, None)
# What rflags have where the owner has to be confirmed.
CONFIRM = 2
# An address at which nobody listens.
NOWHERE = Callback(0x40000000, b"tcp", b"127.0.0.1.3.232", 1)
# The answers to an owner's request that leave its sequence id as it was (section 9.1.7).
UNCOUNTED = {
    Status.STALE_CLIENTID,
    Status.STALE_STATEID,
    Status.BAD_STATEID,
    Status.BAD_SEQID,
    Status.BADXDR,
    Status.RESOURCE,
    Status.NOFILEHANDLE,
}
# The words of a reply before its results: the header of the record, RPC's, the status, the tag and the count.
REPLY_HEAD = 40


class Link(Protocol):
    """A way to a server."""

    def ask(self, sent: bytes) -> bytes:
        """The reply to a call, both as records."""


class Wired:
    """Over a connection."""

    def __init__(self, peer: Any) -> None:
        self.peer = peer

    def ask(self, sent: bytes) -> bytes:
        self.peer.send(sent)
        got: bytes = self.peer.receive()
        return got


class Direct:
    """To the model in memory."""

    def __init__(self, server: Any) -> None:
        self.server = server

    def ask(self, sent: bytes) -> bytes:
        return record(self.server.reply(sent[4:]))


def operation_bytes(operation: Operation) -> bytes:
    opnum, arguments = operation
    return words(opnum) + FORMS[opnum].write(arguments)


def results_of(reply: bytes) -> Results:
    """The results of a reply to a COMPOUND with an empty tag."""
    if len(reply) < REPLY_HEAD:
        raise Wrong(f"a reply of {len(reply)} bytes")
    reader = Reader(reply[REPLY_HEAD:])
    return [read_result(reader) for _ in range(int.from_bytes(reply[REPLY_HEAD - 4 : REPLY_HEAD], "big"))]


# What a client knows.


@dataclass(eq=False)
class Owner:
    """An open owner or a lock owner, and the last sequence id that counted."""

    name: bytes
    seqid: int = 0
    is_confirmed: bool = False


@dataclass(eq=False)
class Opened:
    """An open of an owner: the names that lead to its file, the filehandle, and the shares that it was opened with."""

    owner: Owner
    path: tuple[bytes, ...]
    handle: bytes
    stateid: Stateid
    pairs: list[Share]
    locks: list["Locked"] = field(default_factory=list)

    @property
    def access(self) -> int:
        found = 0
        for access, _ in self.pairs:
            found |= access
        return found


@dataclass(eq=False)
class Locked:
    """What a lock owner has of a file, and the bytes that it holds, each a first byte and a length."""

    owner: Owner
    opened: Opened
    stateid: Stateid
    held: set[tuple[int, int]] = field(default_factory=set)

    @property
    def handle(self) -> bytes:
        return self.opened.handle


@dataclass(eq=False)
class Lent:
    """A delegation."""

    path: tuple[bytes, ...]
    handle: bytes
    stateid: Stateid
    kind: int
    is_recalled: bool = False


Held = Opened | Locked | Lent


class Span(NamedTuple):
    """Bytes that are locked: the type of the lock, the first byte, and how many."""

    locktype: int
    offset: int
    length: int


class RightClient:
    """A client, its owners and what it has."""

    def __init__(self, link: Link, name: bytes, uid: int | None = None, callback: Callback = NOWHERE) -> None:
        self.link, self.name, self.uid, self.callback = link, name, uid, callback
        self.verifier, self.clientid, self.confirm_value = b"verifier", (0, 0), 0
        self.xid = 0
        self.owners: dict[bytes, Owner] = {}
        self.lockers: dict[bytes, Owner] = {}
        self.opens: list[Opened] = []
        self.lent: list[Lent] = []
        # How many replies to a call are lost, each of which makes the client send it again.
        self.lost: Callable[[Sequence[Operation]], int] = lambda operations: 0
        # The last call; and what was closed or given back, with its last stateid.
        self.last_call: Sequence[Operation] = []
        self.gone: list[Held] = []

    # Calls.

    def call(self, *operations: Operation) -> Results:
        """The results of a call, which comes again as often as a reply is lost."""
        self.xid, self.last_call = self.xid + 1, operations
        sent = compound(self.xid, *map(operation_bytes, operations), uid=self.uid)
        for _ in range(self.lost(operations)):
            self.link.ask(sent)
        return results_of(self.link.ask(sent))

    def do(self, steps: Steps[T]) -> T:
        """What comes of steps that are taken one after the other."""
        try:
            operations = next(steps)
            while True:
                operations = steps.send(self.call(*operations))
        except StopIteration as ended:
            found: T = ended.value
            return found

    def again(self) -> Results:
        """The last call once more."""
        return self.call(*self.last_call)

    def on(self, handle: bytes, opnum: Opnum, arguments: Any) -> Results:
        """An operation on a file, alone: its result is the last."""
        return self.call((Opnum.PUTFH, Putfh(handle)), (opnum, arguments))

    # What it decides.

    def next_id(self, owner: Owner, opnum: Opnum) -> int:
        """The sequence id of the owner's next request: one more, and 0 behind the last one (section 9.1.7)."""
        return 0 if owner.seqid == LAST else owner.seqid + 1

    def counts(self, opnum: Opnum, status: int) -> bool:
        """Whether an answer moves the sequence id on."""
        return status not in UNCOUNTED

    def count(self, owner: Owner, seqid: int, opnum: Opnum, status: int) -> None:
        """Takes notice of the answer to an owner's request with this sequence id."""
        if self.counts(opnum, status):
            owner.seqid = seqid

    def has_to_confirm(self, flags: int) -> bool:
        return bool(flags & CONFIRM)

    def stateid_for(self, opnum: Opnum, held: Held) -> Stateid:
        """The stateid by which an operation names what the client has."""
        return held.stateid

    def handle_for(self, opnum: Opnum, held: Held) -> bytes:
        return held.handle

    def keep(self, opnum: Opnum, held: Held, stateid: Stateid) -> None:
        """Takes the stateid that an operation answered."""
        held.stateid = stateid

    def lock_for(self, locker: Owner, opened: Opened) -> Locked | None:
        """The lock state that the lock owner has of the open's file, or None if it has to come as a new owner."""
        return next((it for it in opened.locks if it.owner is locker), None)

    def clientid_now(self, opnum: Opnum) -> tuple[int, int]:
        """The clientid that an operation names."""
        return self.clientid

    # The client itself (sections 9.1.1, 16.33 and 16.34).

    def introducing(self) -> Steps[int]:
        """SETCLIENTID, and its confirmation: the status of the last of them."""
        results = yield [(Opnum.SETCLIENTID, Setclientid(self.verifier, self.name, self.callback))]
        if results[-1].status != Status.OK:
            return results[-1].status
        epoch, number, confirm = results[-1].value
        confirmed = yield [(Opnum.SETCLIENTID_CONFIRM, self.confirmation(epoch, number, confirm))]
        if confirmed[-1].status == Status.OK:
            self.clientid, self.confirm_value = (epoch, number), confirm
        return confirmed[-1].status

    def confirmation(self, epoch: int, number: int, confirm: int) -> SetclientidConfirm:
        return SetclientidConfirm(epoch, number, confirm)

    def give_up(self, *held: Held) -> None:
        """What was closed, released or given back, with its last stateid."""
        self.gone += held

    def forget_all(self) -> None:
        """It has nothing any more, and its owners begin anew."""
        self.owners, self.lockers, self.opens, self.lent, self.gone = {}, {}, [], [], []

    def renewing(self) -> Steps[int]:
        results = yield [(Opnum.RENEW, Renew(*self.clientid_now(Opnum.RENEW)))]
        return results[-1].status

    # Opens (sections 16.2, 16.16, 16.18 and 16.19).

    def owner(self, name: bytes) -> Owner:
        return self.owners.setdefault(name, Owner(name))

    def open_words(self, owner: Owner, share: Share, claim: Claim) -> Open:
        named = OpenOwner(*self.clientid_now(Opnum.OPEN), owner.name)
        return Open(self.next_id(owner, Opnum.OPEN), *share, named, NO_CREATE, claim)

    def opening(
        self, owner: Owner, path: tuple[bytes, ...], share: Share = (BOTH, 0), lent: Lent | None = None
    ) -> Steps[int]:
        """OPEN by a path, and OPEN_CONFIRM if that is wanted: the status of the OPEN. Of a delegation that the client
        has it makes an open of its own (section 10.4.6)."""
        claim = (
            Claim(CLAIM_NULL, path[-1], None)
            if lent is None
            else Claim(CLAIM_DELEGATE_CUR, path[-1], self.stateid_for(Opnum.OPEN, lent))
        )
        way = [(Opnum.PUTROOTFH, Nothing())] + [(Opnum.LOOKUP, Lookup(name)) for name in path[:-1]]
        arguments = self.open_words(owner, share, claim)
        results = yield [*way, (Opnum.OPEN, arguments), (Opnum.GETFH, Nothing())]
        found = next(result for result in results if result.number == Opnum.OPEN)
        self.count(owner, arguments.seqid, Opnum.OPEN, found.status)
        if found.status == Status.OK:
            opened = self.joined(owner, path, share, results)
            owner.is_confirmed = not self.has_to_confirm(found.value.flags)
            if not owner.is_confirmed:
                yield from self.confirming(opened)
                owner.is_confirmed = True
        return found.status

    def joined(self, owner: Owner, path: tuple[bytes, ...], share: Share, results: Results) -> Opened:
        """The open that an OPEN made, or joined."""
        answer, handle = results[-2].value, results[-1].value
        opened = next((it for it in self.opens if it.owner is owner and it.handle == handle), None)
        if opened is None:
            opened = Opened(owner, path, handle, answer.stateid, [])
            self.opens.append(opened)
        opened.pairs += [share] if share not in opened.pairs else []
        self.keep(Opnum.OPEN, opened, answer.stateid)
        if answer.delegation is not None:
            self.lent.append(Lent(path, handle, answer.delegation.stateid, answer.delegation.kind))
        return opened

    def on_open(self, opened: Opened, opnum: Opnum, make: Callable[[Stateid, int], Any]) -> Steps[int]:
        """A request of the open's owner: its status."""
        seqid = self.next_id(opened.owner, opnum)
        arguments = make(self.stateid_for(opnum, opened), seqid)
        results = yield [(Opnum.PUTFH, Putfh(self.handle_for(opnum, opened))), (opnum, arguments)]
        self.count(opened.owner, seqid, opnum, results[-1].status)
        if results[-1].status == Status.OK:
            self.keep(opnum, opened, results[-1].value)
        return results[-1].status

    def confirming(self, opened: Opened) -> Steps[int]:
        return (yield from self.on_open(opened, Opnum.OPEN_CONFIRM, OpenConfirm))

    def downgrading(self, opened: Opened, share: Share) -> Steps[int]:
        status = yield from self.on_open(
            opened, Opnum.OPEN_DOWNGRADE, lambda stateid, seqid: OpenDowngrade(stateid, seqid, *share)
        )
        if status == Status.OK:
            opened.pairs = [it for it in opened.pairs if it[0] & ~share[0] == 0 and it[1] & ~share[1] == 0]
        return status

    def closing(self, opened: Opened) -> Steps[int]:
        status = yield from self.on_open(opened, Opnum.CLOSE, lambda stateid, seqid: Close(seqid, stateid))
        if status == Status.OK:
            self.opens = [it for it in self.opens if it is not opened]
            self.give_up(*opened.locks, opened)
        return status

    # Locks (sections 16.10 to 16.12, and 16.37).

    def locker(self, name: bytes) -> Owner:
        return self.lockers.setdefault(name, Owner(name))

    def locking(self, locker: Owner, opened: Opened, span: Span) -> Steps[int]:
        """LOCK, of a new lock owner if it has no lock state of the file yet."""
        held = self.lock_for(locker, opened)
        lock_id = self.next_id(locker, Opnum.LOCK)
        if held is not None:
            known = KnownLocker(self.stateid_for(Opnum.LOCK, held), lock_id)
            return (yield from self.locking_more(held, span, known))
        named = LockOwner(*self.clientid_now(Opnum.LOCK), locker.name)
        open_id, stateid = self.next_id(opened.owner, Opnum.LOCK), self.stateid_for(Opnum.LOCK, opened)
        arguments = Lock(span.locktype, 0, span.offset, span.length, NewLocker(open_id, stateid, lock_id, named))
        results = yield [(Opnum.PUTFH, Putfh(self.handle_for(Opnum.LOCK, opened))), (Opnum.LOCK, arguments)]
        self.count(opened.owner, open_id, Opnum.LOCK, results[-1].status)
        self.count(locker, lock_id, Opnum.LOCK, results[-1].status)
        if results[-1].status == Status.OK:
            opened.locks.append(Locked(locker, opened, results[-1].value, {span[1:]}))
        return results[-1].status

    def locking_more(self, held: Locked, span: Span, known: KnownLocker) -> Steps[int]:
        arguments = Lock(span.locktype, 0, span.offset, span.length, known)
        results = yield [(Opnum.PUTFH, Putfh(self.handle_for(Opnum.LOCK, held))), (Opnum.LOCK, arguments)]
        self.count(held.owner, known.lock_seqid, Opnum.LOCK, results[-1].status)
        if results[-1].status == Status.OK:
            held.held.add(span[1:])
            self.keep(Opnum.LOCK, held, results[-1].value)
        return results[-1].status

    def unlocking(self, held: Locked, offset: int = 0, length: int = ENDLESS) -> Steps[int]:
        """LOCKU, of all that it holds if nothing else is said."""
        seqid = self.next_id(held.owner, Opnum.LOCKU)
        arguments = Locku(WRITE_LT, seqid, self.stateid_for(Opnum.LOCKU, held), offset, length)
        results = yield [(Opnum.PUTFH, Putfh(self.handle_for(Opnum.LOCKU, held))), (Opnum.LOCKU, arguments)]
        self.count(held.owner, seqid, Opnum.LOCKU, results[-1].status)
        if results[-1].status == Status.OK:
            self.keep(Opnum.LOCKU, held, results[-1].value)
            held.held = set() if length == ENDLESS else held.held
        return results[-1].status

    def testing(self, locker: Owner, handle: bytes, span: Span) -> Steps[int]:
        named = LockOwner(*self.clientid_now(Opnum.LOCKT), locker.name)
        results = yield [(Opnum.PUTFH, Putfh(handle)), (Opnum.LOCKT, Lockt(*span, named))]
        return results[-1].status

    def releasing(self, locker: Owner) -> Steps[int]:
        """RELEASE_LOCKOWNER: its lock states are gone, and it begins anew."""
        named = LockOwner(*self.clientid_now(Opnum.RELEASE_LOCKOWNER), locker.name)
        results = yield [(Opnum.RELEASE_LOCKOWNER, ReleaseLockowner(named))]
        if results[-1].status == Status.OK:
            for opened in self.opens:
                self.give_up(*[it for it in opened.locks if it.owner is locker])
                opened.locks = [it for it in opened.locks if it.owner is not locker]
            self.lockers.pop(locker.name, None)
        return results[-1].status

    # The bytes, and delegations (sections 16.6, 16.23 and 16.36).

    def reading(self, held: Held) -> Steps[int]:
        results = yield [
            (Opnum.PUTFH, Putfh(self.handle_for(Opnum.READ, held))),
            (Opnum.READ, Read(self.stateid_for(Opnum.READ, held), 0, 5)),
        ]
        return results[-1].status

    def writing(self, held: Held) -> Steps[int]:
        results = yield [
            (Opnum.PUTFH, Putfh(self.handle_for(Opnum.WRITE, held))),
            (Opnum.WRITE, Write(self.stateid_for(Opnum.WRITE, held), 0, 2, b"bytes")),
        ]
        return results[-1].status

    def looking(self, handle: bytes) -> Steps[int]:
        """GETATTR of the size."""
        results = yield [(Opnum.PUTFH, Putfh(handle)), (Opnum.GETATTR, Getattr((0x10,)))]
        return results[-1].status

    def giving_back(self, lent: Lent) -> Steps[int]:
        """DELEGRETURN. The answer to one that came again is that there is no such delegation any more."""
        results = yield [
            (Opnum.PUTFH, Putfh(self.handle_for(Opnum.DELEGRETURN, lent))),
            (Opnum.DELEGRETURN, Delegreturn(self.stateid_for(Opnum.DELEGRETURN, lent))),
        ]
        if results[-1].status in (Status.OK, Status.BAD_STATEID):
            self.lent = [it for it in self.lent if it is not lent]
            self.give_up(lent)
        return results[-1].status

    # All of it.

    def leaving(self) -> Steps[None]:
        """Gives up all that it has: locks, lock owners, opens, delegations."""
        for steps in self.last_steps():
            yield from steps

    def last_steps(self) -> Iterator[Steps[int]]:
        yield from map(self.unlocking, [it for opened in self.opens for it in opened.locks if it.held])
        yield from map(self.releasing, list(self.lockers.values()))
        yield from map(self.closing, list(self.opens))
        yield from map(self.giving_back, list(self.lent))


def read_span(offset: int = 0, length: int = 10) -> Span:
    return Span(READ_LT, offset, length)


def write_span(offset: int = 0, length: int = 10) -> Span:
    return Span(WRITE_LT, offset, length)
