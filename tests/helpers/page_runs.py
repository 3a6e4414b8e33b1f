"""Runs with many entries, made by the model: clients that open, lock, read and close files, of which one may be bad. It
counts a sequence id too many now and then, is silent twice, and goes on by its dead clientid afterwards."""
import random
from dataclasses import dataclass, field

from nfs4tools import wire
from nfs4tools.journal.journal import Journal, Recorder
from nfs4tools.model.state_parts import Result
from nfs4tools.model.tree import Tree
from nfs4tools.wire import (
    Callback,
    Claim,
    KnownLocker,
    LockOwner,
    NewLocker,
    OpenOwner,
    Openhow,
    Opnum,
    Stateid,
    Status,
)

PATHS = ["db/main", "db/wal", "doc/notes", "doc/plan", "log/today", "mail/inbox", "mail/index", "tmp/scratch"]
HEAD = '[policy]\ndelegations = "all"\ncallbacks = "assume"\n'
DOCUMENT = HEAD + "".join(f'[[file]]\npath = "{path}"\n' for path in PATHS)
NAMES = ["alpha", "beta", "gamma", "delta"]
LEASE = 90
# How many steps there are in a second, and which flag of an OPEN asks for OPEN_CONFIRM.
PACE, CONFIRM = 5, 2
NO_CREATE = Openhow(0, None, None)
CALLBACK = Callback(0x40000000, b"tcp", b"127.0.0.1.8.1", 1)


@dataclass
class Opened:
    """An open that a client has, with the lock state of its lock owner, if there is one."""

    owner: bytes
    file: int
    stateid: Stateid
    locked: Stateid | None = None

    @property
    def locker(self) -> bytes:
        """The name of the lock owner that locks by it."""
        return b"l%b%d" % (self.owner, self.file)


@dataclass
class Sender:
    """A client: its number, its next sequence ids, and what it has."""

    server: Recorder
    name: bytes
    dice: random.Random
    number: int = 0
    next: dict[bytes, int] = field(default_factory=dict)
    opens: list[Opened] = field(default_factory=list)
    lent: list[tuple[int, Stateid]] = field(default_factory=list)
    # The lock owners that the server knows.
    known: set[bytes] = field(default_factory=set)
    boots: int = 0

    def begin(self) -> None:
        self.boots += 1
        arguments = wire.Setclientid(self.boots.to_bytes(8, "big"), self.name, CALLBACK)
        answer = self.apply(Opnum.SETCLIENTID, arguments, None).rest
        epoch, self.number, confirm = (int.from_bytes(answer[at : at + size], "big") for at, size in PARTS)
        self.apply(Opnum.SETCLIENTID_CONFIRM, wire.SetclientidConfirm(epoch, self.number, confirm), None)
        self.next, self.opens, self.lent, self.known = {}, [], [], set()

    def apply(self, opnum: Opnum, arguments: object, file: int | None) -> Result:
        self.server.renew_by(opnum, arguments)
        return self.server.apply(opnum, arguments, file, (0, 0))

    def seqid(self, owner: bytes, slip: int = 0) -> int:
        return self.next.setdefault(owner, 1) + slip

    def count(self, owner: bytes, status: Status) -> bool:
        """The request counted, if its status says so. Whether it was OK."""
        if status not in (Status.BAD_SEQID, Status.BAD_STATEID, Status.STALE_CLIENTID, Status.EXPIRED):
            self.next[owner] = self.next.get(owner, 0) + 1
        return status == Status.OK

    def open(self, slip: int) -> None:
        node = self.dice.choice([it for it, node in enumerate(self.server.tree.nodes) if node.is_file])
        parent, name = self.server.tree.nodes[node].parent, self.server.tree.nodes[node].name
        owner = b"pid%d" % self.dice.randrange(3)
        access, deny = self.dice.choice([(1, 0), (1, 0), (2, 0), (3, 0), (1, 2)])
        arguments = wire.Open(
            self.seqid(owner, slip), access, deny, OpenOwner(1, self.number, owner), NO_CREATE, Claim(0, name, None)
        )
        found = self.apply(Opnum.OPEN, arguments, parent)
        if not self.count(owner, found.status):
            return
        stateid = stateid_in(found.rest)
        self.note_delegation(node)
        if found.rest[39] & CONFIRM:
            confirmed = self.apply(Opnum.OPEN_CONFIRM, wire.OpenConfirm(stateid, self.seqid(owner)), node)
            if self.count(owner, confirmed.status):
                stateid = stateid_in(confirmed.rest)
        known = [it for it in self.opens if (it.owner, it.file) == (owner, node)]
        for it in known:
            it.stateid = stateid
        self.opens += [] if known else [Opened(owner, node, stateid)]

    def note_delegation(self, node: int) -> None:
        held = [it for it in self.server.delegations if (it.client, it.file) == (self.number, node)]
        lent = [(node, Stateid(1, 1, self.number, it.number)) for it in held]
        self.lent += [it for it in lent if it not in self.lent]

    def lock(self, slip: int) -> None:
        if not self.opens:
            return
        it = self.dice.choice(self.opens)
        name, first, locktype = it.locker, 10 * self.dice.randrange(8), self.dice.choice([1, 2])
        seqid = self.seqid(name)
        locker: NewLocker | KnownLocker
        if it.locked is None:
            locker = NewLocker(self.seqid(it.owner, slip), it.stateid, seqid, LockOwner(1, self.number, name))
        else:
            locker = KnownLocker(it.locked, seqid + slip)
        found = self.apply(Opnum.LOCK, wire.Lock(locktype, 0, first, 30, locker), it.file)
        is_ok = self.count(name if it.locked else it.owner, found.status)
        if it.locked is None and (is_ok or name in self.known and found.status in COUNTED):
            self.count(name, found.status)
        if is_ok:
            self.known.add(name)
            it.locked = stateid_in(found.rest)

    def unlock(self, slip: int) -> None:
        held = [it for it in self.opens if it.locked is not None]
        if held:
            it = self.dice.choice(held)
            assert it.locked is not None
            found = self.apply(
                Opnum.LOCKU, wire.Locku(1, self.seqid(it.locker, slip), it.locked, 0, 2**64 - 1), it.file
            )
            if self.count(it.locker, found.status):
                it.locked = stateid_in(found.rest)

    def move(self, _slip: int) -> None:
        """Bytes of a file, read or written."""
        if self.opens:
            it = self.dice.choice(self.opens)
            if self.dice.random() < 0.5:
                self.apply(Opnum.READ, wire.Read(it.stateid, 0, 64), it.file)
            else:
                self.apply(Opnum.WRITE, wire.Write(it.stateid, self.dice.randrange(64), 0, b"x" * 60), it.file)

    def close(self, slip: int) -> None:
        if self.opens:
            it = self.dice.choice(self.opens)
            found = self.apply(Opnum.CLOSE, wire.Close(self.seqid(it.owner, slip), it.stateid), it.file)
            if self.count(it.owner, found.status):
                self.opens.remove(it)

    def give_back(self, _slip: int) -> None:
        if self.lent:
            node, stateid = self.lent.pop(0)
            self.apply(Opnum.DELEGRETURN, wire.Delegreturn(stateid), node)

    def step(self, slip: int = 0) -> None:
        kinds = [self.open, self.open, self.lock, self.unlock, self.move, self.move, self.close, self.give_back]
        self.dice.choice(kinds)(slip)


# Refusals that count.
COUNTED = Status.DENIED, Status.OPENMODE
PARTS = [(0, 4), (4, 4), (8, 8)]


def stateid_in(rest: bytes) -> Stateid:
    return Stateid(*(int.from_bytes(rest[at : at + 4], "big") for at in range(0, 16, 4)))


def busy(count: int, names: list[str] | None = None, bad: str = "delta", seed: int = 1) -> Journal:
    """A run of so many entries, or some more."""
    dice, server = random.Random(seed), Recorder(Tree(DOCUMENT), LEASE, 1)
    senders = [Sender(server, name.encode(), dice) for name in names or NAMES]
    for sender in senders:
        sender.begin()
    silent = [(0.3 * count, 0.4 * count), (0.6 * count, 0.65 * count)]
    while server.entries < count:
        if dice.randrange(PACE) == 0:
            server.moment += 1
            server.sweep(server.moment)
        sender = dice.choice(senders)
        is_bad = sender.name == bad.encode()
        if is_bad and any(begin < server.entries < end for begin, end in silent):
            continue
        if sender.number not in server.renewals and (not is_bad or server.entries > 0.75 * count):
            sender.begin()
        sender.step(int(is_bad and server.entries > 0.02 * count and dice.random() < 0.5))
    return server.journal()
