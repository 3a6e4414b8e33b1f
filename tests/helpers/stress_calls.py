"""The calls of plans under stress (`stress_plan.py`), and what a connection knows of its opens, locks and
delegations."""
import random
from collections.abc import Sequence
from dataclasses import dataclass
from typing import Any, NamedTuple

from nfs4tools.messages import COMPOUND, call, handle
from nfs4tools.model.state_parts import SLOTS
from nfs4tools.model.tree import DEFAULT
from nfs4tools.wire import Opnum, opaque, u32, u64

LEASE, EPOCH, PACE = 20, 7, 20
# How many bytes a read brings at most: most calls in a few pieces; or many calls at once.
PIECES = SMALL, LARGE = 100, 8_000
LINKS = 64
# Clients that are used all the time. Two more are used by nobody when they have been made.
CLIENTS = 6
# Clients that are used for a while, each by one kind of operation that renews its lease: by each link, the first of
# them among its first FADE calls, the next one among twice as many, and so on.
FADING = {
    9: "renew",
    10: "lockt",
    11: "release",
    12: "open",
    13: "open_confirm",
    14: "open_downgrade",
    15: "close",
    16: "first_lock",
    17: "next_lock",
    18: "locku",
    19: "delegreturn",
    20: "read",
    21: "write",
    22: "setattr",
}
FADE = 5
# How many clients the connection makes that comes alone.
MADE = max(FADING)
# How often a client comes that begins anew each time; and the first of the two slots between which it goes: behind
# those of all clients, or, once these have ended, that of the first client which nobody uses.
VISITS, BEHIND, UNUSED = 10, MADE + 1, CLIENTS + 1
VERIFIER = b"verifier"
READ, WRITE, BOTH = 1, 2, 3
# The nodes of the tree's files, with their paths. Several clients always have these open for writing, so that none of
# them is lent.
FILES = {1: (b"a",), 2: (b"b",), 4: (b"d", b"c")}
# The nodes and names of those that are lent: some to all who read them, and one to each client, which writes it.
LENT_FOR_READING = {5 + number: b"read %d" % number for number in range(4)}
LENT_FOR_WRITING = {8 + client: b"written %d" % client for client in range(1, CLIENTS + 1)}
LENT = LENT_FOR_READING | LENT_FOR_WRITING
# What a CLOSE does where bytes are locked, by how many bytes a read brings.
CLOSE_LOCKS = {SMALL: "free", LARGE: "refuse"}
DOCUMENT = 'policy = {{ callbacks = "assume", close_locks = "{}", profile = "clients" }}\n' + DEFAULT
DOCUMENT += "".join(f'[[file]]\npath = "{name.decode()}"\n' for name in LENT.values())
# The bytes that everybody locks; each link has as many of its own above them.
COMMON = 100
# Bytes of files are read and written, and sizes are set, at offsets below this.
BYTES = 400
# How many bytes are read or written at most; and what a few of the READs ask for.
MOST_BYTES = 60
MORE_BYTES = 3_000
# What a few sizes are set to, which is in another page.
MORE_SIZE = 5_000
# What is asked of a directory's children: change, size and fileid; and how many bytes a listing of them may have.
LISTED, ROOMS = u32(1, 0x100018), (16, 60, 200, 1_000, 4_096)
# The stateid that stands for no state.
SPECIAL = bytes(16)
# Operations that stand together, and whether one of them may be refused.
Chunk = tuple[list[bytes], bool]


@dataclass
class Lock:
    """A lock state as its link knows it: its number, the seqids that it may have, and the last sequence id of its
    owner."""

    owner: bytes
    number: int
    seqids: list[int]
    last: int = 1


class Delegation(NamedTuple):
    """A delegation: whose it is, on which file, and its number."""

    client: int
    file: int
    number: int


@dataclass
class Lender:
    """An open owner that opens files which are lent, and its last sequence id."""

    client: int
    owner: bytes
    last: int = 0


@dataclass
class Open:
    """An open as its link knows it: the owner's client and name, its number and its pairs, the seqid of its stateid,
    and the last sequence id of its owner."""

    client: int
    owner: bytes
    file: int
    number: int
    pairs: list[tuple[int, int]]
    seqid: int = 2
    last: int = 2
    # A Lock, or None.
    lock: Any = None
    base: int = 0


def stateid(seqid: int, client: int, number: int) -> bytes:
    return u32(seqid, EPOCH, client, number)


def spelled(client: int, name: bytes) -> bytes:
    return u32(EPOCH, client) + opaque(name)


def span(offset: int, length: int) -> bytes:
    return u64(offset) + u64(length)


def confirm(number: int, value: int) -> bytes:
    return u32(Opnum.SETCLIENTID_CONFIRM, EPOCH, number) + u64(value)


def putfh(file: int) -> bytes:
    return u32(Opnum.PUTFH) + handle(file)


def way_to(file: int) -> list[bytes]:
    """The operations that make the file's directory the current filehandle."""
    return [u32(Opnum.PUTROOTFH)] + [u32(Opnum.LOOKUP) + opaque(name) for name in FILES[file][:-1]]


def open_of(one: Any, seqid: int, access: int, deny: int, claim: bytes | None = None) -> bytes:
    """An OPEN by this owner, of its open's file or by another claim."""
    words = u32(Opnum.OPEN, seqid, access, deny) + spelled(one.client, one.owner) + u32(0)
    return words + (claim or claim_null(FILES[one.file][-1]))


def claim_null(name: bytes) -> bytes:
    return u32(0) + opaque(name)


def open_lent(lender: Lender, access: int, name: bytes) -> list[bytes]:
    """The next OPEN by this owner, of a file in the root."""
    lender.last += 1
    return [u32(Opnum.PUTROOTFH), open_of(lender, lender.last, access, 0, claim_null(name))]


def last_close(one: Open) -> bytes:
    """The one by which an owner without an open has closed it."""
    return u32(Opnum.CLOSE, 3) + stateid(2, one.client, one.number)


def first_lock(one: Open, name: bytes, kind: int, offset: int, length: int) -> bytes:
    """A LOCK of a new lock owner: the next request of the open's owner, and the first of the lock owner's."""
    locker = u32(1, one.last + 1) + stateid(one.seqid, one.client, one.number) + u32(1) + spelled(one.client, name)
    return u32(Opnum.LOCK, kind, 0) + span(offset, length) + locker


def compounds(chunks: list[Chunk], chance: random.Random, uids: Sequence[int | None] = (None,)) -> bytes:
    """Records of calls with these operations, which stand in lists that aren't cut, by one of these users each."""
    records: list[bytes] = []
    taken: list[bytes] = []
    last = len(chunks) - 1
    for place, (operations, may_fail) in enumerate(chunks):
        taken += operations
        if may_fail or place == last or len(taken) > 40 or chance.random() < 0.3:
            arguments = u32(0, 0, len(taken)) + b"".join(taken)
            records.append(call(len(records) + 1, COMPOUND, arguments, chance.choice(uids)))
            taken = []
    return b"".join(records)


def numbers_of(visit: int) -> list[int]:
    """Those that the visitor may have then: where all its visits were behind the other clients, and where those from a
    later one on are in slots whose clients have ended."""
    behind = BEHIND + (visit - 1) % 2 + SLOTS * ((visit - 1) // 2)
    return [behind] + [UNUSED + turn % 2 + SLOTS * (1 + turn // 2) for turn in range(visit)]
