"""Rows for a server that goes on: what a row has as a clientid, a confirm value, a stateid or a filehandle is taken
for a name, which the server's first answer that has it binds to a number of the server's; calls and wanted replies
have that number in its place from then on.

Names are one row's: the ids of its clients end with a word, and their verifiers are no other row's. Whoever sends the
row has them begin anew at its end, which leaves nothing of it; so a later row may have the same word."""
import itertools
import os
from collections.abc import Sequence
from typing import Any, NamedTuple

from nfs4tools.messages import GETFH, PUTFH, PUTROOTFH, compound, lookup, setclientid
from nfs4tools.processes import Peer
from nfs4tools.rows.row import Row
from nfs4tools.send.replies import (
    CLIENTID,
    CONFIRM,
    DISTINCT,
    Exact,
    FREE,
    HANDLE,
    Kind,
    Result,
    STATEID,
    Value,
    XID,
    name_of,
    values_of,
)
from nfs4tools.wire import FORMS, OWNER_LIMIT, Putfh, Setclientid, SetclientidConfirm, Stateid, opaque, u32, u64

# The default tree's nodes by their numbers.
PATHS = [(), (b"a",), (b"b",), (b"d",), (b"d", b"c")]
# What no server is known to begin with: where a row has a number that was never given, it is above this one.
STRANGE = 0x7FFF0000
NO_STATE, ALL_ONES = bytes(12), b"\xff" * 12


class Operation(NamedTuple):
    """An operation of a call: its number, its arguments, and its bytes with the number."""

    number: int
    arguments: Any
    data: bytes


class Site(NamedTuple):
    """A server that goes on: its address; the uid of calls that have no credential, or None; the filehandle that
    stands for that of the root, or None; the filehandles of the rows with those of the server; and the upper half
    of its clientids."""

    address: tuple[str, int]
    uid: int | None
    root: bytes | None
    handles: dict[bytes, bytes]
    epoch: int


# What is bound to something of the server's: the name of its kind, and what the row has.
Bound = tuple[str, Any]


class NoSite(Exception):
    """The server hasn't what rows want; the argument says what."""


# Servers.


def ask(peer: Peer, *operations: bytes, uid: int | None) -> list[Result]:
    """The results of these operations, of which each is wanted to be OK."""
    peer.send(compound(1, *operations, uid=uid))
    got = values_of(peer.receive())
    if len(got.results) == len(operations) and all(result.values[0].value == 0 for result in got.results):
        return got.results
    if not got.results:
        raise NoSite(", ".join(f"{what} {kind.show(value)}" for what, kind, value in got.head[2:]) or "no reply")
    last = got.results[-1]
    raise NoSite(f"{name_of(last.number)} is {last.values[0].kind.show(last.values[0].value)}")


def learn(address: tuple[str, int], path: Sequence[bytes] = (), uid: int | None = None) -> Site:
    """What there is to know of a server before a row is sent. The rows' root is the directory at this path."""
    with Peer(address) as peer:
        handles = {}
        for node, names in enumerate(PATHS):
            way = [u32(PUTROOTFH)] + [lookup(name) for name in (*path, *names)]
            try:
                handles[b"nfh1" + u32(node)] = ask(peer, *way, u32(GETFH), uid=uid)[-1].values[1].value
            except NoSite as error:
                place = b"/".join((*path, *names)).decode(errors="replace")
                raise NoSite(f"/{place} can't be found: {error}") from None
        given = ask(peer, setclientid(os.urandom(8), b"send_rows " + os.urandom(8).hex().encode()), uid=uid)
        clientid = given[0].values[1].value
    root = handles[b"nfh1" + u32(0)] if path else None
    return Site(address, uid, root, handles, int.from_bytes(clientid[:4], "big"))


class Names(Exact):
    """The names of a row, and what they are bound to. `word` is what its clients' ids end with."""

    xids = itertools.count(int.from_bytes(os.urandom(3), "big") << 7)

    def __init__(self, site: Site, row: Row, word: bytes) -> None:
        self.site, self.epoch, self.word, self.mask = site, row.epoch, word, os.urandom(8)
        self.tables: dict[str, dict[Any, Any]] = {HANDLE.name: dict(site.handles)}
        # The names that were looked for in vain.
        self.missing: set[Bound] = set()

    # What is bound.

    def table(self, kind: Kind) -> dict[Any, Any]:
        return self.tables.setdefault(kind.name, {})

    def is_same(self, kind: Kind, wanted: Any, got: Any) -> bool:
        """Whether it is; a name that isn't bound yet is bound to what came."""
        if kind.choice in (False, FREE):
            return kind.choice == FREE or bool(wanted == got)
        table = self.table(kind)
        if wanted not in table:
            if kind.choice == DISTINCT and got in table.values():
                return False
            table[wanted] = got
        return bool(table[wanted] == got)

    def shown(self, kind: Kind, wanted: Any) -> str:
        if not kind.choice:
            return kind.show(wanted)
        bound = self.table(kind).get(wanted)
        name = f"the row's {kind.show(wanted)}"
        return f"a new one ({name})" if bound is None else f"{kind.show(bound)} ({name})"

    def given_by(self, value: Value) -> set[Bound]:
        """The names that an answer with this value is the first to give: of a stateid also its beginning."""
        if value.kind.choice in (False, FREE) or value.value in self.table(value.kind):
            return set()
        names = {(value.kind.name, value.value)}
        return names | {(STATEID.name, value.value[:8])} if value.kind == STATEID else names

    # What is sent in the place of a name. One that isn't bound is something that the server hasn't given.

    def bound(self, kind: Kind, wanted: bytes, otherwise: bytes) -> bytes:
        found: bytes | None = self.table(kind).get(wanted)
        if found is None:
            self.missing.add((kind.name, wanted))
            return otherwise
        return found

    def other_epoch(self, epoch: int) -> int:
        """Another run's: not this server's, even where that has this one."""
        return self.epoch if epoch == self.site.epoch else epoch

    def clientid(self, epoch: int, number: int) -> bytes:
        if epoch != self.epoch:
            return u32(self.other_epoch(epoch), number)
        return self.bound(CLIENTID, u32(epoch, number), u32(self.site.epoch, STRANGE | number & 0xFFFF))

    def other(self, stateid: Stateid) -> bytes:
        """The last 12 bytes of a stateid."""
        wanted = u32(*stateid[1:])
        if wanted in (NO_STATE, ALL_ONES):
            return wanted
        clientid = self.clientid(stateid.epoch, stateid.client)
        if stateid.epoch != self.epoch:
            return clientid + u32(stateid.number)
        strange = u32(STRANGE | stateid.number & 0xFFFF)
        return self.bound(STATEID, wanted, self.beginning(wanted[:8], clientid) + strange)

    def beginning(self, wanted: bytes, clientid: bytes) -> bytes:
        """The first eight bytes of the stateids of a client, from one that was given: servers have the clientid there,
        but not all in the same order of bytes. Where none was given they are the clientid."""
        given: list[bytes] = [got for name, got in self.table(STATEID).items() if name[:8] == wanted]
        if given:
            return given[0][:8]
        self.missing.add((STATEID.name, wanted))
        return clientid

    def renamed(self, value: Any) -> Any:
        """Arguments, or a part of them, with what the server gave in the place of the row's names."""
        if isinstance(value, Stateid):
            return Stateid(value.seqid, *words_of(self.other(value)))
        if isinstance(value, Setclientid):
            return value._replace(verifier=self.own_verifier(value.verifier), id=self.own(value.id))
        if isinstance(value, Putfh):
            return Putfh(self.table(HANDLE).get(value.filehandle, value.filehandle))
        if hasattr(value, "_fields"):
            value = value._make(map(self.renamed, value))
            if "epoch" in value._fields:
                epoch, number = words_of(self.clientid(value.epoch, value.client))
                value = value._replace(epoch=epoch, client=number)
            if isinstance(value, SetclientidConfirm):
                strange = u64(STRANGE << 32 | value.confirm & 0xFFFFFFFF)
                found = self.bound(CONFIRM, u64(value.confirm), strange)
                value = value._replace(confirm=int.from_bytes(found, "big"))
        return value

    def xid(self, wanted: int, is_kept: bool = False) -> int:
        """A call's, which its reply has to have: if it isn't kept, one that no other call has."""
        found = wanted if is_kept else next(self.xids)
        self.table(XID)[wanted] = found
        return found

    def own(self, name: bytes) -> bytes:
        """A client's id with the word at its end. One that would be too long has it in the place of its end."""
        return name[: OWNER_LIMIT - len(self.word)] + self.word

    def own_verifier(self, verifier: bytes) -> bytes:
        """One that no other row has: so a client begins anew even where an earlier row left one of the same id."""
        return bytes(byte ^ change for byte, change in zip(verifier, self.mask))

    def spelled(self, operation: Operation) -> bytes:
        """The bytes of an operation with its names replaced; else as they are, also padding."""
        if operation.number == PUTROOTFH and self.site.root is not None:
            return u32(PUTFH) + opaque(self.site.root)
        spell = FORMS[operation.number].write
        plain = u32(operation.number) + spell(operation.arguments)
        new = u32(operation.number) + spell(self.renamed(operation.arguments))
        if len(new) != len(plain):
            return new
        return bytes(old if before == after else after for old, before, after in zip(operation.data, plain, new))


def words_of(data: bytes) -> list[int]:
    return [int.from_bytes(data[at : at + 4], "big") for at in range(0, len(data), 4)]
