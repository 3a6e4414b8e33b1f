"""Whom an entry is about: its client, its file and its owners, by what the entry names and what earlier answers gave.
No replay is needed for that."""
from collections.abc import Sequence
from typing import NamedTuple

from nfs4tools.journal.entries import Call, Expire, Forget, Path, Revoke, delegation_given
from nfs4tools.journal.entries import Entry as Recorded
from nfs4tools.journal.words import name_words
from nfs4tools.judge.clients import Named, named_in
from nfs4tools.model.state_parts import OwnerName, is_special
from nfs4tools.model.tree import Tree
from nfs4tools.wire import (
    CLAIM_PREVIOUS,
    KnownLocker,
    Lock,
    Lockt,
    NewLocker,
    Open,
    Opnum,
    ReleaseLockowner,
    Setclientid,
    Stateid,
    Status,
)

Owners = tuple[OwnerName, ...]
NOBODY: Owners = ()
# The operations whose answers give states to owners.
GIVING = {Opnum.OPEN, Opnum.LOCK}


class Parties(NamedTuple):
    """The name and the number of the client, the path of the file, and the owners, of which the first has the sequence
    id of the call."""

    client: str | None
    client_number: int | None
    path: str | None
    owners: Owners


def text_of(value: bytes) -> str:
    """A name as text, with \\xNN for bytes that are no text."""
    return name_words(value)[1:-1]


class Known:
    """What the answers so far gave: names of clients by their numbers, owners of states, and holders of delegations with
    the files. It says of each entry, in their order, whom it is about."""

    def __init__(self, epoch: int, tree: Tree) -> None:
        self.epoch, self.tree = epoch, tree
        self.names: dict[int, str] = {}
        self.owners: dict[int, Owners] = {}
        self.lent: dict[int, tuple[int, str | None]] = {}
        self.paths: dict[int, str] = {}
        self.children: dict[tuple[int, bytes], str] = {}

    def parties_of(self, entry: Recorded) -> Parties:
        """Whom the next entry is about."""
        match entry:
            case Call():
                return self.of_call(entry)
            case Revoke():
                number, path = self.lent.get(entry.state, (None, None))
                return Parties(self.name(number), number, path, NOBODY)
            case Forget():
                number = entry.owner.client
                return Parties(self.name(number), number, None, (entry.owner,))
        return Parties(self.name(entry.client), entry.client, None, NOBODY)

    def note(self, entry: Recorded) -> None:
        """Learns what the next entry gives, and no more."""
        if not isinstance(entry, Call) or entry.answer.status != Status.OK:
            return
        if entry.opnum == Opnum.SETCLIENTID:
            self.of_introduction(entry)
        elif entry.opnum in GIVING and entry.answer.number == entry.opnum:
            self.learn(entry, self.owners_of(entry.arguments, named_in(entry.arguments).stateid))

    def of_call(self, call: Call) -> Parties:
        arguments = call.arguments
        if isinstance(arguments, Setclientid):
            return self.of_introduction(call)
        named = named_in(arguments)
        number, path = self.number_of(named), self.path_of(call)
        found = Parties(self.name(number), number, path, self.owners_of(arguments, named.stateid))
        if call.answer.status == Status.OK and call.answer.number == call.opnum and call.opnum in GIVING:
            self.learn(call, found.owners)
        return found

    def of_introduction(self, call: Call) -> Parties:
        """SETCLIENTID: its answer gives the number to the id."""
        name, number = text_of(call.arguments.id), None
        if call.answer[:2] == (Opnum.SETCLIENTID, Status.OK):
            number = int.from_bytes(call.answer.rest[4:8], "big")
            self.names[number] = name
        return Parties(name, number, None, NOBODY)

    def learn(self, call: Call, owners: Owners) -> None:
        """Whose states an OPEN or a LOCK gives."""
        state = int.from_bytes(call.answer.rest[12:16], "big")
        self.owners[state] = owners[-1:] if len(owners) > 1 else owners
        given = delegation_given(call)
        if given is not None:
            self.lent[given[1].number] = given[1].client, self.path_of(call)

    def name(self, number: int | None) -> str | None:
        return None if number is None else self.names.get(number)

    def number_of(self, named: Named) -> int | None:
        """The client's number: that of the clientid, if the run gave it, or else that of the stateid."""
        clientid, stateid = named
        number = clientid[1] if clientid is not None and clientid[0] == self.epoch else None
        if number in self.names or stateid is None or stateid.epoch != self.epoch or is_special(stateid):
            return number
        return stateid.client if number is None or stateid.client in self.names else number

    def owners_of(self, arguments: object, stateid: Stateid | None) -> Owners:
        if isinstance(arguments, (Open, Lockt, ReleaseLockowner)):
            return (arguments.owner,)
        if isinstance(arguments, Lock):
            return self.owners_of_lock(arguments.locker)
        return NOBODY if stateid is None else self.owners_by(stateid)

    def owners_of_lock(self, locker: NewLocker | KnownLocker) -> Owners:
        if isinstance(locker, NewLocker):
            return *self.owners_by(locker.open_stateid), locker.owner
        return self.owners_by(locker.lock_stateid)

    def owners_by(self, stateid: Stateid) -> Owners:
        """The owner of the state that a stateid names."""
        found = self.owners.get(stateid.number, NOBODY)
        return found if found and stateid[1:3] == found[0][:2] else NOBODY

    def path_of(self, call: Call) -> str | None:
        """The path of the current filehandle; or that which an OPEN names by its directory."""
        node, arguments = call.filehandle, call.arguments
        if node is None:
            return None
        if isinstance(arguments, Open) and arguments.claim.kind != CLAIM_PREVIOUS:
            return self.child(node, arguments.claim.name)
        return self.path(node)

    def path(self, node: int) -> str:
        if node not in self.paths:
            self.paths[node] = path_of(node, self.tree)
        return self.paths[node]

    def child(self, directory: int, name: bytes) -> str:
        key = directory, name
        if key not in self.children:
            self.children[key] = f"{self.path(directory).rstrip('/')}/{text_of(name)}"
        return self.children[key]


def path_of(node: int, tree: Tree) -> str:
    """The path of a node from the root."""
    names: list[str] = []
    at = node
    while at:
        names.insert(0, text_of(tree.nodes[at].name))
        at = tree.nodes[at].parent
    return "/" + "/".join(names)


def moment_of(entry: Recorded) -> int | None:
    """The moment of an entry; the mark of a callback path has none."""
    if isinstance(entry, Call):
        return entry.moment
    return None if isinstance(entry, Path) else entry.now


def last_moment(entries: Sequence[Recorded], before: int = 0) -> int:
    """The moment of the last of these entries that has one, or that which came before them."""
    return next((moment for moment in map(moment_of, reversed(entries)) if moment is not None), before)


# What no call brought.
Event = Expire | Revoke | Path | Forget
