"""A model that follows a journal and knows of what there is, and of what there was, which entries gave, moved, recalled
and ended it. `reasons` and `events.py` ask it."""
from collections.abc import Callable, Iterable, Sequence
from dataclasses import dataclass, field
from typing import Any, NamedTuple

from nfs4tools.journal.entries import Call
from nfs4tools.journal.journal import Recorder
from nfs4tools.model.sequenced import NOT_COUNTED
from nfs4tools.model.server import OPERATIONS, Subject
from nfs4tools.model.state_parts import (
    ClientRecord,
    Delegation,
    KeptState,
    LockState,
    OpenState,
    Owner,
    OwnerName,
    Refusal,
    Request,
    Result,
    is_first_lock,
    sequence_id_of,
    stateid_of,
)
from nfs4tools.wire import Opnum, Principal, READ, Stateid, Status, WRITE

# An owner and its kind: an open owner and a lock owner of one name are equal as tuples.
OwnerKey = tuple[type, OwnerName]


class Introduction(NamedTuple):
    """A SETCLIENTID that was answered OK: its entry, and the record that it made."""

    entry: int
    record: ClientRecord


def key_of(owner: OwnerName) -> OwnerKey:
    return type(owner), owner


@dataclass(frozen=True)
class Uncounted:
    """A sequenced request whose refusal didn't count: the client and the owner that it leads to, or None, and the
    sequence id by which it is that owner's."""

    entry: int
    client: int | None
    owner: OwnerName | None
    sequence_id: int
    status: Status


@dataclass
class History(Recorder):
    """A server with the numbers of entries: all of these are kept to the end, also of what is gone."""

    # By the confirm value; and of those whose records gave way, to which entry's client.
    introductions: dict[int, Introduction] = field(default_factory=dict)
    yielded: dict[int, int] = field(default_factory=dict)
    # Of clients, by their numbers: the id of the SETCLIENTID that gave them; which entry removed them, and which marked
    # their paths last.
    ids: dict[int, bytes] = field(default_factory=dict)
    removals: dict[int, int] = field(default_factory=dict)
    path_marks: dict[int, int] = field(default_factory=dict)
    # Of open owners: which entry confirmed them.
    owner_confirmations: dict[OwnerName, int] = field(default_factory=dict)
    # The opens, lock states and delegations, by their numbers; and which entries gave them, gave their seqid, recalled
    # them, and ended them.
    given: dict[int, KeptState] = field(default_factory=dict)
    begun: dict[int, int] = field(default_factory=dict)
    moved: dict[int, int] = field(default_factory=dict)
    recalled: dict[int, int] = field(default_factory=dict)
    ended: dict[int, int] = field(default_factory=dict)
    # Of delegations that were recalled: the first mark of the client's path behind that, and whether it was up. The
    # recalls of a client are sent one after the other, so each mark is taken for that of the first that has none.
    recall_marks: dict[int, tuple[int, bool]] = field(default_factory=dict)
    # Of owners: their refusals that didn't count; and the last one of each client, whichever its owner is.
    uncounted: dict[OwnerKey, list[Uncounted]] = field(default_factory=dict)
    last_uncounted: dict[int, Uncounted] = field(default_factory=dict)
    # Of opens, by their numbers: of each pair of access and deny, which entry brought it.
    pairs: dict[int, dict[tuple[int, int], int]] = field(default_factory=dict)
    # Of opens, by their stateids without the seqid: which entry forgot the owner whose kept request closed it.
    forgotten: dict[Sequence[int], int] = field(default_factory=dict)
    # The numbers of the states that there are; the opens among them by their files, as long as the server has this list
    # of opens; and the numbers of all states that owners had, and of all lock states of opens.
    present: set[int] = field(default_factory=set)
    opens_by_file: dict[int, dict[int, OpenState]] = field(default_factory=dict)
    listed_opens: list[OpenState] = field(default_factory=list)
    # The lock states likewise.
    locks_by_file: dict[int, dict[int, LockState]] = field(default_factory=dict)
    listed_locks: list[LockState] = field(default_factory=list)
    states_of: dict[OwnerKey, set[int]] = field(default_factory=dict)
    locks_of: dict[int, set[int]] = field(default_factory=dict)

    def result_of(self, opnum: Opnum, arguments: Any, filehandle: int | None, principal: Principal) -> Result:
        entry, opens = self.entries, self.opens
        result = super().result_of(opnum, arguments, filehandle, principal)
        if opnum == Opnum.OPEN and self.opens is not opens:
            left = {it.number for it in self.opens if it.owner == arguments.owner}
            self.note_ends(self.states_of.get(key_of(arguments.owner), set()) - left, entry)
        elif opnum in ENDED_BY and result.status == Status.OK:
            self.note_ends(ENDED_BY[opnum](self, arguments), entry)
        is_uncounted = result.status in NOT_COUNTED and result.status != Status.RESOURCE
        if is_uncounted and OPERATIONS[opnum].subject == Subject.REQUEST:
            self.note_uncounted(entry, Request(opnum, arguments, filehandle), result.status)
        return result

    def note_uncounted(self, entry: int, request: Request, status: Status) -> None:
        """The request was refused, and its owner's sequence id stays as it was."""
        named = request.arguments.owner if request.opnum == Opnum.OPEN else stateid_of(request.opnum, request.arguments)
        client = named.client if named.epoch == self.epoch and self.is_live(named.client) else None
        try:
            owner = self.owner_of(request)
        except Refusal:
            owner = None
        found = Uncounted(entry, client, owner.name if owner else None, sequence_id_of(request), status)
        if client is not None:
            self.last_uncounted[client] = found
        if owner is not None:
            self.uncounted.setdefault(key_of(owner.name), []).append(found)
        locker = request.arguments.locker if is_first_lock(request) else None
        if locker is not None and locker.owner in self.lock_owners:
            found = Uncounted(entry, client, locker.owner, locker.lock_seqid, status)
            self.uncounted.setdefault(key_of(locker.owner), []).append(found)

    def uncounted_since(self, owner: Owner) -> tuple[Uncounted, ...]:
        """The owner's refusals that didn't count, behind the last request that did."""
        found = [it for it in self.uncounted.get(key_of(owner.name), []) if it.entry > owner.kept.entry]
        self.uncounted[key_of(owner.name)] = found
        return tuple(found)

    def note_ends(self, states: Iterable[int], entry: int) -> None:
        """The entry ended these states, as far as they weren't gone before."""
        ended = self.present.intersection(states)
        self.ended.update((number, entry) for number in ended)
        self.present -= ended
        for number in ended:
            file = self.given[number].file
            self.opens_by_file.get(file, {}).pop(number, None)
            self.locks_by_file.get(file, {}).pop(number, None)
        self.listed_opens, self.listed_locks = self.opens, self.lock_states

    def opens_of(self, file: int) -> list[OpenState]:
        """As the model does it, but without going through all opens if none has gone in this entry."""
        if self.opens is self.listed_opens:
            return list(self.opens_by_file.get(file, {}).values())
        return super().opens_of(file)

    def lock_states_of(self, file: int) -> list[LockState]:
        """Likewise."""
        if self.lock_states is self.listed_locks:
            return list(self.locks_by_file.get(file, {}).values())
        return super().lock_states_of(file)

    def looked_up(self, stateid: Stateid) -> KeptState | None:
        """As the model does it, but without going through all states for one that is there."""
        found = self.given[stateid.number] if stateid.number in self.present else None
        if found is not None and (self.epoch, found.client) == stateid[1:3]:
            return found
        return super().looked_up(stateid)

    def effect(self, opnum: Opnum, arguments: Any, subject: Any) -> bytes:
        rest = super().effect(opnum, arguments, subject)
        if opnum == Opnum.SETCLIENTID:
            record = self.records[-1]
            self.introductions[self.last_confirm] = Introduction(self.entries, record)
            self.ids[record.number] = record.id
        elif opnum == Opnum.OPEN_CONFIRM:
            found = self.given[arguments.stateid.number]
            assert isinstance(found, OpenState)
            self.owner_confirmations[found.owner] = self.entries
        return rest

    def give_way(self, record: ClientRecord) -> None:
        super().give_way(record)
        self.yielded[record.confirm] = self.entries

    def confirm_record(self, record: ClientRecord, principal: Principal) -> None:
        super().confirm_record(record, principal)
        self.path_marks[record.number] = self.entries

    def mark_path(self, number: int, is_up: int) -> int:
        entry = super().mark_path(number, is_up)
        self.path_marks[number] = entry
        recalled = [
            it.number
            for it in self.delegations
            if it.client == number and it.recalled is not None and it.number not in self.recall_marks
        ]
        if recalled:
            first = min(recalled, key=lambda state: (self.recalled[state], state))
            self.recall_marks[first] = entry, bool(is_up)
        return entry

    def remove_client(self, number: int) -> None:
        super().remove_client(number)
        self.removals[number] = self.entries
        self.note_ends([state for state in self.present if self.given[state].client == number], self.entries)

    def recall(self, held: list[Delegation]) -> None:
        self.recalled.update((it.number, self.entries) for it in held if it.recalled is None)
        super().recall(held)

    def revoke(self, now: int) -> int | None:
        found, entry = self.due(now), super().revoke(now)
        if found is not None and entry is not None:
            self.note_ends([found.number], entry)
        return entry

    def forget_owner(self, owner: Owner, now: int) -> int:
        entry, request = super().forget_owner(owner, now), owner.kept.request
        if request.opnum == Opnum.CLOSE and owner.kept.answer.status == Status.OK:
            self.forgotten[request.arguments.stateid[1:]] = entry
        return entry

    def spelled(self, found: KeptState) -> bytes:
        """This entry gives the state's stateid."""
        if found.number not in self.given:
            self.note_begin(found)
        self.moved[found.number] = self.entries
        if isinstance(found, OpenState):
            before = self.pairs.get(found.number, {})
            if list(before) != found.pairs:
                self.pairs[found.number] = {pair: before.get(pair, self.entries) for pair in found.pairs}
        return super().spelled(found)

    def note_begin(self, found: KeptState) -> None:
        if not self.given:
            self.listed_opens, self.listed_locks = self.opens, self.lock_states
        self.given[found.number] = found
        self.begun[found.number] = self.entries
        self.present.add(found.number)
        if not isinstance(found, Delegation):
            self.states_of.setdefault(key_of(found.owner), set()).add(found.number)
        if isinstance(found, OpenState):
            self.opens_by_file.setdefault(found.file, {})[found.number] = found
        if isinstance(found, LockState):
            self.locks_by_file.setdefault(found.file, {})[found.number] = found
            self.locks_of.setdefault(found.open.number, set()).add(found.number)

    def entry_words(self, number: int) -> str:
        """An entry by its number, and the operation that it is of."""
        entry = self.recorded[number]
        return f"entry {number} ({entry.opnum.name})" if isinstance(entry, Call) else f"entry {number}"

    def since(self, opened: OpenState, side: int, modes: int) -> int:
        """Which entry brought the last of these modes to what the open has on this side of its pairs: 0 is its
        access, 1 its deny."""
        pairs = self.pairs[opened.number].items()
        return max(min(entry for pair, entry in pairs if pair[side] & mode) for mode in (READ, WRITE) if modes & mode)


# Which states may end by an operation that is OK, beside those of an owner that an OPEN starts anew.
ENDED_BY: dict[Opnum, Callable[[History, Any], Iterable[int]]] = {
    Opnum.CLOSE: lambda server, it: {it.stateid.number, *server.locks_of.get(it.stateid.number, ())},
    Opnum.DELEGRETURN: lambda _, it: {it.stateid.number},
    Opnum.RELEASE_LOCKOWNER: lambda server, it: server.states_of.get(key_of(it.owner), set()),
}
