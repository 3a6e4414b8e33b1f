"""The whole state of a server, and what several operations ask of it. Sections are those of RFC 7530."""
from collections.abc import Callable
from dataclasses import dataclass, field
from typing import Any

from nfs4tools.model.state_parts import (
    ClientRecord,
    Delegation,
    FULL,
    GENERATIONS,
    KeptState,
    LockState,
    NOT_LIVE,
    OpenState,
    Owner,
    OwnerName,
    Recall,
    Refusal,
    SLOTS,
    UNKNOWN,
    UP,
    Unchanged,
    expect_seqid,
    is_special,
    next_seqid,
    slot_of,
)
from nfs4tools.model.tree import CLIENTS, NAME_LIMIT, Tree
from nfs4tools.wire import Principal, Stateid, Status, u32

OWNERS_LIMIT = 16384
STATES_LIMIT = 65536
JOURNAL_LIMIT = 1000000


@dataclass
class State:
    """The files, and all that is kept of clients, owners, opens, locks and delegations."""

    tree: Tree = field(default_factory=Tree)
    lease: int = 90
    epoch: int = 1
    journal_limit: int = JOURNAL_LIMIT
    # The time of the calls that come, in seconds.
    moment: int = 0
    records: list[ClientRecord] = field(default_factory=list)
    open_owners: dict[OwnerName, Owner] = field(default_factory=dict)
    lock_owners: dict[OwnerName, Owner] = field(default_factory=dict)
    opens: list[OpenState] = field(default_factory=list)
    lock_states: list[LockState] = field(default_factory=list)
    delegations: list[Delegation] = field(default_factory=list)
    # All recalls of the run, in the order in which the delegations were called back, and how many of them were taken.
    recalls: list[Recall] = field(default_factory=list)
    taken: int = 0
    entries: int = 0
    # How many clients were given each slot so far.
    generations: list[int] = field(default_factory=lambda: [0] * SLOTS)
    last_state: int = 0
    last_confirm: int = 0
    # When each live client's lease was opened or renewed last, by the client's number.
    renewals: dict[int, int] = field(default_factory=dict)
    # Of the files that were changed, by their numbers: their bytes by now, and how many operations changed them.
    texts: dict[int, bytes] = field(default_factory=dict)
    changes: dict[int, int] = field(default_factory=dict)

    def is_for_clients(self) -> bool:
        """Whether there is also what the programs of real clients ask for."""
        return self.tree.policy.profile == CLIENTS

    def text_of(self, node: int) -> bytes:
        """The bytes of a file by now; those of a directory are none."""
        return self.texts.get(node, self.tree.nodes[node].text)

    def named(self, directory: int, name: bytes, missing: Status) -> int:
        """The node of this name."""
        if self.tree.is_file(directory):
            raise Refusal(Status.NOTDIR)
        if name == b"":
            raise Refusal(Status.INVAL)
        if len(name) > NAME_LIMIT:
            raise Refusal(Status.NAMETOOLONG)
        node = self.tree.child(directory, name)
        if node is None:
            raise Refusal(missing)
        return node

    # Entries of the journal.

    def expect_entry(self) -> None:
        """The journal has room for one more."""
        if self.entries >= self.journal_limit:
            raise Unchanged(FULL)

    def enter(self) -> int:
        """Makes the entry of a change that was made: its number."""
        self.entries += 1
        return self.entries - 1

    # Clients (sections 9.1.1 and 9.1.2).

    def record_where(self, is_confirmed: bool, test: Callable[[ClientRecord], bool]) -> ClientRecord | None:
        return next((it for it in self.records if it.is_confirmed == is_confirmed and test(it)), None)

    def live_record(self, number: int) -> ClientRecord:
        """The record of a client that is live."""
        return next(it for it in self.records if it.is_confirmed and it.number == number)

    def has_state(self, number: int) -> bool:
        """Whether the client has an open or a delegation; a lock state has an open of the same client."""
        return any(it.client == number for it in self.states())

    def states(self) -> list[KeptState]:
        return [*self.opens, *self.lock_states, *self.delegations]

    def opens_of(self, file: int) -> list[OpenState]:
        return [it for it in self.opens if it.file == file]

    def lock_states_of(self, file: int) -> list[LockState]:
        return [it for it in self.lock_states if it.file == file]

    def is_live(self, number: int) -> bool:
        """Whether the client is confirmed: it has a lease then."""
        return number in self.renewals

    def was_given(self, number: int) -> bool:
        return slot_of(number) != 0 and number // SLOTS < self.generations[slot_of(number)]

    def expect_client(self, epoch: int, number: int) -> None:
        if epoch != self.epoch or not self.is_live(number):
            raise Refusal(Status.STALE_CLIENTID)

    def expect_live(self, number: int) -> None:
        if not self.is_live(number):
            raise Unchanged(NOT_LIVE)

    def drop(self, record: ClientRecord | None) -> None:
        self.records = [it for it in self.records if it is not record]

    def new_number(self, replaced: ClientRecord | None) -> int:
        """A number of the least slot that no record has, but for the one that is replaced, if there is one; or of the
        slot of the record that gives way. Records stand in the order of their arrival."""
        others = [it for it in self.records if it is not replaced]
        taken = {slot_of(it.number) for it in others}
        slot = next((it for it in range(1, SLOTS) if it not in taken and self.has_generation(it)), None)
        if slot is None:
            oldest = next((it for it in others if self.can_give_way(it)), None)
            if oldest is None:
                raise Refusal(Status.RESOURCE)
            slot = slot_of(oldest.number)
            self.give_way(oldest)
        self.generations[slot] += 1
        return (self.generations[slot] - 1) * SLOTS + slot

    def has_generation(self, slot: int) -> bool:
        """Whether one is left that wasn't given."""
        return self.generations[slot] < GENERATIONS

    def can_give_way(self, record: ClientRecord) -> bool:
        """Whether it is unconfirmed, and no update of a live client."""
        return not (record.is_confirmed or self.is_live(record.number)) and self.has_generation(slot_of(record.number))

    def give_way(self, record: ClientRecord) -> None:
        """A record leaves its slot to another id."""
        self.drop(record)

    def confirm_record(self, record: ClientRecord, principal: Principal) -> None:
        if record.principal != principal:
            raise Refusal(Status.CLID_INUSE)
        old = self.record_where(True, lambda it: it.id == record.id)
        if old is not None and old.number != record.number:
            if old.principal != principal and self.has_state(old.number):
                raise Refusal(Status.CLID_INUSE)
            self.remove_client(old.number)
        self.records = [it for it in self.records if it is not old]
        record.is_confirmed = True
        record.path = UP if self.tree.policy.callbacks == "assume" else UNKNOWN
        # The lease of a client that was live before stays as it is.
        self.renewals.setdefault(record.number, self.moment)

    def remove_client(self, number: int) -> None:
        """The client's records, owners, opens, lock states, delegations and lease are gone (section 9.1.2)."""
        self.renewals.pop(number, None)
        self.records = [it for it in self.records if it.number != number]
        self.open_owners = {name: owner for name, owner in self.open_owners.items() if name.client != number}
        self.lock_owners = {name: owner for name, owner in self.lock_owners.items() if name.client != number}
        self.opens = [it for it in self.opens if it.client != number]
        self.lock_states = [it for it in self.lock_states if it.client != number]
        self.delegations = [it for it in self.delegations if it.client != number]

    # Stateids (section 9.1.4).

    def looked_up(self, stateid: Stateid) -> KeptState | None:
        """The open, lock state or delegation that the stateid's `other` names, or None where its client has no such
        state (section 9.1.4.4)."""
        if is_special(stateid):
            raise Refusal(Status.BAD_STATEID)
        if stateid.epoch != self.epoch:
            raise Refusal(Status.STALE_STATEID)
        if not self.was_given(stateid.client):
            raise Refusal(Status.BAD_STATEID)
        if not self.is_live(stateid.client):
            raise Refusal(Status.EXPIRED)
        return next((it for it in self.states() if (it.client, it.number) == (stateid.client, stateid.number)), None)

    def state_of(self, kind: Any, stateid: Stateid, file: int) -> Any:
        """The state of this kind, or of one of these, that the stateid names on the file, but for its seqid."""
        found = self.looked_up(stateid)
        if not isinstance(found, kind) or found.file != file:
            raise Refusal(Status.BAD_STATEID)
        return found

    def open_of(self, stateid: Stateid, file: int, of_unconfirmed: bool = False) -> OpenState:
        """The open that the stateid names on the file, by all its parts."""
        found: OpenState = self.state_of(OpenState, stateid, file)
        if not of_unconfirmed and not self.open_owners[found.owner].is_confirmed:
            raise Refusal(Status.BAD_STATEID)
        expect_seqid(stateid, found)
        return found

    def lock_state_of(self, stateid: Stateid, file: int) -> LockState:
        """The lock state that the stateid names on the file, by all its parts."""
        found: LockState = self.state_of(LockState, stateid, file)
        expect_seqid(stateid, found)
        return found

    def answer_stateid(self, found: OpenState | LockState) -> bytes:
        """The stateid of a state after an operation on it: its seqid is one more."""
        found.seqid = next_seqid(found.seqid)
        return self.spelled(found)

    def spelled(self, found: KeptState) -> bytes:
        return u32(found.seqid, self.epoch, found.client, found.number)

    # New states.

    def expect_room(self, states: int, is_new_owner: bool) -> None:
        """The limits have places for so many new states, and for their owner."""
        if len(self.opens) + len(self.lock_states) + len(self.delegations) + states > STATES_LIMIT:
            raise Refusal(Status.RESOURCE)
        if is_new_owner and len(self.open_owners) + len(self.lock_owners) >= OWNERS_LIMIT:
            raise Refusal(Status.RESOURCE)

    def next_number(self) -> int:
        """That of a new state."""
        self.last_state += 1
        return self.last_state
