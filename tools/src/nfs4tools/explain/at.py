"""The state after an entry: clients with what is left of their leases, owners with their next sequence ids, opens, locks
and delegations; of all clients, or of some, of some owners or of some files."""
from collections.abc import Iterator, Sequence

from nfs4tools.explain.sentences import MODES, run_words
from nfs4tools.journal.entries import Call
from nfs4tools.journal.entries import Entry as Recorded
from nfs4tools.journal.history import History
from nfs4tools.journal.words import name_words, ordinal, place_words, purpose_of
from nfs4tools.model.state_parts import (
    ClientRecord,
    Delegation,
    KeptState,
    LockState,
    OpenState,
    Owner,
    SLOTS,
    next_sequence_id,
    slot_of,
)
from nfs4tools.explain.kinds import Reason
from nfs4tools.explain.replays import ExplainedEntry
from nfs4tools.runs.parties import path_of, text_of
from nfs4tools.runs.selection import Selection
from nfs4tools.wire import OpenOwner


class Renewals:
    """Looks at a replay: when the lease of each client was opened or renewed last, and by which entry. RENEW has no
    entry."""

    def __init__(self, server: History) -> None:
        self.server = server
        self.moment = 0
        self.last: dict[int, tuple[int, int]] = {}

    def before(self, number: int, entry: Recorded, _reason: Reason | None) -> None:
        self.moment = entry.moment if isinstance(entry, Call) else getattr(entry, "now", self.moment)
        if isinstance(entry, Call):
            client = self.server.renewed_by(entry.opnum, entry.arguments)
            if client is not None and client in self.server.renewals and self.moment >= self.last[client][0]:
                self.last[client] = self.moment, number

    def after(self, told: ExplainedEntry) -> None:
        for client in self.server.renewals.keys() - self.last.keys():
            self.last[client] = self.moment, told.number


class State:
    """The state of a server that followed a journal, as far as it is wanted."""

    def __init__(self, server: History, renewals: Renewals, selection: Selection) -> None:
        self.server, self.renewals, self.wanted = server, renewals, selection

    def lines(self) -> Iterator[str]:
        number = self.server.entries - 1
        yield f"after entry {number}, moment {self.renewals.moment}; the lease is {self.server.lease} s"
        records = [it for it in self.server.records if self.is_wanted_client(it)]
        for record in sorted(records, key=lambda it: (it.number, it.confirm)):
            below = list(self.of_client(record)) if record.is_confirmed else []
            if below or not (self.wanted.owners or self.wanted.paths):
                yield f"{self.title(record)}: {self.lease_words(record)}"
                yield from below

    def is_wanted_client(self, record: ClientRecord) -> bool:
        clients = self.wanted.clients
        return not clients or text_of(record.id) in clients or str(record.number) in clients

    def title(self, record: ClientRecord) -> str:
        which = record.number // SLOTS + 1
        slot = f" (slot {slot_of(record.number)}, {ordinal(which)})" if which > 1 else ""
        return f"client {name_words(record.id)}, number {record.number}{slot}"

    def lease_words(self, record: ClientRecord) -> str:
        if not record.is_confirmed:
            return "not confirmed"
        moment, entry = self.renewals.last[record.number]
        left = moment + self.server.lease - self.renewals.moment
        words = f"{left} s of its lease are left" if left >= 0 else f"its lease was over {-left} s ago"
        return f"renewed last at moment {moment}, by entry {entry}: {words}; callback path {record.path}"

    def of_client(self, record: ClientRecord) -> Iterator[str]:
        """Its owners, each with its states, and its delegations."""
        server = self.server
        for owner in server.open_owners.values():
            if owner.name.client == record.number:
                yield from self.of_owner("open", owner, server.opens)
        for owner in server.lock_owners.values():
            if owner.name.client == record.number:
                yield from self.of_owner("lock", owner, server.lock_states)
        for lent in server.delegations:
            if lent.client == record.number and self.is_wanted_state(lent) and not self.wanted.owners:
                yield f"  {self.delegation_words(lent)}"

    def of_owner(self, kind: str, owner: Owner, states: Sequence[OpenState | LockState]) -> Iterator[str]:
        if self.wanted.owners and text_of(owner.name.name) not in self.wanted.owners:
            return
        found = [it for it in states if it.owner == owner.name and self.is_wanted_state(it)]
        if found or not self.wanted.paths:
            confirmed = isinstance(owner.name, OpenOwner) and not owner.is_confirmed
            yield (
                f"  {kind} owner {name_words(owner.name.name)}: next sequence id "
                f"{next_sequence_id(owner.kept.seqid)}, after entry {owner.kept.entry}"
                + (", not confirmed" if confirmed else "")
            )
        yield from (f"    {self.state_words(it)}" for it in found)

    def is_wanted_state(self, state: KeptState) -> bool:
        return not self.wanted.paths or path_of(state.file, self.server.tree) in self.wanted.paths

    def state_words(self, state: OpenState | LockState) -> str:
        number, place = state.number, place_words(state.file, self.server.tree)
        since = f"seqid {state.seqid} since entry {self.server.moved[number]}"
        if isinstance(state, OpenState):
            access, deny = state.share()
            return f"state {number}: {place} open for {MODES[access]}, denies {MODES[deny]}; {since}"
        runs = [run_words(run, place) for run in state.ranges.held()]
        return f"state {number}: {'; '.join(runs) or f'no bytes of {place}'}; {since}"

    def delegation_words(self, lent: Delegation) -> str:
        place, number = place_words(lent.file, self.server.tree), lent.number
        words = (
            f"state {number}: delegation of {place} for {purpose_of(lent.kind)} since entry {self.server.begun[number]}"
        )
        if lent.recalled is None:
            return words
        return f"{words}, recalled at moment {lent.recalled} by {self.server.entry_words(self.server.recalled[number])}"
