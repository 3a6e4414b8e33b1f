"""What is wrong with a stateid: the cases of the verdict on one, in their order."""
from typing import Any, TypeVar

from nfs4tools.explain.common import STATEIDS, Reasons, reason
from nfs4tools.explain.kinds import (
    ClientFacts,
    EndedState,
    EpochFacts,
    Kind,
    MovedState,
    OtherFile,
    OtherKind,
    Reason,
    StateFacts,
    StateidFacts,
)
from nfs4tools.explain.of_client_ids import OfClientIds
from nfs4tools.journal.entries import Call, Revoke
from nfs4tools.model.state_parts import Delegation, KeptState, LockState, OpenState, is_special
from nfs4tools.wire import Opnum, Stateid, Status

S = TypeVar("S", OpenState, LockState, Delegation)

# The kinds of states that ended, by the operation that ended them.
ENDS = {
    Opnum.CLOSE: Kind.STATE_CLOSED,
    Opnum.RELEASE_LOCKOWNER: Kind.STATE_RELEASED,
    Opnum.DELEGRETURN: Kind.STATE_RETURNED,
    Opnum.OPEN: Kind.STATE_LOST_TO_OPEN,
}


def bad_stateid(kind: Kind, facts: StateFacts, status: Status = Status.BAD_STATEID) -> Reason:
    """A reason about a stateid that names a state."""
    return reason(kind, status, STATEIDS, facts, [facts.entry], [facts.state])


class OfStateids(OfClientIds):
    """The causes that lie in a stateid."""

    def state_of(self, stateid: Stateid, kind: type[S]) -> S:
        """The state of this kind that a stateid names with which nothing is wrong."""
        found = self.server.looked_up(stateid)
        assert isinstance(found, kind)
        return found

    def of_stateid_client(self, stateid: Stateid) -> Reasons:
        """What is wrong with a stateid up to its client."""
        server = self.server
        if is_special(stateid):
            yield reason(Kind.STATEID_SPECIAL, Status.BAD_STATEID, STATEIDS, StateidFacts(stateid))
        if stateid.epoch != server.epoch:
            facts = EpochFacts(stateid.epoch, server.epoch, stateid.client, stateid)
            yield reason(Kind.STATEID_OTHER_EPOCH, Status.STALE_STATEID, STATEIDS, facts)
        if not server.was_given(stateid.client):
            unknown = ClientFacts(stateid.client, stateid)
            yield reason(Kind.CLIENT_NEVER_GIVEN, Status.BAD_STATEID, STATEIDS, unknown)
        if not server.is_live(stateid.client):
            lost = self.lost_client(stateid.client, stateid)
            yield reason(lost.kind, Status.EXPIRED, STATEIDS, lost.facts, lost.entries)

    def missing_state(self, stateid: Stateid) -> Reason:
        """A live client has no state with the number of its stateid."""
        state = self.server.given.get(stateid.number)
        if state is None:
            return reason(Kind.STATE_NEVER_GIVEN, Status.BAD_STATEID, STATEIDS, StateidFacts(stateid))
        if state.client != stateid.client:
            return bad_stateid(Kind.STATE_OF_OTHER_CLIENT, StateFacts(stateid, state.number))
        ended = self.server.ended[state.number]
        return bad_stateid(self.end_of(ended), EndedState(stateid, state.number, ended))

    def end_of(self, number: int) -> Kind:
        """How a state ended by the entry of this number, while its client stayed."""
        entry = self.server.recorded[number]
        if isinstance(entry, Revoke):
            return Kind.STATE_REVOKED
        assert isinstance(entry, Call)
        return ENDS[entry.opnum]

    def of_stateid(self, stateid: Stateid, kind: Any, file: int, of_unconfirmed: bool = False) -> Reasons:
        """What is wrong with a stateid that is to name a state of this kind, or of one of these, on the file, from its
        number on."""
        yield from self.of_state(stateid, kind, file)
        found, server = self.server.looked_up(stateid), self.server
        assert found is not None
        if isinstance(found, OpenState) and not of_unconfirmed and not server.open_owners[found.owner].is_confirmed:
            facts = StateFacts(stateid, found.number, server.begun[found.number])
            yield bad_stateid(Kind.OWNER_NOT_CONFIRMED, facts)
        if stateid.seqid < found.seqid:
            yield bad_stateid(Kind.SEQID_EARLIER, self.moved_state(stateid, found), Status.OLD_STATEID)
        if stateid.seqid > found.seqid:
            yield bad_stateid(Kind.SEQID_LATER, self.moved_state(stateid, found))

    def moved_state(self, stateid: Stateid, found: KeptState) -> MovedState:
        entry = self.server.moved[found.number]
        call = self.server.recorded[entry]
        assert isinstance(call, Call)
        return MovedState(stateid, found.number, entry, found.seqid, call.moment)

    def of_state(self, stateid: Stateid, kind: Any, file: int) -> Reasons:
        """The same, but for its seqid."""
        found = self.server.looked_up(stateid)
        if found is None:
            yield self.missing_state(stateid)
            return
        if not isinstance(found, kind):
            yield self.other_kind(stateid, found, (kind,))
        if found.file != file:
            yield bad_stateid(Kind.STATE_OF_OTHER_FILE, OtherFile(stateid, found.number, None, file))

    def other_kind(self, stateid: Stateid, found: KeptState, wanted: tuple[type, ...]) -> Reason:
        """The stateid names a state of a kind that the operation doesn't take."""
        facts = OtherKind(stateid, found.number, None, wanted, self.meant(found, wanted))
        states = [it for it in (found.number, facts.meant) if it is not None]
        return reason(Kind.STATE_OF_OTHER_KIND, Status.BAD_STATEID, STATEIDS, facts, (), states)

    def meant(self, found: KeptState, wanted: tuple[type, ...]) -> int | None:
        """The one state of a kind that is wanted which may be meant by that of another kind: the open of a lock state,
        a lock state of an open, or what the client has of the file."""
        fitting = [
            it
            for it in self.server.states()
            if isinstance(it, wanted) and (it.client, it.file) == (found.client, found.file)
        ]
        nearer = [it for it in fitting if belong_together(it, found)] or fitting
        return nearer[0].number if len(nearer) == 1 else None


def belong_together(one: KeptState, other: KeptState) -> bool:
    """Whether one is a lock state of the other, which is an open."""
    if isinstance(one, LockState):
        return one.open is other
    return isinstance(other, LockState) and other.open is one
