"""What is wrong with a request of an owner: the owner that it leads to, and its sequence id."""
from collections.abc import Callable
from dataclasses import replace
from typing import Any

from nfs4tools.explain.common import IDLE, OWNERS, Reasons, SECTIONS_OF_HEADINGS, reason
from nfs4tools.explain.kinds import Again, DelegationConflicts, EndedState, KeptFacts, Kind, Reason, SequenceFacts
from nfs4tools.explain.of_stateids import OfStateids
from nfs4tools.model.state_parts import (
    Delegation,
    LockState,
    OpenState,
    Owner,
    Request,
    closed_by,
    next_sequence_id,
    replay,
    sequence_id_of,
    stateid_of,
)
from nfs4tools.wire import KnownLocker, LockOwner, OpenOwner, Opnum, Stateid, Status

# What is named as a whole where it differs.
WHOLE = (Stateid, OpenOwner, LockOwner)
# The kinds of reasons that lie in the stateid of a request, or in that and its lock owner.
OF_STATEIDS = {
    Kind.STATE_NEVER_GIVEN,
    Kind.STATE_OF_OTHER_CLIENT,
    Kind.STATE_CLOSED,
    Kind.STATE_RELEASED,
    Kind.STATE_LOST_TO_OPEN,
    Kind.STATE_OF_OTHER_KIND,
    Kind.STATE_OF_OTHER_FILE,
    Kind.OWNER_NOT_CONFIRMED,
    Kind.OWNER_CONFIRMED,
    Kind.SEQID_EARLIER,
    Kind.SEQID_LATER,
    Kind.LOCK_OWNER_OF_OTHER_CLIENT,
}


class OfOwners(OfStateids):
    """The causes that lie in an owner."""

    def rule_of(self, opnum: Opnum) -> Callable[..., Reasons]:
        """The rule of an operation, by its name."""
        rule: Callable[..., Reasons] = getattr(self, f"of_{opnum.name.lower()}")
        return rule

    def of_sequenced(self, request: Request) -> Reasons:
        yield from self.of_filehandle(request.filehandle)
        if request.opnum == Opnum.OPEN:
            name = request.arguments.owner
            yield from self.of_clientid(name.epoch, name.client)
        else:
            yield from self.of_named_owner(request)
        owner = self.server.owner_of(request)
        if owner is not None:
            yield from self.of_sequence_id(owner, request)
        yield from self.rule_of(request.opnum)(request.arguments, request.filehandle)

    def of_named_owner(self, request: Request) -> Reasons:
        """What is wrong with a stateid that is to name an owner."""
        stateid = stateid_of(request.opnum, request.arguments)
        yield from self.of_stateid_client(stateid)
        owners, found = self.server.open_owners.values(), self.server.looked_up(stateid)
        if found is None and not any(closed_by(owner.kept, stateid) for owner in owners):
            yield self.missing_owner(stateid)
        if isinstance(found, Delegation):
            yield replace(self.other_kind(stateid, found, (wanted_by(request),)), heading=OWNERS)

    def missing_owner(self, stateid: Stateid) -> Reason:
        """A stateid without a state, and without an owner whose kept request closed it."""
        missing, forgotten = self.missing_state(stateid), self.server.forgotten.get(stateid[1:])
        if forgotten is None:
            return replace(missing, heading=OWNERS)
        assert isinstance(missing.facts, EndedState)
        return replace(
            missing,
            heading=IDLE,
            section=SECTIONS_OF_HEADINGS[IDLE],
            facts=replace(missing.facts, forgotten=forgotten),
            entries=(*missing.entries, forgotten),
        )

    def of_sequence_id(self, owner: Owner, request: Request) -> Reasons:
        kept, came = owner.kept, sequence_id_of(request)
        if replay(kept, came, request) is not None:
            yield self.kept_answer(owner)
        begins = request.opnum == Opnum.OPEN and not owner.is_confirmed
        if begins or came == next_sequence_id(kept.seqid):
            return
        kind, differs = Kind.SEQUENCE_ID_OTHER, tuple[str, ...]()
        if came == kept.seqid:
            kind, differs = Kind.OTHER_REQUEST_WITH_LAST_ID, differences(kept.request, request)
        facts = replace(self.sequence_facts(owner, came), differs=differs)
        found = reason(kind, Status.BAD_SEQID, OWNERS, facts, [facts.entry])
        yield replace(found, also=self.also_wrong(request))

    def sequence_facts(self, owner: Owner, came: int) -> SequenceFacts:
        """What there is to say of an owner's sequence id that isn't the next one."""
        kept, uncounted = owner.kept, self.server.uncounted_since(owner)
        last = self.server.last_uncounted.get(owner.name.client)
        is_later = last is not None and last.entry > kept.entry
        return SequenceFacts(
            owner.name, next_sequence_id(kept.seqid), came, kept.entry, uncounted, last if is_later else None
        )

    def also_wrong(self, request: Request) -> Reason | None:
        """What is wrong with the stateid of a request, whatever its sequence id is."""
        if request.opnum == Opnum.OPEN:
            return None
        found = next(self.rule_of(request.opnum)(request.arguments, request.filehandle), None)
        return found if found is not None and found.kind in OF_STATEIDS else None

    def kept_answer(self, owner: Owner) -> Reason:
        """The owner's kept request comes again."""
        kept = owner.kept
        before, times = self.given.get(kept.entry), self.repeated.get(kept.entry, 0) + 1
        facts = KeptFacts(owner.name, kept.entry, before, self.ended_since(before), next_sequence_id(kept.seqid), times)
        again = Again(owner.name, kept.entry)
        found = reason(Kind.KEPT_ANSWER, kept.answer.status, OWNERS, facts, [kept.entry])
        return replace(found, again=again)

    def ended_since(self, before: Reason | None) -> tuple[tuple[int, int], ...]:
        """Of the delegations that conflicted, those that have ended, and by which entries."""
        if before is None or not isinstance(before.facts, DelegationConflicts):
            return ()
        ends = [(it.state, self.server.ended.get(it.state)) for it in before.facts.conflicts]
        return tuple((state, entry) for state, entry in ends if entry is not None)


def wanted_by(request: Request) -> type:
    """The kind of state that a sequenced operation takes by its stateid."""
    if (
        request.opnum == Opnum.LOCKU
        or request.opnum == Opnum.LOCK
        and isinstance(request.arguments.locker, KnownLocker)
    ):
        return LockState
    return OpenState


def differences(kept: Request, request: Request) -> tuple[str, ...]:
    """What tells a request from the kept one, which has its sequence id: the operation; or the current filehandle, and
    the arguments by their names."""
    if kept.opnum != request.opnum:
        return ("operation",)
    found = ["filehandle"] * (kept.filehandle != request.filehandle)
    return (*found, *differing("", kept.arguments, request.arguments))


def differing(name: str, kept: Any, came: Any) -> list[str]:
    """The names of the fields that differ; of a stateid or an owner, and of a union's other case, its own name."""
    if kept == came:
        return []
    if type(kept) is not type(came) or not isinstance(kept, tuple) or isinstance(kept, WHOLE):
        return [name]
    fields = getattr(kept, "_fields", ())
    return [found for field in fields for found in differing(field, getattr(kept, field), getattr(came, field))] or [
        name
    ]
