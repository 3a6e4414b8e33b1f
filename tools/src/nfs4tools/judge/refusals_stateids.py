"""The faults that lie in a stateid. Sections are those of RFC 7530."""
from collections.abc import Iterator
from dataclasses import replace

from nfs4tools.explain import Kind, Reason
from nfs4tools.explain.kinds import ClientFacts, EndedState, EpochFacts, MovedState
from nfs4tools.explain.sentences import Sentences
from nfs4tools.judge.circumstances import is_made_up
from nfs4tools.judge.clients import stateids_of
from nfs4tools.judge.refusals_faults import (
    Fault,
    Finder,
    Refused,
    TRANSFERS,
    UNDER_WAY,
    answer_words,
    fault,
    request_of,
)
from nfs4tools.model.state_parts import OpenState, is_special, next_seqid
from nfs4tools.wire import Opnum, Stateid

# The faults that a reason tells, whatever else is known.
NAMES = {
    Kind.STATE_OF_OTHER_KIND: "stateid-of-other-kind",
    Kind.STATE_OF_OTHER_FILE: "stateid-of-other-file",
    Kind.STATEID_SPECIAL: "stateid-unknown",
    Kind.STATE_NEVER_GIVEN: "stateid-unknown",
    Kind.STATE_OF_OTHER_CLIENT: "stateid-unknown",
    Kind.OWNER_CONFIRMED: "confirm-of-nothing",
    Kind.DELEGATION_OF_OTHER_CLIENT: "stateid-of-other-client",
    Kind.LOCK_OWNER_OF_OTHER_CLIENT: "stateid-of-other-client",
    Kind.OWNER_NOT_CONFIRMED: "owner-not-confirmed",
    Kind.STATE_LOST_TO_OPEN: "owner-not-confirmed",
}


class OfStateids(Finder):
    """The faults of stateids."""

    def faults(self, refused: Refused, reason: Reason) -> Iterator[Fault]:
        if reason.kind in NAMES:
            yield self.fault(NAMES[reason.kind], refused, reason)
        elif isinstance(reason.facts, EndedState):
            yield from self.of_ended(refused, reason, reason.facts)
        elif isinstance(reason.facts, MovedState):
            yield self.of_moved(refused, reason, reason.facts)
        elif reason.kind == Kind.NOT_A_FILE:
            yield from self.of_directory(refused, reason)
        elif refused.call.opnum == Opnum.SETCLIENTID_CONFIRM:
            # What is wrong with it is no stateid's fault.
            return
        elif is_made_up(reason):
            yield fault("stateid-unknown", refused, reason, made_up_words(refused, reason))
        elif is_never_given(reason):
            doubt = "" if self.server.introductions else "it may be of a run before this one, which had the same epoch"
            yield self.fault("stateid-unknown", refused, reason, doubt)

    def of_ended(self, refused: Refused, reason: Reason, facts: EndedState) -> Iterator[Fault]:
        """By a state that the client has ended itself. The very request that ended it may come again, as its reply may
        be lost; and a transfer may have been under way."""
        assert facts.entry is not None
        is_returned = reason.kind == Kind.STATE_RETURNED
        if reason.kind not in (Kind.STATE_CLOSED, Kind.STATE_RELEASED, Kind.STATE_RETURNED):
            return
        ending = self.server.recorded[facts.entry]
        is_again = request_of(ending) == request_of(refused.call) or self.memory.is_copy(refused)
        doubt = "it has come before, and the reply to that may be lost" if is_again else ""
        found = self.fault("delegation-used-after-return" if is_returned else "stateid-closed", refused, reason, doubt)
        yield found if doubt else replace(found, later=self.memory.doubt_of_transfer(refused, ending.moment))

    def of_moved(self, refused: Refused, reason: Reason, facts: MovedState) -> Fault:
        """By another seqid than the state's: one that was given and is old, or one that never was."""
        stateid, found = facts.stateid, self.server.given[facts.state]
        if (facts.state, stateid.seqid) not in self.memory.answered:
            return self.fault("stateid-unknown", refused, reason)
        if (
            refused.call.opnum == Opnum.OPEN_CONFIRM
            and isinstance(found, OpenState)
            and (self.server.open_owners[found.owner].is_confirmed)
        ):
            return self.fault("confirm-of-nothing", refused, reason)
        return replace(self.fault("stateid-old", refused, reason), later=lambda: self.doubt_of_old(refused, stateid))

    def doubt_of_old(self, refused: Refused, stateid: Stateid) -> str:
        """The first newer stateid may be unknown to the client: it was just answered; or it was answered again, as the
        first answer was lost."""
        newer = stateid.number, next_seqid(stateid.seqid)
        return "" if self.memory.knows_newer(*newer, refused.call.moment) else UNDER_WAY

    def of_directory(self, refused: Refused, reason: Reason) -> Iterator[Fault]:
        """By the stateid of a file, on a directory."""
        if refused.call.opnum not in TRANSFERS:
            return
        for stateid in stateids_of(refused.call.arguments):
            if self.is_live(stateid):
                named = replace(reason, states=(stateid.number,))
                found = self.fault("stateid-of-other-file", refused, named)
                text = f"{found.text}; the stateid is that of {Sentences(self.server).state(stateid.number)}"
                yield replace(found, text=text, key=(refused.call.opnum, stateid))

    def is_live(self, stateid: Stateid) -> bool:
        """Whether a stateid names a state that there is."""
        if is_special(stateid) or stateid.epoch != self.server.epoch:
            return False
        found = self.server.given.get(stateid.number)
        return found is not None and found.client == stateid.client and found.number in self.server.present


def is_never_given(reason: Reason) -> bool:
    """Whether a client's number was never given, or, in a stateid, never was that of a client with a state."""
    is_of_stateid = isinstance(reason.facts, ClientFacts) and reason.facts.stateid is not None
    return reason.kind == Kind.CLIENT_NEVER_GIVEN or reason.kind == Kind.CLIENT_NEVER_CONFIRMED and is_of_stateid


def made_up_words(refused: Refused, reason: Reason) -> str:
    facts = reason.facts
    assert isinstance(facts, EpochFacts)
    bits = "one" if facts.given else "zero"
    what = "the clientid" if facts.stateid is None else "the stateid after its seqid"
    return f"{answer_words(refused.call)}: all bits of {what} are {bits}, and no server gives such"
