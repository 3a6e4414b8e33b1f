"""The faults that lie in what a request asks for, whoever's it is: confirmations, access, shares, ranges, locks that
are held, the current filehandle, and principals. Sections are those of RFC 7530."""
from collections.abc import Iterator
from dataclasses import replace

from nfs4tools.explain import Kind, Reason
from nfs4tools.explain.kinds import AccessFacts, ConfirmFacts
from nfs4tools.judge.circumstances import is_made_up
from nfs4tools.judge.refusals_faults import Fault, Finder, Refused, UNDER_WAY
from nfs4tools.model.attributes import SIZE, numbers_of
from nfs4tools.model.state_parts import Delegation
from nfs4tools.wire import Opnum, Setattr, SetclientidConfirm

# The faults that a reason tells by the operation.
NAMES = {
    (Kind.LOCKS_HELD, Opnum.CLOSE): "close-with-locks",
    (Kind.LOCKS_HELD, Opnum.RELEASE_LOCKOWNER): "release-of-held-lock-owner",
    (Kind.ACCESS_LACKING, Opnum.READ): "read-without-access",
    (Kind.ACCESS_LACKING, Opnum.WRITE): "write-without-access",
    (Kind.ACCESS_LACKING, Opnum.SETATTR): "write-without-access",
    (Kind.ACCESS_LACKING, Opnum.LOCK): "lock-without-access",
}
# And those that it tells whatever the operation is.
OF_ANY = {
    Kind.DOWNGRADE_NO_UNION: "downgrade-without-open",
    Kind.SHARE_INVALID: "share-invalid",
    Kind.RANGE_INVALID: "range-invalid",
    Kind.NO_FILEHANDLE: "no-filehandle",
    Kind.ID_IN_USE: "client-id-of-two-principals",
    Kind.CONFIRMED_BY_OTHER: "client-id-of-two-principals",
}
# Of a confirmation: what no SETCLIENTID gave.
NEVER_GIVEN = {Kind.CLIENT_NEVER_GIVEN, Kind.CONFIRM_NEVER_GIVEN, Kind.CONFIRM_OF_OTHER_CLIENT}


class OfRequests(Finder):
    """These faults."""

    def faults(self, refused: Refused, reason: Reason) -> Iterator[Fault]:
        name = NAMES.get((reason.kind, refused.call.opnum)) or OF_ANY.get(reason.kind)
        if isinstance(refused.call.arguments, SetclientidConfirm) and name is None:
            yield from self.of_confirmation(refused, reason, refused.call.arguments)
        elif isinstance(reason.facts, AccessFacts):
            yield from self.of_access(refused, reason, reason.facts, str(name))
        elif name is not None:
            yield self.fault(name, refused, reason)

    def of_access(self, refused: Refused, reason: Reason, facts: AccessFacts, name: str) -> Iterator[Fault]:
        """What an OPEN_DOWNGRADE took may be used by what was under way then. A SETATTR that sets no size takes no
        access by sections 9.1.4.6 and 9.1.6, though it does at this server."""
        asked = refused.call.arguments
        if isinstance(asked, Setattr) and SIZE not in numbers_of(asked.attributes[0]):
            return
        if isinstance(self.server.given[facts.state], Delegation):
            yield self.fault("write-beyond-delegation", refused, reason)
            return
        found, (moment, access) = self.fault(name, refused, reason), self.memory.narrowed.get(facts.state, (0, 0))
        later = self.memory.doubt_of_transfer(refused, moment) if access & facts.wanted else None
        yield replace(found, later=later)

    # SETCLIENTID_CONFIRM.

    def of_confirmation(self, refused: Refused, reason: Reason, asked: SetclientidConfirm) -> Iterator[Fault]:
        """Of a clientid and a confirm value that no record has (section 16.34)."""
        name = "confirm-of-nothing"
        if reason.kind == Kind.CONFIRM_REPLACED:
            yield from self.of_replaced_value(refused, reason)
        elif reason.kind in NEVER_GIVEN or is_made_up(reason):
            doubt = "so a client may find out whether two servers are one" if self.is_probe(asked) else ""
            yield self.fault(name, refused, reason, doubt)
        elif reason.kind in (Kind.CLIENT_EXPIRED, Kind.CLIENT_REPLACED) and not self.was_given(asked):
            found = self.fault(name, refused, reason)
            yield replace(found, text=f"{found.text}, and never had confirm verifier {asked.confirm}")

    def of_replaced_value(self, refused: Refused, reason: Reason) -> Iterator[Fault]:
        """The value of a SETCLIENTID that a later one of its id replaced. That may be a copy of it, as a reply was
        lost; and the confirmation may be a copy, too."""
        facts, recorded, asked = reason.facts, self.server.recorded, refused.call.arguments
        assert isinstance(facts, ConfirmFacts) and facts.entry is not None and facts.later is not None
        given, later = recorded[facts.entry], recorded[facts.later]
        if given.arguments == later.arguments or (asked.client, asked.confirm) in self.memory.confirmed:
            return
        is_known = self.memory.is_known(facts.later, refused.call.moment)
        yield self.fault("confirm-of-nothing", refused, reason, "" if is_known else UNDER_WAY)

    def was_given(self, asked: SetclientidConfirm) -> bool:
        """Whether a SETCLIENTID gave this value with this clientid, whatever became of the client since."""
        given = self.server.introductions.get(asked.confirm)
        return given is not None and given.record.number == asked.client

    def is_probe(self, asked: SetclientidConfirm) -> bool:
        """Whether a live client, which has nothing to confirm, is named: so a client finds out whether two addresses
        are those of one server, by a value that the other one gave."""
        records = [it for it in self.server.records if it.number == asked.client]
        return asked.epoch == self.server.epoch and [it.is_confirmed for it in records] == [True]
