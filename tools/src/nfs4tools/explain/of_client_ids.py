"""Why a clientid, or the client of a stateid, isn't taken; and why SETCLIENTID and its confirmation are refused."""
from typing import NamedTuple

from nfs4tools.explain.common import CLIENT_IDS, Common, Reasons, reason
from nfs4tools.explain.kinds import (
    ClientFacts,
    ConfirmFacts,
    EpochFacts,
    Facts,
    GoneClient,
    IdFacts,
    Kind,
    PrincipalFacts,
    Reason,
    UnconfirmedClient,
)
from nfs4tools.journal.entries import Call, Expire
from nfs4tools.journal.history import Introduction
from nfs4tools.model.state_parts import ClientRecord
from nfs4tools.wire import Principal, Setclientid, SetclientidConfirm, Stateid, Status


class Lost(NamedTuple):
    """What is wrong with a client: the kind of the reason, its facts, and the entries that they speak of."""

    kind: Kind
    facts: Facts
    entries: tuple[int | None, ...]


class OfClientIds(Common):
    """The causes that lie in a client."""

    def of_clientid(self, epoch: int, number: int) -> Reasons:
        """What is wrong with a clientid, if its client isn't live."""
        lost = self.unknown_client(epoch, number)
        if lost is None and not self.server.is_live(number):
            lost = self.lost_client(number)
        if lost is not None:
            yield reason(lost.kind, Status.STALE_CLIENTID, CLIENT_IDS, lost.facts, lost.entries)

    def unknown_client(self, epoch: int, number: int) -> Lost | None:
        """Why a clientid isn't one that was given, or None."""
        if epoch != self.server.epoch:
            return Lost(Kind.CLIENTID_OTHER_EPOCH, EpochFacts(epoch, self.server.epoch, number), ())
        if not self.server.was_given(number):
            return Lost(Kind.CLIENT_NEVER_GIVEN, ClientFacts(number, None), ())
        return None

    def lost_client(self, number: int, stateid: Stateid | None = None) -> Lost:
        """Why a client that was given isn't live."""
        server = self.server
        removed = server.removals.get(number)
        if removed is not None:
            entry = server.recorded[removed]
            if isinstance(entry, Expire):
                gone = GoneClient(number, stateid, removed, None, entry.seen, entry.now)
                return Lost(Kind.CLIENT_EXPIRED, gone, (removed,))
            assert isinstance(entry, Call)
            return Lost(Kind.CLIENT_REPLACED, GoneClient(number, stateid, removed, entry.arguments.client), (removed,))
        facts = self.unconfirmed_client(number, stateid)
        return Lost(Kind.CLIENT_NEVER_CONFIRMED, facts, (facts.entry, facts.yielded, facts.last))

    def unconfirmed_client(self, number: int, stateid: Stateid | None) -> UnconfirmedClient:
        """A client that was given, and neither confirmed nor removed."""
        server = self.server
        given = next(it for it in server.introductions.values() if it.record.number == number)
        if any(it is given.record for it in server.records):
            return UnconfirmedClient(number, stateid, given.entry)
        if given.record.confirm in server.yielded:
            return UnconfirmedClient(number, stateid, given.entry, server.yielded[given.record.confirm])
        last = self.last_introduction(given.record.id)
        return UnconfirmedClient(number, stateid, given.entry, None, last.entry, last.record.number)

    def last_introduction(self, client_id: bytes) -> Introduction:
        return max(
            (it for it in self.server.introductions.values() if it.record.id == client_id), key=lambda it: it.entry
        )

    # SETCLIENTID and its confirmation.

    def of_setclientid(self, arguments: Setclientid, principal: Principal) -> Reasons:
        record = self.server.record_where(True, lambda it: it.id == arguments.id)
        yield from self.of_other_principal(record, principal, "SETCLIENTID")

    def of_other_principal(self, record: ClientRecord | None, principal: Principal, heading: str) -> Reasons:
        """The confirmed record of an id is that of another principal, whose client has state."""
        server = self.server
        if record is None or record.principal == principal or not server.has_state(record.number):
            return
        state = next(it for it in server.states() if it.client == record.number)
        facts = IdFacts(record.id, record.number, record.principal, state.number, server.begun[state.number])
        yield reason(Kind.ID_IN_USE, Status.CLID_INUSE, heading, facts, [facts.entry], [state.number])

    def of_setclientid_confirm(self, arguments: SetclientidConfirm, principal: Principal) -> Reasons:
        server, heading = self.server, "SETCLIENTID_CONFIRM"
        given = server.introductions.get(arguments.confirm)
        is_named = given is not None and (server.epoch, given.record.number) == arguments[:2]
        if given is None or not is_named or not any(it is given.record for it in server.records):
            yield self.of_no_record(arguments, given)
            return
        record = given.record
        if record.principal != principal:
            facts = PrincipalFacts(given.entry, record.principal, principal)
            yield reason(Kind.CONFIRMED_BY_OTHER, Status.CLID_INUSE, heading, facts, [given.entry])
        if not record.is_confirmed:
            other = server.record_where(True, lambda it: it.id == record.id)
            if other is not None and other.number != record.number:
                yield from self.of_other_principal(other, principal, heading)

    def of_no_record(self, arguments: SetclientidConfirm, given: Introduction | None) -> Reason:
        """No record has the clientid and the confirm value."""
        lost = self.unknown_client(arguments.epoch, arguments.client)
        if lost is None and arguments.client in self.server.removals:
            lost = self.lost_client(arguments.client)
        if lost is None:
            lost = self.lost_record(arguments, given)
        return reason(lost.kind, Status.STALE_CLIENTID, "SETCLIENTID_CONFIRM", lost.facts, lost.entries)

    def lost_record(self, arguments: SetclientidConfirm, given: Introduction | None) -> Lost:
        """The clientid was given, and its client wasn't removed."""
        facts = ConfirmFacts(arguments.client, arguments.confirm)
        if given is None:
            return Lost(Kind.CONFIRM_NEVER_GIVEN, facts, ())
        entry, number, later = given.entry, given.record.number, self.server.yielded.get(arguments.confirm)
        if number != arguments.client:
            facts = ConfirmFacts(arguments.client, arguments.confirm, entry, number)
            return Lost(Kind.CONFIRM_OF_OTHER_CLIENT, facts, (entry,))
        if later is not None:
            facts = ConfirmFacts(arguments.client, arguments.confirm, entry, number, later)
            return Lost(Kind.CONFIRM_GAVE_WAY, facts, (entry, later))
        last = self.last_introduction(given.record.id)
        facts = ConfirmFacts(arguments.client, arguments.confirm, entry, number, last.entry, last.record.confirm)
        return Lost(Kind.CONFIRM_REPLACED, facts, (entry, last.entry))
