"""Situations of clients: their ids and confirmations (RFC 7530, sections 9.6.1, 16.33 and 16.34), leases (9.6.3), and
restarts of the server (9.6.2)."""
from collections.abc import Iterator

from nfs4tools.explain import Kind, Reason
from nfs4tools.journal.entries import Call, Entry, Expire
from nfs4tools.journal.history import History
from nfs4tools.judge.circumstances import is_made_up
from nfs4tools.judge.clients import client_of
from nfs4tools.judge.situations_watched import Watcher
from nfs4tools.model.state_parts import ClientRecord
from nfs4tools.wire import Opnum, Status

OF_ANOTHER_RUN = {Kind.CLIENTID_OTHER_EPOCH, Kind.STATEID_OTHER_EPOCH}


class ClientWatcher(Watcher):
    """Watches the records of clients."""

    def __init__(self, server: History) -> None:
        super().__init__(server)
        self.notes = {Opnum.SETCLIENTID_CONFIRM: self.note_confirmation}
        self.rules = {Opnum.SETCLIENTID: self.of_setclientid, Opnum.SETCLIENTID_CONFIRM: self.of_confirmation}
        # Whether the record that is to be confirmed is so already.
        self.is_confirmed = False
        # By the ids of clients: the last record that was confirmed, and that which waits for it.
        self.confirmed: dict[bytes, ClientRecord] = {}
        self.waiting: dict[bytes, ClientRecord] = {}
        # The ids of clients whose lease ended, and who weren't confirmed since.
        self.expired: set[bytes] = set()

    def note_confirmation(self, call: Call) -> None:
        given = self.server.introductions.get(call.arguments.confirm)
        self.is_confirmed = given is not None and given.record.is_confirmed

    def event(self, entry: Entry) -> Iterator[str]:
        if isinstance(entry, Expire):
            name = client_of(entry, self.server)
            assert name is not None
            self.expired.add(name)
            yield "lease-ended"

    def of_setclientid(self, _number: int, call: Call) -> Iterator[str]:
        name = call.arguments.id
        record = self.confirmed.get(name)
        is_other = record is not None and self.is_there(record) and record.principal != call.principal
        if is_other or call.answer.status == Status.CLID_INUSE:
            yield "two-principals"
        if call.answer.status == Status.OK:
            if name in self.waiting and self.is_there(self.waiting[name]):
                yield "setclientid-repeated"
            self.waiting[name] = self.server.introductions[self.server.last_confirm].record

    def is_there(self, record: ClientRecord) -> bool:
        """Whether its client wasn't removed, and it didn't give way."""
        return record.number not in self.server.removals and record.confirm not in self.server.yielded

    def of_confirmation(self, number: int, call: Call) -> Iterator[str]:
        if call.answer.status == Status.CLID_INUSE:
            yield "two-principals"
        elif call.answer.status == Status.OK and self.is_confirmed:
            yield "retransmission-of-setclientid-confirm"
        elif call.answer.status == Status.OK:
            yield from self.of_record(number, self.server.introductions[call.arguments.confirm].record)

    def of_record(self, number: int, record: ClientRecord) -> Iterator[str]:
        """Of a record that is confirmed."""
        self.waiting.pop(record.id, None)
        earlier = self.confirmed.get(record.id)
        self.confirmed[record.id] = record
        if earlier is not None and earlier.number == record.number:
            yield "callback-updated"
        elif earlier is not None and self.server.removals.get(earlier.number) == number:
            yield "client-restarted"
        if record.id in self.expired:
            self.expired.discard(record.id)
            yield "lease-ended-and-back"


def is_of_another_run(reason: Reason) -> bool:
    """Whether a clientid or a stateid is refused that another run may have given."""
    return reason.kind in OF_ANOTHER_RUN and not is_made_up(reason)
