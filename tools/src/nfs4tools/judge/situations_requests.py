"""Situations of sequenced operations: refusals that count and that don't, retransmissions, and sequence ids that wrap
around (RFC 7530, sections 9.1.3, 9.1.7 and 9.1.8)."""
from collections.abc import Iterator

from nfs4tools.journal.entries import Call
from nfs4tools.journal.history import History
from nfs4tools.judge.situations_watched import Watcher
from nfs4tools.model.state_parts import LAST, Delegation, Owner, OwnerName, Request, is_first_lock, stateid_of
from nfs4tools.wire import LockOwner, Opnum, Status

# The sequenced operations, as names of situations have them.
SEQUENCED = {
    Opnum.OPEN: "open",
    Opnum.OPEN_CONFIRM: "open-confirm",
    Opnum.OPEN_DOWNGRADE: "open-downgrade",
    Opnum.CLOSE: "close",
    Opnum.LOCK: "lock",
    Opnum.LOCKU: "locku",
}
# The refusals of section 9.1.7 that a journal can have: RESOURCE and BADXDR make no entry.
UNCOUNTED = {
    Status.STALE_CLIENTID: "uncounted-stale-clientid",
    Status.STALE_STATEID: "uncounted-stale-stateid",
    Status.BAD_STATEID: "uncounted-bad-stateid",
    Status.BAD_SEQID: "uncounted-bad-seqid",
    Status.NOFILEHANDLE: "uncounted-nofilehandle",
}


class RequestWatcher(Watcher):
    """Watches the answers to requests of owners."""

    def __init__(self, server: History) -> None:
        super().__init__(server)
        self.notes = dict.fromkeys(SEQUENCED, self.note)
        self.rules = dict.fromkeys(SEQUENCED, self.of_request)
        # The owners of the request, if they are known before it; and whether the last sequence id of one was 2^32 - 1.
        self.owners: list[Owner] = []
        self.is_at_last = False

    def note(self, call: Call) -> None:
        self.owners = self.owners_of(call)
        self.is_at_last = any(owner.kept.seqid == LAST for owner in self.owners)

    def owners_of(self, call: Call) -> list[Owner]:
        """Those that the request is one of, if they are known; the lock owner of a LOCK may be a second one."""
        known = [self.known(name) for name in self.names_of(call)]
        return [owner for owner in known if owner is not None]

    def names_of(self, call: Call) -> list[OwnerName]:
        if call.opnum == Opnum.OPEN:
            return [call.arguments.owner]
        found = self.state(stateid_of(call.opnum, call.arguments))
        names = [] if found is None or isinstance(found, Delegation) else [found.owner]
        return names + ([call.arguments.locker.owner] if is_of_new_owner(call) else [])

    def known(self, name: OwnerName) -> Owner | None:
        owners = self.server.lock_owners if isinstance(name, LockOwner) else self.server.open_owners
        return owners.get(name)

    def of_request(self, number: int, call: Call) -> Iterator[str]:
        status = Status(call.answer.status)
        if status in UNCOUNTED:
            yield UNCOUNTED[status]
        elif status != Status.OK and any(owner.kept.entry == number for owner in self.owners):
            yield f"counted-refusal-of-{SEQUENCED[call.opnum]}"
        if self.is_at_last and self.has_wrapped(number, call):
            yield "sequence-id-wrapped"

    def has_wrapped(self, number: int, call: Call) -> bool:
        return any((owner.kept.entry, owner.kept.seqid) == (number, 0) for owner in self.owners_of(call))


def retransmission(call: Call) -> Iterator[str]:
    """Of a request that gets its kept answer again."""
    word = SEQUENCED[call.opnum]
    if call.opnum == Opnum.LOCK:
        word += "-of-new-owner" if is_of_new_owner(call) else "-of-known-owner"
    yield f"retransmission-of-{word}"
    if call.answer.status != Status.OK:
        yield "retransmission-of-refusal"


def is_of_new_owner(call: Call) -> bool:
    """Whether it is a LOCK with new_lock_owner."""
    return is_first_lock(Request(call.opnum, call.arguments, call.filehandle))
