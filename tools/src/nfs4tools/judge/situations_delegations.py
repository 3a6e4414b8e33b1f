"""Situations of delegations (RFC 7530, section 10.4), and of reading and writing by stateids (9.1.4.3 and 9.1.6)."""
from collections.abc import Hashable, Iterator

from nfs4tools.journal.entries import Call, Entry, Path, Revoke, delegation_given
from nfs4tools.journal.history import History
from nfs4tools.judge.situations_watched import Watcher
from nfs4tools.model.state_parts import Delegation, LockState, is_special
from nfs4tools.wire import CLAIM_DELEGATE_CUR, OPEN_DELEGATE_WRITE, Opnum, Status


class DelegationWatcher(Watcher):
    """Watches delegations, and who reads and writes by which stateid."""

    def __init__(self, server: History) -> None:
        super().__init__(server)
        self.notes = {Opnum.DELEGRETURN: self.note_return}
        self.rules = {
            Opnum.OPEN: self.of_open,
            Opnum.DELEGRETURN: self.of_return,
            Opnum.READ: self.of_bytes,
            Opnum.WRITE: self.of_bytes,
            Opnum.SETATTR: self.of_bytes,
        }
        # Whether a delegation that is returned was recalled.
        self.is_recalled = False
        # The requests that were answered DELAY, and not OK since.
        self.delayed: set[Hashable] = set()

    def note_return(self, call: Call) -> None:
        found = self.state(call.arguments.stateid)
        self.is_recalled = isinstance(found, Delegation) and found.recalled is not None

    def event(self, entry: Entry) -> Iterator[str]:
        if isinstance(entry, Revoke):
            yield "delegation-revoked"
        if isinstance(entry, Path) and not entry.is_up:
            yield "callback-path-down"

    def of_open(self, _number: int, call: Call) -> Iterator[str]:
        arguments = call.arguments
        yield from self.of_delay(call, (arguments.owner, arguments.claim.name, arguments.access, arguments.deny))
        given = delegation_given(call)
        if given is not None:
            yield f"delegation-for-{'writing' if given[0] == OPEN_DELEGATE_WRITE else 'reading'}"
        if call.answer.status == Status.OK and arguments.claim.kind == CLAIM_DELEGATE_CUR:
            yield "open-by-delegation"

    def of_delay(self, call: Call, sender: Hashable) -> Iterator[str]:
        """Of a call that DELAY may be answered: the same sender asks the same again."""
        request = call.opnum, call.filehandle, sender
        if call.answer.status == Status.DELAY:
            self.delayed.add(request)
        elif call.answer.status == Status.OK and request in self.delayed:
            self.delayed.discard(request)
            yield "delay-and-retry"

    def of_return(self, _number: int, call: Call) -> Iterator[str]:
        if call.answer.status == Status.OK:
            yield "recall-returned-in-time" if self.is_recalled else "delegation-returned-unasked"

    def of_bytes(self, _number: int, call: Call) -> Iterator[str]:
        """Of READ, WRITE and SETATTR."""
        stateid = call.arguments.stateid
        if is_special(stateid):
            yield from self.of_delay(call, (stateid, call.principal))
        if call.answer.status != Status.OK:
            return
        found = None if is_special(stateid) else self.state(stateid)
        if is_special(stateid):
            yield "special-stateid"
        elif isinstance(found, LockState):
            yield "read-or-write-by-lock"
        elif isinstance(found, Delegation):
            yield "read-by-delegation" if call.opnum == Opnum.READ else "write-by-delegation"
