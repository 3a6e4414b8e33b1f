"""Situations of open owners (RFC 7530, sections 9.1.10 and 16.18), and of opens and their shares (9.9 and 9.11)."""
from collections.abc import Iterator

from nfs4tools.journal.entries import Call, Entry, Forget
from nfs4tools.journal.history import History
from nfs4tools.judge.situations_watched import StateGroups, Watcher, state_given
from nfs4tools.model.state_parts import OpenState, union
from nfs4tools.wire import OpenOwner, Opnum, Status


class OpenWatcher(Watcher):
    """Watches open owners and opens."""

    def __init__(self, server: History) -> None:
        super().__init__(server)
        self.notes = {Opnum.OPEN: self.note_open, Opnum.OPEN_DOWNGRADE: self.note_downgrade}
        self.rules = {
            Opnum.OPEN: self.of_open,
            Opnum.OPEN_CONFIRM: self.of_open_confirm,
            Opnum.OPEN_DOWNGRADE: self.of_open_downgrade,
            Opnum.LOCK: self.of_reclaim,
        }
        # Whether the owner of an OPEN is known and unconfirmed before it; and the share before an OPEN_DOWNGRADE.
        self.is_unconfirmed = False
        self.share: tuple[int, int] | None = None
        self.forgotten: set[OpenOwner] = set()
        self.opens = StateGroups(server)

    def note_open(self, call: Call) -> None:
        owner = self.server.open_owners.get(call.arguments.owner)
        self.is_unconfirmed = owner is not None and not owner.is_confirmed

    def note_downgrade(self, call: Call) -> None:
        self.share = self.share_of(call)

    def share_of(self, call: Call) -> tuple[int, int] | None:
        found = self.state(call.arguments.stateid)
        return found.share() if isinstance(found, OpenState) else None

    def event(self, entry: Entry) -> Iterator[str]:
        if isinstance(entry, Forget):
            self.forgotten.add(entry.owner)
        yield from ()

    def of_open(self, number: int, call: Call) -> Iterator[str]:
        if call.answer.status == Status.SHARE_DENIED:
            yield "share-denied"
        if call.answer.status != Status.OK:
            yield from self.of_reclaim(number, call)
            return
        if self.is_unconfirmed:
            yield "owner-begun-anew"
        if call.arguments.owner in self.forgotten:
            self.forgotten.discard(call.arguments.owner)
            yield "owner-forgotten-and-back"
        yield from self.of_state(number, state_given(call))

    def of_state(self, number: int, state: int) -> Iterator[str]:
        """Of the open that an OPEN makes or joins."""
        found, earlier = self.server.given[state], self.earlier_share(number, state)
        if self.server.begun[state] == number:
            if self.opens.joins((found.client, found.file), state):
                yield "two-open-owners"
        elif isinstance(found, OpenState) and found.share() != earlier:
            yield "open-upgraded"

    def earlier_share(self, number: int, state: int) -> tuple[int, int]:
        """What the open had access to and denied before the entry."""
        return union([pair for pair, entry in self.server.pairs[state].items() if entry < number])

    def of_open_confirm(self, _number: int, call: Call) -> Iterator[str]:
        if call.answer.status == Status.OK:
            yield "open-confirmed"

    def of_open_downgrade(self, _number: int, call: Call) -> Iterator[str]:
        """With the share that it had the open has lost nothing."""
        if call.answer.status == Status.OK and self.share_of(call) != self.share:
            yield "open-downgraded"

    def of_reclaim(self, _number: int, call: Call) -> Iterator[str]:
        """No other refusal is NO_GRACE."""
        if call.answer.status == Status.NO_GRACE:
            yield "reclaim-refused"
