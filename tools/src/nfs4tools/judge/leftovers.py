"""What a client leaves behind, at the end of the journal or when it begins anew: opens, locks, delegations, lock
owners, and what it never confirmed. And the locks that a CLOSE drops."""
from collections.abc import Callable, Iterable, Iterator

from nfs4tools.explain import Reason, ExplainedEntry
from nfs4tools.explain.sentences import listed
from nfs4tools.journal.entries import Call, Entry
from nfs4tools.journal.history import History
from nfs4tools.journal.words import client_words, name_words, owner_words
from nfs4tools.judge.clients import client_of, id_of
from nfs4tools.judge.findings import Finding, found
from nfs4tools.judge.watching import Holdings, Watcher, counted, is_new
from nfs4tools.model.state_parts import Delegation, KeptState, LockState, OpenState
from nfs4tools.wire import Close, Lock, LockOwner, NewLocker, Open, OpenOwner, SetclientidConfirm

AT_END = "at the end of the journal"


def holds_bytes(state: KeptState) -> bool:
    return isinstance(state, LockState) and not state.ranges.is_empty()


# What may be left, by the name of the finding: which states, and what they are called.
LEFT: tuple[tuple[str, Callable[[KeptState], bool], str], ...] = (
    ("open-left", lambda state: isinstance(state, OpenState), "open"),
    ("lock-left", holds_bytes, "lock state"),
    ("delegation-left", lambda state: isinstance(state, Delegation), "delegation"),
)


class Leftovers(Watcher):
    """Looks for what clients leave."""

    def __init__(self, server: History, holdings: Holdings) -> None:
        super().__init__(server)
        self.holdings = holdings
        self.found: list[Finding] = []
        # By client: the owners that became known, with the entries by which they did.
        self.lock_owners: dict[int, dict[LockOwner, int]] = {}
        self.open_owners: dict[int, dict[OpenOwner, int]] = {}

    def before(self, number: int, entry: Entry, reason: Reason | None) -> None:
        if not (isinstance(entry, Call) and is_new(entry, reason)):
            return
        if isinstance(entry.arguments, SetclientidConfirm):
            replaced = self.replaced_by(entry.arguments)
            if replaced is not None:
                self.found += self.left_by(replaced, (number,), "when the client restarts")
        elif isinstance(entry.arguments, Close):
            self.found += self.dropped_by(number, entry)

    def after(self, told: ExplainedEntry) -> None:
        if not (isinstance(told.entry, Call) and is_new(told.entry, told.reason)):
            return
        arguments = told.entry.arguments
        if isinstance(arguments, Lock) and isinstance(arguments.locker, NewLocker):
            owner = arguments.locker.owner
            self.lock_owners.setdefault(owner.client, {}).setdefault(owner, told.number)
        elif isinstance(arguments, Open) and not self.server.open_owners[arguments.owner].is_confirmed:
            self.open_owners.setdefault(arguments.owner.client, {})[arguments.owner] = told.number

    def replaced_by(self, arguments: SetclientidConfirm) -> int | None:
        """The number of the client whose place another one takes by this confirmation, or None."""
        record = self.server.introductions[arguments.confirm].record
        old = self.server.record_where(True, lambda it: it.id == record.id)
        return None if old is None or old.number == record.number else old.number

    def dropped_by(self, number: int, entry: Call) -> Iterator[Finding]:
        """The locks of an open that is closed."""
        held = [it.number for it in self.holdings.locks_held(entry.arguments.stateid.number)]
        if held:
            text = f"the CLOSE frees bytes that are locked: {self.states_words(held)}"
            made = tuple(self.server.moved[it] for it in held)
            yield found("lock-dropped-by-close", client_of(entry, self.server), (number,), text, made)

    def findings(self) -> Iterator[Finding]:
        yield from self.found
        for record in self.server.records:
            if record.is_confirmed:
                yield from self.left_by(record.number, (), AT_END)
        yield from self.never_confirmed()

    def left_by(self, client: int, at: tuple[int, ...], when: str) -> Iterator[Finding]:
        """What the client leaves: at this entry, or at the end of the journal."""
        name = id_of((self.server.epoch, client), self.server)
        states = [self.server.given[number] for number in sorted(self.holdings.of_client.get(client, ()))]
        for sort, is_such, noun in LEFT:
            numbers = [it.number for it in states if is_such(it)]
            if numbers:
                text = f"{is_left(len(numbers), noun)} {when}: {self.states_words(numbers)}"
                yield found(sort, name, at, text, tuple(self.makers(numbers)))
        yield from self.owners_left(client, at, when)

    def makers(self, states: Iterable[int]) -> Iterator[int]:
        """The entries that made states what they are: which gave an open or a delegation, and which changed a lock
        state last."""
        for number in states:
            is_lock = isinstance(self.server.given[number], LockState)
            yield (self.server.moved if is_lock else self.server.begun)[number]

    def owners_left(self, client: int, at: tuple[int, ...], when: str) -> Iterator[Finding]:
        name = id_of((self.server.epoch, client), self.server)
        holding = {
            it.owner
            for it in map(self.server.given.get, self.holdings.of_client.get(client, ()))
            if isinstance(it, LockState) and not it.ranges.is_empty()
        }
        idle = {
            owner: entry
            for owner, entry in self.lock_owners.pop(client, {}).items()
            if owner in self.server.lock_owners and owner not in holding
        }
        if idle:
            text = f"{is_left(len(idle), 'lock owner')} {when}: {listed([*map(owner_words, idle)])}"
            yield found("lock-owner-left", name, at, text, tuple(idle.values()))
        for owner, entry in self.open_owners.pop(client, {}).items():
            known = self.server.open_owners.get(owner)
            if known is not None and not known.is_confirmed:
                text = f"{owner_words(owner)} opened a file, and wasn't confirmed {when}"
                yield found("never-confirmed", name, (entry,), text, at)

    def never_confirmed(self) -> Iterator[Finding]:
        """The last SETCLIENTID of each id, if nobody confirmed it."""
        last = {it.record.id: it for it in self.server.introductions.values()}
        for name, introduction in last.items():
            if not introduction.record.is_confirmed:
                client = client_words(introduction.record.number)
                text = f"SETCLIENTID gave {name_words(name)} {client}, and no SETCLIENTID_CONFIRM of it was answered OK"
                yield found("never-confirmed", name, (introduction.entry,), text)


def is_left(number: int, noun: str) -> str:
    return f"{counted(number, noun)} {'is' if number == 1 else 'are'} left"
