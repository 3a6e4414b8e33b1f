"""How often each client met each situation, by a replay of a journal."""
from collections import Counter

from nfs4tools.explain import Reason, ExplainedEntry
from nfs4tools.journal.entries import Call, Entry
from nfs4tools.journal.history import History
from nfs4tools.judge.clients import client_of
from nfs4tools.judge.situations_clients import ClientWatcher, is_of_another_run
from nfs4tools.judge.situations_delegations import DelegationWatcher
from nfs4tools.judge.situations_locks import LockWatcher
from nfs4tools.judge.situations_opens import OpenWatcher
from nfs4tools.judge.situations_requests import RequestWatcher, retransmission
from nfs4tools.wire import Opnum

WATCHERS = (ClientWatcher, RequestWatcher, OpenWatcher, LockWatcher, DelegationWatcher)


class SituationsMet:
    """Counts situations by their names: `counts` has them by the ids of clients, and those of calls that name no
    client by None."""

    def __init__(self, server: History) -> None:
        self.server = server
        self.counts: dict[bytes | None, Counter[str]] = {}
        self.watchers = [kind(server) for kind in WATCHERS]
        self.notes = {opnum: [it.notes[opnum] for it in self.watchers if opnum in it.notes] for opnum in Opnum}
        self.rules = {opnum: [it.rules[opnum] for it in self.watchers if opnum in it.rules] for opnum in Opnum}

    def before(self, _number: int, entry: Entry, _reason: Reason | None) -> None:
        if isinstance(entry, Call):
            for note in self.notes[entry.opnum]:
                note(entry)

    def after(self, told: ExplainedEntry) -> None:
        names = self.names(told)
        if names:
            self.counts.setdefault(client_of(told.entry, self.server), Counter()).update(names)

    def names(self, told: ExplainedEntry) -> list[str]:
        """The situations that an entry meets."""
        entry, reason = told.entry, told.reason
        if not isinstance(entry, Call):
            return [name for watcher in self.watchers for name in watcher.event(entry)]
        if reason is not None and reason.again is not None:
            return list(retransmission(entry))
        found = [name for rule in self.rules[entry.opnum] for name in rule(told.number, entry)]
        return found + ["server-restarted"] * (reason is not None and is_of_another_run(reason))
