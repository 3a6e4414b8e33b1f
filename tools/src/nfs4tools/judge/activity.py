"""What each client did, in numbers."""
from dataclasses import dataclass

from nfs4tools.explain import ExplainedEntry
from nfs4tools.journal.entries import Call
from nfs4tools.journal.history import History
from nfs4tools.judge.clients import client_of
from nfs4tools.judge.watching import Holdings, Watcher, counted
from nfs4tools.model.state_parts import Delegation
from nfs4tools.wire import Lock, Open


@dataclass
class Activity:
    """Of a client: its calls that have entries; the OPENs and LOCKs that were OK; the delegations that it got; and the
    requests of its owners that came again."""

    calls: int = 0
    opens: int = 0
    locks: int = 0
    delegations: int = 0
    retransmissions: int = 0

    def words(self) -> str:
        return ", ".join(
            [
                f"{counted(self.calls, 'call')} on the state",
                counted(self.opens, "open"),
                counted(self.locks, "lock"),
                counted(self.delegations, "delegation"),
                counted(self.retransmissions, "retransmission"),
            ]
        )


class Activities(Watcher):
    """Counts what clients do, by their ids, in the order in which they come; None has the calls that name no client."""

    def __init__(self, server: History, holdings: Holdings) -> None:
        super().__init__(server)
        self.holdings = holdings
        self.of: dict[bytes | None, Activity] = {}

    def after(self, told: ExplainedEntry) -> None:
        entry = told.entry
        if not isinstance(entry, Call):
            return
        client = client_of(entry, self.server)
        done = self.of.get(client)
        if done is None:
            done = self.of[client] = Activity()
        done.calls += 1
        if told.reason is not None:
            done.retransmissions += told.reason.again is not None
        elif isinstance(entry.arguments, Open):
            done.opens += 1
            done.delegations += sum(isinstance(self.server.given[it], Delegation) for it in self.holdings.added)
        elif isinstance(entry.arguments, Lock):
            done.locks += 1
