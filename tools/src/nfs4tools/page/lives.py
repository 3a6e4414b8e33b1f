"""The clients of a run, by their numbers: which entry gave each, which confirmed it, which ended it and why, and which
entries renewed its lease."""
from dataclasses import dataclass, field

from nfs4tools.explain import Reason, ExplainedEntry
from nfs4tools.journal.entries import Call, Entry, Expire
from nfs4tools.journal.history import History
from nfs4tools.journal.words import client_words
from nfs4tools.runs.parties import text_of
from nfs4tools.wire import SetclientidConfirm


@dataclass
class Life:
    """A client: `given` by a SETCLIENTID, `confirmed` if its confirmation came, and `ended` with a text that says why.
    The renewals are entries."""

    number: int
    name: str
    given: int
    confirmed: int | None = None
    ended: int | None = None
    why: str = ""
    renewals: list[int] = field(default_factory=list)


class Lives:
    """Looks at a replay, and has a life for each client."""

    def __init__(self, server: History) -> None:
        self.server = server
        self.of: dict[int, Life] = {}
        # When the lease of each was renewed last.
        self.renewed: dict[int, int] = {}
        # How many were removed, and how many records gave way, by the last entry.
        self.removed = self.yielded = 0

    def before(self, number: int, entry: Entry, reason: Reason | None) -> None:
        """The lease of a live client is renewed, whatever is answered."""
        if not isinstance(entry, Call):
            return
        client = self.server.renewed_by(entry.opnum, entry.arguments)
        if client in self.server.renewals:
            if self.renewed[client] < entry.moment:
                self.renewed[client] = entry.moment
                self.of[client].renewals.append(number)

    def after(self, told: ExplainedEntry) -> None:
        server, entry = self.server, told.entry
        if len(self.of) < len(server.ids):
            client = next(reversed(server.ids))
            self.of[client] = Life(client, text_of(server.ids[client]), told.number)
        if len(server.removals) > self.removed:
            self.removed = len(server.removals)
            self.end(next(reversed(server.removals)), told)
        if len(server.yielded) > self.yielded:
            self.yielded = len(server.yielded)
            self.give_way(next(reversed(server.yielded)), told.number)
        if isinstance(entry, Call) and isinstance(entry.arguments, SetclientidConfirm):
            self.confirm(entry.arguments.client, told.number, entry.moment)

    def confirm(self, client: int, number: int, moment: int) -> None:
        """The client is live by now, and wasn't before."""
        life = self.of.get(client)
        if life is not None and life.confirmed is None and client in self.server.renewals:
            life.confirmed = number
            life.renewals.append(number)
            self.renewed[client] = moment

    def end(self, client: int, told: ExplainedEntry) -> None:
        life, entry = self.of[client], told.entry
        life.ended = told.number
        if isinstance(entry, Expire):
            life.why = f"its lease expired: seen at {entry.seen}, now {entry.now}"
        elif isinstance(entry, Call):
            life.why = f"{client_words(entry.arguments.client)} took its place: the same id with another verifier"

    def give_way(self, confirm: int, number: int) -> None:
        """A record that wasn't confirmed left its slot to another id."""
        life = self.of[self.server.introductions[confirm].record.number]
        life.ended, life.why = number, "another id took its slot before it was confirmed"
