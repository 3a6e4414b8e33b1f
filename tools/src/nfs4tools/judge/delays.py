"""Requests that are sent again and again while a delegation isn't given back."""
from collections.abc import Hashable, Iterator
from dataclasses import dataclass, field

from nfs4tools.explain import Reason, ExplainedEntry
from nfs4tools.explain.kinds import KeptFacts
from nfs4tools.journal.entries import Call
from nfs4tools.journal.history import History
from nfs4tools.judge.clients import client_of
from nfs4tools.judge.findings import Finding, found
from nfs4tools.judge.watching import Watcher
from nfs4tools.wire import Open, Status

# More often than this it is hammering.
OFTEN = 10


@dataclass
class Series:
    """The same request, which was answered DELAY each time."""

    client: bytes | None
    calls: list[tuple[int, Call]] = field(default_factory=list)
    states: set[int] = field(default_factory=set)


class Delays(Watcher):
    """Looks at requests that are answered DELAY, until they have another answer."""

    def __init__(self, server: History) -> None:
        super().__init__(server)
        self.waiting: dict[Hashable, Series] = {}
        self.hammered: list[Series] = []

    def after(self, told: ExplainedEntry) -> None:
        entry = told.entry
        if not isinstance(entry, Call):
            return
        if entry.answer.status == Status.DELAY and told.reason is not None:
            self.note(told.number, entry, told.reason)
        elif self.waiting:
            self.waiting.pop(request_of(entry), None)

    def note(self, number: int, entry: Call, reason: Reason) -> None:
        request = request_of(entry)
        series = self.waiting.setdefault(request, Series(client_of(entry, self.server)))
        series.calls.append((number, entry))
        series.states.update(states_of(reason))
        if len(series.calls) == OFTEN + 1:
            self.hammered.append(series)

    def findings(self) -> Iterator[Finding]:
        for series in self.hammered:
            (first, begun), (last, ended), states = series.calls[0], series.calls[-1], sorted(series.states)
            text = (
                f"the same {begun.opnum.name} was answered DELAY {len(series.calls)} times, from {begun.moment} "
                f"(entry {first}) to {ended.moment} (entry {last}); it waits for {self.states_words(states)}"
            )
            given = tuple(self.server.begun[state] for state in states)
            yield found("delay-hammered", series.client, tuple(number for number, _ in series.calls), text, given)


def states_of(reason: Reason) -> tuple[int, ...]:
    """The delegations that a request waits for; a kept answer says what was in the way when it was given."""
    before = reason.facts.before if isinstance(reason.facts, KeptFacts) else None
    return reason.states if before is None else before.states


def request_of(entry: Call) -> Hashable:
    """What makes two calls the same request, but for its sequence id."""
    arguments = entry.arguments._replace(seqid=0) if isinstance(entry.arguments, Open) else entry.arguments
    return entry.opnum, arguments, entry.filehandle, entry.principal
