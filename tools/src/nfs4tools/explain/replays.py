"""One replay of a journal, which serves all who ask what its entries did: `tools/explain` and `tools/judge`."""
from collections.abc import Iterable, Iterator, Sequence
from typing import NamedTuple, Protocol

from nfs4tools.explain.causes import Causes
from nfs4tools.explain.kinds import Reason
from nfs4tools.journal.entries import Call, Entry
from nfs4tools.journal.events import Events
from nfs4tools.journal.history import History
from nfs4tools.journal.journal import Journal, STEPS, WrongAnswer
from nfs4tools.model.state import JOURNAL_LIMIT
from nfs4tools.model.state_parts import Request
from nfs4tools.wire import Status


class ExplainedEntry(NamedTuple):
    """An entry with its number; if it is a call the reason of its answer, or None, where that is OK and no kept
    answer; and texts of what it does about delegations."""

    number: int
    entry: Entry
    reason: Reason | None
    events: list[str]


class Observer(Protocol):
    """Who looks at a replay: before each entry, when the server has the state that it meets; and after it."""

    def before(self, number: int, entry: Entry, reason: Reason | None) -> None:
        ...

    def after(self, told: ExplainedEntry) -> None:
        ...


class Replay:
    """A server that follows a journal, and the reasons of its answers. If it `is_quick`, it doesn't look for reasons of
    answers of OK, other than that they are stored replies; and it tells no events."""

    def __init__(self, journal: Journal, limit: int = JOURNAL_LIMIT, is_quick: bool = False) -> None:
        self.server = History(journal.tree, journal.lease, journal.epoch, limit)
        self.causes, self.events = Causes(self.server), Events(self.server)
        self.journal, self.is_quick = journal, is_quick

    def run(self, observers: Sequence[Observer] = ()) -> Iterator[ExplainedEntry]:
        """What there is to say of each entry; or WrongAnswer at the first that can't follow."""
        for entry in self.journal.entries:
            yield self.step(entry, observers)

    def expect(self, wanted: Iterable[Entry]) -> None:
        """Of all entries to come the reasons of these alone are wanted, if it `is_quick`."""
        calls = [it for it in wanted if isinstance(it, Call)]
        self.causes.later = {Request(it.opnum, it.arguments, it.filehandle) for it in calls}

    def step(self, entry: Entry, observers: Sequence[Observer] = (), is_wanted: bool = True) -> ExplainedEntry:
        """The next entry, whether or not the journal has it already. If it isn't wanted it may have no reason."""
        number = self.server.entries
        reason = self.reason_of(entry, is_wanted) if isinstance(entry, Call) else None
        for observer in observers:
            observer.before(number, entry, reason)
        if not self.is_quick:
            self.events.begin(entry)
        self.follow(number, entry)
        told = ExplainedEntry(number, entry, reason, [] if self.is_quick else list(self.events.texts(number, entry)))
        for observer in observers:
            observer.after(told)
        return told

    def pass_over(self, entries: Iterable[Entry], observers: Sequence[Observer] = ()) -> None:
        """The next entries, of which nothing is wanted."""
        is_looked_at = bool(observers) or not self.is_quick
        for entry in entries:
            if is_looked_at or isinstance(entry, Call) and self.causes.is_for_later(entry):
                self.step(entry, observers, is_wanted=False)
            else:
                self.follow(self.server.entries, entry)

    def follow(self, number: int, entry: Entry) -> None:
        if number == self.server.journal_limit or not STEPS[type(entry)](self.server, entry):
            raise WrongAnswer(number)

    def reason_of(self, call: Call, is_wanted: bool) -> Reason | None:
        return self.causes.reason_of_lawful(call, is_wanted) if self.is_quick else self.causes.reason_of(call)


def is_refusal(entry: Entry) -> bool:
    return isinstance(entry, Call) and entry.answer.status != Status.OK
