"""What those who watch a replay have in common: they see each entry before the server follows it and after, and give
their findings at its end. And which states each client has by now."""
from collections import defaultdict
from collections.abc import Iterable, Iterator
from itertools import islice

from nfs4tools.explain import Reason, ExplainedEntry
from nfs4tools.explain.sentences import Sentences, listed
from nfs4tools.journal.entries import Call, Entry
from nfs4tools.journal.history import History
from nfs4tools.judge.findings import Finding
from nfs4tools.model.state_parts import LockState
from nfs4tools.wire import Status


class Watcher:
    """Looks at a replay, and finds nothing yet."""

    def __init__(self, server: History) -> None:
        self.server, self.sentences = server, Sentences(server)

    def before(self, number: int, entry: Entry, reason: Reason | None) -> None:
        """The server has the state that the entry meets."""

    def after(self, told: ExplainedEntry) -> None:
        """The server has the state that the entry leads to."""

    def findings(self) -> Iterator[Finding]:
        """All of the replay, which is at its end."""
        yield from ()

    def states_words(self, states: Iterable[int]) -> str:
        """The first of these states, by their numbers, and how many others there are."""
        return listed([self.sentences.state(number) for number in states])


class Holdings(Watcher):
    """Which states there are: by their clients, and the lock states by their opens. It comes before those who ask."""

    def __init__(self, server: History) -> None:
        super().__init__(server)
        self.of_client: dict[int, set[int]] = defaultdict(set)
        self.locks_of: dict[int, set[int]] = defaultdict(set)
        # The last state that is known here, those that the last entry gave, and how many have ended.
        self.last, self.ended = 0, 0
        self.added: range = range(0)

    def after(self, told: ExplainedEntry) -> None:
        server = self.server
        self.added = range(self.last + 1, server.last_state + 1)
        if self.added:
            self.last = server.last_state
            for number in self.added:
                self.add(number)
        ended = len(server.ended)
        if ended > self.ended:
            # Those that ended last were noted last.
            for number in islice(reversed(server.ended), ended - self.ended):
                self.drop(number)
            self.ended = ended

    def add(self, number: int) -> None:
        state = self.server.given[number]
        self.of_client[state.client].add(number)
        if isinstance(state, LockState):
            self.locks_of[state.open.number].add(number)

    def drop(self, number: int) -> None:
        state = self.server.given[number]
        self.of_client[state.client].discard(number)
        if isinstance(state, LockState):
            self.locks_of[state.open.number].discard(number)

    def locks_held(self, opened: int) -> list[LockState]:
        """The lock states of an open that hold a byte."""
        found = [self.server.given[number] for number in sorted(self.locks_of.get(opened, ()))]
        return [it for it in found if isinstance(it, LockState) and not it.ranges.is_empty()]


def is_new(entry: Entry, reason: Reason | None) -> bool:
    """Whether it is a call that was answered OK, and no kept request again."""
    return isinstance(entry, Call) and entry.answer.status == Status.OK and reason is None


def counted(number: int, noun: str, plural: str | None = None) -> str:
    return f"{number} {noun if number == 1 else plural or noun + 's'}"
