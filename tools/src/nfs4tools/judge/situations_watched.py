"""What the watchers of situations have in common: each looks at the server of a replay before and after an entry, and
names the situations that the entry meets."""
from collections import deque
from collections.abc import Callable, Hashable, Iterator

from nfs4tools.journal.entries import Call, Entry
from nfs4tools.journal.history import History
from nfs4tools.model.state_parts import KeptState
from nfs4tools.wire import Opnum, Stateid

# What is noted before a call; and names of situations that a call meets, by the number of its entry.
Note = Callable[[Call], None]
Rule = Callable[[int, Call], Iterator[str]]


class Watcher:
    """Names situations of one theme. The server has the state before an entry when a note is taken, and else that
    behind it."""

    def __init__(self, server: History) -> None:
        self.server = server
        # By the operation: what is noted, and the rule for calls that aren't answered by a kept answer.
        self.notes: dict[Opnum, Note] = {}
        self.rules: dict[Opnum, Rule] = {}

    def event(self, entry: Entry) -> Iterator[str]:
        """Of an entry that is no call."""
        yield from ()

    def state(self, stateid: Stateid) -> KeptState | None:
        """The state that a stateid names, by its number alone: with another epoch or client its call can't be answered
        OK. It may have ended."""
        return self.server.given.get(stateid.number)


class StateGroups:
    """States by what they share, in the order in which they came."""

    def __init__(self, server: History) -> None:
        self.server = server
        self.members: dict[Hashable, deque[int]] = {}

    def joins(self, place: Hashable, number: int) -> bool:
        """Whether an earlier state of the place hasn't ended; this one is the place's from now on."""
        members = self.members.setdefault(place, deque())
        while members and members[0] in self.server.ended:
            members.popleft()
        members.append(number)
        return len(members) > 1


def state_given(call: Call) -> int:
    """The number of the state whose stateid begins the answer."""
    return int.from_bytes(call.answer.rest[12:16], "big")
