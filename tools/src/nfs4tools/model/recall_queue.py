"""A server whose state threads share behind a lock. Its recalls go into a queue, out of which they are taken by whoever
sends them."""
from collections.abc import Callable
from dataclasses import dataclass
from typing import Any, TypeVar

from nfs4tools.journal.journal import Recorder
from nfs4tools.model.state_parts import Recall, Result
from nfs4tools.model.sweeps import Swept

# How many recalls the queue has room for.
ROOM = 1024
T = TypeVar("T")


@dataclass
class Queuing(Recorder):
    """At the end of each hold of the lock the recalls go into the queue, in order, as far as that has room. The others
    wait for the next hold. RENEW takes no lock."""

    # How many of the run's recalls went into the queue.
    queued: int = 0

    def hold(self, change: Callable[..., T], *given: Any) -> T:
        """What comes of a change, in a hold of the lock."""
        try:
            return change(*given)
        finally:
            self.queued = min(len(self.recalls), self.taken + ROOM)

    def apply(self, *given: Any) -> Result:
        return self.hold(super().apply, *given)

    def sweep(self, now: int) -> Swept:
        return self.hold(super().sweep, now)

    def mark_path(self, number: int, is_up: int) -> int:
        return self.hold(super().mark_path, number, is_up)

    def probe(self, after: int) -> int | None:
        return self.hold(super().probe, after)

    def waiting(self) -> int:
        """How many recalls wait for room in the queue, as the hold begins in which they are counted."""
        return self.hold(lambda: len(self.recalls) - self.queued)

    def take_recall(self) -> Recall | None:
        """The first recall in the queue, or None where there is none. This takes no lock."""
        return super().take_recall() if self.taken < self.queued else None
