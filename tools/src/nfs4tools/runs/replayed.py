"""A run with the reasons of its answers: its entries go through one replay."""
from collections.abc import Iterator, Sequence
from typing import Generic

from nfs4tools.explain import Observer, Replay, ExplainedEntry
from nfs4tools.journal.journal import WrongAnswer, fault_of
from nfs4tools.runs.run import E, Run
from nfs4tools.runs.selection import Selection


class Replayed(Generic[E]):
    """A replay of a run, with events if they are wanted. At its end `fault` says which entry can't follow those before
    it, if there is one."""

    def __init__(self, run: Run[E], has_events: bool = False) -> None:
        self.run = run
        self.replay = Replay(run.head, is_quick=not has_events)
        self.server = self.replay.server
        self.fault: str | None = None

    def told(
        self,
        observers: Sequence[Observer] = (),
        selection: Selection = Selection(),
        observers_of_wanted: Sequence[Observer] = (),
    ) -> Iterator[tuple[E, ExplainedEntry]]:
        """Each entry that is wanted with what there is to say of it, up to the first that can't follow. Some observers
        look at these entries alone."""
        chosen = selection.chosen(self.run.entries, self.run.passed)
        wanted = {it.number for it in chosen}
        if len(chosen) < self.run.count():
            self.replay.expect(it.recorded for it in chosen)
        try:
            self.replay.pass_over(self.run.passed, observers)
            for entry in self.run.entries:
                if entry.number in wanted:
                    yield entry, self.replay.step(entry.recorded, [*observers, *observers_of_wanted])
                else:
                    self.replay.pass_over([entry.recorded], observers)
        except WrongAnswer as ended:
            self.fault = fault_of(ended)
