"""What the refusals of a journal say of its clients: each is the sign of one fault at most, the first that fits. What a
right client may meet is none: another client's open, lock or delegation, a name that isn't there, what is under way
while another call ends a state, and requests that come again because a reply was lost."""
from collections import defaultdict
from collections.abc import Hashable, Iterator
from dataclasses import dataclass

from nfs4tools.explain import Reason, ExplainedEntry, is_refusal
from nfs4tools.journal.entries import Call, Entry
from nfs4tools.journal.history import History
from nfs4tools.judge.clients import client_of
from nfs4tools.judge.findings import Finding, SORTS, found
from nfs4tools.judge.refusals_faults import Fault, Finder, Memory, Refused
from nfs4tools.judge.refusals_requests import OfRequests
from nfs4tools.judge.refusals_stateids import OfStateids
from nfs4tools.judge.sequence_ids import SequenceIds
from nfs4tools.judge.watching import Watcher

# Which of two faults stands in the table before the other.
ORDER = {name: place for place, name in enumerate(SORTS)}


@dataclass(frozen=True)
class Suspect:
    """A refusal, and the faults that it may be the sign of."""

    refused: Refused
    faults: list[Fault]


class Refusals(Watcher):
    """Looks at the refusals of a replay."""

    def __init__(self, server: History) -> None:
        super().__init__(server)
        self.memory = Memory(server)
        self.finders: list[Finder] = [kind(server, self.memory) for kind in (OfStateids, OfRequests, SequenceIds)]
        self.suspects: list[Suspect] = []

    def before(self, number: int, entry: Entry, reason: Reason | None) -> None:
        if not isinstance(entry, Call):
            return
        if reason is None:
            self.memory.note_before(entry)
        elif is_refusal(entry):
            refused = Refused(number, entry, reason, client_of(entry, self.server))
            faults = self.faults(refused)
            if faults:
                self.suspects.append(Suspect(refused, faults))

    def faults(self, refused: Refused) -> list[Fault]:
        """All that a refusal may be the sign of."""
        also = None if self.memory.is_late_copy(refused) else refused.reason.also
        reasons = [refused.reason] if also is None else [refused.reason, also]
        return [it for reason in reasons for finder in self.finders for it in finder.faults(refused, reason)]

    def after(self, told: ExplainedEntry) -> None:
        if isinstance(told.entry, Call):
            self.memory.note_after(told)

    def findings(self) -> Iterator[Finding]:
        """The faults; one that was met again is one finding with the entries of all."""
        alike: dict[Hashable, list[tuple[Suspect, Fault]]] = defaultdict(list)
        for suspect in self.suspects:
            it = self.first_of(suspect)
            alike[suspect.refused.client, it.name, it.severity, it.key].append((suspect, it))
        for group in alike.values():
            yield finding_of(group)

    def first_of(self, suspect: Suspect) -> Fault:
        """The first error that fits, or else the first warning."""
        settled = [it.settled() for it in suspect.faults]
        errors = [it for it in settled if not it.doubt]
        return min(errors or settled, key=lambda it: ORDER[it.name])


def finding_of(group: list[tuple[Suspect, Fault]]) -> Finding:
    """One finding of the same fault that was met so often."""
    entries = tuple(suspect.refused.number for suspect, _ in group)
    first, it = group[0]
    text = it.text + (f"; {it.doubt}" if it.doubt else "") + again_words(entries)
    return found(it.name, first.refused.client, entries, text, it.others, it.severity)


def again_words(entries: tuple[int, ...]) -> str:
    """How often a fault was met behind its first entry."""
    if len(entries) == 1:
        return ""
    return (
        f"; and again, in entry {entries[1]}"
        if len(entries) == 2
        else (f"; and {len(entries) - 1} more times, the last in entry {entries[-1]}")
    )
