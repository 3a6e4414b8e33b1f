"""A run: the entries of a journal's file, or of a beginning of one, as values."""
from collections.abc import Iterable, Iterator
from dataclasses import dataclass, field
from itertools import islice
from typing import Generic, NamedTuple, TypeVar

from nfs4tools.journal.entries import Call, NotJournal
from nfs4tools.journal.entries import Entry as Recorded
from nfs4tools.journal.journal import Growing, Journal
from nfs4tools.journal.named_words import named_line_of
from nfs4tools.model.state_parts import OwnerName
from nfs4tools.model.tree import Tree
from nfs4tools.runs.parties import Event, Known, moment_of, path_of
from nfs4tools.wire import Principal, Status

# How many bytes of a file are read at once.
PIECE = 1 << 20


@dataclass(frozen=True, slots=True)
class Entry:
    """An entry: a call with its answer, or an event, which no call brought. It is printed as `tools/show_journal` does."""

    number: int
    recorded: Recorded
    # In seconds of the run; the mark of a callback path has none.
    moment: int | None
    # The client that the entry names: the id of its SETCLIENTID, and its number, each if there is one.
    client: str | None
    client_number: int | None
    # The path of the file that it is about: that of the current filehandle, or that which an OPEN names.
    path: str | None
    # The owners that it names or whose state it names; the first has the sequence id of the call.
    owners: tuple[OwnerName, ...]
    tree: Tree = field(repr=False, compare=False)

    @property
    def call(self) -> Call | None:
        return self.recorded if isinstance(self.recorded, Call) else None

    @property
    def event(self) -> Event | None:
        return None if isinstance(self.recorded, Call) else self.recorded

    @property
    def operation(self) -> str | None:
        """The name of a call's operation."""
        return self.recorded.opnum.name if isinstance(self.recorded, Call) else None

    @property
    def status(self) -> Status | None:
        """A call's status."""
        return Status(self.recorded.answer.status) if isinstance(self.recorded, Call) else None

    @property
    def is_refusal(self) -> bool:
        return isinstance(self.recorded, Call) and self.recorded.answer.status != Status.OK

    @property
    def principal(self) -> Principal | None:
        return self.recorded.principal if isinstance(self.recorded, Call) else None

    @property
    def file(self) -> str | None:
        """The path of the current filehandle."""
        node = self.recorded.filehandle if isinstance(self.recorded, Call) else None
        return None if node is None else path_of(node, self.tree)

    @property
    def line(self) -> str:
        return named_line_of(self.recorded, self.tree)

    def __repr__(self) -> str:
        return f"{self.number}: {self.line}"


E = TypeVar("E", bound=Entry)


class Naming:
    """Makes the values of the entries that are recorded, in their order from the first on."""

    def __init__(self, head: Journal) -> None:
        self.tree = head.tree
        self.known = Known(head.epoch, head.tree)
        self.count = 0

    def pass_before(self, first: int, recorded: list[Recorded]) -> int:
        """Learns what those of the next entries give that stand before this number: how many they are."""
        count = min(len(recorded), max(0, first - self.count))
        for entry in islice(recorded, count):
            self.known.note(entry)
        self.count += count
        return count

    def entries(self, recorded: Iterable[Recorded], kind: type[E]) -> Iterator[E]:
        for entry in recorded:
            number = self.count
            self.count += 1
            yield kind(number, entry, moment_of(entry), *self.known.parties_of(entry), self.tree)


@dataclass
class Run(Generic[E]):
    """What a file has: the head of its journal, the entries that are wanted, and how it ends."""

    # Without entries.
    head: Journal
    entries: list[E]
    growing: Growing = field(repr=False)
    # Whether the file was read to its end.
    is_at_end: bool = True
    # The entries before those, of which nothing is wanted but what they do to the state.
    passed: list[Recorded] = field(default_factory=list, repr=False)

    def count(self) -> int:
        """How many entries were read."""
        return len(self.passed) + len(self.entries)

    def at(self, number: int) -> E:
        """The entry of this number, which isn't one of those before."""
        return self.entries[number - len(self.passed)]

    @property
    def ending(self) -> str | None:
        """How the file ends, if it is no whole journal and was read to its end."""
        if not self.is_at_end:
            return None
        if self.growing.fault is not None:
            return f"fault: not a journal: {self.growing.fault}"
        return None if self.growing.is_whole() else self.growing.ending()

    @property
    def journal(self) -> Journal:
        """The journal of these entries, which a replay follows."""
        return self.head._replace(entries=[*self.passed, *(it.recorded for it in self.entries)])


class Piece(NamedTuple, Generic[E]):
    """The entries of a piece of a file: those before the first that is wanted, and the others."""

    passed: list[Recorded]
    entries: list[E]


class Reading(Generic[E]):
    """Reads a file in pieces, up to the last entry that is wanted. Those before the first have no values, as most of
    the time goes into these."""

    def __init__(self, path: str, kind: type[E], last: int | None = None, first: int = 0) -> None:
        self.path, self.kind, self.first, self.last = path, kind, first, last
        self.growing = Growing()
        # Whether the file was read to its end, or to what is no entry.
        self.is_at_end = True

    def pieces(self) -> Iterator[Piece[E]]:
        """The entries of each piece; or OSError, or NotJournal."""
        naming: Naming | None = None
        with open(self.path, "rb") as source:
            while self.growing.fault is None and (data := source.read(PIECE)):
                recorded = self.growing.take(data)
                if self.growing.head is not None:
                    naming = naming or Naming(self.growing.head)
                    passed = naming.pass_before(self.first, recorded)
                    yield Piece(recorded[:passed], list(naming.entries(recorded[passed:], self.kind)))
                if self.last is not None and self.growing.entries > self.last:
                    self.is_at_end = False
                    return

    def run_of(self, pieces: list[Piece[E]]) -> Run[E]:
        """The run that was read in these pieces, if its head is there."""
        assert self.growing.head is not None
        passed = [entry for piece in pieces for entry in piece.passed]
        entries = [entry for piece in pieces for entry in piece.entries]
        wanted = entries if self.last is None else entries[: max(0, self.last + 1 - len(passed))]
        return Run(self.growing.head, wanted, self.growing, self.is_at_end, passed)


def read_run(path: str, kind: type[E], last: int | None = None) -> Run[E]:
    """The run of a journal's file, or of a beginning of one, up to this entry; or OSError, or NotJournal."""
    reading = Reading(path, kind, last)
    pieces = list(reading.pieces())
    if reading.growing.head is None:
        raise NotJournal(reading.growing.ending())
    return reading.run_of(pieces)
