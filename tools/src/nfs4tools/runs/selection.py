"""A selection of a run's entries: by client, file, owner, status, entries and moments, with entries around."""
from collections import deque
from collections.abc import Iterable, Sequence
from dataclasses import dataclass
from typing import Any

from nfs4tools.journal.entries import Entry as Recorded
from nfs4tools.model.state_parts import OwnerName
from nfs4tools.runs.parties import last_moment, text_of
from nfs4tools.runs.run import E, Entry
from nfs4tools.wire import Status

# So many names of what there is are listed.
LISTED = 40


class NoSuch(Exception):
    """A name that matches nothing; the argument says what there is."""


@dataclass(frozen=True)
class Span:
    """Numbers from the first to the last; no last is the end."""

    first: int = 0
    last: int | None = None

    def __contains__(self, number: int) -> bool:
        return self.first <= number and (self.last is None or number <= self.last)


@dataclass(frozen=True)
class Selection:
    """What is wanted of a run. Nothing is wanted of what is empty; each name of a field is wanted, and all fields have
    to match. `context` is how many entries before and after each are shown, too."""

    # Names, or numbers of clients that have no name that is this.
    clients: tuple[str, ...] = ()
    # Paths from the root, with a slash before the first name.
    paths: tuple[str, ...] = ()
    owners: tuple[str, ...] = ()
    statuses: tuple[Status, ...] = ()
    entries: Span = Span()
    moments: Span = Span()
    context: int = 0

    def is_all(self) -> bool:
        """Whether each entry is wanted."""
        return self == Selection(context=self.context)

    def has_names(self) -> bool:
        """Whether it asks for clients, files, owners or statuses."""
        return bool(self.clients or self.paths or self.owners or self.statuses)

    def matches(self, entry: Entry, moment: int) -> bool:
        """Whether the entry is wanted. Its moment is that of the last entry that has one, if it has none."""
        return (
            entry.number in self.entries
            and moment in self.moments
            and (not self.clients or self.is_of(entry))
            and (not self.paths or entry.path in self.paths)
            and (not self.statuses or entry.status in self.statuses)
            and (not self.owners or any(text_of(it.name) in self.owners for it in entry.owners))
        )

    def is_of(self, entry: Entry) -> bool:
        has_number = entry.client_number is not None and str(entry.client_number) in self.clients
        return has_number or entry.client in self.clients

    def first(self) -> int:
        """The number of the first entry that may be shown; but to say which names there are takes all."""
        return 0 if self.has_names() else max(0, self.entries.first - self.context)

    def last(self) -> int | None:
        """The number of the last entry that may be shown, or None for the end."""
        return None if self.entries.last is None else self.entries.last + self.context

    def chosen(self, entries: Iterable[E], passed: Sequence[Recorded] = ()) -> list[E]:
        """The entries that are wanted, without those around, of a run that begins with those passed over."""
        chooser = Chooser(self)
        chooser.pass_over(passed)
        return [entry for entry in entries if chooser.is_wanted(entry)]

    def around(self, chosen: Iterable[Entry]) -> set[int]:
        """The numbers of these entries, and of those around each."""
        return {
            number
            for entry in chosen
            for number in range(max(0, entry.number - self.context), entry.number + self.context + 1)
        }

    def expect_names(self, entries: Iterable[Entry]) -> None:
        """Each name is that of something in the run, or NoSuch says what there is."""
        if self.has_names():
            names = Names()
            for entry in entries:
                names.add(entry)
            names.expect(self)


class Names:
    """What entries have by which a selection chooses."""

    def __init__(self) -> None:
        self.clients: set[str | None] = set()
        self.numbers: set[int | None] = set()
        self.paths: set[str | None] = set()
        self.owners: set[OwnerName] = set()
        self.statuses: set[Status | None] = set()

    def add(self, entry: Entry) -> None:
        self.clients.add(entry.client)
        self.numbers.add(entry.client_number)
        self.paths.add(entry.path)
        self.owners.update(entry.owners)
        self.statuses.add(entry.status)

    def expect(self, selection: Selection) -> None:
        """Each name of the selection is one of these, or NoSuch."""
        last = selection.last()
        where = "no entry" if last is None else f"no entry up to {last}"
        numbers = {str(it) for it in self.numbers if it is not None}
        expect(f"{where} has the client", selection.clients, self.clients, numbers)
        expect(f"{where} has the file", selection.paths, self.paths)
        expect(f"{where} has the owner", selection.owners, {text_of(it.name) for it in self.owners})
        statuses = {it.name for it in self.statuses if it is not None}
        expect(f"{where} has the status", [it.name for it in selection.statuses], statuses)


class Chooser:
    """Goes through the entries of a run in their order, and says which ones a selection wants."""

    def __init__(self, selection: Selection) -> None:
        self.selection, self.is_all = selection, selection.is_all()
        self.moment = 0
        # The last entries that weren't shown; and how many more are shown behind the last that is wanted.
        self.before: deque[Any] = deque(maxlen=selection.context)
        self.after = 0

    def pass_over(self, entries: Sequence[Recorded]) -> None:
        """The next entries, of which none is wanted."""
        self.moment = last_moment(entries, self.moment)

    def is_wanted(self, entry: Entry) -> bool:
        if self.is_all:
            return True
        self.moment = self.moment if entry.moment is None else entry.moment
        return self.selection.matches(entry, self.moment)

    def shown(self, entry: E) -> list[E]:
        """The entries that are shown once the next one has come: those before it, if it is wanted, and it itself."""
        if self.is_wanted(entry):
            found = [*self.before, entry]
            self.before.clear()
            self.after = self.selection.context
            return found
        if self.after > 0:
            self.after -= 1
            return [entry]
        self.before.append(entry)
        return []


def expect(what: str, wanted: Iterable[str], names: Iterable[str | None], others: Iterable[str] = ()) -> None:
    """Each that is wanted is one of these names, or NoSuch says which there are."""
    found = {it for it in names if it is not None}
    for name in wanted:
        if name not in found and name not in others:
            raise NoSuch(f"{what} {name!r}: {listed(found)}")


def listed(names: set[str]) -> str:
    """The names that there are, in their order."""
    found = sorted(names)
    if not found:
        return "there is none"
    more = f" and {len(found) - LISTED} more" if len(found) > LISTED else ""
    return f"there is {', '.join(found[:LISTED])}{more}"
