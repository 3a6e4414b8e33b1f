"""A run in short: how often each client got each status, and at which entry first; and the first refusal of each kind."""
from collections.abc import Iterator
from dataclasses import dataclass, field

from nfs4tools.explain.kinds import Kind, Reason
from nfs4tools.journal.words import STATUS_NAMES
from nfs4tools.runs.run import Entry

# The row of calls that name no client of the run.
NO_CLIENT = "no client"
# A table is at most so wide, unless a column alone is wider.
WIDTH = 120


@dataclass
class Times:
    """How often something came, and the entry of the first."""

    first: int
    count: int = 0

    def words(self) -> str:
        return f"{self.count} from {self.first}"


@dataclass
class First:
    """The first refusal of a kind, and how many each client got."""

    entry: Entry
    reason: Reason
    counts: dict[str | None, int] = field(default_factory=dict)


class Summary:
    """Adds entries up, in their order."""

    def __init__(self) -> None:
        self.entries = self.calls = self.refusals = 0
        self.moments: tuple[int, int] | None = None
        # By the names of the clients, and by the numbers of the statuses.
        self.times: dict[str | None, dict[int, Times]] = {}
        self.firsts: dict[Kind, First] = {}

    def add(self, entry: Entry) -> None:
        self.entries += 1
        if entry.moment is not None:
            begin, end = self.moments or (entry.moment, entry.moment)
            self.moments = min(begin, entry.moment), max(end, entry.moment)
        call = entry.call
        if call is None:
            return
        status = call.answer.status
        self.calls += 1
        self.refusals += entry.is_refusal
        of_client = self.times.get(entry.client)
        if of_client is None:
            of_client = self.times[entry.client] = {}
        found = of_client.get(status)
        if found is None:
            found = of_client[status] = Times(entry.number)
        found.count += 1

    def add_reason(self, entry: Entry, reason: Reason) -> None:
        """The entry is a refusal, for this reason."""
        first = self.firsts.get(reason.kind)
        if first is None:
            first = self.firsts[reason.kind] = First(entry, reason)
        first.counts[entry.client] = first.counts.get(entry.client, 0) + 1

    def head(self) -> str:
        place = ""
        if self.moments is not None:
            place = " at moment {}" if self.moments[0] == self.moments[1] else " from moment {} to {}"
        refusals = counted(self.refusals, "refusal")
        return f"{counted(self.entries, 'entry')}{place.format(*self.moments or ())}: {refusals}"

    def table(self) -> Iterator[str]:
        """A row for each client, in the order of their names, and one for calls that name none; a column for each
        status. Columns that have no room stand below the others."""
        names: list[str | None] = [*sorted(it for it in self.times if it is not None), *[None] * (None in self.times)]
        statuses = sorted({status for found in self.times.values() for status in found})
        first = [""] + [title(name) for name in names]
        columns = [self.column(status, names) for status in statuses]
        for some in blocks(columns, width_of(first)):
            rows = zip(*[padded(column) for column in [first, *some]])
            yield from ("  ".join(row).rstrip() for row in rows)

    def column(self, status: int, names: list[str | None]) -> list[str]:
        cells = [self.times[name].get(status) for name in names]
        return [STATUS_NAMES[status].removeprefix("NFS4ERR_").removeprefix("NFS4_")] + [
            cell.words() if cell else "" for cell in cells
        ]


def title(name: str | None) -> str:
    return NO_CLIENT if name is None else name


def counts_words(counts: dict[str | None, int]) -> str:
    """How many came, and of which clients, the most first."""
    found = sorted(counts.items(), key=lambda it: (-it[1], title(it[0])))
    return f"{sum(counts.values())} of this kind: " + ", ".join(f"{title(name)} {count}" for name, count in found)


def counted(count: int, what: str) -> str:
    if count == 1:
        return f"1 {what}"
    return f"{count} {what[:-1]}ies" if what.endswith("y") else f"{count} {what}s"


def width_of(column: list[str]) -> int:
    return max(map(len, column))


def padded(column: list[str]) -> list[str]:
    return [cell.ljust(width_of(column)) for cell in column]


def blocks(columns: list[list[str]], begin: int) -> Iterator[list[list[str]]]:
    """The columns, as many together as there is room for beside one of this width."""
    some, width = list[list[str]](), begin
    for column in columns:
        more = 2 + width_of(column)
        if some and width + more > WIDTH:
            yield some
            some, width = [], begin
        some, width = [*some, column], width + more
    if some:
        yield some
