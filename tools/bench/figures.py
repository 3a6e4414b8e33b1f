"""Which calls are counted beside what for the table of `cost --table`, and the table."""
import sys
from collections.abc import Iterator, Sequence
from typing import NamedTuple

from bench.scenes import spelled
from bench.calls import KINDS
from bench.counting import counts
from bench.table import markdown


class Times(NamedTuple):
    """Calls, counted in turn beside this; and how many times what they take alone they may take, or how much."""

    calls: str
    beside: str
    most: float | None = None
    highest: float | None = None


class Each(NamedTuple):
    """A call counted beside one and the other: what it takes more, by this number; and how much that may be."""

    call: str
    less: str
    more: str
    count: int  # type: ignore[assignment]
    most: float | None = None


USUAL = "OPEN+CLOSE,LOCK+LOCKU,LOCKT,READ"
ROWS: list[Times | Each] = [
    Times(f"{USUAL},SETCLIENTID+CONFIRM", "clients=250", 1.15),
    Times(USUAL, "lenders=250", 1.15),
    Times("OPEN+CLOSE,CLOSE-again,CLOSE-of-nothing", "owners=10000", 1.15),
    Times("CLOSE-again,CLOSE-of-nothing", "closers=10000", 1.15),
    Times("LOCK+LOCKU", "locks=1000", 1.15),
    Times("OPEN+CLOSE", "opens=10000", 1.3),
    Times("OPEN+CLOSE-to-read", "readers=250", 1.3),
    Times("LOCK+LOCKU", "own-runs=1000", 1.3),
    Times("LOCKT", "own-runs=1000", 1.3),
    Times("LOCKT", "runs=1000", 1.3),
    Times("oldest-CLOSE+OPEN", "opens=10000", 5),
    Times("oldest-RELEASE_LOCKOWNER", "idle=10000", highest=130000),
    Times("LOCKT-of-all", "read-runs=1000", highest=20000),
    Each("LOCK+LOCKU", "neighbours=1000", "neighbours=2000", 1000, 80),
    Each("LOCKT", "neighbours=1000", "neighbours=2000", 1000, 80),
    Each("OPEN-that-calls-back", "", "lenders=250x10", 250, 1200),
]
HEAD = ["Call", "Instructions", "Beside", "Instructions", "Times", "At most"]


class Figures:
    """What was counted so far."""

    def __init__(self, program: str) -> None:
        self.program = program
        self.alone: dict[str, float] = {}

    def counts(self, beside: str, names: Sequence[str]) -> dict[str, float]:
        print(f"{','.join(names)} beside {spelled(beside)}", file=sys.stderr)
        return counts(self.program, beside, names)

    def of_one_alone(self, name: str) -> float:
        if name not in self.alone:
            self.alone[name] = self.counts(KINDS[name].alone, [name])[name]
        return self.alone[name]

    def times(self, row: Times) -> Iterator[list[str]]:
        """A line for each call."""
        alone = {name: self.of_one_alone(name) for name in row.calls.split(",")}
        for name, count in self.counts(row.beside, list(alone)).items():
            yield [
                name,
                number(alone[name]),
                spelled(row.beside),
                number(count),
                f"{count / alone[name]:.2f}",
                *(bound(count, row.highest) if row.highest else bound(count / alone[name], row.most)),
            ]

    def each(self, row: Each) -> Iterator[list[str]]:
        less, more = (self.counts(beside, [row.call])[row.call] for beside in (row.less, row.more))
        value = (more - less) / row.count
        what = f"{spelled(row.more)}, less {spelled(row.less)}, by {row.count:,}"
        yield [row.call, "", what, number(value), "", *bound(value, row.most)]

    def lines(self) -> Iterator[list[str]]:
        for row in ROWS:
            yield from self.times(row) if isinstance(row, Times) else self.each(row)


def number(value: float) -> str:
    return f"{value:,.0f}"


def bound(value: float, most: float | None) -> list[str]:
    return [""] if most is None else [f"{most:,}" if value <= most else f"**{most:,}: missed**"]


def table(program: str) -> str:
    return markdown(HEAD, list(Figures(program).lines()))
