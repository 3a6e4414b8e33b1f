"""Counts the instructions of calls in the hold: while a worker of a built `nfs4state serve` has the lock of the state.

Valgrind's callgrind ends a part of its counts each time that `Shared::hold` returns, and each time that `move_held`
returns. `Shared::hold` takes the lock. `move_held` is called just before the lock is released. So each second part of a
thread is a hold. A part has the instructions of its thread alone.

tools/bench/README.md says what the counts leave out."""
import os
import re
import tempfile
from collections import Counter
from collections.abc import Callable, Mapping, Sequence
from statistics import fmean
from typing import NamedTuple

from bench.script import Failure
from bench.table import markdown

# The functions whose returns are the ends of parts, for each type that they are compiled for.
TAKES, RELEASES = "nfs_shared::shared::Shared::hold::", "nfs_shared::moving::move_held::"
PART, THREAD = re.compile(r"^part: ", re.MULTILINE), re.compile(r"^thread: (\d+)$", re.MULTILINE)
TRIGGER = re.compile(r"^desc: Trigger: --dump-after=(.+)$", re.MULTILINE)
TOTALS = re.compile(r"^totals: (\d+)$", re.MULTILINE)
HEAD = ["Calls", "In the hold", "In the longest hold", "In all"]
# How many instructions are wanted at most, by calls.
MOST_IN_HOLD = {"READ 64 KiB": 6_500}
MOST_IN_ALL = {"WRITE 64 KiB": 110_000}


class Part(NamedTuple):
    """The instructions of a thread since its part before, and whether they end with a hold."""

    thread: int
    is_hold: bool
    instructions: int


class Hold(NamedTuple):
    """The instructions of a thread between the hold before and this hold, and in this hold."""

    before: int
    held: int


class Figure(NamedTuple):
    """The mean instructions of a call in the hold, the most of a call there, and the mean of a call in all."""

    held: float
    longest: int
    whole: float


def parts_of(text: str) -> list[Part]:
    """The parts in a file of callgrind, in their order. The last part of each thread ends with the program, and isn't
    among them."""
    found = []
    for part in PART.split(text)[1:]:
        if trigger := TRIGGER.search(part):
            thread, totals = THREAD.search(part), TOTALS.search(part)
            if thread is None or totals is None:
                raise Failure("callgrind's file has a part without its thread or its sum")
            found.append(Part(int(thread[1]), trigger[1].startswith(RELEASES), int(totals[1])))
    return found


def holds_of(parts: Sequence[Part], calls: int) -> list[Hold]:
    """The holds of the worker that answered so many calls, a hold for each. The worker is the thread with most parts:
    other threads have some each second."""
    threads = Counter(part.thread for part in parts)
    worker = max(threads, key=lambda thread: threads[thread], default=0)
    of_worker = [part for part in parts if part.thread == worker]
    takes, releases = of_worker[::2], of_worker[1::2]
    if any(part.is_hold for part in takes) or not all(part.is_hold for part in releases) or len(releases) != calls:
        raise Failure(
            f"a worker has {len(takes)} and {len(releases)} returns of {TAKES.strip(':')} and {RELEASES.strip(':')} for "
            f"{calls} calls: this program's holds can't be told by these functions"
        )
    return [Hold(before.instructions, hold.instructions) for before, hold in zip(takes, releases)]


def figure_of(holds: Sequence[Hold]) -> Figure:
    held = [hold.held for hold in holds]
    return Figure(fmean(held), max(held), fmean(hold.before + hold.held for hold in holds))


def counted_in_hold(program: str, calls: int, answer: Callable[[list[str]], object]) -> list[Hold]:
    """The holds for so many calls, which `answer` has a command answer: callgrind's words and the program."""
    with tempfile.TemporaryDirectory() as room:
        path = os.path.join(room, "counts")
        options = ["--separate-threads=yes", "--combine-dumps=yes", f"--callgrind-out-file={path}"]
        ends = [f"--dump-after={name}*" for name in (TAKES, RELEASES)]
        answer(["valgrind", "--tool=callgrind", f"--log-file={room}/log", *options, *ends, program])
        with open(path, encoding="utf-8") as source:
            return holds_of(parts_of(source.read()), calls)


def is_missed(value: float, most: int | None) -> bool:
    return most is not None and value > most


def spelled(value: float, most: int | None = None) -> str:
    """The figure, in bold with its bound if it misses that."""
    return f"**{value:,.0f}, wanted {most:,}**" if is_missed(value, most) else f"{value:,.0f}"


def table(figures: Mapping[str, Figure]) -> str:
    """A line in Markdown for each kind of calls."""
    return markdown(
        HEAD,
        [
            [
                name,
                spelled(figure.held, MOST_IN_HOLD.get(name)),
                spelled(figure.longest),
                spelled(figure.whole, MOST_IN_ALL.get(name)),
            ]
            for name, figure in figures.items()
        ],
    )


def misses(figures: Mapping[str, Figure]) -> bool:
    """Whether a figure misses its bound."""
    return any(
        is_missed(figure.held, MOST_IN_HOLD.get(name)) or is_missed(figure.whole, MOST_IN_ALL.get(name))
        for name, figure in figures.items()
    )
