"""The bytes that a lock owner holds of a file, and what the server reports of them (RFC 7530, sections 9.2 and 16.10).

Bytes are numbered from 0 to 2^64 - 1. What is held is kept as steps: the bytes at which the mode changes, each with the
mode from there on, and no two neighbours of one mode. `tests/model/test_ranges.py` compares this with plain lists of
bytes."""
from bisect import bisect_right
from typing import Any, NamedTuple

from nfs4tools.wire import LockOwner

LAST_BYTE = 2**64 - 1
ALL_ONES = 2**64 - 1
RUNS_LIMIT = 1024

READ_MODE, WRITE_MODE = 1, 2


class Run(NamedTuple):
    """A run is the longest stretch of bytes of one mode: its first and its last byte, and the mode."""

    first: int
    last: int
    mode: int | None


class Denial(NamedTuple):
    """Of a conflict the owner is reported, and its run."""

    owner: LockOwner
    run: Run


def range_of(offset: int, length: int) -> tuple[int, int] | None:
    """The first and the last byte of a range, or None where there is no such range."""
    if length == 0:
        return None
    if length == ALL_ONES:
        return offset, LAST_BYTE
    if offset + length > LAST_BYTE:
        return None
    return offset, offset + length - 1


def length_of(first: int, last: int) -> int:
    """The length that is reported of these bytes: all ones where the last byte is among them."""
    return ALL_ONES if last == LAST_BYTE else last - first + 1


def meets(mode: int | None, other: int) -> bool:
    """Two owners can't hold a byte in these modes."""
    return mode is not None and other is not None and WRITE_MODE in (mode, other)


class Ranges:
    """What one lock owner holds of a file."""

    def __init__(self, starts: tuple[int, ...] = (0,), modes: tuple[int | None, ...] = (None,)) -> None:
        self.starts, self.modes = list(starts), list(modes)

    def place(self, byte: int) -> int:
        """That of the step in which the byte is."""
        return bisect_right(self.starts, byte) - 1

    def mode(self, byte: int) -> int | None:
        return self.modes[self.place(byte)]

    def run_at(self, byte: int) -> Run:
        """The stretch round the byte of the mode that it has, also of none."""
        place = self.place(byte)
        end = self.starts[place + 1] - 1 if place + 1 < len(self.starts) else LAST_BYTE
        return Run(self.starts[place], end, self.modes[place])

    def changed(self, first: int, last: int, mode: int | None) -> "Ranges":
        """These ranges with another mode on the bytes from the first to the last, and the same on all others."""
        steps = [step for step in zip(self.starts, self.modes) if step[0] < first] + [(first, mode)]
        if last < LAST_BYTE:
            steps.append((last + 1, self.mode(last + 1)))
            steps += [step for step in zip(self.starts, self.modes) if step[0] > last + 1]
        kept = [step for place, step in enumerate(steps) if place == 0 or steps[place - 1][1] != step[1]]
        return Ranges(*zip(*kept))

    def held(self) -> list[Run]:
        """The runs that are held, in order."""
        return [self.run_at(first) for first, mode in zip(self.starts, self.modes) if mode is not None]

    def runs(self) -> int:
        """How many runs are held."""
        return len(self.modes) - self.modes.count(None)

    def is_empty(self) -> bool:
        return self.runs() == 0

    def first_conflict(self, first: int, last: int, mode: int) -> int | None:
        """The least byte from the first to the last that can't be held in this mode by another owner, or None."""
        while first <= last:
            run = self.run_at(first)
            if meets(run.mode, mode):
                return first
            first = run.last + 1
        return None


def denial(others: list[tuple[Any, Ranges]], first: int, last: int, mode: int) -> Denial | None:
    """What is reported where a lock is denied, or None: of the owners in conflict at the least byte that any of them
    has a conflict at, the least one, and its run there. `others` are pairs of owner and ranges; owners are compared by
    clientid, and then by their bytes."""
    conflicts = [
        (byte, owner, ranges)
        for owner, ranges in others
        if (byte := ranges.first_conflict(first, last, mode)) is not None
    ]
    if not conflicts:
        return None
    byte, owner, ranges = min(conflicts, key=lambda found: found[:2])
    return Denial(owner, ranges.run_at(byte))
