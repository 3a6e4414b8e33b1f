"""The orders that wait, and the answers that do: `serve --orders` reads the former on standard input, and writes the
latter to standard output, each by a thread that nobody waits for."""
import os
import threading
from collections import deque
from collections.abc import Callable
from dataclasses import dataclass

from nfs4tools.model.tcp import say

# How many orders wait at most, how long a line may be, and how many bytes of answers wait at most.
MOST_ORDERS, LINE_LIMIT, MOST_ANSWERS = 64, 1024, 65536
# The most bytes of a write of answers: a pipe takes as many at once.
PIECE = 4096
TOO_MANY = f"error: {MOST_ORDERS} orders wait already"
DROPPED = "answers are dropped: standard output takes no more"


@dataclass
class Line:
    """A line of the input without its end. The end of the input may have cut it."""

    data: bytes
    is_cut: bool = False
    # How many lines behind it found no place.
    refused: int = 0


class OrderQueue:
    """The lines that wait, in their order."""

    def __init__(self) -> None:
        self.lines: deque[Line] = deque()
        self.changed = threading.Condition()
        # Whether the input has ended.
        self.is_over = False

    def put(self, line: Line) -> None:
        with self.changed:
            if len(self.lines) < MOST_ORDERS:
                self.lines.append(line)
            else:
                self.lines[-1].refused += 1
            self.changed.notify_all()

    def end(self) -> None:
        with self.changed:
            self.is_over = True
            self.changed.notify_all()

    def take(self, seconds: float) -> Line | None:
        """The next line, if there is one within so many seconds and before the end of the input."""
        with self.changed:
            self.changed.wait_for(lambda: self.lines or self.is_over, seconds)
            return self.lines.popleft() if self.lines else None

    def is_done(self) -> bool:
        """Whether the input has ended, and no line is left."""
        with self.changed:
            return self.is_over and not self.lines


def read_piece() -> bytes:
    """What comes next on standard input, and nothing at its end."""
    try:
        return os.read(0, PIECE)
    except OSError:
        return b""


def read_lines(queue: OrderQueue, read: Callable[[], bytes] = read_piece) -> None:
    """Puts the lines of the input into the queue, to the end of the input."""
    rest = b""
    while data := read():
        *lines, rest = (rest + data).split(b"\n")
        for line in lines:
            queue.put(Line(line))
        # What is too long is an error, whatever follows.
        rest = rest[: LINE_LIMIT + 1]
    if rest:
        queue.put(Line(rest, is_cut=True))
    queue.end()


class Answers:
    """The answers that wait to be written."""

    def __init__(self) -> None:
        self.waiting, self.changed = bytearray(), threading.Condition()
        # Whether nobody reads any more; and whether it was told that answers are dropped.
        self.is_broken = self.is_told = False

    def give(self, answer: str) -> None:
        """Adds an answer, if there is room for it."""
        data = answer.encode() + b"\n"
        with self.changed:
            has_room = len(self.waiting) + len(data) <= MOST_ANSWERS
            if has_room and not self.is_broken:
                self.waiting += data
                self.changed.notify_all()
            is_first = not (has_room or self.is_told)
            self.is_told = self.is_told or is_first
        if is_first:
            say(DROPPED)

    def write_all(self) -> None:
        """Writes the answers as they come, as long as somebody reads."""
        while not self.is_broken:
            with self.changed:
                self.changed.wait_for(lambda: self.waiting)
                piece = bytes(self.waiting[:PIECE])
            try:
                count = os.write(1, piece)
            except OSError:
                self.is_broken, count = True, len(self.waiting)
            with self.changed:
                del self.waiting[:count]
                self.changed.notify_all()

    def end(self, seconds: float) -> None:
        """Waits until all are written, but no longer than this."""
        with self.changed:
            self.changed.wait_for(lambda: not self.waiting, seconds)
