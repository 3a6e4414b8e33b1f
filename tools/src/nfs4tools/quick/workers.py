"""Processes side by side that do the tasks of a part, until the time is over."""
import multiprocessing
import os
import signal
import time
from collections.abc import Callable, Iterable
from multiprocessing.connection import Connection, wait
from typing import Any

from nfs4tools.quick.judged_server import Outcome

# How many processes there are for each processor, as most of them wait.
FOR_EACH = 2
FORK = multiprocessing.get_context("fork")


class Late(Exception):
    """The time is over."""


class Workers:
    """What does tasks until so many seconds are over."""

    def __init__(self, seconds: float) -> None:
        self.until = time.monotonic() + seconds
        self.count = FOR_EACH * len(os.sched_getaffinity(0))

    def each(self, work: Callable[[Any], Outcome], tasks: Iterable[Any]) -> Outcome:
        """What comes of all tasks together."""
        listed, turn, outcome = list(tasks), FORK.Value("i", 0), Outcome()
        waiting: dict[Any, Any] = {}
        try:
            for _ in range(min(self.count, len(listed))):
                mine, its = FORK.Pipe(duplex=False)
                waiting[mine] = FORK.Process(target=do, args=(work, listed, turn, its))
                waiting[mine].start()
                its.close()
            while waiting:
                ready = wait(list(waiting), max(0, self.until - time.monotonic()))
                if not ready:
                    raise Late
                for end in ready:
                    outcome.add(outcome_from(end))
                    waiting.pop(end).join()
        finally:
            for process in waiting.values():
                end_all(process)
        return outcome


def outcome_from(end: Any) -> Outcome:
    """What a process sends at its end."""
    try:
        found: Outcome = end.recv()
    except EOFError:
        return Outcome(faults=[["a process of the tests ended early"]])
    return found


def end_all(process: Any) -> None:
    """Ends a process with the servers that it has started."""
    try:
        os.killpg(process.pid, signal.SIGKILL)
    except ProcessLookupError:
        # It has no group yet, and no server.
        process.kill()
    process.join()


def do(work: Callable[[Any], Outcome], tasks: list[Any], turn: Any, out: Connection) -> None:
    """Does tasks as long as there are any that no other process has taken. This process and its servers are a group of
    their own, which Ctrl-C doesn't reach: the first process ends them."""
    os.setpgid(0, 0)
    signal.signal(signal.SIGTERM, signal.SIG_DFL)
    outcome = Outcome()
    while True:
        with turn.get_lock():
            number = turn.value
            turn.value += 1
        if number >= len(tasks):
            break
        outcome.add(work(tasks[number]))
    out.send(outcome)
