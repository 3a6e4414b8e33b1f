"""What the mistakes of `mistaken_series.py` have in common: the table of all mistakes, by the findings that name them,
and what a mistake needs of a series."""
from collections.abc import Callable
from typing import Any

from helpers.expecting_client import Wrong
from helpers.right_client import LAST, Locked, Opened, Owner, RightClient
from helpers.right_series import Series, whole
from helpers.series_clients import SeriesClient
from nfs4tools.wire import Status

# What a mistake says: whether it could be made here.
Mistake = Callable[[Series, SeriesClient], bool]

MISTAKES: dict[str, tuple[Mistake, tuple[str, ...]]] = {}


def finding(*names: str) -> Callable[[Mistake], Mistake]:
    """Of a mistake: the errors that are found, in the order of the entries."""

    def keep(mistake: Mistake) -> Mistake:
        MISTAKES[mistake.__name__] = mistake, names
        return mistake

    return keep


def expect(client: RightClient, results: Any, status: Status) -> bool:
    if results[-1].status != status:
        raise Wrong(f"a mistake is answered {results[-1]}, wanted {status.name}")
    return True


def hindered(series: Series, own: set[Any]) -> bool:
    return any(task.hinders(frozenset(own), frozenset()) for task in series.tasks)


def an_open(series: Series, client: SeriesClient, test: Callable[[Opened], Any] = lambda it: True) -> Opened | None:
    fitting = [it for it in client.usable() if not hindered(series, whole(it)) and test(it)]
    return series.chance.choice(fitting) if fitting else None


def a_lock(series: Series, client: SeriesClient, test: Callable[[Locked], Any] = lambda it: True) -> Locked | None:
    fitting = [it for opened in client.usable() for it in opened.locks if not hindered(series, whole(opened))]
    fitting = [it for it in fitting if test(it)]
    return series.chance.choice(fitting) if fitting else None


def next_of(owner: Owner, more: int = 1) -> int:
    return (owner.seqid + more) % (LAST + 1)
