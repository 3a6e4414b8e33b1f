"""Series of right calls with one mistake at a random place, and the finding by which `tools/judge` has to name it.

A mistake is a call more, or a few, of a client which has what is needed for it. It is made where no call is under way
that it would disturb; and the client takes notice of the answer where that counts, so that all else stays right."""
import random
from typing import NamedTuple

from helpers import mistaken_ids, mistaken_requests
from helpers.mistakes import MISTAKES, Mistake, hindered
from helpers.right_series import Series
from helpers.series_clients import SeriesClient

__all__ = ["MISTAKES", "bent"]

# The modules that add their mistakes to MISTAKES.
FILES = mistaken_ids, mistaken_requests


class MistakenSeries(NamedTuple):
    """A series, the findings that are errors in it, by their names, and the mistake that was made."""

    series: Series
    mistake: str
    findings: tuple[str, ...]


def bent(seed: int, name: str | None = None, actions: int = 60) -> MistakenSeries | None:
    """A series with one mistake, this one or any; or None where it could be made at no place."""
    chance = random.Random(-1 - seed)
    name = name or chance.choice(sorted(MISTAKES))
    mistake, findings = MISTAKES[name]
    first, made = chance.randrange(actions // 3, actions), list[int]()

    def between(series: Series, place: int) -> None:
        for client in series.clients if place >= first and not made else []:
            if client.is_live() and not client.is_asleep and not made and attempt(mistake, series, client):
                made.append(place)

    series = Series(seed, actions + 40).run(between)
    return MistakenSeries(series, name, findings) if made else None


def attempt(mistake: Mistake, series: Series, client: SeriesClient) -> bool:
    """Whether the mistake was made: none of its calls comes again."""
    client.lost, before = lambda operations: 0, client.lost
    try:
        return not hindered(series, {client}) and mistake(series, client)
    finally:
        client.lost = before
