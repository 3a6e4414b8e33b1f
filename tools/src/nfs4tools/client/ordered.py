"""A server in a test's hand: its moments, marks of callback paths and waits are orders (`serve --orders`)."""
import os
import re
import time
from collections.abc import Sequence
from typing import NamedTuple

from nfs4tools.client.client import Client
from nfs4tools.client.journals import Journal, read_journal
from nfs4tools.client.server import Server, ServerError
from nfs4tools.processes import PATIENCE

# The seconds between two looks at the number of entries.
LOOK = 0.005
SWEPT = re.compile(
    r"moment (?P<moment>\d+): expired (?P<expired>\d+) revoked (?P<revoked>\d+) forgotten (?P<forgotten>\d+)"
    r"(?: refused (?P<refused>\d+))?(?P<is_stopped> stopped)?"
)


class OrderRefused(ServerError):
    """The server answers an order by an error."""


class Swept(NamedTuple):
    """What a sweep ended at its moment: leases, delegations and idle owners. `refused` counts the leases for whose ends
    the journal had no room, and `is_stopped` says that others were left for lack of room."""

    moment: int
    expired: int
    revoked: int
    forgotten: int
    refused: int = 0
    is_stopped: bool = False


def swept_of(answer: str) -> Swept:
    found = SWEPT.fullmatch(answer)
    if found is None:
        raise ServerError(f"the server answers {answer!r} to an order to sweep")
    moment, expired, revoked, forgotten = (int(found[name]) for name in ("moment", "expired", "revoked", "forgotten"))
    return Swept(moment, expired, revoked, forgotten, int(found["refused"] or 0), found["is_stopped"] is not None)


class OrderedServer(Server):
    """A server whose moment is 0 at first, and moves only by `advance`. No lease ends by itself."""

    def __init__(
        self, *options: str, journal: "str | os.PathLike[str] | None" = None, command: Sequence[str] | None = None
    ) -> None:
        super().__init__("--orders", *options, journal=journal, command=command)
        self.journal = None if journal is None else os.fspath(journal)

    def order(self, words: str, seconds: float = PATIENCE) -> str:
        """The answer to an order; or OrderRefused."""
        self.served.program.stdin.write(words.encode() + b"\n")
        answer = self.served.next_answer(seconds).decode(errors="replace").rstrip("\n")
        if not answer or answer.startswith("error: "):
            raise OrderRefused(f"{words}: {answer or 'no answer'}")
        return answer

    def number(self, words: str) -> int:
        """The number at the end of an answer."""
        return int(self.order(words).split()[-1])

    def advance(self, seconds: int) -> Swept:
        """Moves the moment on by so many seconds, and sweeps."""
        return swept_of(self.order(f"advance {seconds}"))

    def sweep(self) -> Swept:
        """Sweeps at the moment."""
        return swept_of(self.order("sweep"))

    @property
    def moment(self) -> int:
        return self.number("moment")

    @property
    def entries(self) -> int:
        """How many entries the journal has."""
        return self.number("entries")

    def mark(self, client: Client | int, is_up: bool) -> None:
        """Marks a client's callback path."""
        self.order(f"mark {number_of(client)} {'up' if is_up else 'down'}")

    def wait_up(self, client: Client | int, seconds: int = 5) -> None:
        """Waits until a callback has reached the client, but not for more real seconds than these."""
        self.order(f"wait up {number_of(client)} {seconds}", seconds + PATIENCE)

    def wait_down(self, client: Client | int, seconds: int = 5) -> None:
        """Waits until a callback didn't reach the client."""
        self.order(f"wait down {number_of(client)} {seconds}", seconds + PATIENCE)

    def wait_for_entries(self, count: int, seconds: float = 5) -> None:
        """Waits until the journal has so many entries or more, but not for more real seconds than these."""
        until = time.monotonic() + seconds
        while self.entries < count:
            if time.monotonic() > until:
                raise TimeoutError(f"the journal has fewer than {count} entries after {seconds} s")
            time.sleep(LOOK)

    def journal_so_far(self) -> Journal:
        """The journal up to now, of a server with a journal."""
        self.order("journal")
        return read_journal(f"{self.journal}.part")


def number_of(client: Client | int) -> int:
    """The lower half of the clientid."""
    return client if isinstance(client, int) else client.clientid.client
