"""What a relay tells of what passes through it. A relay calls a Watcher; what is written of it is a Watcher's own."""
from typing import NamedTuple

# An address of a server or a client.
Address = tuple[str, int]


class Place(NamedTuple):
    """A connection through a relay: its number, and whether the server made it, for callbacks. They are counted apart."""

    number: int
    is_callback: bool


class Watcher:
    """Sees what passes, and makes nothing of it.

    Each method may be called by any thread, takes the time itself, is quick and raises nothing. `fate` is empty where a
    record is passed on as it came, and else one of FATES. `fault` says why not all that was seen is written, or is
    None."""

    fault: str | None = None

    def begin(self, place: Place, client: Address, server: Address) -> None:
        """A connection begins. The addresses are those at the ends of the connection that the client has: its own, and
        that which stands for the server."""

    def see(self, place: Place, is_reply: bool, body: bytes, fate: str = "") -> None:
        """A record without its headers, once it is known what becomes of it. It is as the client sent or gets it, and
        with callbacks as the server sent or gets it."""

    def see_bytes(self, place: Place, is_from_client: bool, data: bytes) -> None:
        """Bytes on the client's connection, as they came or are sent, headers of fragments with them."""

    def end(self, place: Place, who: str) -> None:
        """A connection has ended, by `client`, `server` or `relay`. More than a call for a connection does no harm."""

    def sweep(self, words: str) -> None:
        """What a server tells of itself, which no call brought."""


# What may become of a record: it is not passed on; half of it is; other bytes are passed on in its place; it is
# answered by the relay; it is made by the relay; it is passed on later.
FATES = ("lost", "cut", "changed", "answered", "made", "held")
