"""Orders: what a server is told that no call asks for, as values and as the lines of a row."""
from collections.abc import Callable
from dataclasses import dataclass
from typing import get_args

from nfs4tools.rows.errors import (
    NO_FORGETTING,
    NO_MARK,
    NO_NUMBER,
    NO_PENDING,
    NO_PROBE,
    NO_REVOCATION,
    NO_SWEEP,
    Wrong,
)
from nfs4tools.rows.words import decimal, words_of

# The moments that a row may have are below it.
MOMENT_LIMIT = 2**40 - 2


@dataclass(frozen=True)
class Sweep:
    """A look through the leases, and how many clients are to be removed by it, how many kept, how many delegations are
    to be taken, and how many owners forgotten."""

    moment: int
    expired: int
    kept: int
    revoked: int = 0
    forgotten: int = 0


@dataclass(frozen=True)
class Mark:
    """A client can be called back, or can't; and whether it is to be live."""

    client: int
    is_up: bool
    is_live: bool = True


@dataclass(frozen=True)
class Revoke:
    """A delegation is taken, if one is due; and the number of the state that it is to be, or None."""

    moment: int
    state: int | None = None


@dataclass(frozen=True)
class Forget:
    """An open owner is forgotten, if one is due; and the number of its client and the name that it is to have, or
    None."""

    moment: int
    owner: tuple[int, bytes] | None = None


@dataclass(frozen=True)
class TakeRecall:
    """The first recall that waits is taken; and the record that is to be sent for it, or nothing where none waits."""

    record: bytes = b""

    @property
    def xid(self) -> int:
        return int.from_bytes(self.record[4:8], "big")


@dataclass(frozen=True)
class Pending:
    """How many recalls are to wait."""

    count: int


@dataclass(frozen=True)
class Probe:
    """Of whose path nothing is known: the least client number above this one that it is to be, or None."""

    after: int
    client: int | None = None


# What a server is told that no call asks for.
Order = Sweep | Mark | Revoke | TakeRecall | Pending | Probe | Forget
ORDERS = get_args(Order)
# What a server whose state threads share isn't told, or answers otherwise, as it hands its recalls over by a queue.
ALONE_ORDERS = (Revoke, Pending, Forget)


# What is counted of a sweep: the first two always.
COUNTED = [
    ["expired", "kept"],
    ["expired", "kept", "revoked"],
    ["expired", "kept", "forgotten"],
    ["expired", "kept", "revoked", "forgotten"],
]


def sweep_of(text: str) -> Sweep:
    """The sweep that is written as SECONDS expired COUNT kept COUNT, and maybe revoked COUNT and forgotten COUNT."""
    seconds, *counts = [*words_of(text)] or [""]
    if counts[::2] not in COUNTED or len(counts) % 2:
        raise Wrong(NO_SWEEP)
    numbers = [decimal(digits, 2**32, NO_SWEEP) for digits in counts[1::2]]
    return Sweep(decimal(seconds, MOMENT_LIMIT, NO_NUMBER), **dict(zip(counts[::2], numbers)))


def mark_of(text: str) -> Mark:
    """The mark that is written as CLIENT up or CLIENT down, and then done or not live."""
    match [*words_of(text)]:
        case [client, "up" | "down" as way, *answer] if answer in (["done"], ["not", "live"]):
            return Mark(decimal(client, 2**32, NO_MARK), way == "up", answer == ["done"])
    raise Wrong(NO_MARK)


def revocation_of(text: str) -> Revoke:
    """The revocation that is written as SECONDS none or SECONDS state NUMBER."""
    match [*words_of(text)]:
        case [seconds, "none"]:
            return Revoke(decimal(seconds, MOMENT_LIMIT, NO_NUMBER))
        case [seconds, "state", state]:
            return Revoke(decimal(seconds, MOMENT_LIMIT, NO_NUMBER), decimal(state, 2**32, NO_REVOCATION))
    raise Wrong(NO_REVOCATION)


def forgetting_of(text: str) -> Forget:
    """The forgetting that is written as SECONDS none or SECONDS owner CLIENT "NAME"."""
    match [*words_of(text)]:
        case [seconds, "none"]:
            return Forget(decimal(seconds, MOMENT_LIMIT, NO_NUMBER))
        case [seconds, "owner", client, name] if name.startswith('"'):
            owner = decimal(client, 2**32, NO_FORGETTING), name[1:].encode()
            return Forget(decimal(seconds, MOMENT_LIMIT, NO_NUMBER), owner)
    raise Wrong(NO_FORGETTING)


def pending_of(text: str) -> Pending:
    """The number of recalls that is written as COUNT."""
    match [*words_of(text)]:
        case [count]:
            return Pending(decimal(count, 2**32, NO_PENDING))
    raise Wrong(NO_PENDING)


def probe_of(text: str) -> Probe:
    """The client to be tried that is written as CLIENT none or CLIENT client NUMBER."""
    match [*words_of(text)]:
        case [after, "none"]:
            return Probe(decimal(after, 2**32, NO_PROBE))
        case [after, "client", client]:
            return Probe(decimal(after, 2**32, NO_PROBE), decimal(client, 2**32, NO_PROBE))
    raise Wrong(NO_PROBE)


def order_lines(order: Order) -> list[str]:
    """An order as the lines of a row."""
    match order:
        case Sweep(moment, expired, kept, revoked, forgotten):
            more = f" revoked {revoked}" * (revoked > 0) + f" forgotten {forgotten}" * (forgotten > 0)
            return [f"sweep {moment} expired {expired} kept {kept}{more}"]
        case Mark(client, is_up, is_live):
            return [f"mark {client} {'up' if is_up else 'down'} {'done' if is_live else 'not live'}"]
        case Revoke(moment, state):
            return [f"revoke {moment} " + ("none" if state is None else f"state {state}")]
        case Forget(moment, owner):
            return [f"forget {moment} " + ("none" if owner is None else f'owner {owner[0]} "{owner[1].decode()}"')]
        case TakeRecall(record):
            return ["take record", f"  hex:{record[4:].hex()}"] if record else ["take nothing"]
        case Pending(count):
            return [f"pending {count}"]
        case Probe(after, client):
            return [f"probe {after} " + ("none" if client is None else f"client {client}")]


def order_line(order: Order) -> str:
    return " ".join(word for line in order_lines(order) for word in line.split())


ORDER_LINES: dict[str, Callable[[str], Order]] = {
    "sweep": sweep_of,
    "mark": mark_of,
    "revoke": revocation_of,
    "pending": pending_of,
    "probe": probe_of,
    "forget": forgetting_of,
}
