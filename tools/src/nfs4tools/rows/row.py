"""Rows as values: a row, its parts, and its connections."""
from dataclasses import dataclass, field
from typing import Any

from nfs4tools.rows.orders import ALONE_ORDERS, ORDERS, Order

# A server's lease in seconds, and the upper half of its clientids, if a row says nothing else.
LEASE, EPOCH = 90, 1


@dataclass
class Part:
    """A connection, or what is sent on one at a moment and between orders: the bytes, what has to come, and how the
    connection ends, if it isn't by the end of the input after a whole record."""

    moment: int = 0
    sent: bytes = b""
    wanted: bytes = b""
    fault: str | None = None
    # Whether the connection of the part before goes on.
    goes_on: bool = False


Step = Part | Order


@dataclass
class Connection:
    """A connection as its client sees it."""

    moment: int
    sent: bytes
    wanted: bytes
    fault: str | None
    # What happens after so many of the bytes are sent: a moment that the clock is set to, or an order.
    stops: list[tuple[int, Any]] = field(default_factory=list)

    def go_on(self, part: Part) -> None:
        self.stops.append((len(self.sent), part.moment))
        self.sent, self.wanted, self.fault = self.sent + part.sent, self.wanted + part.wanted, part.fault or self.fault


@dataclass
class Row:
    file: str
    line: int
    name: str
    rule: list[str] = field(default_factory=list)
    document: str | None = None
    lease: int = LEASE
    epoch: int = EPOCH
    is_portable: bool = False
    # The sections of RFCs that it is by: its own, or those of its file's head, or none.
    sections: str = ""
    # Whether it says itself that it needs a server that has just been started.
    says_alone: bool = False
    # Whether it says what is wanted.
    is_whole: bool = False
    # Parts and orders, one after another; the first is a part.
    steps: list[Step] = field(default_factory=lambda: [Part()])

    @property
    def is_ordering(self) -> bool:
        """Whether the server is told something that no call asks for."""
        return any(isinstance(step, ORDERS) for step in self.steps)

    @property
    def is_alone(self) -> bool:
        """Whether it needs a server that has just been started: with other options, or one that is told something that
        no call asks for; or since it says so."""
        is_other = self.document is not None or self.lease != LEASE or self.epoch != EPOCH
        return self.says_alone or is_other or self.is_ordering

    @property
    def is_unshared(self) -> bool:
        """Whether the server is told something that one isn't whose state threads share, or answers otherwise."""
        return any(isinstance(step, ALONE_ORDERS) for step in self.steps)

    @property
    def connections(self) -> list[Connection]:
        """The parts that go on with one another as one connection, with the orders as its stops."""
        found: list[Connection] = []
        for step in self.steps:
            if not isinstance(step, Part):
                found[-1].stops.append((len(found[-1].sent), step))
            elif step.goes_on:
                found[-1].go_on(step)
            else:
                found.append(Connection(step.moment, step.sent, step.wanted, step.fault))
        return found
