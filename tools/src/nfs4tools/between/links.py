"""The two sides of a connection through the relay: a caller, and who answers."""
import socket
import threading
import time
from collections.abc import Callable, Sequence
from dataclasses import dataclass
from typing import TYPE_CHECKING, Any

from nfs4tools.between.calls import Call
from nfs4tools.between.names import OperationSubjects, NOTHING
from nfs4tools.between.outcomes import Case
from nfs4tools.between.owners import Kept
from nfs4tools.between.records import Ends, RECORD_LIMIT, Record, TooLong, framed, next_record
from nfs4tools.trace.watching import Address, Place

if TYPE_CHECKING:
    from nfs4tools.between.relay import Between

# The seconds between two fragments of a reply, and of all.
BETWEEN_FRAGMENTS, ALL_FRAGMENTS = 0.02, 1

# What is to be done.
Act = Callable[[], object]


def shut(stream: socket.socket, how: int) -> None:
    try:
        stream.shutdown(how)
    except OSError:
        # It has ended.
        pass


def start(act: Callable[..., object], *given: Any) -> None:
    threading.Thread(target=act, args=given, daemon=True).start()


def do_later(seconds: float, act: Act) -> None:
    timer = threading.Timer(seconds, act)
    timer.daemon = True
    timer.start()


@dataclass(eq=False)
class Exchange:
    """A call that was taken, and what its operations are about: the fault that it meets, of which case it comes again,
    and what is kept for its id; each may be None. `is_new` is whether it comes for the first time. If it is answered in
    the server's place, `index` is that of the operation. `sent` was passed on."""

    call: Call
    abouts: list[OperationSubjects]
    is_new: bool
    case: Case | None = None
    again: Case | None = None
    kept: Kept | None = None
    index: int | None = None
    sent: bytes = b""
    is_second: bool = False

    @property
    def told_case(self) -> Case | None:
        """The case that was told of it, or None."""
        return self.case if self.case is not None and self.case.number else self.again


class Link:
    """A connection of a caller, and the one to who answers that belongs to it. What becomes of calls and replies is
    said by `take_call` and `take_reply`."""

    place: str
    number: int
    target: Address
    near: socket.socket
    far: socket.socket
    is_callback: bool
    is_over: bool
    is_left: bool
    goes_on: bool
    has_several: bool

    def __init__(
        self, between: "Between", near: socket.socket, far: socket.socket, spot: Place, target: Address
    ) -> None:
        self.between, self.tale, self.near, self.far, self.target = between, between.tale, near, far, target
        self.watcher, self.spot, self.number, self.is_callback = between.watcher, spot, spot.number, spot.is_callback
        self.place = f"{'callback ' * self.is_callback}connection {self.number}"
        # The side of it that is the client's.
        self.of_client = far if self.is_callback else near
        # The calls to which the caller has no reply; and by their xids those to which the server has given none.
        self.asked: list[Exchange] = []
        self.waiting: dict[bytes, list[Exchange]] = {}
        self.is_over, self.is_last, self.held, self.readers = False, False, 0, 2
        # Whether the caller sends nothing more, which may be all that is seen of its end.
        self.is_left = False
        self.turns = {near: threading.Lock(), far: threading.Lock()}
        # The last fault that left it open, and whether a call came since; the case behind which its client ended it;
        # whether several calls were ever under way at once; and which clients it named last.
        self.last_case: Case | None = None
        self.ended_behind: Case | None = None
        self.goes_on, self.has_several = True, False
        self.clients: frozenset[bytes] = NOTHING

    @property
    def has_ended(self) -> bool:
        """Whether its caller gets no reply any more, or sends nothing more."""
        return self.is_left or self.is_over

    def take_call(self, record: Record) -> Act | None:
        """What is to be done about a call, which isn't done with the lock held; or None."""
        raise NotImplementedError

    def take_reply(self, record: Record) -> Act | None:
        """What is to be done about a reply, which isn't done with the lock held; or None."""
        raise NotImplementedError

    def is_standing(self, earlier: Call, call: Call) -> bool:
        """Whether a call is one to which no reply was given on this connection."""
        return earlier.record == call.record or bool(earlier.requests) and earlier.is_again(call)

    def begin(self) -> None:
        start(self.read, self.near, self.take_call)
        start(self.read, self.far, self.take_reply)

    # What comes.

    def read(self, source: socket.socket, take_one: Callable[[Record], Act | None]) -> None:
        """Takes record by record, and does what is to be done then, up to the end."""
        who = "client" if source is self.of_client else "server"
        try:
            while True:
                record = next_record(source)
                if source is self.of_client:
                    self.watcher.see_bytes(self.spot, True, framed(*record))
                act = take_one(record)
                if act is not None:
                    act()
        except Ends as end:
            if source is self.of_client and end.args[0]:
                self.watcher.see_bytes(self.spot, True, end.args[0])
            self.note_end(source, who, False)
            self.pass_end(source, end.args[0])
        except TooLong:
            self.between.tell(
                f"{self.place}: closed, because its {who} sends a record of more than {RECORD_LIMIT} bytes"
            )
            self.end()
        except OSError:
            self.note_end(source, who, True)
            self.end()
        self.leave()

    def note_end(self, source: socket.socket, who: str, is_reset: bool) -> None:
        """A side ends the connection."""
        self.watcher.end(self.spot, who)
        if source is self.near:
            with self.between.lock:
                self.tale.endings.ended(self, is_reset)

    def pass_end(self, source: socket.socket, rest: bytes) -> None:
        """Passes on that a side has ended, and what came before. What is held is still given."""
        other = self.far if source is self.near else self.near
        if rest and not self.is_over:
            self.send(other, rest)
        if source is self.near:
            self.is_left = True
            shut(self.far, socket.SHUT_WR)
            return
        with self.between.lock:
            self.is_last = self.held > 0
        if not self.is_last:
            self.end()

    def leave(self) -> None:
        """A side has ended, or what was held is given: at last there is nothing left to do."""
        with self.between.lock:
            self.readers -= 1
            if self.readers:
                return
            self.between.leaving.forget(self)
        for stream in (self.near, self.far):
            stream.close()
        self.between.give_place(self)

    # What goes.

    def send(self, stream: socket.socket, *parts: bytes, before_last: Act | None = None) -> None:
        """Sends parts, with some time between them, and does something before the last."""
        with self.turns[stream]:
            try:
                for number, part in enumerate(parts, 1):
                    if number > 1:
                        time.sleep(min(BETWEEN_FRAGMENTS, ALL_FRAGMENTS / len(parts)))
                    if number == len(parts) and before_last is not None:
                        before_last()
                    if stream is self.of_client:
                        self.watcher.see_bytes(self.spot, False, part)
                    stream.sendall(part)
            except OSError:
                # It has ended, which its reader sees.
                pass

    def deliver(self, exchange: Exchange, body: bytes, parts: Sequence[bytes], fate: str = "") -> None:
        """Gives the caller the reply to a call, unless the connection has ended. Up to its last part the call is under
        way."""
        with self.between.lock:
            fate = "lost" if self.is_over else fate
        self.watcher.see(self.spot, True, body, fate)
        if fate != "lost":
            self.send(self.near, *parts, before_last=lambda: self.note_given(exchange))

    def note_given(self, exchange: Exchange) -> None:
        """The caller gets the reply to a call, unless it has ended the connection."""
        with self.between.lock:
            has_ended = self.has_ended or self in self.between.leaving.links_left()
            if exchange in self.asked and not has_ended:
                self.asked.remove(exchange)
                if exchange.case is not None:
                    exchange.case.given = time.monotonic()

    # The end.

    def miss(self) -> None:
        """From now on the caller gets no reply. Faults that aren't done wait for the next such call."""
        with self.between.lock:
            if self.is_over:
                return
            self.is_over = True
            for exchange in self.asked:
                if exchange.case is not None and not exchange.case.number:
                    self.tale.put_off(exchange.case)
                self.tale.repeats.miss(exchange.call, self, exchange.told_case, self.ended_behind)

    def shut(self) -> None:
        self.watcher.end(self.spot, "relay")
        shut(self.near, socket.SHUT_RDWR)
        shut(self.far, socket.SHUT_RDWR)

    def end(self) -> None:
        self.miss()
        self.shut()

    def others(self, links: "Sequence[Link]") -> str:
        """The words for the other calls that are under way on these connections."""
        count = sum(len(link.asked) for link in links) - 1
        return f", with {count} other calls under way" if count else ""
