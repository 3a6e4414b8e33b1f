"""A callback on a TCP connection of its own: the call goes out, and its reply comes in, as far as each can be done at
once."""
import errno
import selectors
import socket
from dataclasses import dataclass
from typing import NamedTuple

from nfs4tools import wire
from nfs4tools.callbacks.messages import address_of, fault_of_reply, null_call, recall_call
from nfs4tools.model.state_parts import Recall
from nfs4tools.trace.watching import Place, Watcher
from nfs4tools.wire import Callback

# The most bytes that are read of a reply, with the headers of its fragments. A reply that isn't whole then is none.
REPLY_LIMIT = 4097
# The bits of a fragment's header that are its length (RFC 5531, section 11).
FRAGMENT_LENGTH = 0x7FFFFFFF
# What the system refuses a socket for, though the client may be well.
REFUSALS = {
    errno.EINTR,
    errno.EAGAIN,
    errno.ENOMEM,
    errno.ENFILE,
    errno.EMFILE,
    errno.EADDRNOTAVAIL,
    errno.ENOBUFS,
}
# Why a callback failed, by the error of its connection.
FAULTS = {
    errno.ECONNREFUSED: "connection refused",
    errno.EHOSTUNREACH: "host or network unreachable",
    errno.ENETUNREACH: "host or network unreachable",
    errno.ETIMEDOUT: "connection timed out",
    errno.ECONNRESET: "connection closed before a reply",
    errno.ECONNABORTED: "connection closed before a reply",
    errno.EPIPE: "connection closed before a reply",
}
CLOSED = FAULTS[errno.EPIPE]


class SocketRefused(Exception):
    """The system refuses the server a socket."""


class Unreachable(Exception):
    """The client can't be called. The argument says why."""


class Errand(NamedTuple):
    """What a callback is for: a recall, or without a recall CB_NULL; and how the client is called."""

    callback: Callback
    recall: Recall | None = None

    def record(self, xid: int) -> bytes:
        """The call with this xid, as a record."""
        return null_call(xid, self.callback.program) if self.recall is None else recall_call(xid, self.recall)


@dataclass(frozen=True)
class Outcome:
    """What came of a callback: it reached its client, or it didn't for this reason."""

    fault: str | None = None


def fault_of(failed: OSError) -> str:
    return FAULTS.get(failed.errno or 0, "connection failed")


class Exchange:
    """A callback that is under way. `place` is its connection in a trace."""

    def __init__(self, client: int, errand: Errand, xid: int, begun: float, watcher: Watcher, place: Place) -> None:
        self.client, self.errand, self.xid, self.begun = client, errand, xid, begun
        self.watcher, self.place = watcher, place
        self.call, self.reply = errand.record(xid), b""
        self.sent = 0
        # Whether it was told that the reply is late; and how often it was found that the client has another callback.
        self.is_late_told, self.replaced = False, 0
        self.stream = connected(errand.callback)

    def events(self) -> int:
        """What the connection has to be ready for."""
        return selectors.EVENT_READ | (selectors.EVENT_WRITE if self.sent < len(self.call) else 0)

    def advance(self) -> Outcome | None:
        """Sends and receives what can be at once: what came of the callback, or None if it isn't over."""
        broken = self.send() or self.receive()
        found, _ = wire.split_records(self.reply)
        if found:
            self.watcher.see(self.place, True, found[0])
            return Outcome(fault_of_reply(found[0], self.xid, self.errand.recall is not None))
        if broken is None and self.is_too_long():
            broken = "reply that is too long"
        return None if broken is None else Outcome(broken)

    def send(self) -> str | None:
        """Sends what is left of the call: why that failed, or None. What came before is read then, too."""
        try:
            while self.sent < len(self.call):
                self.sent += self.stream.send(self.call[self.sent :])
                if self.sent == len(self.call):
                    self.watcher.begin(self.place, self.stream.getpeername()[:2], self.stream.getsockname()[:2])
                    self.watcher.see(self.place, False, self.call[4:])
        except BlockingIOError:
            pass
        except OSError as failed:
            self.receive()
            return fault_of(failed)
        return None

    def receive(self) -> str | None:
        """Receives what has come, up to the limit: why no more can come, or None."""
        try:
            while not self.is_too_long():
                more = self.stream.recv(REPLY_LIMIT - len(self.reply))
                if not more:
                    return CLOSED
                self.reply += more
        except BlockingIOError:
            pass
        except OSError as failed:
            return fault_of(failed)
        return None

    def is_too_long(self) -> bool:
        """Whether as much came as is read, or the first fragment is longer than that."""
        length = int.from_bytes(self.reply[:4], "big") & FRAGMENT_LENGTH if len(self.reply) >= 4 else 0
        return len(self.reply) >= REPLY_LIMIT or length > REPLY_LIMIT

    def close(self) -> None:
        if self.sent == len(self.call):
            self.watcher.end(self.place, "server")
        self.stream.close()


def connected(callback: Callback) -> socket.socket:
    """A socket that begins to connect to the client; or Unreachable, or SocketRefused."""
    address = address_of(callback)
    if address is None:
        raise Unreachable("no usable address")
    try:
        stream = socket.socket()
    except OSError:
        raise SocketRefused from None
    try:
        stream.setblocking(False)
        stream.connect(address)
    except BlockingIOError:
        pass
    except OSError as failed:
        stream.close()
        if failed.errno in REFUSALS:
            raise SocketRefused from None
        raise Unreachable(fault_of(failed)) from None
    return stream
