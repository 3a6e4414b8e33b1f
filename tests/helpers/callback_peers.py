"""What may be where a client is called back: listeners that answer oddly, and addresses where no call comes to an end,
or none is made."""
import random
import select
import socket
import time
from collections.abc import Callable, Iterator
from contextlib import AbstractContextManager, contextmanager, nullcontext
from functools import partial
from typing import Any, NamedTuple

from nfs4tools.callbacks import listener
from nfs4tools.callbacks.listener import (
    CALLBACK_PROGRAM,
    CallbackCall,
    Heard,
    Listener,
    accept,
    keep_silent,
    refuse_program,
    reply_to,
    reset,
)
from nfs4tools.messages import call, words
from nfs4tools.wire import Callback, REPLY, SUCCESS, accepted, record

# What a client gives beside the address.
IDENT = 7


def callback_at(address: tuple[Any, ...]) -> Callback:
    """What a client of these tests gives to the server so that it is called at this address."""
    return listener.callback_at(address, IDENT)


# Odd answers, to any call or to a recall.


def asked(heard: Heard) -> CallbackCall:
    """The call that came, which is one."""
    assert heard.call is not None, heard.data
    return heard.call


def answer_another(heard: Heard) -> None:
    """The answer to a call that was never made."""
    heard.reply(accepted(asked(heard).xid ^ 1, SUCCESS))


def accept_null(heard: Heard, answer: Callable[[Heard], Any] = keep_silent) -> None:
    """Answers CB_NULL OK, and a recall in another way."""
    (accept if asked(heard).recall is None else answer)(heard)


def answer_in_pieces(heard: Heard) -> None:
    """An acceptance in fragments of three bytes, of which each byte comes alone."""
    body = reply_to(asked(heard))
    ends = range(3, len(body) + 3, 3)
    fragments = [words((end >= len(body)) << 31 | len(body[end - 3 : end])) + body[end - 3 : end] for end in ends]
    for byte in b"".join(fragments):
        heard.send(bytes([byte]))
        time.sleep(0.002)


def answer_without_end(heard: Heard) -> None:
    """A record of a gigabyte, for as long as anybody takes more of it."""
    try:
        heard.stream.sendall(words(1 << 31 | 1 << 30) + accepted(asked(heard).xid, 0))
        for _ in range(1 << 14):
            heard.stream.sendall(bytes(1 << 16))
    except OSError:
        pass


class Resetting(Listener):
    """Resets each connection at once."""

    def attend(self, stream: socket.socket, peer: Any) -> None:
        reset(stream)


def garbage() -> dict[str, bytes]:
    """Bytes that are no reply, or one to another call."""
    return {
        "of another protocol": b"HTTP/1.1 400 Bad Request\r\n\r\n",
        "at random": random.Random(1).randbytes(3000),
        "of an empty record": record(b""),
        "of zeros": bytes(5000),
        "of a call": call(1, 0),
        "of another xid": record(accepted(0xFFFFFFFF, 0)),
        "of half a reply": record(words(1, REPLY)),
    }


# Addresses where nobody accepts. Each gives the callback to it, for as long as it is there.


@contextmanager
def nobody() -> Iterator[Callback]:
    """An address where nobody listens."""
    with socket.socket() as bound:
        bound.bind(("127.0.0.1", 0))
        yield callback_at(bound.getsockname())


@contextmanager
def full_listener() -> Iterator[Callback]:
    """One that never accepts, with as many connections waiting as there may be: the next one doesn't come through."""
    waiting: list[socket.socket] = []
    with socket.create_server(("127.0.0.1", 0), backlog=0) as listening:
        try:
            while not waiting or select.select([], [waiting[-1]], [], 0.5)[1]:
                waiting.append(socket.socket())
                waiting[-1].setblocking(False)
                waiting[-1].connect_ex(listening.getsockname())
            yield callback_at(listening.getsockname())
        finally:
            for stream in waiting:
                stream.close()


class BadPeer(NamedTuple):
    """A peer by what it does. It is there while its place is entered, which is made for the port of the server, and
    gives a listener or a callback. A callback there marks the path *up* or *down*, or not at all (None); it may be one
    of the server's own connections."""

    name: str
    place: Callable[[int], AbstractContextManager[Any]]
    mark: bool | None = False
    takes_connection: bool = False

    @property
    def is_unanswered(self) -> bool:
        return self.mark is None


def bad_peers() -> Iterator[BadPeer]:
    """Each kind of peer that a server has to stand."""

    def answers(
        name: str, answer: Callable[[Heard], Any], mark: bool | None = False, kind: type[Listener] = Listener
    ) -> BadPeer:
        return BadPeer(name, lambda port: kind(answer), mark)

    def is_at(name: str, callback: Callback) -> BadPeer:
        return BadPeer(name, lambda port: nullcontext(callback))

    yield answers("accepts, and never answers", keep_silent, mark=None)
    yield BadPeer("never accepts", lambda port: full_listener(), mark=None)
    yield answers("resets at once", keep_silent, kind=Resetting)
    yield answers("resets behind the call", lambda heard: reset(heard.stream))
    yield answers("closes behind the call", lambda heard: heard.stream.close())
    yield answers("refuses the program", refuse_program)
    for kind, data in garbage().items():
        yield answers(f"answers garbage {kind}", partial(Heard.send, data=data))
    yield answers("answers without end", answer_without_end)
    yield answers("answers in pieces", answer_in_pieces, mark=True)
    yield BadPeer("is the server", lambda port: nullcontext(callback_at(("127.0.0.1", port))), takes_connection=True)
    yield is_at("has port 0", callback_at(("127.0.0.1", 0)))
    yield is_at("has no address", Callback(CALLBACK_PROGRAM, b"", b"", IDENT))
    yield BadPeer("doesn't listen", lambda port: nobody())
