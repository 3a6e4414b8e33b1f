"""A listener for callbacks: it reads the calls that a server makes to its clients (RFC 7530, sections 17 and 18), keeps
each as it came, and has it answered."""
import socket
import struct
import threading
import time
from collections.abc import Callable
from typing import Any, NamedTuple

from nfs4tools.callbacks.messages import CALLBACK_VERSION, CB_COMPOUND, CB_NULL, OP_CB_RECALL
from nfs4tools.wire import (
    AUTH_BADCRED,
    AUTH_ERROR,
    BODY_LIMIT,
    CALL,
    Callback,
    CallbackRecall,
    Fault,
    PROG_UNAVAIL,
    Principal,
    Reader,
    SUCCESS,
    Stateid,
    Status,
    Unreadable,
    accepted,
    denied,
    form_of,
    opaque,
    read_principal,
    record,
    records,
    u32,
)

# The program of RPC that a client gives for its callbacks: the first of those that are free (RFC 5531, section 8.4.2).
CALLBACK_PROGRAM = 0x40000000


class RecallArguments(NamedTuple):
    """The arguments of CB_RECALL, behind the callback_ident of its CB_COMPOUND."""

    ident: int
    stateid: Stateid
    truncate: int
    filehandle: bytes


class CallbackCall(NamedTuple):
    """A call, with who calls by its credential; of CB_NULL the tag is empty, and there is no recall."""

    xid: int
    program: int
    principal: Principal
    tag: bytes
    recall: RecallArguments | None


# The calls, and their reply.


def read_callback(data: bytes) -> CallbackCall:
    """The call that a record is, by its bytes without headers; or Unreadable where it is neither CB_NULL nor a
    CB_COMPOUND of one CB_RECALL."""
    reader = Reader(data)
    xid, kind, rpc_version = reader.u32(), reader.u32(), reader.u32()
    program, version, procedure = reader.u32(), reader.u32(), reader.u32()
    if (kind, rpc_version, version) != (CALL, 2, CALLBACK_VERSION) or procedure not in (CB_NULL, CB_COMPOUND):
        raise Unreadable
    principal = read_principal(reader.u32(), reader.opaque(BODY_LIMIT))
    reader.u32(), reader.opaque(BODY_LIMIT)
    tag, recall = read_recall(reader) if procedure == CB_COMPOUND else (b"", None)
    if reader.at < len(data):
        raise Unreadable
    return CallbackCall(xid, program, principal, tag, recall)


def read_recall(reader: Reader) -> tuple[bytes, RecallArguments]:
    """The tag of a CB_COMPOUND, and the arguments of its one operation."""
    tag, minor_version, ident, count, opnum = reader.opaque(), reader.u32(), reader.u32(), reader.u32(), reader.u32()
    if (minor_version, count, opnum) != (0, 1, OP_CB_RECALL):
        raise Unreadable
    return tag, RecallArguments(ident, *form_of(CallbackRecall).read(reader))


def call_of(data: bytes) -> CallbackCall | None:
    """The call that a record is, or None."""
    try:
        return read_callback(data)
    except Unreadable:
        return None


def reply_to(call: CallbackCall, status: int = Status.OK) -> bytes:
    """The reply with SUCCESS, and to CB_RECALL with this status."""
    results = b"" if call.recall is None else u32(status) + opaque(call.tag) + u32(1, OP_CB_RECALL, status)
    return accepted(call.xid, SUCCESS, results)


# The listener.


class Heard:
    """A record that came on a connection: when, from where, its bytes, and the call that it is, or None. `is_over` is
    set once the connection has ended."""

    def __init__(
        self, stream: socket.socket, peer: Any, data: bytes, call: CallbackCall | None, is_over: threading.Event
    ) -> None:
        self.moment, self.stream, self.peer, self.data = time.monotonic(), stream, peer, data
        self.call, self.is_over = call, is_over

    def reply(self, data: bytes) -> None:
        self.send(record(data))

    def send(self, data: bytes) -> None:
        """Sends these bytes; who called may be gone by now."""
        try:
            self.stream.sendall(data)
        except OSError:
            pass


def accept(heard: Heard) -> None:
    """Answers a call OK."""
    if heard.call is not None:
        heard.reply(reply_to(heard.call))


def keep_silent(_heard: Heard) -> None:
    """Leaves a call without an answer, and its connection open."""


def answer_status(status: int) -> Callable[[Heard], Any]:
    """Answers CB_RECALL with this status, for example Status.BADHANDLE."""
    return lambda heard: heard.reply(reply_to(heard.call, status)) if heard.call else None


def refuse_program(heard: Heard) -> None:
    """Says that no such program is there (PROG_UNAVAIL)."""
    if heard.call is not None:
        heard.reply(accepted(heard.call.xid, PROG_UNAVAIL))


def refuse_credential(heard: Heard) -> None:
    """Refuses the server's credential (AUTH_BADCRED)."""
    if heard.call is not None:
        heard.reply(denied(heard.call.xid, AUTH_ERROR, AUTH_BADCRED))


def reset_connection(heard: Heard) -> None:
    """Ends the connection by a reset."""
    reset(heard.stream)


def reset(stream: socket.socket) -> None:
    """Ends a connection by a reset."""
    stream.setsockopt(socket.SOL_SOCKET, socket.SO_LINGER, struct.pack("ii", 1, 0))
    stream.close()


class Listener:
    """Takes connections at an address, each by a thread of its own, and has each record of them answered."""

    def __init__(self, answer: Callable[[Heard], Any], address: tuple[str, int] = ("127.0.0.1", 0)) -> None:
        self.answer, self.socket = answer, socket.create_server(address, backlog=128)
        self.address = self.socket.getsockname()
        # All that came, in its order. Who adds to it says so.
        self.heard: list[Heard] = []
        self.changed = threading.Condition()
        threading.Thread(target=self.listen, daemon=True).start()

    def __enter__(self) -> "Listener":
        return self

    def __exit__(self, *_: Any) -> None:
        """Nobody is listened to any more, and the connections end."""
        for stream in [self.socket] + [heard.stream for heard in self.heard]:
            try:
                stream.shutdown(socket.SHUT_RDWR)
            except OSError:
                # It has ended.
                pass
        self.socket.close()

    def listen(self) -> None:
        while True:
            try:
                stream, peer = self.socket.accept()
            except OSError:
                return
            threading.Thread(target=self.attend, args=(stream, peer), daemon=True).start()

    def attend(self, stream: socket.socket, peer: Any) -> None:
        """Has the records of a connection answered, up to its end."""
        is_over, data = threading.Event(), bytearray()

        def take(count: int) -> bytes:
            data.extend(taken := stream.recv(count, socket.MSG_WAITALL))
            return taken

        try:
            for body in records(take):
                self.hear(Heard(stream, peer, bytes(data), call_of(body), is_over))
                data.clear()
        except (Fault, OSError):
            # It ended within a record, or by a reset of either side.
            pass
        stream.close()
        is_over.set()

    def hear(self, heard: Heard) -> None:
        with self.changed:
            self.heard.append(heard)
            self.changed.notify_all()
        self.answer(heard)

    def wait_for(self, count: int, seconds: float) -> list[Heard]:
        """All that came, once it is so many records, or when so many seconds have passed."""
        with self.changed:
            self.changed.wait_for(lambda: len(self.heard) >= count, seconds)
            return list(self.heard)


def universal_address(address: tuple[Any, ...]) -> str:
    """An address of IPv4 as a client gives it to the server (RFC 5665, section 5.2.3)."""
    host, port = address[:2]
    return f"{host}.{port >> 8}.{port & 255}"


def callback_at(address: tuple[Any, ...], ident: int = 1) -> Callback:
    """What a client gives to the server so that it is called at this address."""
    return Callback(CALLBACK_PROGRAM, b"tcp", universal_address(address).encode(), ident)
