"""Who stands on both sides of `tools/between` when it is tried: a client that sends a call again where its connection
ended, and asks again where it is put off (RFC 7530, sections 3.1.1 and 9.1.7); peers and clients that each don't do so
in one way; and a relay to a server, which keeps the calls that pass, and may change what is answered."""
import socket
import threading
import time
from collections.abc import Callable, Sequence
from typing import Any, Self

from helpers.expecting_client import Client, VERIFIER, done, Wrong
from nfs4tools.callbacks.listener import Heard, Listener
from nfs4tools.messages import (
    CLOSE,
    LOCK,
    NFS4_OK,
    PUTFH,
    PUTROOTFH,
    READ,
    WRITE,
    confirmation,
    handle,
    lookup,
    results,
    setclientid,
    split,
    words,
    xid,
)
from nfs4tools.processes import REPLY_PATIENCE, Peer, is_silent
from nfs4tools.wire import FILE_SYNC4, Status, opaque, record, split_records, u64

GRACE, DELAY, RESOURCE = int(Status.GRACE), int(Status.DELAY), int(Status.RESOURCE)
PUT_OFF = GRACE, DELAY, RESOURCE
# The seconds between two attempts, and those behind which a reply isn't there soon.
PAUSE, SOON = 0.05, 3

# What makes operations by a sequence id, or by 0 where they have none; and what makes another reply of a record and its
# reply.
Make = Callable[[int], Sequence[bytes]]
Change = Callable[[bytes, bytes], bytes]


class GaveUp(Exception):
    """A client goes on no further, as it is meant to."""


def in_one_fragment(data: bytes) -> bytes:
    """A record with its body in one fragment."""
    return record(split_records(data)[0][0])


def with_xid(data: bytes, number: int) -> bytes:
    """A record of one fragment, by another xid."""
    return data[:4] + words(number) + data[8:]


# Peers: each is a client's connection to a server, also where it takes several, one after the other.


class Resender:
    """Sends a call again, by the same bytes and over a new connection, where the old one ended before its reply came.
    `again` is how often it did."""

    def __init__(self, address: tuple[str, int]) -> None:
        self.address, self.sent, self.again = address, b"", 0
        self.peer: Peer | None = None

    def __enter__(self) -> Self:
        return self

    def __exit__(self, *_: Any) -> None:
        if self.peer is not None:
            self.peer.socket.close()

    def connection(self) -> Peer:
        """The one that it has, or a new one."""
        if self.peer is None:
            self.peer = Peer(self.address)
        return self.peer

    def send(self, data: bytes) -> None:
        self.sent = data
        self.connection().send(data)

    def receive(self) -> bytes:
        """The reply, in one fragment."""
        until = time.monotonic() + REPLY_PATIENCE
        while not split(got := self.connection().receive())[0]:
            if time.monotonic() > until:
                raise TimeoutError("no connection brings a reply")
            self.connection().socket.close()
            self.peer = None
            self.send_again()
        return in_one_fragment(got)

    def send_again(self) -> None:
        self.again += 1
        time.sleep(PAUSE if self.again > 1 else 0)
        self.send(self.sent)


class GivingUp(Resender):
    """Sends nothing again."""

    def send_again(self) -> None:
        raise GaveUp


class Late(Resender):
    """Sends a call again only when a lease of a second has passed."""

    def send_again(self) -> None:
        time.sleep(1.2)
        super().send_again()


class Renumbering(Resender):
    """Sends a call again by another xid."""

    def receive(self) -> bytes:
        return with_xid(super().receive(), int.from_bytes(xid(self.sent), "big") & 0xFFFF)

    def send_again(self) -> None:
        self.sent = with_xid(self.sent, int.from_bytes(xid(self.sent), "big") + 0x10000)
        super().send_again()


class Hurrying(Resender):
    """Sends a call again, over the same connection, where its reply isn't there soon."""

    def receive(self) -> bytes:
        if not is_silent(self.connection().socket, SOON):
            return super().receive()
        self.connection().send(self.sent)
        got = super().receive()
        # Both are answered.
        self.connection().receive()
        return got


class Impatient(Resender):
    """Ends a connection where a reply isn't there soon, and sends its call again over another one."""

    def receive(self) -> bytes:
        if is_silent(self.connection().socket, SOON):
            self.leave()
            self.peer = None
            self.send_again()
        return super().receive()

    def leave(self) -> None:
        self.connection().socket.close()


class Resetting(Impatient):
    """Ends it by a reset."""

    def leave(self) -> None:
        self.connection().reset()


# Clients.


class Patient(Client):
    """Asks again where it is put off. In its session it opens a file, locks bytes of it, writes, reads, unlocks and
    closes it: eleven calls, if none is put off."""

    def moves_on(self, status: int, is_run: bool) -> bool:
        """Whether an answer of this status moves the owner's sequence id on."""
        return is_run and status != RESOURCE

    def attempt(self, make: Make, which: str | None = None) -> list[int]:
        """The words of the reply to the operations that are made by the owner's next sequence id, if it is a request
        of one, whose last sequence id has this name; they are made anew as long as they are put off."""
        until = time.monotonic() + REPLY_PATIENCE
        while time.monotonic() < until:
            number = getattr(self, which) + 1 if which else 0
            operations = make(number)
            found = self.ask(*operations)
            if which and self.moves_on(found[6], found[8] == len(operations)):
                setattr(self, which, number)
            if found[6] not in PUT_OFF:
                return found
            time.sleep(PAUSE)
        raise TimeoutError("it is put off for too long")

    def obtain(self, make: Make, which: str | None = None) -> list[int]:
        """As `attempt`, but the last status has to be OK."""
        found = self.attempt(make, which)
        if found[6] != NFS4_OK:
            raise Wrong(f"user {self.uid} gets status {found[6]} for {self.sent[-1].hex(' ', 4)}")
        return found

    def at_file(self, operation: bytes) -> list[bytes]:
        return [words(PUTFH) + handle(self.file), operation]

    def write_words(self) -> bytes:
        return words(WRITE) + self.open_stateid() + u64(0) + words(FILE_SYNC4) + opaque(b"HELLO")

    def read_words(self) -> bytes:
        return words(READ) + self.open_stateid() + u64(0) + words(5)

    def introduce(self) -> None:
        found = self.obtain(lambda _: [setclientid(VERIFIER, self.name)])
        self.number, confirm = found[12], found[14]
        self.obtain(lambda _: [confirmation(self.epoch, self.number, confirm)])

    def open_first(self) -> None:
        """OPEN of the file a, and OPEN_CONFIRM."""
        self.file = 1
        found = self.obtain(lambda last: [words(PUTROOTFH), self.open_words(last)], "last")
        self.open_seqid, self.open = found[13], found[16]
        self.open_seqid = self.obtain(lambda last: self.at_file(self.open_confirm_words(last)), "last")[13]

    def take_first_lock(self) -> None:
        self.lock_last = 0
        found = self.obtain(lambda last: self.at_file(self.first_lock_words(last)), "last")
        self.lock_seqid, self.lock, self.lock_last = found[13], found[16], 1

    def take_next_lock(self) -> None:
        self.lock_seqid = self.obtain(lambda last: self.at_file(self.next_lock_words(last)), "lock_last")[13]

    def write(self) -> None:
        self.obtain(lambda _: self.at_file(self.write_words()))

    def read(self) -> None:
        self.obtain(lambda _: self.at_file(self.read_words()))

    def unlock(self) -> None:
        self.lock_seqid = self.obtain(lambda last: self.at_file(self.locku_words(last)), "lock_last")[13]

    def close(self) -> None:
        self.obtain(lambda last: self.at_file(self.close_words(last)), "last")

    def begin(self) -> None:
        """The session up to its first lock."""
        self.introduce()
        self.open_first()
        self.take_first_lock()

    def session(self) -> None:
        self.begin()
        self.take_next_lock()
        self.take_next_lock()
        self.write()
        self.read()
        self.unlock()
        self.close()


class Stuck(Patient):
    """Its sequence ids don't move on behind DELAY or GRACE. It gives up when it is put off once more."""

    times = 0

    def moves_on(self, status: int, is_run: bool) -> bool:
        self.times += status in PUT_OFF
        if self.times > 1:
            raise GaveUp
        return status == NFS4_OK


class Ahead(Patient):
    """Its sequence ids move on behind each answer, also where the request wasn't run or is answered RESOURCE."""

    def moves_on(self, status: int, is_run: bool) -> bool:
        return True


class Content(Patient):
    """Takes any answer to its CLOSE that doesn't put it off."""

    def close(self) -> None:
        self.attempt(lambda last: self.at_file(self.close_words(last)), "last")


class Wandering(Patient):
    """Has another request of its owner in the place of a CLOSE whose reply it doesn't get."""

    def close(self) -> None:
        try:
            super().close()
        except GaveUp:
            self.ask(*self.at_file(self.downgrade_words(self.last + 2)))


class Respelling(Patient):
    """Has the same CLOSE again in another COMPOUND, where it doesn't get its reply."""

    def close(self) -> None:
        try:
            super().close()
        except GaveUp:
            found = self.ask(words(PUTROOTFH), lookup(b"a"), self.close_words(self.last + 1))
            if found[6] != NFS4_OK:
                raise Wrong(f"CLOSE again has status {found[6]}")


# Servers.


class Relay(Listener):
    """Takes connections, each of which has one of its own to the server. What is answered to a record that has come
    before may be changed, by the record and its reply. `heard` has all records, and replies take so many `seconds`."""

    def __init__(self, server: tuple[str, int], change: Change | None = None) -> None:
        self.server, self.change, self.turn, self.seconds = server, change, threading.Lock(), 0.0
        self.far: dict[socket.socket, Peer] = {}
        super().__init__(self.relay)

    def relay(self, heard: Heard) -> None:
        far = self.far.get(heard.stream) or Peer(self.server)
        self.far[heard.stream] = far
        far.send(heard.data)
        reply = far.receive()
        time.sleep(self.seconds)
        with self.turn:
            is_again = sum(other.data == heard.data for other in self.heard) > 1
        heard.send(self.change(heard.data, reply) if self.change and is_again else reply)

    def attend(self, stream: socket.socket, peer: Any) -> None:
        super().attend(stream, peer)
        if far := self.far.pop(stream, None):
            far.socket.close()

    def count(self, operation: bytes) -> int:
        """How many records with these words came."""
        return sum(operation in heard.data for heard in self.heard)


def forgets_a_close(data: bytes, reply: bytes) -> bytes:
    """Of a server that keeps no reply: a CLOSE again is BAD_STATEID."""
    if data[-24:-20] != words(CLOSE):
        return reply
    status = Status.BAD_STATEID
    return results(int.from_bytes(xid(data), "big"), status, done(PUTFH), done(CLOSE, status=status))


def gives_another_stateid(data: bytes, reply: bytes) -> bytes:
    """Of a server that answers a LOCK again by a stateid that it has just made."""
    return reply[:-1] + bytes([reply[-1] ^ 1]) if words(LOCK, 2, 0) in data else reply
