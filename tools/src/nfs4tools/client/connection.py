"""A connection of a client, on which it sends a call and waits for its reply."""
from collections.abc import Sequence
from itertools import count
from types import TracebackType

from nfs4tools.client.operations import Request
from nfs4tools.client.replies import BadReply, NoReply, Reply, read_reply, read_results
from nfs4tools.messages import call
from nfs4tools.processes import Peer, REPLY_PATIENCE
from nfs4tools.wire import NFSPROC4_COMPOUND, NFSPROC4_NULL, Reader, opaque, record, split_records, u32


class Connection:
    """It is opened by its first call, and again by the first call after its end. Replies that come too late are left
    out."""

    def __init__(self, address: tuple[str, int], uid: int | None = None, timeout: float = REPLY_PATIENCE) -> None:
        self.address, self.uid, self.timeout = address, uid, timeout
        self.peer: Peer | None = None
        self.xids = count(1)
        # How often a COMPOUND is sent: if its reply doesn't come, on another connection.
        self.tries = 1
        # The calls that have no reply yet; and the last COMPOUND, as a record with its requests and xid.
        self.unanswered: set[int] = set()
        self.last: tuple[bytes, Sequence[Request | bytes], int] | None = None

    def __enter__(self) -> "Connection":
        return self

    def __exit__(
        self, kind: type[BaseException] | None, error: BaseException | None, trace: TracebackType | None
    ) -> None:
        self.disconnect()

    def disconnect(self) -> None:
        """Ends the connection; the server keeps the client's state."""
        if self.peer is not None:
            self.peer.socket.close()
            self.peer = None
            self.unanswered.clear()

    # Calls.

    def null(self) -> None:
        xid = next(self.xids)
        self.send(call(xid, NFSPROC4_NULL, uid=self.uid), xid)
        if (rest := self.receive(xid)).at < len(rest.data):
            raise BadReply("bytes follow the head of the reply to NULL")

    def run(self, requests: Sequence[Request | bytes], tag: bytes = b"", minor: int = 0) -> Reply:
        """The reply to a COMPOUND of these operations, of which some may be given as bytes."""
        xid = next(self.xids)
        operations = [it if isinstance(it, bytes) else it.to_bytes() for it in requests]
        arguments = opaque(tag) + u32(minor, len(operations)) + b"".join(operations)
        self.last = call(xid, NFSPROC4_COMPOUND, arguments, self.uid), requests, xid
        for _ in range(self.tries - 1):
            try:
                return self.run_again()
            except NoReply:
                self.disconnect()
        return self.run_again()

    def run_again(self) -> Reply:
        """The reply to the last COMPOUND, which is sent once more, byte by byte as it was."""
        if self.last is None:
            raise ValueError("no COMPOUND was sent before")
        data, requests, xid = self.last
        self.send(data, xid)
        return read_results(self.receive(xid), requests)

    def exchange(self, data: bytes) -> bytes:
        """The next record that comes after these bytes are sent as a record; both without headers of fragments."""
        self.send(record(data))
        return self.next_record()

    # Records.

    def send(self, data: bytes, xid: int | None = None) -> None:
        if self.peer is None:
            try:
                self.peer = Peer(self.address, patience=self.timeout)
            except OSError as error:
                raise NoReply(f"{self.address[0]}:{self.address[1]} can't be reached: {error}") from None
        try:
            self.peer.send(data)
        except OSError as error:
            self.disconnect()
            raise NoReply(f"the call can't be sent: {error}") from None
        if xid is not None:
            self.unanswered.add(xid)

    def receive(self, xid: int) -> Reader:
        """What follows the head of the reply to the call with this xid."""
        while (rest := read_reply(data := self.next_record(), xid)) is None:
            late = int.from_bytes(data[:4], "big")
            if late not in self.unanswered:
                raise BadReply(f"a reply has xid {late}, and that of the call is {xid}")
            self.unanswered.discard(late)
        self.unanswered.discard(xid)
        return rest

    def next_record(self) -> bytes:
        """The next record, without the headers of its fragments."""
        if self.peer is None:
            raise NoReply("there is no connection")
        try:
            data = self.peer.receive(self.timeout)
        except TimeoutError:
            raise NoReply(f"no reply in {self.timeout} s") from None
        except OSError as error:
            self.disconnect()
            raise NoReply(f"the connection failed: {error}") from None
        bodies, fault = split_records(data)
        if not bodies:
            self.disconnect()
            raise NoReply("the connection ended before the reply" + (f": {fault}" if fault else ""))
        return bodies[0]
