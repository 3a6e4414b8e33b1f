"""A client of NFSv4.0, for tests of servers and of what is between a client and a server.

It keeps what a right client keeps: the clientid, the sequence id of each owner, and the last stateid of each open and
lock. Its methods send right requests, and raise StatusError if one isn't answered NFS4_OK. `compound` sends any
requests, and learns from the results. `raw` sends them too, and learns nothing."""
import os
import time
from collections.abc import Sequence
from dataclasses import dataclass, field
from typing import Protocol

from nfs4tools.client import operations as op
from nfs4tools.client.connection import Connection
from nfs4tools.client.listener import CallbackListener
from nfs4tools.client.operations import Clientid, NOCREATE, Name, READ_COUNT, Request, TO_THE_END, bytes_of, names_in
from nfs4tools.client.replies import Attributes, Reply, StatusError
from nfs4tools.client.sequences import Other, Sequences, other_of
from nfs4tools.processes import REPLY_PATIENCE
from nfs4tools.wire import (
    BOTH,
    Callback,
    Denied,
    FILE_SYNC4,
    KnownLocker,
    LockOwner,
    NONE,
    NewLocker,
    OPEN4_RESULT_CONFIRM,
    OpenOwner,
    Openhow,
    Opnum,
    ReadResult,
    Stateid,
    Status,
    WRITE_LT,
    WriteResult,
)

# The owners of a call that names none.
OWNER, LOCKER = "owner", "locker"
# What a client without a listener gives: an address where nobody is called.
NO_CALLBACK = Callback(0, b"tcp", b"0.0.0.0.0.0", 0)


class HasStateid(Protocol):
    """A file by its filehandle, and a stateid: a delegation, or the arguments of a recall."""

    @property
    def stateid(self) -> Stateid:
        ...

    @property
    def filehandle(self) -> bytes:
        ...


@dataclass(frozen=True)
class Delegation:
    """A file that is lent to the client: `kind` is OPEN_DELEGATE_READ or OPEN_DELEGATE_WRITE."""

    filehandle: bytes
    stateid: Stateid
    kind: int


@dataclass
class OpenFile:
    """A file that an owner has open, until it is closed."""

    path: bytes
    owner: OpenOwner
    filehandle: bytes
    other: Other = field(repr=False)
    sequences: Sequences = field(repr=False)
    # What the last OPEN brought.
    delegation: Delegation | None

    @property
    def stateid(self) -> Stateid:
        """The last stateid that the server gave for this open."""
        if self.other not in self.sequences.stateids:
            raise ValueError(f"{self.path!r} is closed")
        return self.sequences.stateids[self.other]


class Client(Connection):
    """A client that the server knows by this id. `begin` introduces it. A client with a listener is called there."""

    def __init__(
        self,
        host: str,
        port: int,
        id: Name,
        callback: "CallbackListener | Callback | None" = None,
        uid: int | None = None,
        timeout: float = REPLY_PATIENCE,
    ) -> None:
        super().__init__((host, port), uid, timeout)
        self.id, self.verifier = bytes_of(id), os.urandom(8)
        self.callback = callback.callback if isinstance(callback, CallbackListener) else callback or NO_CALLBACK
        self.forget()

    def forget(self) -> None:
        """Forgets the clientid, and all states with it."""
        self.clientid, self.sequences = Clientid(0, 0), Sequences()

    def __enter__(self) -> "Client":
        return self

    # Any requests.

    def compound(self, requests: Sequence[Request], tag: bytes = b"") -> Reply:
        """The reply to these operations, whatever their statuses are. The owners' sequence ids move on by it."""
        reply = self.run(requests, tag)
        self.sequences.learn(reply)
        return reply

    def again(self) -> Reply:
        """The reply to the last COMPOUND, which is sent once more."""
        reply = self.run_again()
        self.sequences.learn(reply)
        return reply

    def raw(self, requests: Sequence[Request | bytes], tag: bytes = b"", minor: int = 0) -> Reply:
        """The reply to these operations, as they are given, also as bytes. The client learns nothing of it."""
        return self.run(requests, tag, minor)

    def raw_record(self, data: bytes) -> bytes:
        """The record that comes after these bytes are sent as a record."""
        return self.exchange(data)

    # The client itself.

    def begin(self) -> Clientid:
        """SETCLIENTID and SETCLIENTID_CONFIRM. If the client has begun before, the callback is replaced."""
        given = self.compound([op.setclientid(self.verifier, self.id, self.callback)]).check().of(Opnum.SETCLIENTID)
        clientid = Clientid(given.epoch, given.client)
        self.compound([op.setclientid_confirm(clientid, given.confirm)]).check()
        if clientid != self.clientid:
            self.forget()
        self.clientid = clientid
        return clientid

    def restart(self) -> Clientid:
        """Begins as a client that has restarted: with another verifier, and without its states."""
        self.verifier = os.urandom(8)
        self.forget()
        return self.begin()

    def renew(self) -> None:
        self.compound([op.renew(self.clientid)]).check()

    # Owners.

    def open_owner(self, name: Name = OWNER) -> OpenOwner:
        return OpenOwner(*self.clientid, bytes_of(name))

    def lock_owner(self, name: Name = LOCKER) -> LockOwner:
        return LockOwner(*self.clientid, bytes_of(name))

    def next_seqid(self, owner: OpenOwner | LockOwner) -> int:
        """The sequence id of the owner's next request."""
        return self.sequences.next_of(owner)

    # Opens.

    def open(
        self, path: Name, access: int = BOTH, deny: int = NONE, owner: Name = OWNER, how: Openhow = NOCREATE
    ) -> OpenFile:
        """OPEN by a path from the root, and OPEN_CONFIRM if the server asks for it."""
        *folders, name = names_in(path)
        who = self.open_owner(owner)
        opening = op.open(self.next_seqid(who), who, name, access, deny, how)
        way = [op.putrootfh(), *map(op.lookup, folders)]
        reply = self.compound([*way, opening, op.getfh()]).check()
        opened, filehandle = reply.of(Opnum.OPEN), reply.of(Opnum.GETFH)
        lent = opened.delegation and Delegation(filehandle, opened.delegation.stateid, opened.delegation.kind)
        file = OpenFile(bytes_of(path), who, filehandle, other_of(opened.stateid), self.sequences, lent)
        if opened.flags & OPEN4_RESULT_CONFIRM:
            self.open_confirm(file)
        return file

    def open_confirm(self, file: OpenFile) -> None:
        self.on(file.filehandle, op.open_confirm(file.stateid, self.next_seqid(file.owner)))

    def open_downgrade(self, file: OpenFile, access: int, deny: int = NONE) -> None:
        self.on(file.filehandle, op.open_downgrade(file.stateid, self.next_seqid(file.owner), access, deny))

    def close(self, file: OpenFile) -> None:
        """CLOSE, which may also free the locks of this open."""
        self.on(file.filehandle, op.close(self.next_seqid(file.owner), file.stateid))

    def on(self, filehandle: bytes, request: Request) -> Reply:
        """The reply to a request on this file, if it is OK."""
        return self.compound([op.putfh(filehandle), request]).check()

    # Locks.

    def lock(
        self, file: OpenFile, offset: int = 0, length: int = TO_THE_END, locktype: int = WRITE_LT, owner: Name = LOCKER
    ) -> Stateid:
        """LOCK: the stateid of what this lock owner has locked of the file."""
        who = self.lock_owner(owner)
        state = self.sequences.lock_state(file.filehandle, who)
        locker: KnownLocker | NewLocker
        if state is None:
            locker = NewLocker(self.next_seqid(file.owner), file.stateid, self.next_seqid(who), who)
        else:
            locker = KnownLocker(state, self.next_seqid(who))
        stateid: Stateid = self.on(file.filehandle, op.lock(locktype, offset, length, locker)).of(Opnum.LOCK)
        return stateid

    def unlock(self, file: OpenFile, offset: int = 0, length: int = TO_THE_END, owner: Name = LOCKER) -> Stateid:
        """LOCKU, by a lock owner that has locked bytes of the file before."""
        who = self.lock_owner(owner)
        state = self.sequences.lock_state(file.filehandle, who)
        if state is None:
            raise ValueError(f"lock owner {who.name!r} hasn't locked anything of {file.path!r}")
        unlocking = op.locku(WRITE_LT, self.next_seqid(who), state, offset, length)
        stateid: Stateid = self.on(file.filehandle, unlocking).of(Opnum.LOCKU)
        return stateid

    def lock_test(
        self, file: OpenFile, offset: int = 0, length: int = TO_THE_END, locktype: int = WRITE_LT, owner: Name = LOCKER
    ) -> Denied | None:
        """LOCKT: the lock that conflicts, or None."""
        test = op.lockt(locktype, offset, length, self.lock_owner(owner))
        try:
            self.on(file.filehandle, test)
        except StatusError as error:
            if error.status == Status.DENIED:
                return error.denied
            raise
        return None

    def release_lockowner(self, owner: Name = LOCKER) -> None:
        self.compound([op.release_lockowner(self.lock_owner(owner))]).check()

    # Bytes and attributes.

    def read(self, file: HasStateid, offset: int = 0, count: int = READ_COUNT) -> ReadResult:
        """READ by the file's stateid: the bytes, and whether they are the last."""
        result: ReadResult = self.on(file.filehandle, op.read(file.stateid, offset, count)).of(Opnum.READ)
        return result

    def write(self, file: HasStateid, data: bytes, offset: int = 0, stable: int = FILE_SYNC4) -> WriteResult:
        """WRITE by the file's stateid: how many bytes were written."""
        result: WriteResult = self.on(file.filehandle, op.write(file.stateid, offset, data, stable)).of(Opnum.WRITE)
        return result

    def attributes(self, path: Name, *names: str) -> Attributes:
        """GETATTR by a path: those attributes of these names that the server has."""
        way = [op.putrootfh(), *map(op.lookup, names_in(path))]
        found: Attributes = self.compound([*way, op.getattr(*names)]).check().of(Opnum.GETATTR)
        return found

    # Delegations.

    def open_lent(self, path: Name, access: int = BOTH, owner: Name = OWNER, seconds: float = 10) -> OpenFile:
        """A file with a delegation: it is opened and closed until the server lends it."""
        until = time.monotonic() + seconds
        while (file := self.open(path, access, owner=owner)).delegation is None:
            self.close(file)
            if time.monotonic() > until:
                raise TimeoutError(f"no delegation of {path!r} came in {seconds} s")
            time.sleep(0.02)
        return file

    def return_delegation(self, lent: HasStateid) -> None:
        """DELEGRETURN of a delegation, which may be given by its recall."""
        self.on(lent.filehandle, op.delegreturn(lent.stateid))
