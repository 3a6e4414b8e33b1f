"""A client with opens and locks of its own, on a connection: it knows each reply that it has to get, but for the
numbers that the server gives it."""
from collections.abc import Iterable, Sequence
from typing import Any, TypeVar

from nfs4tools.messages import (
    CLOSE,
    GETATTR,
    LOCK,
    LOCKT,
    LOCKU,
    LOOKUP,
    NFS4_OK,
    NULL,
    OPEN,
    OPEN_CONFIRM,
    OPEN_DOWNGRADE,
    PUTFH,
    PUTROOTFH,
    RELEASE_LOCKOWNER,
    RENEW,
    SETCLIENTID_CONFIRM,
    TYPE_SIZE_FILEID,
    call,
    compound,
    confirmation,
    given,
    handle,
    lookup,
    opening,
    reply,
    results,
    setclientid,
    words,
)
from nfs4tools.wire import READ_LT, Status, WRITE_LT, opaque, u64

# The nodes of the tree's files, with their paths.
FILES = {1: (b"a",), 2: (b"b",), 4: (b"d", b"c")}
VERIFIER = b"verifier"
BOTH, NONE = 3, 0
# An operation and its result; the operation is empty where it was sent before.
Pair = tuple[bytes, bytes]


class Wrong(Exception):
    """What is wrong with an outcome."""


T = TypeVar("T")


def some(cases: Iterable[T]) -> list[T]:
    """The cases of a test, of which there have to be some: with none of them it would show nothing."""
    found = list(cases)
    if not found:
        raise Wrong("the test has no cases")
    return found


def numbers_of(reply: bytes) -> list[int]:
    """A reply's words behind its header."""
    return [int.from_bytes(reply[at : at + 4], "big") for at in range(4, len(reply), 4)]


def done(operation: int, rest: bytes = b"", status: int = NFS4_OK) -> bytes:
    """A result of an operation."""
    return words(operation, status) + rest


def way_to(file: int) -> list[Pair]:
    """The operations that make the file's directory the current filehandle, and their results."""
    names = FILES[file][:-1]
    return [(words(PUTROOTFH), done(PUTROOTFH))] + [(lookup(name), done(LOOKUP)) for name in names]


def under(file: int, operation: bytes, result: bytes) -> list[Pair]:
    """An operation on a file, and its result."""
    return [(words(PUTFH) + handle(file), done(PUTFH)), (operation, result)]


def expect(what: str, got: Any, wanted: Any) -> None:
    if got != wanted:
        raise Wrong(f"{what}: {got}, wanted {wanted}")


class Client:
    """The user with this number, who is known to the server by a name that has it, too, and has one open owner with one
    open, and one lock owner."""

    # What it opens files for.
    access = BOTH

    def __init__(self, peer: Any, uid: int, epoch: int = 1) -> None:
        self.peer, self.epoch = peer, epoch
        # None where its calls say nothing of a user.
        self.uid: int | None = uid
        self.name, self.owner, self.locker = (word + b" %d" % uid for word in (b"client", b"owner", b"locker"))
        self.sent: list[bytes] = []
        self.got: list[bytes] = []
        # The numbers of the client, of the open's file, and of the stateids; and the last sequence ids and seqids.
        self.number = self.file = self.open = self.lock = 0
        self.last, self.is_confirmed, self.open_seqid, self.lock_seqid, self.lock_last = 0, False, 0, 0, 0

    # Calls.

    def ask(self, *operations: bytes) -> list[int]:
        """The words of the reply to a call of these operations."""
        self.sent.append(compound(len(self.sent) + 1, *operations, uid=self.uid))
        self.peer.send(self.sent[-1])
        self.got.append(self.peer.receive())
        if len(self.got[-1]) < 40:
            raise Wrong(f"user {self.uid} gets {self.got[-1].hex(' ', 4)} for {self.sent[-1].hex(' ', 4)}")
        return numbers_of(self.got[-1])

    def expect(self, status: int, pairs: Sequence[Pair]) -> None:
        """The last reply has this status, and these results."""
        if self.got[-1] != (wanted := results(len(self.sent), status, *(result for _, result in pairs))):
            raise Wrong(
                f"user {self.uid} gets {self.got[-1].hex(' ', 4)}\nfor {self.sent[-1].hex(' ', 4)}\n"
                f"wanted {wanted.hex(' ', 4)}"
            )

    def want(self, *pairs: Pair) -> None:
        """A call gets these results."""
        self.ask(*(operation for operation, _ in pairs))
        self.expect(int.from_bytes(pairs[-1][1][4:8], "big"), pairs)

    def refuse(self, status: int, *operations: bytes) -> None:
        """Each of these, in a call of its own and on the client's file, gets this status."""
        for operation in operations:
            opnum = int.from_bytes(operation[:4], "big")
            self.want(*under(self.file, operation, done(opnum, status=status)))

    # The words of its operations.

    def clientid(self) -> bytes:
        return words(self.epoch, self.number)

    def stateid(self, number: int, seqid: int) -> bytes:
        return words(seqid) + self.clientid() + words(number)

    def open_stateid(self) -> bytes:
        return self.stateid(self.open, self.open_seqid)

    def lock_stateid(self) -> bytes:
        return self.stateid(self.lock, self.lock_seqid)

    def span(self, place: int = 0) -> bytes:
        """Ten bytes that nobody else locks."""
        return u64(1000 * (self.uid or 0) + 10 * place) + u64(10)

    def spelled_locker(self) -> bytes:
        return self.clientid() + opaque(self.locker)

    def open_words(self, last: int) -> bytes:
        return opening(last, self.access, NONE, self.clientid() + opaque(self.owner), FILES[self.file][-1])

    def first_lock_words(self, last: int) -> bytes:
        """By a lock owner that has no lock of the file yet."""
        locker = words(1, last) + self.open_stateid() + words(self.lock_last + 1) + self.spelled_locker()
        return words(LOCK, WRITE_LT, 0) + self.span() + locker

    def next_lock_words(self, last: int) -> bytes:
        return words(LOCK, WRITE_LT, 0) + self.span(1) + words(0) + self.lock_stateid() + words(last)

    def locku_words(self, last: int) -> bytes:
        return words(LOCKU, WRITE_LT, last) + self.lock_stateid() + u64(0) + u64(2**64 - 1)

    def lockt_words(self, owner: bytes, span: bytes) -> bytes:
        return words(LOCKT, READ_LT) + span + self.clientid() + opaque(owner)

    def open_confirm_words(self, last: int) -> bytes:
        return words(OPEN_CONFIRM) + self.open_stateid() + words(last)

    def downgrade_words(self, last: int) -> bytes:
        return words(OPEN_DOWNGRADE) + self.open_stateid() + words(last, BOTH, NONE)

    def close_words(self, last: int) -> bytes:
        return words(CLOSE, last) + self.open_stateid()

    def release_words(self) -> bytes:
        return words(RELEASE_LOCKOWNER) + self.spelled_locker()

    def renew_words(self) -> bytes:
        return words(RENEW) + self.clientid()

    # What it does.

    def null(self) -> None:
        self.peer.send(call(7, NULL, uid=self.uid))
        if (got := self.peer.receive()) != reply(7):
            raise Wrong(f"user {self.uid} gets {got.hex(' ', 4)} for NULL")

    def introduce(self) -> None:
        """SETCLIENTID and SETCLIENTID_CONFIRM."""
        found = self.ask(setclientid(VERIFIER, self.name))
        if len(found) < 15:
            raise Wrong(f"user {self.uid} gets {self.got[-1].hex(' ', 4)} for SETCLIENTID")
        self.number, confirm = found[12], found[14]
        self.expect(NFS4_OK, [(b"", given(self.epoch, self.number, confirm))])
        self.want((confirmation(self.epoch, self.number, confirm), done(SETCLIENTID_CONFIRM)))

    def open_file(self, file: int) -> None:
        """OPEN, and OPEN_CONFIRM if that is wanted."""
        self.file, self.last, self.open_seqid = file, self.last + 1, 1
        way, operation = way_to(file), self.open_words(self.last)
        found = self.ask(*(words for words, _ in way), operation)
        at = 9 + 2 * len(way)
        if len(found) < at + 6:
            raise Wrong(f"user {self.uid} gets {self.got[-1].hex(' ', 4)} for OPEN")
        self.open = found[at + 5]
        rest = self.open_stateid() + words(1, 0, 0, 0, 0, 4 if self.is_confirmed else 6, 0, 0)
        self.expect(NFS4_OK, [*way, (b"", done(OPEN, rest))])
        if not self.is_confirmed:
            self.sequenced(OPEN_CONFIRM, self.open_confirm_words(self.last + 1))
            self.is_confirmed = True

    def sequenced(self, opnum: int, operation: bytes) -> None:
        """An operation on the open."""
        self.last, self.open_seqid = self.last + 1, self.open_seqid + 1
        self.want(*under(self.file, operation, done(opnum, self.open_stateid())))

    def lock_first(self) -> None:
        operation = self.first_lock_words(self.last + 1)
        found = self.ask(words(PUTFH) + handle(self.file), operation)
        if len(found) < 17:
            raise Wrong(f"user {self.uid} gets {self.got[-1].hex(' ', 4)} for LOCK")
        self.last, self.lock_last, self.lock, self.lock_seqid = self.last + 1, self.lock_last + 1, found[16], 1
        self.expect(NFS4_OK, under(self.file, b"", done(LOCK, self.lock_stateid())))

    def lock_again(self, opnum: int, operation: bytes) -> None:
        """Another operation on the lock state."""
        self.lock_last, self.lock_seqid = self.lock_last + 1, self.lock_seqid + 1
        self.want(*under(self.file, operation, done(opnum, self.lock_stateid())))

    def denial(self) -> bytes:
        """The result of a LOCKT that meets the first lock."""
        return words(LOCKT, Status.DENIED) + self.span() + words(WRITE_LT) + self.spelled_locker()

    def round(self, file: int) -> None:
        """Opens a file, locks and unlocks bytes of it, and closes it."""
        self.null()
        self.open_file(file)
        self.want(
            *under(
                file,
                words(GETATTR, 1, TYPE_SIZE_FILEID),
                done(GETATTR, words(1, TYPE_SIZE_FILEID, 20, 1, 0, 5 if file == 1 else 0, 0, file + 1)),
            )
        )
        self.lock_first()
        self.want(*under(file, self.lockt_words(b"other", self.span()), self.denial()))
        self.lock_again(LOCK, self.next_lock_words(self.lock_last + 1))
        self.want((self.release_words(), done(RELEASE_LOCKOWNER, status=Status.LOCKS_HELD)))
        self.want((self.renew_words(), done(RENEW)))
        self.lock_again(LOCKU, self.locku_words(self.lock_last + 1))
        self.want((self.release_words(), done(RELEASE_LOCKOWNER)))
        self.lock_last = 0
        self.sequenced(OPEN_DOWNGRADE, self.downgrade_words(self.last + 1))
        self.sequenced(CLOSE, self.close_words(self.last + 1))
