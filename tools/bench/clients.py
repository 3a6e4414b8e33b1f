"""Clients whose owners are many, for what is measured beside what there is: in a tree of the file `a`, with a block of
bytes, and of as many others as there may be. Each client is one that callbacks reach, and what is lent is lent to
read."""
from collections.abc import Iterable, Iterator
from copy import copy
from typing import TYPE_CHECKING

from helpers.callback_client import Borrower, Lent
from helpers.callback_peers import callback_at
from helpers.expecting_client import BOTH, done, under, Wrong
from nfs4tools.messages import CLOSE, LOCK, LOCKT, LOCKU, NFS4_OK, READ, words
from nfs4tools.processes import Peer
from nfs4tools.wire import WRITE_LT, u64, opaque

if TYPE_CHECKING:
    from bench.scenes import Scene

# The file that is measured, by its node, its name and its bytes; and the others.
FILE, NAME, BLOCK = 1, b"a", b"x" * 4096
OTHERS = [b"other %d" % number for number in range(63)]
TREE = f"""[policy]
delegations = "read"
callbacks = "assume"

[[file]]
path = "{NAME.decode()}"
text = "{BLOCK.decode()}"
""" + "".join(
    f'\n[[file]]\npath = "{name.decode()}"\n' for name in OTHERS
)
# Where nobody listens.
NOWHERE = callback_at(("127.0.0.1", 1000))
# An access; and the span of all bytes.
TO_READ, ALL = 1, u64(0) + u64(2**64 - 1)


class SceneClient(Borrower):
    """A client of a scene, by one of its owners: the others are copies. The first lock of a lock owner is of one
    byte."""

    def __init__(self, peer: Peer, uid: int, scene: "Scene") -> None:
        super().__init__(peer, uid)
        self.scene, self.byte = scene, 0
        # The words of the CLOSE that came last, and the file that is opened next.
        self.closing, self.turn = b"", 0

    def arrive(self) -> "SceneClient":
        self.introduce(NOWHERE)
        return self

    def beside(self, number: int) -> "SceneClient":
        """Another owner of the client, that isn't known yet."""
        other = copy(self)
        other.owner, other.last, other.is_confirmed, other.sent, other.got = b"owner %d" % number, 0, False, [], []
        return other

    def span(self, place: int = 0) -> bytes:
        return u64(self.byte + place) + u64(1)

    def open_it(self, name: bytes, access: int = BOTH) -> Lent | None:
        """The delegation that it brings, or None."""
        status, delegation = self.open_by_name(name, access)
        if status != NFS4_OK:
            raise Wrong(f"user {self.uid} gets status {status} for OPEN")
        self.is_confirmed = True
        return delegation

    def close(self) -> None:
        self.sequenced(CLOSE, self.close_words(self.last + 1))

    def borrow_and_close(self, name: bytes) -> None:
        """Keeps a delegation and no open; the owner is confirmed."""
        if self.open_it(name, TO_READ) is None:
            raise Wrong(f"user {self.uid} is lent nothing")
        self.close()

    def owners(self, names: Iterable[bytes]) -> Iterator["SceneClient"]:
        """More owners, as they come, each with an open of one of these files."""
        for number, name in enumerate(names):
            owner = self.beside(number)
            owner.open_it(name)
            yield owner

    def lock_as(self, locker: bytes, byte: int) -> None:
        """A byte, to write, by a lock owner that is new."""
        self.locker, self.lock_last, self.byte = locker, 0, byte
        self.lock_first()

    def lock_byte(self, byte: int, kind: int = WRITE_LT) -> None:
        locker = words(0) + self.lock_stateid() + words(self.lock_last + 1)
        self.lock_again(LOCK, words(LOCK, kind, 0) + u64(byte) + u64(1) + locker)

    def unlock_byte(self, byte: int) -> None:
        self.lock_again(LOCKU, words(LOCKU, WRITE_LT, self.lock_last + 1) + self.lock_stateid() + u64(byte) + u64(1))

    def test(self, span: bytes) -> None:
        """LOCKT to read, which meets nothing."""
        self.want(*under(FILE, self.lockt_words(self.locker, span), done(LOCKT)))

    def read(self) -> None:
        operation = words(READ) + self.open_stateid() + u64(0) + words(len(BLOCK))
        self.want(*under(FILE, operation, done(READ, words(1) + opaque(BLOCK))))
