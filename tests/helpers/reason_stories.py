"""Stories for test_reasons.py: calls to a server, and the reason that has to be given for each refusal. Other files
have the stories themselves (`reason_cases.py` and those beside it)."""
from collections.abc import Sequence
from typing import Any

from helpers.journal_cases import CALLBACK, LAST, NO_CREATE, NOBODY
from nfs4tools.journal.journal import Recorder
from nfs4tools.model.tree import DEFAULT, Tree
from nfs4tools.wire import (
    Claim,
    Close,
    Delegreturn,
    Getattr,
    KnownLocker,
    Lock,
    LockOwner,
    Locku,
    NewLocker,
    Open,
    OpenConfirm,
    OpenOwner,
    Opnum,
    Read,
    Readdir,
    Setattr,
    Setclientid,
    SetclientidConfirm,
    Stateid,
    Write,
)

# A reason in words, and the heading of the rules that has it, or None; the current filehandle; and who sends a call.
Because = tuple[str, str] | None
Handle = int | None
Sender = tuple[int, int]
ROOT = 0
FILE = 1
OTHER_FILE = 2
DIRECTORY = 3
ALL = 2**64 - 1
ZEROS, ONES = Stateid(0, 0, 0, 0), Stateid(LAST, LAST, LAST, LAST)
OWNERS = "Owners and sequenced operations"
STATEIDS = "Stateids"
CLIENT_IDS = "Client ids"
RANGES = "Byte-range locks"
DELEGATIONS = "Delegations"
OPEN_A = 'open of file "/a" by open owner "A" of client 1'
LOCK_X = 'lock state of file "/a" by lock owner "x" of client 1'
OPEN_BY_A = 'OPEN by open owner "A" of client 1'
NO_HANDLE = "no filehandle is current: no operation before it in its COMPOUND made one so", "COMPOUND"
NO_FILE = 'directory "/" has no "e"', "OPEN"
OLD = "state 1 has seqid 2 since entry 3 (OPEN_CONFIRM), but the stateid has the earlier 1", STATEIDS


class Story:
    """Calls to a server, one after the other, and the reasons that are wanted of those that are refused."""

    def __init__(self, document: str = DEFAULT) -> None:
        self.server = Recorder(Tree(document))
        self.wanted: dict[int, tuple[str, str]] = {}
        # By the numbers of entries: what they do about delegations; and whose kept answer they have.
        self.events: dict[int, list[str]] = {}
        self.again: dict[int, str] = {}

    def tell(self, *texts: str) -> None:
        """What the next entry is to do about delegations."""
        self.events[self.server.entries] = list(texts)

    def call(
        self,
        opnum: Opnum,
        arguments: Any,
        because: Because = None,
        filehandle: Handle = FILE,
        principal: Sender = NOBODY,
    ) -> None:
        if because is not None:
            self.wanted[self.server.entries] = because
        self.server.apply(opnum, arguments, filehandle, principal)

    def repeat(self, number: int, whose: str | None = None, because: Because = None) -> None:
        """The call of this entry once more; where it is said whose, it has to have the answer that was kept of it."""
        if whose is not None:
            self.again[self.server.entries] = f"{whose} is a replay of entry {number}"
        call = self.server.recorded[number]
        self.call(call.opnum, call.arguments, because, call.filehandle, call.principal)

    def introduce(
        self, name: bytes = b"c1", verifier: int = 1, because: Because = None, principal: Sender = NOBODY
    ) -> None:
        arguments = Setclientid(verifier.to_bytes(8, "big"), name, CALLBACK)
        self.call(Opnum.SETCLIENTID, arguments, because, None, principal)

    def confirm_client(
        self, client: int, confirm: int, because: Because = None, principal: Sender = NOBODY, epoch: int = 1
    ) -> None:
        self.call(Opnum.SETCLIENTID_CONFIRM, SetclientidConfirm(epoch, client, confirm), because, None, principal)

    def open(
        self,
        seqid: int,
        because: Because = None,
        owner: bytes = b"A",
        access: int = 3,
        deny: int = 0,
        client: int = 1,
        epoch: int = 1,
        **more: Any,
    ) -> None:
        """By the name `a`, in the root, if nothing else is said."""
        claim, how = more.get("claim", Claim(0, more.get("name", b"a"), None)), more.get("how", NO_CREATE)
        arguments = Open(seqid, access, deny, OpenOwner(epoch, client, owner), how, claim)
        self.call(Opnum.OPEN, arguments, because, more.get("directory", ROOT))

    def confirm(self, seqid: int, stateid: Stateid, because: Because = None, filehandle: Handle = FILE) -> None:
        self.call(Opnum.OPEN_CONFIRM, OpenConfirm(stateid, seqid), because, filehandle)

    def close(self, seqid: int, stateid: Stateid, because: Because = None, filehandle: Handle = FILE) -> None:
        self.call(Opnum.CLOSE, Close(seqid, stateid), because, filehandle)

    def lock_first(
        self,
        seqid: int,
        stateid: Stateid,
        lock_seqid: int,
        because: Because = None,
        owner: LockOwner = LockOwner(1, 1, b"x"),
        locktype: int = 2,
        **more: Any,
    ) -> None:
        locker = NewLocker(seqid, stateid, lock_seqid, owner)
        asked = more.get("reclaim", 0), more.get("offset", 0), more.get("length", 10)
        self.call(Opnum.LOCK, Lock(locktype, *asked, locker), because, more.get("filehandle", FILE))

    def lock_next(self, seqid: int, stateid: Stateid, because: Because = None) -> None:
        self.call(Opnum.LOCK, Lock(2, 0, 0, 10, KnownLocker(stateid, seqid)), because)

    def unlock(self, seqid: int, stateid: Stateid, because: Because = None, length: int = 10) -> None:
        self.call(Opnum.LOCKU, Locku(2, seqid, stateid, 0, length), because)

    def give_back(self, stateid: Stateid, because: Because = None, filehandle: Handle = FILE) -> None:
        self.call(Opnum.DELEGRETURN, Delegreturn(stateid), because, filehandle)

    def read(self, stateid: Stateid, because: Because = None, filehandle: Handle = FILE) -> None:
        self.call(Opnum.READ, Read(stateid, 0, 5), because, filehandle)

    def write(self, stateid: Stateid, because: Because = None, filehandle: Handle = FILE, offset: int = 0) -> None:
        self.call(Opnum.WRITE, Write(stateid, offset, 2, b"bytes"), because, filehandle)

    def list(self, because: Because = None, filehandle: Handle = ROOT, **more: Any) -> None:
        """The names and numbers of a directory's children."""
        arguments = Readdir(0, bytes(8), 0, 4096, (1 << 20,))._replace(**more)
        self.call(Opnum.READDIR, arguments, because, filehandle)

    def ask_for(self, mask: Sequence[int], because: Because = None, filehandle: Handle = FILE) -> None:
        self.call(Opnum.GETATTR, Getattr(mask), because, filehandle)

    def set(
        self,
        mask: Sequence[int],
        values: bytes,
        because: Because = None,
        filehandle: Handle = FILE,
        stateid: Stateid = ZEROS,
    ) -> None:
        self.call(Opnum.SETATTR, Setattr(stateid, (mask, values)), because, filehandle)

    def expire(self, client: int, now: int = 91) -> None:
        self.server.expire(client, 0, now)


def begun() -> Story:
    """Client 1, live; and state 1, its open of `a` by A for both, confirmed: entries 0 to 3. The next is 3."""
    story = Story()
    story.introduce()
    story.confirm_client(1, 1)
    story.open(1)
    story.confirm(2, state(1))
    return story


def state(number: int, seqid: int = 1, client: int = 1, epoch: int = 1) -> Stateid:
    return Stateid(seqid, epoch, client, number)
