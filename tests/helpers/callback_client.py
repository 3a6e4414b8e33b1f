"""A client that says where it is called back, and that files are lent to."""
import time
from typing import Any, NamedTuple

from helpers.expecting_client import NONE, VERIFIER, Client, done, Wrong
from nfs4tools.messages import (
    DELEGRETURN,
    GETFH,
    NFS4_OK,
    OPEN_CONFIRM,
    PUTFH,
    PUTROOTFH,
    RENEW,
    SETCLIENTID,
    SETCLIENTID_CONFIRM,
    confirmation,
    given,
    handle,
    opening,
    words,
)
from nfs4tools.model.operations.open import CONFIRM
from nfs4tools.model.state_parts import Recall
from nfs4tools.processes import REPLY_PATIENCE
from nfs4tools.wire import AUTH_NONE, AUTH_SYS, Callback, FORMS, Stateid, opaque


class Lent(NamedTuple):
    """A delegation: the node of its file, its number, and for what it is."""

    file: int
    number: int
    kind: int


class Opened(NamedTuple):
    """What came of an OPEN: its status, and the delegation that it brings, or None."""

    status: int
    delegation: Lent | None


class Borrower(Client):
    """A client with a callback. Its owner opens files of the root, by their names. As nobody it has no uid."""

    def __init__(self, peer: Any, uid: int, is_nobody: bool = False) -> None:
        super().__init__(peer, uid)
        if is_nobody:
            self.uid = None
        self.callback: Callback | None = None

    def introduce(self, callback: Callback, verifier: bytes = VERIFIER) -> None:  # type: ignore[override]
        """SETCLIENTID with this callback, and SETCLIENTID_CONFIRM; also once more, with another one."""
        self.want((self.identify(callback, verifier), done(SETCLIENTID_CONFIRM)))

    def identify(self, callback: Callback, verifier: bytes = VERIFIER) -> bytes:
        """SETCLIENTID with this callback: the operation that confirms it."""
        found = self.ask(words(SETCLIENTID) + FORMS[SETCLIENTID].write((verifier, self.name, callback)))
        if len(found) < 15:
            raise Wrong(f"{self.name!r} gets {self.got[-1].hex(' ', 4)} for SETCLIENTID")
        self.number, confirm, self.callback = found[12], found[14], callback
        self.expect(NFS4_OK, [(b"", given(self.epoch, self.number, confirm))])
        return confirmation(self.epoch, self.number, confirm)

    def open_by_name(self, name: bytes, access: int, deny: int = NONE) -> Opened:
        """OPEN by the owner's next sequence id, and OPEN_CONFIRM where that is wanted."""
        found = self.ask(words(PUTROOTFH), self.words_of_open(name, access, deny), words(GETFH))
        if found[12] != NFS4_OK:
            return Opened(found[12], None)
        self.file, self.open_seqid, self.open = found[-1], found[13], found[16]
        if found[22] & CONFIRM:
            self.sequenced(OPEN_CONFIRM, self.open_confirm_words(self.last + 1))
        kind = found[24]
        return Opened(NFS4_OK, Lent(self.file, found[28], kind) if kind else None)

    def words_of_open(self, name: bytes, access: int, deny: int = NONE) -> bytes:
        self.last += 1
        return opening(self.last, access, deny, self.clientid() + opaque(self.owner), name)

    def borrow(self, name: bytes, access: int) -> Lent:
        """The delegation that an OPEN of this file brings, as soon as one does."""
        until = time.monotonic() + REPLY_PATIENCE
        while (opened := self.open_by_name(name, access)).delegation is None:
            if opened.status != NFS4_OK or time.monotonic() > until:
                raise Wrong(f"{self.name!r} gets no delegation of {name!r}, and status {opened.status}")
            time.sleep(0.05)
        return opened.delegation

    def give_back(self, lent: Lent) -> int:
        """The status of DELEGRETURN."""
        return self.ask(words(PUTFH) + handle(lent.file), words(DELEGRETURN) + self.stateid(lent.number, 1))[6]

    def renew(self) -> None:
        self.want((self.renew_words(), done(RENEW)))

    def recall_of(self, lent: Lent) -> Recall:
        """What the server has to say to call this delegation back."""
        assert self.callback is not None
        principal = (AUTH_NONE, 0) if self.uid is None else (AUTH_SYS, self.uid)
        return Recall(Stateid(1, self.epoch, self.number, lent.number), lent.file, principal, self.callback)
