"""Bugs as client's writers make them: each is the client that does right with one decision changed, and all of them run
the same sessions beside a client that has none. The finding is the one that a reader of RFC 7530 would name."""
from typing import NamedTuple

from helpers.bug_sessions import Session, with_delegations, with_files, with_locks, with_pauses
from helpers.buggy_sequence_ids import (
    AddsTwo,
    BeginsAgainAfterClose,
    CountsAll,
    CountsAtSending,
    CountsNoFilehandle,
    IdPerFile,
    KeepsIdAfter,
    KeepsIdAfterDelay,
    KeepsIdAfterOldStateid,
    KeepsIdAfterShareDenied,
    LockLeavesOpenOwner,
    LocksByOpenOwnersId,
    NeverAdds,
    NewIdForLostClose,
    NewIdForLostOpen,
    NewIdForLostUnlock,
    OneIdForAll,
    SixteenBits,
)
from helpers.buggy_stateids import (
    ClosesByLock,
    CountsStateids,
    KeepsStateidAfter,
    KeepsStateidAfterDowngrade,
    KeepsStateidAfterLock,
    KeepsStateidAfterOpen,
    ReadsAfterClose,
    ReadsByLastOpen,
    ReturnsByOpen,
    SeqidOfZero,
    StaysAtFirstFile,
    SwapsNumber,
    UnlocksAfterClose,
    UnlocksByOpen,
    UsesReturnedDelegation,
)
from helpers.judge_servers import Setting
from helpers.right_client import ENDLESS, Held, Lent, Locked, Opened, Owner, RightClient, Share, Span, Steps
from nfs4tools.wire import BOTH, OPEN_DELEGATE_WRITE, Opnum, READ, SetclientidConfirm, Status

# Of what no journal shows.
NOT_TOLD = ""
LENDING, LENDING_SHORT = Setting(delegations="all"), Setting(lease=2, delegations="all")
SHORT, REFUSING = Setting(lease=2), Setting(close_locks="refuse")

# Bugs of confirmations, locks and shares.


class LeavesOutConfirm(RightClient):
    def has_to_confirm(self, flags: int) -> bool:
        return False


class ConfirmsEachOpen(RightClient):
    def has_to_confirm(self, flags: int) -> bool:
        return True


class ConfirmsByVerifier(RightClient):
    """Each time it introduces itself it confirms by its own verifier first."""

    def introducing(self) -> Steps[int]:
        self.verifier = self.verifier[::-1]
        yield from super().introducing()
        self.verifier = self.verifier[::-1]
        return (yield from super().introducing())

    def confirmation(self, epoch: int, number: int, confirm: int) -> SetclientidConfirm:
        is_wrong = self.verifier in (b"reifirev", b"!rehtona")
        return SetclientidConfirm(epoch, number, int.from_bytes(self.verifier, "big") if is_wrong else confirm)


class AlwaysNewLockOwner(RightClient):
    def lock_for(self, locker: Owner, opened: Opened) -> Locked | None:
        return None


class ZeroToTheEnd(RightClient):
    """A length of 0 goes on to the end of the file, as in fcntl."""

    def locking(self, locker: Owner, opened: Opened, span: Span) -> Steps[int]:
        return (yield from super().locking(locker, opened, span._replace(length=span.length % ENDLESS)))


class ReleasesBeforeUnlock(RightClient):
    def leaving(self) -> Steps[None]:
        for locker in list(self.lockers.values()):
            yield from self.releasing(locker)
        yield from super().leaving()


class ClosesWithLocks(RightClient):
    """It counts on CLOSE to free the locks."""

    def leaving(self) -> Steps[None]:
        for opened in list(self.opens):
            yield from self.closing(opened)
        yield from super().leaving()


class OpensLess(RightClient):
    """It opens for reading if the file is there, and writes all the same."""

    def opening(
        self, owner: Owner, path: tuple[bytes, ...], share: Share = (BOTH, 0), lent: Lent | None = None
    ) -> Steps[int]:
        return (yield from super().opening(owner, path, (READ, share[1]), lent))


class DowngradesAnyway(RightClient):
    """It downgrades to READ what it has opened for both alone."""

    def closing(self, opened: Opened) -> Steps[int]:
        if opened.pairs == [(BOTH, 0)]:
            yield from self.downgrading(opened, (READ, 0))
        return (yield from super().closing(opened))


# Bugs of delegations, leases and clientids.


class KeepsDelegation(RightClient):
    """It answers the recall, and does nothing more."""

    def giving_back(self, lent: Lent) -> Steps[int]:
        yield []
        return Status.OK


class WritesByAnyDelegation(OpensLess):
    def reading(self, held: Held) -> Steps[int]:
        status = yield from super().reading(held)
        if isinstance(held, Lent) and held.kind != OPEN_DELEGATE_WRITE:
            yield from self.writing(held)
        return status


class NeverRenews(RightClient):
    def renewing(self) -> Steps[int]:
        yield []
        return Status.OK


class RenewsFirstClientid(RightClient):
    """RENEW goes on with the clientid that was the first, also when there is a newer one."""

    first = 0, 0

    def clientid_now(self, opnum: Opnum) -> tuple[int, int]:
        self.first = self.first if self.first != (0, 0) else self.clientid
        return self.first if opnum == Opnum.RENEW else self.clientid


class OpensByFirstClientid(RightClient):
    """The same of OPEN."""

    first = 0, 0

    def clientid_now(self, opnum: Opnum) -> tuple[int, int]:
        self.first = self.first if self.first != (0, 0) else self.clientid
        return self.first if opnum == Opnum.OPEN else self.clientid


class NeverCloses(RightClient):
    def closing(self, opened: Opened) -> Steps[int]:
        yield []
        self.opens = [it for it in self.opens if it is not opened]
        return Status.OK


class Hammers(RightClient):
    """Where a delegation conflicts it asks again without a pause."""

    def opening(
        self, owner: Owner, path: tuple[bytes, ...], share: Share = (BOTH, 0), lent: Lent | None = None
    ) -> Steps[int]:
        for _ in range(15):
            status = yield from super().opening(owner, path, share, lent)
            if status != Status.DELAY:
                break
        return status


class Bug(NamedTuple):
    """A client with a bug, the finding that names it, the session that shows it, and what the server is begun with."""

    client: type[RightClient]
    finding: str
    session: Session
    setting: Setting = Setting()


BUGS = [
    Bug(LockLeavesOpenOwner, "other-request-with-last-id", with_locks),
    Bug(CountsAll, "sequence-id-moved-after-uncounted-refusal", with_files),
    Bug(CountsNoFilehandle, "sequence-id-moved-after-uncounted-refusal", with_files),
    Bug(KeepsIdAfter, "sequence-id-kept-after-counted-refusal", with_locks),
    Bug(KeepsIdAfterShareDenied, "sequence-id-kept-after-counted-refusal", with_locks),
    Bug(KeepsIdAfterDelay, "sequence-id-kept-after-counted-refusal", with_delegations, LENDING),
    Bug(KeepsIdAfterOldStateid, "sequence-id-kept-after-counted-refusal", with_files),
    Bug(OneIdForAll, "sequence-id-skipped", with_locks),
    Bug(LocksByOpenOwnersId, "sequence-id-skipped", with_locks),
    Bug(IdPerFile, "sequence-id-reused", with_files),
    Bug(BeginsAgainAfterClose, "sequence-id-reused", with_files),
    Bug(SixteenBits, "sequence-id-reused", with_files),
    Bug(AddsTwo, "sequence-id-skipped", with_files),
    Bug(NeverAdds, "other-request-with-last-id", with_files),
    Bug(CountsAtSending, "sequence-id-skipped", with_locks),
    Bug(NewIdForLostClose, "stateid-closed", with_files),
    Bug(KeepsStateidAfter, "stateid-old", with_files),
    Bug(KeepsStateidAfterOpen, "stateid-old", with_files),
    Bug(KeepsStateidAfterDowngrade, "stateid-old", with_files),
    Bug(KeepsStateidAfterLock, "stateid-old", with_locks),
    Bug(UnlocksByOpen, "stateid-of-other-kind", with_locks),
    Bug(ClosesByLock, "stateid-of-other-kind", with_locks),
    Bug(ReturnsByOpen, "stateid-of-other-kind", with_delegations, LENDING),
    Bug(ReadsByLastOpen, "stateid-of-other-file", with_files),
    Bug(StaysAtFirstFile, "stateid-of-other-file", with_files),
    Bug(ReadsAfterClose, "stateid-closed", with_files),
    Bug(UnlocksAfterClose, "stateid-closed", with_locks),
    Bug(SwapsNumber, "stateid-unknown", with_files),
    Bug(CountsStateids, "stateid-unknown", with_files),
    Bug(SeqidOfZero, "stateid-unknown", with_files),
    Bug(UsesReturnedDelegation, "delegation-used-after-return", with_delegations, LENDING),
    Bug(LeavesOutConfirm, "owner-not-confirmed", with_files),
    Bug(ConfirmsEachOpen, "confirm-of-nothing", with_files),
    Bug(AlwaysNewLockOwner, "new-lock-owner-again", with_locks),
    Bug(ReleasesBeforeUnlock, "release-of-held-lock-owner", with_locks),
    Bug(ClosesWithLocks, "close-with-locks", with_locks, REFUSING),
    Bug(KeepsDelegation, "delegation-not-returned", with_delegations, LENDING_SHORT),
    Bug(RenewsFirstClientid, "lease-lapsed", with_pauses, SHORT),
    Bug(NewIdForLostUnlock, "stateid-old", with_locks),
    Bug(NewIdForLostOpen, NOT_TOLD, with_files),
]
# Beyond the forty, what the small cases have as well.
MORE = [
    Bug(ZeroToTheEnd, "range-invalid", with_locks),
    Bug(OpensLess, "write-without-access", with_files),
    Bug(OpensLess, "lock-without-access", with_locks),
    Bug(DowngradesAnyway, "downgrade-without-open", with_files),
    Bug(ConfirmsByVerifier, "confirm-of-nothing", with_pauses),
    Bug(WritesByAnyDelegation, "write-beyond-delegation", with_delegations, LENDING),
    Bug(NeverRenews, "lease-lapsed", with_pauses, SHORT),
    Bug(OpensByFirstClientid, "continues-with-dead-clientid", with_pauses),
    Bug(NeverCloses, "open-left", with_files),
    Bug(Hammers, "delay-hammered", with_delegations, LENDING),
]
