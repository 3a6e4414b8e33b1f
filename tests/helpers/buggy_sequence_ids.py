"""Clients with bugs of sequence ids, for `buggy_clients.py`."""
from helpers.bug_sessions import A
from helpers.right_client import ENDLESS, Held, Lent, Locked, Opened, Owner, RightClient, Share, Steps
from nfs4tools.wire import BOTH, Close, Opnum, Stateid, Status


class LockLeavesOpenOwner(RightClient):
    """A LOCK of a new lock owner counts for the lock owner alone."""

    def count(self, owner: Owner, seqid: int, opnum: Opnum, status: int) -> None:
        if opnum != Opnum.LOCK or owner not in self.owners.values():
            super().count(owner, seqid, opnum, status)


class CountsAll(RightClient):
    """Each answer counts; and a confirmation is sent again, as if its reply had been lost."""

    def counts(self, opnum: Opnum, status: int) -> bool:
        return True

    def confirming(self, opened: Opened) -> Steps[int]:
        status = yield from super().confirming(opened)
        if opened.path == A:
            yield from super().confirming(opened)
        return status


class CountsNoFilehandle(RightClient):
    """A CLOSE without a filehandle first, and then a right one with the next sequence id."""

    def closing(self, opened: Opened) -> Steps[int]:
        seqid = self.next_id(opened.owner, Opnum.CLOSE)
        results = yield [(Opnum.CLOSE, Close(seqid, opened.stateid))]
        opened.owner.seqid = seqid
        if results[-1].status == Status.NOFILEHANDLE:
            status = yield from super().closing(opened)
            opened.owner.seqid = seqid if status == Status.OK else seqid - 1
        return (yield from super().closing(opened))


class KeepsIdAfter(RightClient):
    """One refusal doesn't count that does."""

    refusal = Status.DENIED

    def counts(self, opnum: Opnum, status: int) -> bool:
        return super().counts(opnum, status) and status != self.refusal


class KeepsIdAfterShareDenied(KeepsIdAfter):
    refusal = Status.SHARE_DENIED


class KeepsIdAfterDelay(KeepsIdAfter):
    refusal = Status.DELAY


class KeepsIdAfterOldStateid(KeepsIdAfter):
    """It meets OLD_STATEID since it downgrades by the stateid before the last, and then uses the last."""

    refusal = Status.OLD_STATEID
    is_old = True

    def stateid_for(self, opnum: Opnum, held: Held) -> Stateid:
        self.is_old = opnum == Opnum.OPEN_DOWNGRADE and self.is_old
        return held.stateid._replace(seqid=held.stateid.seqid - 1) if self.is_old else held.stateid

    def downgrading(self, opened: Opened, share: Share) -> Steps[int]:
        self.is_old = True
        status = yield from super().downgrading(opened, share)
        if status == Status.OLD_STATEID:
            self.is_old = False
            status = yield from super().downgrading(opened, (BOTH, 0))
        return status


class OneIdForAll(RightClient):
    """The open owners have their sequence ids from one counter."""

    last = 0

    def next_id(self, owner: Owner, opnum: Opnum) -> int:
        return self.last + 1

    def count(self, owner: Owner, seqid: int, opnum: Opnum, status: int) -> None:
        self.last = seqid


class LocksByOpenOwnersId(RightClient):
    """A lock owner's next sequence id is that of the open owner."""

    def next_id(self, owner: Owner, opnum: Opnum) -> int:
        is_locker = owner in self.lockers.values()
        return super().next_id(self.owners[b"A"] if is_locker else owner, opnum)


class IdPerFile(RightClient):
    """Each open has a counter of its own."""

    def opening(
        self, owner: Owner, path: tuple[bytes, ...], share: Share = (BOTH, 0), lent: Lent | None = None
    ) -> Steps[int]:
        by_file = self.owners.setdefault(owner.name + path[-1], Owner(owner.name))
        return (yield from super().opening(by_file, path, share, lent))


class BeginsAgainAfterClose(RightClient):
    """The owner's sequence ids begin again when its last file is closed."""

    def closing(self, opened: Opened) -> Steps[int]:
        status = yield from super().closing(opened)
        opened.owner.seqid = 0
        return status


class SixteenBits(RightClient):
    """Sequence ids are counted in sixteen bits."""

    def owner(self, name: bytes) -> Owner:
        return self.owners.setdefault(name, Owner(name, 2**16 - 4))

    def next_id(self, owner: Owner, opnum: Opnum) -> int:
        return super().next_id(owner, opnum) % 2**16


class AddsTwo(RightClient):
    """One is added for each operation of the COMPOUND that has a sequence id, and one for the COMPOUND."""

    def next_id(self, owner: Owner, opnum: Opnum) -> int:
        return owner.seqid + (1 if opnum == Opnum.OPEN else 2)


class NeverAdds(RightClient):
    """Requests behind the OPEN have its sequence id."""

    def count(self, owner: Owner, seqid: int, opnum: Opnum, status: int) -> None:
        owner.seqid = 0


class CountsAtSending(RightClient):
    """A refused LOCK counts twice: when it is sent, and when it is answered."""

    def count(self, owner: Owner, seqid: int, opnum: Opnum, status: int) -> None:
        owner.seqid = seqid + (status == Status.DENIED)


class NewIdForLostOpen(RightClient):
    """The reply to an OPEN is lost, and it is sent again with the next sequence id, which no server refuses."""

    def opening(
        self, owner: Owner, path: tuple[bytes, ...], share: Share = (BOTH, 0), lent: Lent | None = None
    ) -> Steps[int]:
        if owner.is_confirmed:
            yield from super().opening(owner, path, share, lent)
        return (yield from super().opening(owner, path, share, lent))


class NewIdForLostUnlock(RightClient):
    """The same of a LOCKU. The stateid is still the one before, which shows it."""

    def unlocking(self, held: Locked, offset: int = 0, length: int = ENDLESS) -> Steps[int]:
        before = held.stateid
        yield from super().unlocking(held, offset, length)
        now, held.stateid = held.stateid, before
        yield from super().unlocking(held, offset, length)
        held.stateid = now
        return Status.OK


class NewIdForLostClose(RightClient):
    """The same of a CLOSE."""

    def closing(self, opened: Opened) -> Steps[int]:
        yield from super().closing(opened)
        return (yield from super().closing(opened))
