"""Clients with bugs of stateids, for `buggy_clients.py`."""
from helpers.right_client import Held, Lent, Locked, Opened, RightClient, Steps
from nfs4tools.wire import Opnum, Stateid


class KeepsStateidAfter(RightClient):
    """The stateid that one operation answers isn't taken."""

    opnum = Opnum.OPEN_CONFIRM

    def keep(self, opnum: Opnum, held: Held, stateid: Stateid) -> None:
        if opnum != self.opnum or held.stateid == stateid:
            super().keep(opnum, held, stateid)


class KeepsStateidAfterOpen(KeepsStateidAfter):
    opnum = Opnum.OPEN


class KeepsStateidAfterDowngrade(KeepsStateidAfter):
    opnum = Opnum.OPEN_DOWNGRADE


class KeepsStateidAfterLock(KeepsStateidAfter):
    opnum = Opnum.LOCK


class UnlocksByOpen(RightClient):
    def stateid_for(self, opnum: Opnum, held: Held) -> Stateid:
        return held.opened.stateid if opnum == Opnum.LOCKU and isinstance(held, Locked) else held.stateid


class ClosesFirst(RightClient):
    """It gives up its opens before its lock owners."""

    def leaving(self) -> Steps[None]:
        for opened in list(self.opens):
            yield from self.freeing(opened)
            yield from self.closing(opened)
        yield from super().leaving()

    def freeing(self, opened: Opened) -> Steps[None]:
        for held in opened.locks:
            yield from self.unlocking(held)


class ClosesByLock(ClosesFirst):
    """What the client has of a file has one place for a stateid, and the last one that came stands there."""

    def stateid_for(self, opnum: Opnum, held: Held) -> Stateid:
        last = held.locks[-1] if opnum == Opnum.CLOSE and isinstance(held, Opened) and held.locks else held
        return last.stateid


class ReturnsByOpen(RightClient):
    def stateid_for(self, opnum: Opnum, held: Held) -> Stateid:
        return self.opens[-1].stateid if opnum == Opnum.DELEGRETURN and self.opens else held.stateid


class ReadsByLastOpen(RightClient):
    """The stateid of the file that was opened last, whatever is read."""

    def stateid_for(self, opnum: Opnum, held: Held) -> Stateid:
        return self.opens[-1].stateid if opnum == Opnum.READ and self.opens else held.stateid


class StaysAtFirstFile(RightClient):
    """WRITE has the filehandle of the first file."""

    def handle_for(self, opnum: Opnum, held: Held) -> bytes:
        return self.opens[0].handle if opnum == Opnum.WRITE and self.opens else held.handle


class ReadsAfterClose(RightClient):
    def closing(self, opened: Opened) -> Steps[int]:
        status = yield from super().closing(opened)
        yield from self.reading(opened)
        return status


class UnlocksAfterClose(ClosesFirst):
    def closing(self, opened: Opened) -> Steps[int]:
        status = yield from super().closing(opened)
        for held in opened.locks:
            yield from self.unlocking(held)
        return status


class SwapsNumber(RightClient):
    """A part of the stateid is read by the wrong order of bytes."""

    def stateid_for(self, opnum: Opnum, held: Held) -> Stateid:
        swapped = int.from_bytes(held.stateid.number.to_bytes(4, "big"), "little")
        return held.stateid._replace(number=swapped) if opnum == Opnum.READ else held.stateid


class CountsStateids(RightClient):
    """The client raises a stateid's seqid itself, at each WRITE."""

    def stateid_for(self, opnum: Opnum, held: Held) -> Stateid:
        if opnum == Opnum.WRITE:
            held.stateid = held.stateid._replace(seqid=held.stateid.seqid + 1)
        return held.stateid


class SeqidOfZero(RightClient):
    """A seqid of 0 is the present one, as in NFSv4.1."""

    def stateid_for(self, opnum: Opnum, held: Held) -> Stateid:
        return held.stateid._replace(seqid=0) if opnum in (Opnum.READ, Opnum.WRITE) else held.stateid


class UsesReturnedDelegation(RightClient):
    def giving_back(self, lent: Lent) -> Steps[int]:
        status = yield from super().giving_back(lent)
        yield from self.reading(lent)
        return status
