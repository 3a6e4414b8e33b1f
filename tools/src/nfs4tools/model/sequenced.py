"""Sequenced operations: the requests of owners, each with a sequence id (RFC 7530, sections 9.1.7 to 9.1.11)."""
from typing import Any

from nfs4tools.model.state import State
from nfs4tools.model.state_parts import (
    LastRequest,
    LockState,
    OpenState,
    Owner,
    Refusal,
    Request,
    Result,
    answer,
    closed_by,
    expect_filehandle,
    is_first_lock,
    next_sequence_id,
    replay,
    sequence_id_of,
    stateid_of,
)
from nfs4tools.wire import NewLocker, OpenOwner, Opnum, Status

# The answers to a new request that leave its owner's sequence id as it was (section 9.1.7).
NOT_COUNTED = {
    Status.STALE_CLIENTID,
    Status.STALE_STATEID,
    Status.BAD_STATEID,
    Status.BAD_SEQID,
    Status.BADXDR,
    Status.RESOURCE,
    Status.NOFILEHANDLE,
}


class Sequencing(State):
    """What a server does with the requests of owners."""

    def effect(self, opnum: Opnum, arguments: Any, subject: Any) -> bytes:
        """What the operation's rule answers: `Server` has the rules."""
        raise NotImplementedError

    def sequenced(self, request: Request) -> Result:
        """Answers a request of an owner: that a filehandle is missing, then what is wrong with its owner and with its
        sequence id, then the operation. The answer is kept, but for those in NOT_COUNTED."""
        try:
            expect_filehandle(request.filehandle)
            owner = self.owner_of(request)
        except Refusal as refusal:
            return Result(refusal.status)
        seqid = sequence_id_of(request)
        begins = request.opnum == Opnum.OPEN and (owner is None or not owner.is_confirmed)
        if owner is not None:
            replayed = replay(owner.kept, seqid, request)
            if replayed is not None:
                return replayed
            if not begins and seqid != next_sequence_id(owner.kept.seqid):
                return Result(Status.BAD_SEQID)
        if begins or owner is None:
            return self.begin_owner(request, owner)
        lock_owner = self.next_lock_owner(request) if request.opnum == Opnum.LOCK else None
        result = answer(self.effect, *request)
        if result.status not in NOT_COUNTED:
            owner.kept = self.kept(seqid, request, result)
            if lock_owner is not None or is_first_lock(request) and result.status == Status.OK:
                self.keep_for_lock_owner(request, result)
        return result

    def begin_owner(self, request: Request, owner: Owner | None) -> Result:
        """Answers an OPEN whose owner isn't known or confirmed yet, and so begins with it (section 9.1.11)."""
        before = dict(self.open_owners), list(self.opens)
        if owner is not None:
            del self.open_owners[owner.name]
            self.opens = [it for it in self.opens if it.owner != owner.name]
        result = answer(self.effect, *request)
        if result.status == Status.OK:
            name = request.arguments.owner
            self.open_owners[name] = Owner(name, self.kept(request.arguments.seqid, request, result), self.entries)
        elif result.status == Status.RESOURCE:
            self.open_owners, self.opens = before
        return result

    def kept(self, seqid: int, request: Request, result: Result) -> LastRequest:
        """What is kept of the request that is answered."""
        return LastRequest(seqid, request, result, self.entries, self.moment)

    def owner_of(self, request: Request) -> Owner | None:
        """The owner of a sequenced operation, or None for one that is unknown."""
        if request.opnum == Opnum.OPEN:
            name: OpenOwner = request.arguments.owner
            self.expect_client(name.epoch, name.client)
            return self.open_owners.get(name)
        stateid = stateid_of(request.opnum, request.arguments)
        found = self.looked_up(stateid)
        if isinstance(found, OpenState):
            return self.open_owners[found.owner]
        if isinstance(found, LockState):
            return self.lock_owners[found.owner]
        # A delegation has no owner.
        for owner in self.open_owners.values():
            if closed_by(owner.kept, stateid):
                return owner
        raise Refusal(Status.BAD_STATEID)

    def next_lock_owner(self, request: Request) -> Owner | None:
        """The lock owner for which a LOCK that names a new one counts whatever its answer is, if any: it is known, of
        the client that the open's stateid has, and lock_seqid is its next sequence id."""
        if not is_first_lock(request):
            return None
        locker: NewLocker = request.arguments.locker
        known = self.lock_owners.get(locker.owner)
        if known is None or locker.owner[:2] != locker.open_stateid[1:3]:
            return None
        return known if locker.lock_seqid == next_sequence_id(known.kept.seqid) else None

    def keep_for_lock_owner(self, request: Request, result: Result) -> None:
        """Keeps for the lock owner what a LOCK that names a new one was answered: by then it may be known."""
        locker = request.arguments.locker
        known = self.lock_owners.get(locker.owner)
        recorded = self.entries if known is None else known.recorded
        self.lock_owners[locker.owner] = Owner(locker.owner, self.kept(locker.lock_seqid, request, result), recorded)
