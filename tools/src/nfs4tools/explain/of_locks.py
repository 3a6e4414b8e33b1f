"""Why an operation on byte-range locks is refused."""
from dataclasses import replace

from nfs4tools.explain.common import RANGES, Reasons, reason
from nfs4tools.explain.kinds import (
    AccessFacts,
    HeldLocks,
    Kind,
    KnownLocker,
    OtherClient,
    RangeFacts,
    Reason,
    ReclaimFacts,
)
from nfs4tools.explain.of_opens import OfOpens
from nfs4tools.explain.of_owners import differences
from nfs4tools.model.ranges import READ_MODE, denial, range_of
from nfs4tools.model.state_parts import LockState, OpenState, Request, mode_of, next_sequence_id, stateid_of_locker
from nfs4tools.wire import (
    Lock,
    LockOwner,
    Lockt,
    Locku,
    NewLocker,
    Opnum,
    Principal,
    READ,
    ReleaseLockowner,
    Status,
    WRITE,
)


class OfLocks(OfOpens):
    """The causes that lie in locks."""

    def of_lock(self, arguments: Lock, file: int) -> Reasons:
        locker = arguments.locker
        stateid, is_new = stateid_of_locker(locker), isinstance(locker, NewLocker)
        yield from self.of_stateid(stateid, OpenState if is_new else LockState, file)
        if arguments.reclaim:
            yield reason(Kind.RECLAIM, Status.NO_GRACE, "LOCK", ReclaimFacts(is_lock=True))
        if isinstance(locker, NewLocker):
            yield from self.of_new_locker(arguments, locker, file)
            opened, owner = self.state_of(stateid, OpenState), locker.owner
        else:
            found = self.state_of(stateid, LockState)
            opened, owner = found.open, found.owner
        yield from self.of_range(arguments)
        wanted = READ if mode_of(arguments.locktype) == READ_MODE else WRITE
        if opened.share()[0] & wanted == 0:
            facts = AccessFacts("the lock", wanted, opened.share()[0], opened.number, stateid.number)
            yield reason(Kind.ACCESS_LACKING, Status.OPENMODE, "LOCK", facts, (), [opened.number])
        yield from self.of_conflict(arguments, owner, file)

    def of_new_locker(self, arguments: Lock, locker: NewLocker, file: int) -> Reasons:
        owner, server, opened = locker.owner, self.server, locker.open_stateid
        if owner[:2] != opened[1:3]:
            facts = OtherClient(opened, opened.number, None, owner.epoch, owner.client)
            yield reason(Kind.LOCK_OWNER_OF_OTHER_CLIENT, Status.INVAL, "LOCK", facts, (), [opened.number])
        wrong_id = self.lock_seqid_other(Request(Opnum.LOCK, arguments, file), locker)
        state = next((it for it in server.lock_states_of(file) if it.owner == owner), None)
        if state is not None:
            known = KnownLocker(owner, state.number, server.begun[state.number])
            found = reason(Kind.NEW_LOCK_OWNER_KNOWN, Status.BAD_SEQID, "LOCK", known, [known.entry], [state.number])
            yield replace(found, also=wrong_id)
        if wrong_id is not None:
            yield wrong_id

    def lock_seqid_other(self, request: Request, locker: NewLocker) -> Reason | None:
        """What is wrong with the lock_seqid of a lock owner that is known, if anything."""
        owner, came = self.server.lock_owners.get(locker.owner), locker.lock_seqid
        if owner is None or came == next_sequence_id(owner.kept.seqid):
            return None
        differs = differences(owner.kept.request, request) if came == owner.kept.seqid else ()
        facts = replace(self.sequence_facts(owner, came), differs=differs)
        return reason(Kind.LOCK_SEQID_OTHER, Status.BAD_SEQID, "LOCK", facts, [facts.entry])

    def of_lockt(self, arguments: Lockt, file: int) -> Reasons:
        yield from self.of_filehandle(file)
        yield from self.of_clientid(arguments.owner.epoch, arguments.owner.client)
        yield from self.of_node(file, Status.ISDIR, "LOCKT")
        yield from self.of_range(arguments)
        yield from self.of_conflict(arguments, arguments.owner, file)

    def of_locku(self, arguments: Locku, file: int) -> Reasons:
        yield from self.of_stateid(arguments.stateid, LockState, file)
        yield from self.of_range(arguments)

    def of_range(self, arguments: Lock | Lockt | Locku) -> Reasons:
        if range_of(arguments.offset, arguments.length) is None:
            facts = RangeFacts(arguments.offset, arguments.length)
            yield reason(Kind.RANGE_INVALID, Status.INVAL, RANGES, facts)

    def of_conflict(self, arguments: Lock | Lockt, owner: LockOwner, file: int) -> Reasons:
        """The lock of another owner that conflicts, as it is reported."""
        asked, mode = range_of(arguments.offset, arguments.length), mode_of(arguments.locktype)
        assert asked is not None
        others = [it for it in self.server.lock_states_of(file) if it.owner != owner]
        found = denial([(it.owner, it.ranges) for it in others], *asked, mode)
        if found is not None:
            held = self.held_lock(next(it for it in others if it.owner == found.owner), found.run)
            yield reason(Kind.LOCK_CONFLICT, Status.DENIED, RANGES, HeldLocks((held,)), [held.entry], [held.state])

    def of_release_lockowner(self, arguments: ReleaseLockowner, _principal: Principal) -> Reasons:
        owner = arguments.owner
        yield from self.of_clientid(owner.epoch, owner.client)
        held = [it for it in self.server.lock_states if it.owner == owner and not it.ranges.is_empty()]
        if held:
            found = self.locks_held([self.first_lock(it) for it in held], "RELEASE_LOCKOWNER")
            assert isinstance(found.facts, HeldLocks)
            yield replace(found, facts=replace(found.facts, owner=owner))
