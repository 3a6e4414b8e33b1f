"""The sequence ids of a client's owners, and the stateids of its states (RFC 7530, sections 9.1.4 and 9.1.7)."""
from collections.abc import Callable
from typing import Any

from nfs4tools import wire
from nfs4tools.client.operations import Request
from nfs4tools.client.replies import Reply, Result
from nfs4tools.wire import KnownLocker, LockOwner, NewLocker, OpenOwner, Opnum, Stateid, Status

# An owner and its kind: an open owner and a lock owner of one name are equal as tuples.
OwnerKey = tuple[type, OpenOwner | LockOwner]
# A state: its stateid without the seqid.
Other = tuple[int, int, int]
# A request's owner, and the sequence id that it has for that owner.
Use = tuple[OwnerKey, int]

FIRST = 1
# The statuses after which an owner's next request has the same sequence id (section 9.1.7).
NOT_COUNTED = {
    Status.STALE_CLIENTID,
    Status.STALE_STATEID,
    Status.BAD_STATEID,
    Status.BAD_SEQID,
    Status.BADXDR,
    Status.RESOURCE,
    Status.NOFILEHANDLE,
    Status.MOVED,
}
# The operations whose result is the stateid of the state, with its next seqid; OPEN has it in its result.
ON_STATES = {Opnum.OPEN_CONFIRM, Opnum.OPEN_DOWNGRADE, Opnum.LOCK, Opnum.LOCKU}


def other_of(stateid: Stateid) -> Other:
    return stateid[1], stateid[2], stateid[3]


def key_of(owner: OpenOwner | LockOwner) -> OwnerKey:
    return type(owner), owner


class Sequences:
    """What a client has to know for its next requests. It learns from the results of those that it sent."""

    def __init__(self) -> None:
        # By owner: the sequence id of the next request. By state: its owner, and its stateid with the last seqid.
        self.next: dict[OwnerKey, int] = {}
        self.owners: dict[Other, OwnerKey] = {}
        self.stateids: dict[Other, Stateid] = {}
        # By file and lock owner: the lock state, and the open by which it began.
        self.lock_states: dict[tuple[bytes, LockOwner], tuple[Other, Other]] = {}

    def next_of(self, owner: OpenOwner | LockOwner) -> int:
        """The sequence id of the owner's next request. A new owner begins with 1."""
        return self.next.get(key_of(owner), FIRST)

    def owner_of(self, stateid: Stateid) -> OpenOwner | LockOwner | None:
        """Whose state it is, if this client got it."""
        key = self.owners.get(other_of(stateid))
        return key[1] if key else None

    def lock_state(self, filehandle: bytes, owner: LockOwner) -> Stateid | None:
        """The last stateid of what the lock owner has locked of the file; or None before its first LOCK."""
        state = self.lock_states.get((filehandle, owner))
        return self.stateids[state[0]] if state else None

    def learn(self, reply: Reply) -> None:
        """Takes the results of a COMPOUND into account."""
        filehandle: bytes | None = None
        for result in reply.results:
            if isinstance(result.request, Request) and result.number == result.request.number:
                arguments = result.request.arguments
                filehandle = arguments.filehandle if isinstance(arguments, wire.Putfh) else filehandle
                self.learn_ids(result, arguments)
                if result.is_ok:
                    self.learn_locks(result, arguments, filehandle)

    def learn_ids(self, result: Result, arguments: Any) -> None:
        uses = self.uses_of(arguments)
        if result.status not in NOT_COUNTED:
            self.next.update({key: (seqid + 1) % 2**32 for key, seqid in uses})
        if not result.is_ok:
            return
        if result.number == Opnum.OPEN:
            self.keep(result.value.stateid, uses)
        elif result.number in ON_STATES:
            self.keep(result.value, uses)
        elif result.number == Opnum.CLOSE:
            self.stateids.pop(other_of(arguments.stateid), None)

    def learn_locks(self, result: Result, arguments: Any, filehandle: bytes | None) -> None:
        """Of a LOCK only the one that brings its lock owner begins a lock state."""
        match arguments:
            case wire.Lock(locker=NewLocker() as locker) if filehandle is not None:
                self.lock_states[filehandle, locker.owner] = other_of(result.value), other_of(locker.open_stateid)
            case wire.Close(stateid=stateid):
                self.drop_locks(lambda _, opened: opened == other_of(stateid))
            case wire.ReleaseLockowner(owner=owner):
                self.drop_locks(lambda it, _: it == owner)

    def drop_locks(self, is_gone: Callable[[LockOwner, Other], bool]) -> None:
        self.lock_states = {key: states for key, states in self.lock_states.items() if not is_gone(key[1], states[1])}

    def keep(self, stateid: Stateid, uses: list[Use]) -> None:
        """The stateid is the state's last one. The state is that of the last owner that the request names."""
        self.stateids[other_of(stateid)] = stateid
        if uses:
            self.owners[other_of(stateid)] = uses[-1][0]

    def uses_of(self, arguments: Any) -> list[Use]:
        """The owners for which a request counts: two, if a LOCK brings a lock owner."""
        match arguments:
            case wire.Open(seqid=seqid, owner=owner):
                return [(key_of(owner), seqid)]
            case wire.Lock(locker=NewLocker() as locker):
                return [*self.use(locker.open_stateid, locker.open_seqid), (key_of(locker.owner), locker.lock_seqid)]
            case wire.Lock(locker=KnownLocker() as known):
                return self.use(known.lock_stateid, known.lock_seqid)
            case wire.OpenConfirm() | wire.OpenDowngrade() | wire.Close() | wire.Locku():
                return self.use(arguments.stateid, arguments.seqid)
        return []

    def use(self, stateid: Stateid, seqid: int) -> list[Use]:
        key = self.owners.get(other_of(stateid))
        return [(key, seqid)] if key else []
