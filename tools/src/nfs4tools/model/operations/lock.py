"""LOCK (sections 9.1 to 9.3, and 16.10)."""
from nfs4tools.model.operations.lockt import expect_no_conflict
from nfs4tools.model.ranges import READ_MODE, Ranges
from nfs4tools.model.state import State
from nfs4tools.model.state_parts import (
    LockState,
    OpenState,
    Refusal,
    expect_range,
    expect_runs,
    mode_of,
    next_sequence_id,
)
from nfs4tools.wire import Lock, LockOwner, NewLocker, READ, Status, WRITE


def rule(server: State, arguments: Lock, file: int) -> bytes:
    locker = arguments.locker
    found: LockState | None = None
    if isinstance(locker, NewLocker):
        opened, owner = server.open_of(locker.open_stateid, file), locker.owner
    else:
        found = server.lock_state_of(locker.lock_stateid, file)
        opened, owner = found.open, found.owner
    if arguments.reclaim:
        raise Refusal(Status.NO_GRACE)
    if isinstance(locker, NewLocker):
        expect_new_locker(server, locker, file)
    asked, mode = expect_range(arguments), mode_of(arguments.locktype)
    if opened.share()[0] & (READ if mode == READ_MODE else WRITE) == 0:
        raise Refusal(Status.OPENMODE)
    expect_no_conflict(server, file, owner, asked, mode)
    ranges = expect_runs((found.ranges if found else Ranges()).changed(*asked, mode))
    found = found or new_lock_state(server, owner, opened)
    found.ranges = ranges
    return server.answer_stateid(found)


def expect_new_locker(server: State, locker: NewLocker, file: int) -> None:
    """The lock owner may begin to lock the file: it is the open's client's, has no lock state there, and where it is
    known its sequence id is the next."""
    if locker.owner[:2] != locker.open_stateid[1:3]:
        raise Refusal(Status.INVAL)
    if any(it.owner == locker.owner for it in server.lock_states_of(file)):
        raise Refusal(Status.BAD_SEQID)
    known = server.lock_owners.get(locker.owner)
    if known is not None and locker.lock_seqid != next_sequence_id(known.kept.seqid):
        raise Refusal(Status.BAD_SEQID)


def new_lock_state(server: State, owner: LockOwner, opened: OpenState) -> LockState:
    server.expect_room(1, owner not in server.lock_owners)
    server.lock_states.append(LockState(owner, opened, server.next_number()))
    return server.lock_states[-1]
