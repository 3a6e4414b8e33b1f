"""RELEASE_LOCKOWNER (section 16.37)."""
from nfs4tools.model.state import State
from nfs4tools.model.state_parts import Refusal
from nfs4tools.wire import ReleaseLockowner, Status


def rule(server: State, arguments: ReleaseLockowner, _principal: object) -> bytes:
    owner = arguments.owner
    server.expect_client(owner.epoch, owner.client)
    if any(it.owner == owner and not it.ranges.is_empty() for it in server.lock_states):
        raise Refusal(Status.LOCKS_HELD)
    server.lock_states = [it for it in server.lock_states if it.owner != owner]
    server.lock_owners.pop(owner, None)
    return b""
