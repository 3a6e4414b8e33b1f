"""CLOSE (section 16.2)."""
from nfs4tools.model.state import State
from nfs4tools.model.state_parts import LockState, OpenState, Refusal
from nfs4tools.wire import Close, Status


def rule(server: State, arguments: Close, file: int) -> bytes:
    found = server.open_of(arguments.stateid, file)
    if server.tree.policy.close_locks == "refuse" and holding(server, found):
        raise Refusal(Status.LOCKS_HELD)
    server.opens = [it for it in server.opens if it is not found]
    server.lock_states = [it for it in server.lock_states if it.open is not found]
    return server.answer_stateid(found)


def holding(server: State, opened: OpenState) -> list[LockState]:
    """The lock states of an open that hold a byte."""
    return [it for it in server.lock_states if it.open is opened and not it.ranges.is_empty()]
