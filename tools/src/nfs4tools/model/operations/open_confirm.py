"""OPEN_CONFIRM (section 16.18)."""
from nfs4tools.model.state import State
from nfs4tools.model.state_parts import Refusal
from nfs4tools.wire import OpenConfirm, Status


def rule(server: State, arguments: OpenConfirm, file: int) -> bytes:
    found = server.open_of(arguments.stateid, file, of_unconfirmed=True)
    owner = server.open_owners[found.owner]
    if owner.is_confirmed:
        raise Refusal(Status.BAD_STATEID)
    owner.is_confirmed = True
    return server.answer_stateid(found)
