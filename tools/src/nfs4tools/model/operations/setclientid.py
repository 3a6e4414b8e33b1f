"""SETCLIENTID (section 16.33)."""
from nfs4tools.model.state import State
from nfs4tools.model.state_parts import ClientRecord, Refusal
from nfs4tools.wire import Principal, Setclientid, Status, opaque, u32, u64

ADDRESS_LIMIT = 128


def rule(server: State, arguments: Setclientid, principal: Principal) -> bytes:
    callback = arguments.callback
    confirmed = server.record_where(True, lambda it: it.id == arguments.id)
    is_own = confirmed is not None and confirmed.principal == principal
    if confirmed is not None and not is_own and server.has_state(confirmed.number):
        used = confirmed.callback
        raise Refusal(Status.CLID_INUSE, opaque(used.netid) + opaque(used.address))
    if max(len(callback.netid), len(callback.address)) > ADDRESS_LIMIT:
        raise Refusal(Status.RESOURCE)
    replaced = server.record_where(False, lambda it: it.id == arguments.id)
    is_update = confirmed is not None and is_own and confirmed.verifier == arguments.verifier
    number = confirmed.number if confirmed is not None and is_update else server.new_number(replaced)
    server.last_confirm += 1
    server.drop(replaced)
    server.records.append(
        ClientRecord(arguments.id, principal, arguments.verifier, callback, server.last_confirm, number)
    )
    return u32(server.epoch, number) + u64(server.last_confirm)
