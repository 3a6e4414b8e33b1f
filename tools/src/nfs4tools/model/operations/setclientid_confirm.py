"""SETCLIENTID_CONFIRM (section 16.34)."""
from nfs4tools.model.state import State
from nfs4tools.model.state_parts import ClientRecord, Refusal
from nfs4tools.wire import Principal, SetclientidConfirm, Status


def rule(server: State, arguments: SetclientidConfirm, principal: Principal) -> bytes:
    def is_named(record: ClientRecord) -> bool:
        return (server.epoch, record.number, record.confirm) == tuple(arguments)

    unconfirmed = server.record_where(False, is_named)
    if unconfirmed is not None:
        server.confirm_record(unconfirmed, principal)
        return b""
    confirmed = server.record_where(True, is_named)
    if confirmed is None:
        raise Refusal(Status.STALE_CLIENTID)
    if confirmed.principal != principal:
        raise Refusal(Status.CLID_INUSE)
    return b""
