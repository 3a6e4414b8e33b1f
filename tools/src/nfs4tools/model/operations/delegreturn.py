"""DELEGRETURN (section 16.6)."""
from nfs4tools.model.delegations import Delegating
from nfs4tools.model.state_parts import Delegation, expect_filehandle, expect_seqid
from nfs4tools.wire import Delegreturn


def rule(server: Delegating, arguments: Delegreturn, filehandle: int | None) -> bytes:
    file = expect_filehandle(filehandle)
    found: Delegation = server.state_of(Delegation, arguments.stateid, file)
    expect_seqid(arguments.stateid, found)
    server.end_delegation(found)
    return b""
