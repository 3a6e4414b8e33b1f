"""RENEW (section 16.28). It makes no entry of the journal."""
from nfs4tools.model.state import State
from nfs4tools.wire import Renew


def rule(server: State, arguments: Renew, _handles: object) -> bytes:
    server.expect_client(arguments.epoch, arguments.client)
    return b""
