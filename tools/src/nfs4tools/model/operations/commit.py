"""COMMIT (section 16.3). Bytes that were written are as safe as they will be, so there is nothing to be done."""
from nfs4tools.model.operations.write import verifier
from nfs4tools.model.state import State
from nfs4tools.model.state_parts import Filehandles, Refusal, expect_filehandle
from nfs4tools.wire import Commit, Status


def rule(server: State, _arguments: Commit, handles: Filehandles) -> bytes:
    if not server.tree.is_file(expect_filehandle(handles.current)):
        raise Refusal(Status.ISDIR)
    return verifier(server)
