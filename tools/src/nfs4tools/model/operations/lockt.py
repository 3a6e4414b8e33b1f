"""LOCKT (section 16.11)."""
from nfs4tools.model.ranges import denial, length_of
from nfs4tools.model.state import State
from nfs4tools.model.state_parts import Refusal, expect_filehandle, expect_range, mode_of
from nfs4tools.wire import Denied, LockOwner, Lockt, Status, form_of

DENIED = form_of(Denied)


def rule(server: State, arguments: Lockt, filehandle: int | None) -> bytes:
    file = expect_filehandle(filehandle)
    server.expect_client(arguments.owner.epoch, arguments.owner.client)
    if not server.tree.is_file(file):
        raise Refusal(Status.ISDIR)
    expect_no_conflict(server, file, arguments.owner, expect_range(arguments), mode_of(arguments.locktype))
    return b""


def expect_no_conflict(server: State, file: int, owner: LockOwner, asked: tuple[int, int], mode: int) -> None:
    """No other lock owner holds a byte of the range in a way that forbids this lock (section 9.2)."""
    others = [(it.owner, it.ranges) for it in server.lock_states_of(file) if it.owner != owner]
    found = denial(others, *asked, mode)
    if found is not None:
        first, last, held = found.run
        raise Refusal(Status.DENIED, DENIED.write((first, length_of(first, last), held, found.owner)))
