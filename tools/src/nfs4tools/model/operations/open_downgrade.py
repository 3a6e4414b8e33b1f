"""OPEN_DOWNGRADE (section 16.19)."""
from nfs4tools.model.state import State
from nfs4tools.model.state_parts import Refusal, contains, expect_share, is_lawful_downgrade
from nfs4tools.wire import OpenDowngrade, Status


def rule(server: State, arguments: OpenDowngrade, file: int) -> bytes:
    found = server.open_of(arguments.stateid, file)
    share = (arguments.access, arguments.deny)
    expect_share(share)
    if not is_lawful_downgrade(found.pairs, share):
        raise Refusal(Status.INVAL)
    found.pairs = [pair for pair in found.pairs if contains(share, pair)]
    return server.answer_stateid(found)
