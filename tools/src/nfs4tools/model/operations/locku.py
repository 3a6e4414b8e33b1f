"""LOCKU (section 16.12)."""
from nfs4tools.model.state import State
from nfs4tools.model.state_parts import expect_range, expect_runs
from nfs4tools.wire import Locku


def rule(server: State, arguments: Locku, file: int) -> bytes:
    found = server.lock_state_of(arguments.stateid, file)
    found.ranges = expect_runs(found.ranges.changed(*expect_range(arguments), None))
    return server.answer_stateid(found)
