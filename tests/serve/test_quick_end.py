"""How soon a run of `nfs4state serve` ends if no callback is under way: no thread sleeps on when its end has come."""
import statistics
import time

import pytest

from helpers.expecting_client import expect
from helpers.server_helpers import Late, greet, tried_again

pytestmark = [pytest.mark.needs("nfs4state"), pytest.mark.quick]

# How many runs, and the seconds in which half of them have to end. A look of the thread that sends callbacks takes 0.1
# seconds, and the end comes at any time in it.
RUNS, SOON = 11, 0.04


@pytest.mark.alone
@tried_again
def test_quick_end(serve, tell):
    """Half of some runs end at once with their input."""
    took = []
    for _ in range(RUNS):
        with serve("--connections", "4") as served:
            expect("a thread that calls clients back", served.has_caller(), True)
            greet(served)
            begun = time.monotonic()
            served.end_input()
            expect("the end", served.end(), (0, b"", b""))
            took.append(time.monotonic() - begun)
    if statistics.median(took) > SOON:
        raise Late(f"a run ends {statistics.median(took):.3f} seconds after its input")
    tell(f"a run ended {1000 * statistics.median(took):.0f} ms after its input")
