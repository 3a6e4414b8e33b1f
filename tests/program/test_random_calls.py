"""Random calls to the built program as a server, beside the model (`random_calls.py`): of few clients, and of so many
that there aren't slots enough."""
from collections import Counter

import pytest

from dev.fuzz import operations_in
from dev.fuzz_calls import IDS
from helpers.random_calls import CALLED_BACK, missing, run
from nfs4tools.processes import PROGRAM

pytestmark = [pytest.mark.needs("nfs4state"), pytest.mark.quick]

CALLS = 200


@pytest.mark.parametrize(
    "ids, seeds",
    [(IDS, range(12)), (IDS, range(12, 24)), (300, range(4)), (300, range(4, 8))],
    ids=["few clients", "few clients again", "many clients", "many clients again"],
)
def test_runs(ids, seeds, add_up):
    counts = sum((run(PROGRAM, seed, CALLS, ids) for seed in seeds), Counter())
    assert operations_in(counts) > CALLS * len(seeds) // 2 and not missing(counts, ids), "the runs show too little"
    add_up(len(seeds), "runs")
    add_up(operations_in(counts), "operations on the state")
    add_up(counts[CALLED_BACK], "calls back")
