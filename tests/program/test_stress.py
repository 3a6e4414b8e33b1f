"""64 connections at once over memory (`stress_runs.py`), and the judge of their numbers; and clients that renew their
leases at the last moment (`late_renewals.py`)."""
from types import SimpleNamespace

import pytest

from helpers import late_renewals
from helpers.expecting_client import Wrong
from helpers.reply_oracle import Judge
from helpers.stress_calls import EPOCH
from helpers.stress_runs import REFUSED_RUNS, Tally, run_both, run_refused
from nfs4tools.journal.entries import Answer, Call
from nfs4tools.wire import Opnum, Status, u32, u64

# Numbers that are given one after the other, and who is live before each and behind it; and whether that may be: an
# update of a live client has its number again, and a later client a lesser one. Of a slot two may not live.
NUMBERS = [
    ([1, 1], [{}, {1}, {1}], True),
    ([257, 1], [{}, {257}, {257}], True),
    ([1, 1], [{}, {}, {}], False),
    ([1, 2, 1], [{}, {1}, {2}, {2}], False),
    ([1, 257], [{}, {1}, {1, 257}], False),
]


@pytest.mark.parametrize("given, lives, is_right", NUMBERS)
def test_numbers(given, lives, is_right):
    """The judge tells numbers that may not be."""
    answers = [Answer(Opnum.SETCLIENTID, Status.OK, u32(EPOCH, number) + u64(1)) for number in given]
    entries = [Call(0, (0, 0), None, Opnum.SETCLIENTID, None, answer) for answer in answers]
    judged = SimpleNamespace(journal=SimpleNamespace(entries=entries), lives=list(map(frozenset, lives)))
    if is_right:
        Judge.expect_numbers(judged)  # type: ignore[arg-type]
    else:
        with pytest.raises(Wrong):
            Judge.expect_numbers(judged)  # type: ignore[arg-type]


@pytest.mark.needs("rows")
@pytest.mark.parametrize("seed", [1, 2, 3])
def test_runs(seed, program, tell):
    tally = Tally()
    run_both(seed, program, tally)
    assert not tally.missing(), "the runs show too little"
    tell(tally.words())


@pytest.mark.needs("rows")
@pytest.mark.parametrize("served", REFUSED_RUNS)
def test_without_threads(served, program):
    run_refused(1, program, served)


@pytest.mark.parametrize("seed", [1, 2, 3])
def test_last_moment(seed, program, tell):
    tally = late_renewals.run(program, 20, seed)
    assert not tally.missing(), "the runs show too little"
    tell(tally.words())
