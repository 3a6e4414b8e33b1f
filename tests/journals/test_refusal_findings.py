"""What the refusals of a journal are in a verdict: each mistake is the error of its name at just this entry, and what a
right client does beside it, or meets without a fault, is none."""
import pytest

from helpers.finding_cases import STATEIDS
from helpers.finding_cases_requests import REQUESTS
from helpers.finding_cases_sequence_ids import SEQUENCE_IDS
from nfs4tools.explain import Replay, is_refusal
from nfs4tools.judge.findings import SORTS
from nfs4tools.judge.refusals import Refusals

pytestmark = pytest.mark.quick
CASES = [*STATEIDS, *REQUESTS, *SEQUENCE_IDS]


def findings_of(tale):
    """What the observer finds in the journal of a tale."""
    replay = Replay(tale.server.journal())
    refusals = Refusals(replay.server)
    for _ in replay.run([refusals]):
        pass
    return list(refusals.findings())


@pytest.mark.parametrize("play", CASES, ids=lambda it: it.__name__)
def test_case(play):
    tale = play()
    found = findings_of(tale)
    met = [(each.severity.value, each.sort.name, entry) for each in found for entry in each.entries]
    assert sorted(met) == sorted(tale.marks), [each.text for each in found]
    assert all(is_refusal(tale.server.recorded[entry]) for entry in tale.right)
    assert all(each.text and "\n" not in each.text for each in found)


def test_each_sort_has_a_case():
    """Of those that a refusal is."""
    of_others = {"lease-lapsed", "continues-with-dead-clientid", "delegation-not-returned"}
    errors = {name for name, sort in SORTS.items() if sort.severity.value == "error"} - of_others
    assert {name for play in CASES for severity, name, _ in play().marks if severity == "error"} == errors


def test_the_same_again_is_one_finding():
    """With the entries of all, and with those of the requests that it is about."""
    tale = next(play for play in CASES if play.__name__ == "kept_answers")()
    found = findings_of(tale)
    assert [(each.entries, each.others) for each in found] == [((7, 8), (4,))]
