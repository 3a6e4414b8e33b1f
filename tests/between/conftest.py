"""The servers of the tests of `tools/between`: the model's and the program's, one of each for all tests of a process."""
import pytest

from helpers.between_runs import SERVERS, serving

KINDS = [pytest.param(kind, marks=[pytest.mark.needs("nfs4state")] if kind == "program" else []) for kind in SERVERS]


@pytest.fixture(scope="session")
def model_server():
    with serving("model") as address:
        yield address


@pytest.fixture(scope="session")
def program_server():
    with serving("program") as address:
        yield address


@pytest.fixture(params=KINDS)
def kind(request):
    return request.param


@pytest.fixture
def server(kind, request):
    """The address of either."""
    return request.getfixturevalue(f"{kind}_server")
