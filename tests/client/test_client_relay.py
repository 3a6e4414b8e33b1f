"""The relay of the library for suites (docs/SUITES.md): rules as values, what came of them, and how soon it is there."""
import time

import pytest

from nfs4tools import Client, Fault, NoReply, OfClient, OfFile, Outcome, Relay, RelayError, Rule, Server, each, one_in
from nfs4tools.client.server import MODEL
from nfs4tools.processes import NO_CALLBACKS, PROGRAM

pytestmark = pytest.mark.quick


@pytest.fixture(
    params=[
        pytest.param([PROGRAM, "serve"], id="program", marks=pytest.mark.needs("nfs4state")),
        pytest.param(MODEL, id="model"),
    ]
)
def server(request):
    with Server("--tree", NO_CALLBACKS, command=request.param) as server:
        yield server


def test_rules_and_outcomes(server):
    rules = [
        Rule(Fault.LOSE_REPLY, "LOCK", 2, aim=OfFile(b"a")),
        Rule(Fault.TWICE, "CLOSE", each(), aim=OfClient(b"c1")),
        Rule(Fault.SPLIT, "READ", one_in(1), value=3),
    ]
    with Relay(server.address, *rules, "twice RENEW 1") as relay, Client(*relay.address, "c1") as client:
        client.tries = 2
        client.begin()
        file = client.open("a")
        client.lock(file, 0, 10)
        client.lock(file, 20, 10)
        client.read(file)
        client.unlock(file)
        client.close(file)
        client.renew()
    assert [it.counted.rule for it in relay.faults][:3] == [rules[0], rules[2], rules[1]]
    assert [it.outcome for it in relay.faults[0].told] == [Outcome.AGAIN, Outcome.STORED]
    assert relay.report()["verdict"] == "right"
    assert relay.lines[-1] == f"between: 2 connections, {relay.between.tale.calls} calls, 4 faults, 0 wrong"


def test_wrong(server):
    with pytest.raises(RelayError, match="WRONG 1: another request comes instead") as told:
        with Relay(server.address, "lose-reply OPEN 1") as relay, Client(*relay.address, "c1") as client:
            client.begin()
            with pytest.raises(NoReply):
                client.open("a")
            client.open("b")
    assert "1: lose-reply OPEN 1: connection 1, OPEN" in str(told.value)


def test_idle(server):
    with pytest.raises(RelayError, match="no call passed"):
        with Relay(server.address):
            pass
    with Relay(server.address, may_be_idle=True):
        pass


def test_failed_test(server):
    """What a test raises itself isn't hidden by what the relay would say."""
    with pytest.raises(ZeroDivisionError):
        with Relay(server.address, "twice LOCK 1"):
            raise ZeroDivisionError


def test_ends(server):
    """Behind its end it takes no connection."""
    with Relay(server.address, may_be_idle=True) as relay:
        pass
    with pytest.raises(NoReply):
        Client(*relay.address, "c1").null()


def test_port_at_once():
    """Its port is there within 50 ms in the best of a few attempts, beside whatever runs."""
    taken = []
    for _ in range(5):
        begun = time.monotonic()
        relay = Relay(("127.0.0.1", 9), "lose-reply LOCK 1", may_be_idle=True)
        taken.append(time.monotonic() - begun)
        assert relay.port
        relay.close()
    assert min(taken) < 0.05
