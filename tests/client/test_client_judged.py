"""What others say of the client of the library for suites (docs/SUITES.md): `tools/judge`, of the journals of its runs,
and `tools/between`, of what it does if a call or a reply is lost."""
import os
import subprocess
import sys

import pytest

from nfs4tools import (
    BOTH,
    Client,
    NoReply,
    READ,
    READ_LT,
    Relay,
    RelayError,
    Server,
    Status,
    StatusError,
    WRITE,
    read_journal,
)
from nfs4tools.client.server import MODEL
from nfs4tools.processes import NO_CALLBACKS, PROGRAM, TOP

pytestmark = pytest.mark.quick


@pytest.fixture(
    params=[
        pytest.param([PROGRAM, "serve"], id="program", marks=pytest.mark.needs("nfs4state")),
        pytest.param(MODEL, id="model"),
    ]
)
def command(request):
    return request.param


def expect_right(path):
    """The judge finds no error in this journal, which is lawful."""
    assert read_journal(path).is_lawful
    judged = subprocess.run(
        [sys.executable, os.path.join(TOP, "tools/judge"), path],
        stdout=subprocess.PIPE,
        stderr=subprocess.STDOUT,
        text=True,
    )
    assert judged.returncode == 0 and "verdict: right" in judged.stdout, judged.stdout


def refused(status, call, *arguments):
    with pytest.raises(StatusError) as caught:
        call(*arguments)
    assert caught.value.status == status


def test_session(command, tmp_path):
    """Each method, with refusals that a right client may get, and with retransmissions."""
    path = tmp_path / "run.journal"
    with (
        Server("--tree", NO_CALLBACKS, journal=path, command=command) as server,
        Client(*server.address, "c1", uid=500) as client,
        Client(*server.address, "c2") as other,
    ):
        client.begin()
        other.begin()
        file, theirs = client.open("a"), other.open("a", READ)
        client.lock(file, 0, 10)
        client.again()
        refused(Status.DENIED, other.lock, theirs, 5, 1, READ_LT)
        other.again()
        other.lock(theirs, 20, 1, READ_LT)
        client.unlock(file, 0, 5)
        client.again()
        refused(Status.NOENT, other.open, "missing", READ)
        refused(Status.SHARE_DENIED, other.open, "a", READ, WRITE)
        last = other.open("d/c")
        other.lock(last)
        other.write(last, b"text")
        assert other.read(last).data == b"text"
        for opened, owner in (last, other), (theirs, other), (file, client):
            owner.unlock(opened)
            owner.open_downgrade(opened, BOTH if opened is not theirs else READ)
            owner.close(opened)
            owner.again()
        client.release_lockowner()
        other.release_lockowner()
        client.renew()
    expect_right(path)


LOST = ["lose-call", "lose-reply", "cut-reply"]


@pytest.mark.parametrize("operation", ["OPEN", "OPEN_CONFIRM", "LOCK", "LOCKU", "CLOSE", "SETCLIENTID_CONFIRM"])
@pytest.mark.parametrize("fault", LOST)
def test_tries(command, tmp_path, operation, fault):
    """A call whose reply doesn't come is sent again on another connection, and has the reply that was lost."""
    path = tmp_path / "run.journal"
    with (
        Server("--tree", NO_CALLBACKS, journal=path, command=command) as server,
        Relay(server.address, f"{fault} {operation} 1") as proxy,
        Client(*proxy.address, "c1") as client,
    ):
        client.tries = 2
        client.begin()
        file = client.open("a")
        client.lock(file, 0, 10)
        client.unlock(file)
        client.close(file)
        client.disconnect()
        proxy.end()
        assert any("comes again" in line for line in proxy.lines)
    expect_right(path)


def test_again(command):
    """What an operation gave is known also if its reply came late."""
    with (
        Server("--tree", NO_CALLBACKS, command=command) as server,
        Relay(server.address, "lose-reply LOCK 1") as proxy,
        Client(*proxy.address, "c1") as client,
    ):
        client.begin()
        file = client.open("a")
        with pytest.raises(NoReply):
            client.lock(file, 0, 10)
        assert client.again().is_ok
        client.unlock(file)


def test_wrong_client(command):
    """The proxy says WRONG of a client that sends its next request before it has the reply to the last one."""
    with pytest.raises(RelayError, match="WRONG"):
        with (
            Server("--tree", NO_CALLBACKS, command=command) as server,
            Relay(server.address, "lose-reply OPEN 1") as proxy,
            Client(*proxy.address, "c1") as client,
        ):
            client.begin()
            with pytest.raises(NoReply):
                client.open("a", READ)
            client.open("b", WRITE)


def test_rule_that_is_never_met(command):
    with pytest.raises(RelayError, match="never met"):
        with (
            Server("--tree", NO_CALLBACKS, command=command) as server,
            Relay(server.address, "twice LOCKU 1") as proxy,
            Client(*proxy.address, "c1") as client,
        ):
            client.null()
