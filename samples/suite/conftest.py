"""What the tests of the suite have in common: a fresh server for each test, whose time the test moves; the client under
test; another client; and a look at the journal, which has no refusal but those that the test allows.

SUITE_CLIENT names the client under test, as MODULE:CLASS. SUITE_JOURNALS names a folder in which journals are kept."""
import importlib
import os
import subprocess
import sys
from contextlib import suppress

import pytest

from nfs4tools import CallbackListener, Client, ClientError, OrderedServer, read_journal
from nfs4tools.client.server import environment

# The seconds of the lease.
LEASE = 90
EXPLAIN = [sys.executable, "-c", "from nfs4tools.explain.command import main; main()"]


@pytest.fixture
def journal(request, tmp_path):
    return os.path.join(os.environ.get("SUITE_JOURNALS", tmp_path), f"{request.node.name}.journal")


@pytest.fixture
def allowed():
    """The statuses of refusals that the test allows: it adds to them."""
    return set()


@pytest.fixture
def server(journal, allowed):
    """A server of the files `a`, `b` and `d/c`. At its end the journal is looked at."""
    with OrderedServer("--lease", str(LEASE), journal=journal) as served:
        yield served
    run = read_journal(journal)
    assert run.is_lawful, run.audit()
    if any(entry.result.status not in allowed for entry in run.refusals()):
        explained = subprocess.run([*EXPLAIN, journal], env=environment(), stdout=subprocess.PIPE, text=True)
        pytest.fail(f"the server refused what a right client doesn't send:\n{explained.stdout}", pytrace=False)


@pytest.fixture
def new_client(server):
    """Makes a client under test, at the server or at another address. It ends before the server."""
    module, _, name = os.environ.get("SUITE_CLIENT", "my_client:MyClient").partition(":")
    kind, made = getattr(importlib.import_module(module), name), []

    def make(address=None):
        made.append(kind(address or server.address, "mine", LEASE))
        made[-1].begin()
        return made[-1]

    yield make
    for client in made:
        with suppress(ClientError, OSError, ValueError):
            client.end()


@pytest.fixture
def mine(new_client):
    """The client under test."""
    return new_client()


@pytest.fixture
def listener():
    """What takes the callbacks of the other client."""
    with CallbackListener() as listening:
        yield listening


@pytest.fixture
def other(server, listener):
    """Another client, which does right."""
    with Client(*server.address, "other", callback=listener) as client:
        client.begin()
        yield client
