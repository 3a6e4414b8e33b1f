"""Random calls to a built `nfs4state serve`, over several connections, and each reply beside that of the model. The
calls are those of `dev/fuzz_calls.py`, without its orders.

Each run is a server of its own with eight connections: a call goes over one of them, and its reply has come before the
next one is sent. Clients are called back at a listener that answers each call OK, and have a lease that doesn't end
meanwhile, so that no owner is forgotten. At the end the journal is lawful, by `nfs4state audit` and by the model, and
has just the entries that the model has, but for their moments."""
import os
import subprocess
from collections import Counter
from tempfile import TemporaryDirectory
from typing import Any

from dev.fuzz import missing_cases
from dev.fuzz_calls import Caller
from dev.fuzz_model import AGAIN, NONE_LEFT, YIELDED
from helpers.expecting_client import Wrong, expect
from helpers.server_helpers import lawful_journal
from nfs4tools.callbacks.listener import Listener, accept, universal_address
from nfs4tools.journal.entries import Call, NotJournal
from nfs4tools.model.server import CLIENTS_LIMIT
from nfs4tools.processes import Peer, Served
from nfs4tools.rows.driver import ALONE

CONNECTIONS, LEASE = 8, 86_400
CALLED_BACK = "called back"


class Client(Caller):
    """Makes calls alone, of clients that can be called back at this address."""

    def __init__(self, seed: int, ids: int, profile: str | None, address: bytes) -> None:
        super().__init__(seed, ids, profile)
        self.addresses, self.way, self.lease = [address] * 5 + [b"9" * 129], ALONE, LEASE
        self.document = self.document.replace('"probe"', '"assume"')
        self.server = self.new_server()


def exchange(client: Client, port: int, count: int) -> None:
    """So many calls, each over one of the connections."""
    peers = [Peer(("127.0.0.1", port)) for _ in range(CONNECTIONS)]
    for place in range(count):
        step, peer = client.next_call(), client.chance.choice(peers)
        client.steps.append(step)
        peer.send(step.sent)
        if (got := peer.receive()) != step.wanted:
            raise Wrong(f"call {place}, {step.sent.hex()}, gets {got.hex()}, wanted {step.wanted.hex()}")
    for peer in peers:
        peer.socket.close()


def calls_of(entries: list[Any]) -> list[Call]:
    """The entries of calls, without their moments."""
    return [entry._replace(moment=0) for entry in entries if isinstance(entry, Call)]


def run(program: str, seed: int, count: int, ids: int, profile: str | None = None) -> Counter[Any]:
    """A run with so many calls: how often the model answered what. Where something is wrong, it says the seed."""
    with Listener(accept) as listener, TemporaryDirectory() as room:
        client = Client(seed, ids, profile, universal_address(listener.address).encode())
        tree, journal = os.path.join(room, "tree.toml"), os.path.join(room, "run.journal")
        with open(tree, "w", encoding="utf-8") as file:
            file.write(client.document)
        options = ["--listen", "127.0.0.1:0", "--tree", tree, "--lease", str(LEASE), "--journal", journal]
        try:
            with Served([program, "serve", *options, "--until-input-ends"], stdin=subprocess.PIPE) as served:
                if served.port is None:
                    raise Wrong(f"it doesn't listen: {served.end()}")
                exchange(client, served.port, count)
                served.end_input()
                status, _, errors = served.end()
            expect("the status", (status, errors if status else b""), (0, b""))
            if calls_of(lawful_journal(program, journal).entries) != calls_of(client.server.recorded):
                raise Wrong("the journal's calls aren't the model's")
        except (Wrong, NotJournal, TimeoutError) as wrong:
            raise Wrong(f"seed {seed}: {wrong}") from wrong
        counts: Counter[Any] = client.server.counts
        counts[CALLED_BACK] = sum(heard.call is not None for heard in listener.heard)
    return counts


def missing(counts: Counter[Any], ids: int, profile: str | None = None) -> list[str]:
    """What should have come in runs with these counts."""
    found = [what for what in (AGAIN, YIELDED, NONE_LEFT) if ids > CLIENTS_LIMIT and not counts[what]]
    return [*found, *missing_cases(counts, ids, profile)]
