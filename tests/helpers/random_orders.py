"""Random calls and orders to a server that takes orders (`--orders`), and each reply and answer beside that of the model
in this process, to which the same is done by single steps. The calls are those of `dev/fuzz_calls.py`.

Each run is a server of its own with eight connections: a call goes over one of them, and its reply has come before the
next call or order is sent. So each call has the moment of the order before it. Clients are called back at a listener
that never answers, so that only orders mark paths. At the end the journal is lawful, and has just the model's entries,
with their moments."""
import os
import subprocess
from collections import Counter
from collections.abc import Sequence
from tempfile import TemporaryDirectory
from typing import Any

from dev.fuzz_calls import Caller
from dev.fuzz_model import Counting
from helpers.expecting_client import Wrong, expect
from helpers.server_helpers import lawful_journal
from nfs4tools.callbacks.listener import Listener, keep_silent, universal_address
from nfs4tools.journal.entries import NotJournal
from nfs4tools.model.orders import LAST_MOMENT, NO_MOMENT, NO_ORDER
from nfs4tools.model.state_parts import DOWN, UP, Unchanged
from nfs4tools.model.sweeps import Swept
from nfs4tools.model.tree import Tree
from nfs4tools.processes import PROGRAM, Peer, Served
from nfs4tools.rows.driver import ALONE

CONNECTIONS = 8
# How often a step is an order, and which orders there are how often.
SHARE = 0.3
KINDS = ["advance"] * 10 + ["sweep", "moment", "entries", "journal", "wrong"] * 2 + ["mark"] * 6 + ["wait"] * 3
# How often a wait is one in vain, which takes a second.
IN_VAIN = 0.03
# Lines that are no orders.
WRONG = [
    "",
    "advance",
    "advance -1",
    "advance one",
    "sweep 1",
    "mark 1",
    "mark up 1",
    "wait up 1 0",
    "wait up",
    "start",
]


class AtMoment(Counting):
    """The model at the moment that was ordered, whatever a call says."""

    ordered = 0

    @property
    def moment(self) -> int:
        return self.ordered

    @moment.setter
    def moment(self, _moment: int) -> None:
        pass


class Client(Caller):
    """Makes calls and orders, of clients that have this address for callbacks."""

    server: AtMoment

    def __init__(self, seed: int, address: bytes) -> None:
        super().__init__(seed)
        self.addresses, self.way = [address] * 5 + [b"9" * 129], ALONE
        self.document = self.document.replace('"probe"', '"assume"')
        self.server = self.new_server()

    def new_server(self) -> AtMoment:
        return AtMoment(Tree(self.document), self.lease)

    def next_line(self, kind: str) -> tuple[str, str]:
        """An order of this kind, and the answer that has to come."""
        if kind == "advance":
            return self.advance(self.chance.choice([0, 1, 1, self.lease // 2, self.lease, self.lease + 1]))
        if kind == "sweep":
            return kind, self.swept()
        if kind == "mark":
            return self.mark(self.a_client(), self.a_path())
        if kind == "wait":
            return self.wait()
        if kind == "wrong":
            return self.wrong()
        answers = {
            "moment": f"moment {self.server.ordered}",
            "entries": f"entries {self.server.entries}",
            "journal": f"journal {self.server.entries} entries",
        }
        return kind, answers[kind]

    def a_path(self) -> str:
        return DOWN if self.is_rare(0.3) else UP

    def advance(self, seconds: int) -> tuple[str, str]:
        self.server.ordered += seconds
        return f"advance {seconds}", self.swept()

    def swept(self) -> str:
        moment = self.server.ordered
        found: Swept = self.server.sweep(moment)
        return f"moment {moment}: expired {found.expired} revoked {found.revoked} forgotten {found.forgotten}"

    def mark(self, client: int, path: str) -> tuple[str, str]:
        try:
            self.server.mark_path(client, path == UP)
            answer = f"client {client} {path}"
        except Unchanged:
            answer = f"error: client {client} isn't live"
        return f"mark {client} {path}", answer

    def wait(self) -> tuple[str, str]:
        """Mostly for a path that is so."""
        live = [it for it in self.server.records if it.number in self.server.renewals and it.path in (UP, DOWN)]
        if live and not self.is_rare(IN_VAIN):
            found = self.chance.choice(live)
            return f"wait {found.path} {found.number}", f"client {found.number} {found.path}"
        client, path = self.a_client(), self.a_path()
        is_so = any(it.number == client and it.path == path for it in live)
        return f"wait {path} {client} 1", f"client {client} {path}" if is_so else "error: not within 1 s"

    def wrong(self) -> tuple[str, str]:
        """What is no order, or too much."""
        if self.is_rare(0.3):
            return f"advance {LAST_MOMENT - self.server.ordered + self.chance.randint(1, 9)}", f"error: {NO_MOMENT}"
        return self.chance.choice(WRONG), f"error: {NO_ORDER}"


def exchange(client: Client, served: Served, count: int) -> Counter[str]:
    """So many calls and orders: how many orders of each kind there were."""
    peers = [Peer(("127.0.0.1", served.port or 0)) for _ in range(CONNECTIONS)]
    orders: Counter[str] = Counter()
    for place in range(count):
        if client.is_rare(SHARE):
            kind = client.chance.choice(KINDS)
            line, wanted = client.next_line(kind)
            served.program.stdin.write(f"{line}\n".encode())
            expect(f"the answer to step {place}, {line}", served.next_answer().decode(), f"{wanted}\n")
            orders[kind] += 1
            continue
        step, peer = client.next_call(), client.chance.choice(peers)
        client.steps.append(step)
        peer.send(step.sent)
        if (got := peer.receive()) != step.wanted:
            raise Wrong(f"step {place}, {step.sent.hex()}, gets {got.hex()}, wanted {step.wanted.hex()}")
    for peer in peers:
        peer.socket.close()
    return orders


def run(command: Sequence[str], seed: int, count: int) -> Counter[Any]:
    """A run with so many steps: how many orders there were of each kind. Where something is wrong, it says the seed."""
    with Listener(keep_silent) as listener, TemporaryDirectory() as room:
        client = Client(seed, universal_address(listener.address).encode())
        tree, journal = os.path.join(room, "tree.toml"), os.path.join(room, "run.journal")
        with open(tree, "w", encoding="utf-8") as file:
            file.write(client.document)
        options = ["--listen", "127.0.0.1:0", "--tree", tree, "--lease", str(client.lease), "--journal", journal]
        try:
            with Served([*command, "--orders", *options], stdin=subprocess.PIPE) as served:
                if served.port is None:
                    raise Wrong(f"it doesn't listen: {served.end()}")
                orders = exchange(client, served, count)
                served.end_input()
                status, _, errors = served.end()
            expect("the status", (status, errors if status else b""), (0, b""))
            if lawful_journal(PROGRAM, journal).entries != client.server.recorded:
                raise Wrong("the journal's entries aren't the model's")
        except (Wrong, NotJournal, TimeoutError) as wrong:
            raise Wrong(f"seed {seed}: {wrong}") from wrong
    return orders
