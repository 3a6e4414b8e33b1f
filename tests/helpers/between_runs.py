"""What the tests of `tools/between` have in common: a server, the tool before it, and clients on its other side."""
import os
import re
import socket
import subprocess
import sys
import time
from collections.abc import Callable, Iterable, Iterator, Sequence
from concurrent.futures import ThreadPoolExecutor
from contextlib import contextmanager
from itertools import count
from tempfile import TemporaryDirectory, TemporaryFile
from types import TracebackType
from typing import Any, Self

from helpers.between_peers import Change, Patient, Relay, Resender
from helpers.expecting_client import Client, Wrong, expect
from nfs4tools.callbacks.listener import Listener, accept
from nfs4tools.journal.journal import verdict
from nfs4tools.processes import NO_CALLBACKS, PATIENCE, PROGRAM, REPLY_PATIENCE, Served, TOP
from nfs4tools.program import Program, bytes_of

BETWEEN = os.path.join(TOP, "tools/between")
SERVERS = {"model": [sys.executable, os.path.join(TOP, "tools/model/serve.py")], "program": [PROGRAM, "serve"]}
# The calls of a client that is introduced and does one round.
ROUND = 15
# Of the clients of a process, each of which is another one to its servers.
uids = count(1)


@contextmanager
def serving(kind: str, *options: str, tree: str | None = NO_CALLBACKS) -> Iterator[tuple[str, int]]:
    """The address of a server that runs meanwhile. It ends in order, and its journal is lawful."""
    with TemporaryDirectory() as room:
        path = os.path.join(room, "journal")
        words = ["--listen", "127.0.0.1:0", "--journal", path, "--until-input-ends", *options]
        with Served([*SERVERS[kind], *words, *(["--tree", tree] if tree else [])], stdin=subprocess.PIPE) as served:
            expect(f"the {kind} listens", served.port is not None, True)
            assert served.port is not None
            yield "127.0.0.1", served.port
            served.end_input()
            expect(f"the end of the {kind}", served.end()[0], 0)
        data = bytes_of(path) or b""
    expect(f"the model's audit of the {kind}'s journal", verdict(data)[0], True)
    if os.path.isfile(PROGRAM):
        expect(f"the program's audit of the {kind}'s journal", Program(PROGRAM).audit(data)[0], 0)


class Between:
    """The tool before a server, by these rules, while it is entered; `lines` is what it has told, and `status` its
    status, once its input has ended."""

    def __init__(self, server: tuple[str, int], *rules: str, options: Sequence[str] = ()) -> None:
        self.output = TemporaryFile()
        words = [word for rule in rules for word in ("--rule", rule)]
        command = [sys.executable, BETWEEN, "--listen", "127.0.0.1:0", "--to", "%s:%d" % server]
        self.served = Served([*command, *words, *options], stdin=subprocess.PIPE, stdout=self.output)
        self.lines: list[str] = []
        self.status: int | None = None
        self.errors = b""

    def __enter__(self) -> Self:
        if self.served.port is None:
            raise Wrong(f"between doesn't listen: {self.served.end()}")
        self.address = "127.0.0.1", self.served.port
        return self

    def __exit__(self, kind: type[BaseException] | None, error: BaseException | None, _: TracebackType | None) -> None:
        """Where a client fails, what is told is kept with its words."""
        with self.served, self.output:
            if kind is None or issubclass(kind, (Wrong, TimeoutError)):
                self.end()
        if kind is not None and issubclass(kind, (Wrong, TimeoutError)):
            raise Wrong(f"{error}\n" + "\n".join(self.lines)) from error

    def wait_until_told(self, phrase: str) -> None:
        """Waits for a line with this phrase, while the tool goes on."""
        until = time.monotonic() + REPLY_PATIENCE
        while not re.search(phrase, text := os.pread(self.output.fileno(), 1 << 20, 0).decode(), re.MULTILINE):
            if time.monotonic() > until:
                raise Wrong(f"nothing is told of '{phrase}':\n{text}")
            time.sleep(0.02)

    def end(self) -> None:
        if self.served.program.stdin:
            self.served.end_input()
        self.wait()

    def wait(self) -> None:
        """The end, which comes by itself."""
        self.status, _, self.errors = self.served.end()
        self.output.seek(0)
        self.lines = self.output.read().decode().splitlines()

    def expect_told(self, status: int = 0, wrong: Sequence[str] = (), told: Sequence[str] = ()) -> None:
        """It ended with this status; each line that tells of what is wrong has words of its own here, and these words
        come; and it is silent on standard error."""
        text = "\n".join(self.lines)
        found = [line for line in self.lines if line.startswith("WRONG")]
        if len(found) != len(wrong) or not all(map(re.search, wrong, found)):
            raise Wrong(f"what is told as WRONG isn't {list(wrong)}:\n{text}")
        for phrase in told:
            if not re.search(phrase, text, re.MULTILINE):
                raise Wrong(f"nothing is told of '{phrase}':\n{text}")
        expect(f"the status behind\n{text}\n", self.status, status)
        expect("standard error", self.errors, b"")


def in_turn(tasks: Iterable[Callable[[], object]]) -> None:
    """Runs tasks, four at a time."""
    with ThreadPoolExecutor(4) as pool:
        for running in [pool.submit(task) for task in tasks]:
            running.result()


def one_round(address: tuple[str, int], file: int = 1, rounds: int = 1) -> int:
    """A client that sends again gets its exact replies; how often it did."""
    with Resender(address) as peer:
        client = Client(peer, next(uids))
        client.introduce()
        for _ in range(rounds):
            client.round(file)
        return peer.again


FAULTS = {
    "lose-call": True,
    "lose-reply": True,
    "cut-call": True,
    "cut-reply": True,
    "split 5": False,
    "hold 0.01": False,
    "twice": False,
}


def rules_of(text: str) -> list[str]:
    """The rules of a text, between bars."""
    return [rule.strip() for rule in text.split("|") if rule.strip()]


@contextmanager
def relayed(
    server: tuple[str, int],
    *rules: str,
    change: Change | None = None,
    kind: type[Patient] = Patient,
    told: Sequence[str] = (),
    wrong: Sequence[str] = (),
    status: int = 0,
) -> Iterator[tuple[Patient, Any, Between]]:
    """A client, what it is relayed by, and the tool between them; it tells these words."""
    with Relay(server, change) as relay:
        with Between(relay.address, *rules) as between, Resender(between.address) as peer:
            yield kind(peer, next(uids)), relay, between
        between.expect_told(status, wrong, told)


def status_of(client: Client, *operations: bytes) -> tuple[int, int]:
    """The status of a call, and how many of its operations are in the reply."""
    found = client.ask(*operations)
    return found[6], found[8]


def between_ends(*words: str, given: bytes = b"") -> tuple[int, str, str]:
    """How the tool ends by itself: its status, and what it prints."""
    ran = subprocess.run([sys.executable, BETWEEN, *words], input=given, capture_output=True, timeout=PATIENCE)
    return ran.returncode, ran.stdout.decode(), ran.stderr.decode()


class Echo(Listener):
    """Sends back what comes as it came. It is in `data`, in its order."""

    def __init__(self) -> None:
        self.data = bytearray()
        super().__init__(accept)

    def data_of(self, count: int) -> bytes:
        """All that came, once it is so many bytes."""
        with self.changed:
            self.changed.wait_for(lambda: len(self.data) >= count, REPLY_PATIENCE)
            return bytes(self.data)

    def attend(self, stream: socket.socket, peer: Any) -> None:
        try:
            while more := stream.recv(1 << 20):
                with self.changed:
                    self.data += more
                    self.changed.notify_all()
                stream.sendall(more)
        except OSError:
            pass
        stream.close()
