"""Servers at which the tests of `tools/judge` have small clients do right and wrong: the program over TCP, and the
model in memory, where callbacks are as they would be. Time passes at once at both: by orders, and by steps."""
import os
import subprocess
import time
from collections.abc import Callable, Sequence
from contextlib import ExitStack
from typing import Any, NamedTuple, Protocol

from helpers.expecting_client import Wrong
from helpers.right_client import Direct, RightClient, Wired
from nfs4tools.callbacks.listener import Listener, accept, keep_silent, reset, universal_address
from nfs4tools.journal.entries import Entry, Path
from nfs4tools.journal.journal import Growing, Recorder, journal_bytes
from nfs4tools.model.tree import DEFAULT, Tree
from nfs4tools.processes import PROGRAM, Peer, Served
from nfs4tools.program import bytes_of
from nfs4tools.wire import Callback, Status

# The most moments and looks for which anything is waited, and the seconds between two looks.
MOMENTS, LOOKS, LOOK = 200, 1000, 0.02
# What may be where a client is called back: who accepts, says nothing, or ends each connection.
ACCEPTS, SILENT, ENDS = "accepts", "silent", "ends"
ANSWERS: dict[str, Callable[[Any], Any]] = {
    ACCEPTS: accept,
    SILENT: keep_silent,
    ENDS: lambda heard: reset(heard.stream),
}
CALLBACK_PROGRAM = 0x40000000


class Setting(NamedTuple):
    """What a server is begun with."""

    lease: int = 90
    delegations: str = "none"
    close_locks: str = "free"
    epoch: int = 1

    def document(self) -> str:
        words = f'delegations = "{self.delegations}", callbacks = "assume", close_locks = "{self.close_locks}"'
        return f"policy = {{ {words} }}\n{DEFAULT}"


class Room(Protocol):
    """A server, while it is entered; it leaves a journal."""

    setting: Setting

    def __enter__(self) -> "Room":
        ...

    def __exit__(self, *_: Any) -> None:
        ...

    def stranger(self, name: bytes, uid: int | None = None, answer: str = ACCEPTS) -> RightClient:
        """A client that hasn't introduced itself."""

    def wait(self, moments: int, *renewing: RightClient) -> None:
        """So many moments pass, while these clients renew their leases."""

    def look(self, kind: type[Any], *renewing: RightClient) -> None:
        """Entries of this kind have to come: a little time passes."""

    def entries(self) -> Sequence[Entry]:
        """Those that there are by now."""


def guest(room: Room, name: bytes, uid: int | None = None, answer: str = ACCEPTS) -> RightClient:
    """A client that has introduced itself."""
    client = room.stranger(name, uid, answer)
    if (status := client.do(client.introducing())) != Status.OK:
        raise Wrong(f"{name!r} isn't introduced: {status}")
    return client


def renew(clients: Sequence[RightClient]) -> None:
    for client in clients:
        client.do(client.renewing())


def wait_for(room: Room, kind: type[Any], count: int, *renewing: RightClient) -> None:
    """Waits until the journal has so many entries of this kind."""
    for _ in range(LOOKS if kind is Path else MOMENTS):
        if sum(isinstance(entry, kind) for entry in room.entries()) >= count:
            return
        room.look(kind, *renewing)
    raise Wrong(f"there is no {kind.__name__}, however long it is waited for")


class AtModel:
    """The model in memory."""

    def __init__(self, path: str, setting: Setting) -> None:
        self.path, self.setting = path, setting
        self.server = Recorder(Tree(setting.document()), setting.lease, setting.epoch)
        self.answers: list[str] = []

    def __enter__(self) -> "AtModel":
        return self

    def __exit__(self, *_: Any) -> None:
        with open(self.path, "wb") as out:
            out.write(journal_bytes(self.server.journal()))

    def stranger(self, name: bytes, uid: int | None = None, answer: str = ACCEPTS) -> RightClient:
        self.answers.append(answer)
        return RightClient(self, name, uid, Callback(CALLBACK_PROGRAM, b"tcp", b"127.0.0.1.3.232", len(self.answers)))

    def ask(self, sent: bytes) -> bytes:
        reply = Direct(self.server).ask(sent)
        while (recall := self.server.take_recall()) is not None:
            answer = self.answers[recall.callback.ident - 1]
            if answer != SILENT:
                self.server.mark_path(recall.stateid.client, answer == ACCEPTS)
        return reply

    def wait(self, moments: int, *renewing: RightClient) -> None:
        for _ in range(moments):
            self.server.moment += 1
            renew(renewing)
            self.server.sweep(self.server.moment)

    def look(self, kind: type[Any], *renewing: RightClient) -> None:
        self.wait(1, *renewing)

    def entries(self) -> Sequence[Entry]:
        return self.server.recorded


class AtProgram:
    """The program, over TCP; clients are called back at listeners of their own."""

    def __init__(self, path: str, setting: Setting) -> None:
        self.path, self.setting, self.stack = path, setting, ExitStack()
        self.peers: list[Peer] = []

    def __enter__(self) -> "AtProgram":
        tree = self.path + ".toml"
        with open(tree, "w", encoding="utf-8") as out:
            out.write(self.setting.document())
        options = [
            "--listen",
            "127.0.0.1:0",
            "--tree",
            tree,
            "--journal",
            self.path,
            "--orders",
            "--lease",
            str(self.setting.lease),
            "--epoch",
            str(self.setting.epoch),
        ]
        self.served = self.stack.enter_context(Served([PROGRAM, "serve", *options], stdin=subprocess.PIPE))
        return self

    def __exit__(self, *_: Any) -> None:
        for peer in self.peers:
            peer.socket.close()
        self.served.end_input()
        status, output, errors = self.served.end()
        self.stack.close()
        if status != 0 or output or not os.path.exists(self.path):
            raise Wrong(f"the program ends with {status}: {errors!r}")

    def stranger(self, name: bytes, uid: int | None = None, answer: str = ACCEPTS) -> RightClient:
        assert self.served.port is not None
        listener = self.stack.enter_context(Listener(ANSWERS[answer]))
        self.peers.append(Peer(("127.0.0.1", self.served.port)))
        address = universal_address(listener.address).encode()
        return RightClient(Wired(self.peers[-1]), name, uid, Callback(CALLBACK_PROGRAM, b"tcp", address, 1))

    def order(self, words: str) -> None:
        self.served.program.stdin.write(words.encode() + b"\n")
        if not (answer := self.served.next_answer()) or answer.startswith(b"error"):
            raise Wrong(f"{words} is answered {answer!r}")

    def wait(self, moments: int, *renewing: RightClient) -> None:
        for _ in range(moments):
            self.order("advance 1")
            renew(renewing)

    def look(self, kind: type[Any], *renewing: RightClient) -> None:
        """A path is marked by a callback, which comes by itself."""
        if kind is Path:
            time.sleep(LOOK)
        else:
            self.wait(1, *renewing)

    def entries(self) -> Sequence[Entry]:
        self.order("journal")
        return Growing().take(bytes_of(self.path + ".part") or b"")


# By the words that a test is named by.
ROOMS: dict[str, Callable[[str, Setting], Room]] = {"model": AtModel, "program": AtProgram}
