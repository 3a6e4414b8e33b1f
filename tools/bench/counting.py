"""Counts instructions of calls that come after others, by valgrind's callgrind."""
import os
import subprocess
import tempfile
import time
from collections.abc import Sequence
from typing import Any, cast

from bench.scenes import Scene, read_besides
from bench.callgrind import Callgrind
from bench.calls import KINDS
from bench.clients import TREE
from helpers.expecting_client import Wrong
from nfs4tools.messages import split
from nfs4tools.processes import Peer

# The seconds that what is sent may take under valgrind.
PATIENCE = 3600


class Process(subprocess.Popen[bytes]):
    """A process that is gone in the end, however it comes to that."""

    def __exit__(self, *given: Any) -> None:
        if self.poll() is None:
            self.kill()
        super().__exit__(*given)

    def end(self) -> None:
        """By the end of its input."""
        assert self.stdin is not None
        self.stdin.close()
        if (status := self.wait(PATIENCE)) != 0:
            raise Wrong(f"it ends with status {status}")


class Conversation(Process):
    """`nfs4state once` as a peer. It keeps what is sent and received, in the parts between the marks."""

    def __init__(self, program: str, tree: str) -> None:
        super().__init__([program, "once", "--tree", tree], stdin=subprocess.PIPE, stdout=subprocess.PIPE, bufsize=0)
        self.rest = b""
        self.parts: list[tuple[list[bytes], list[bytes]]] = [([], [])]

    def send(self, data: bytes) -> None:
        self.parts[-1][0].append(data)
        assert self.stdin is not None
        self.stdin.write(data)

    def receive(self, _seconds: int = PATIENCE) -> bytes:
        assert self.stdout is not None
        while not (found := split(self.rest)[0]):
            if not (more := self.stdout.read(1 << 18)):
                raise Wrong("once ends")
            self.rest += more
        self.rest = self.rest[len(found[0]) :]
        self.parts[-1][1].append(found[0])
        return found[0]

    def mark(self) -> None:
        self.parts.append(([], []))

    def joined(self) -> list[tuple[bytes, bytes]]:
        """The bytes of each part, of both sides."""
        return [(b"".join(sent), b"".join(received)) for sent, received in self.parts]


def spoken(program: str, tree: str, beside: str, names: Sequence[str]) -> list[tuple[bytes, bytes]]:
    """The parts of a conversation: for each call what comes before it, and then the call again and again."""
    with Conversation(program, tree) as conversation:
        # It is all of a peer that a client asks for.
        scene = Scene(cast(Peer, conversation))
        for make, numbers in read_besides(beside):
            make(scene, *numbers)
        for name in names:
            kind, client = KINDS[name], scene.come()
            kind.begin(client)
            for times in kind.before, kind.times:
                for _ in range(times):
                    kind.again(client)
                conversation.mark()
        conversation.end()
        return conversation.joined()


class Counted(Process):
    """`nfs4state once` under callgrind."""

    def __init__(self, program: str, tree: str, room: str) -> None:
        self.callgrind, self.replies, self.answered = Callgrind(room), os.path.join(room, "replies"), 0
        with open(self.replies, "wb") as replies:
            words = [*self.callgrind.words, program, "once", "--tree", tree]
            super().__init__(words, stdin=subprocess.PIPE, stdout=replies)

    def say(self, sent: bytes, received: bytes) -> None:
        """Until all of it is answered."""
        assert self.stdin is not None
        self.stdin.write(sent)
        self.stdin.flush()
        self.answered += len(received)
        until = time.monotonic() + PATIENCE
        while (there := os.path.getsize(self.replies)) < self.answered:
            if self.poll() is not None or time.monotonic() > until:
                raise Wrong(f"of {self.answered} bytes of replies {there} come under valgrind")
            time.sleep(0.005)

    def instructions(self, sent: bytes, received: bytes) -> int:
        """How many this takes."""
        return self.callgrind.instructions(self, lambda: self.say(sent, received))

    def expect(self, received: bytes) -> None:
        """In all."""
        with open(self.replies, "rb") as source:
            if source.read() != received:
                raise Wrong("under valgrind there are other replies")


def counts(program: str, beside: str, names: Sequence[str]) -> dict[str, float]:
    """The mean instructions of a call, for each of these."""
    found = {}
    with tempfile.TemporaryDirectory() as room:
        tree = os.path.join(room, "tree.toml")
        with open(tree, "w", encoding="utf-8") as file:
            file.write(TREE)
        parts = spoken(program, tree, beside, names)
        with Counted(program, tree, room) as counted:
            for place, name in enumerate(names):
                counted.say(*parts[2 * place])
                total = counted.instructions(*parts[2 * place + 1])
                found[name] = total / (KINDS[name].calls * KINDS[name].times)
            counted.end()
            counted.expect(b"".join(received for _, received in parts))
    return found
