"""Checks that the load judges the replies.

Each workload is sent to the independent model. Then it is sent again for each word of each reply, with 2 added to
this word or subtracted from it on its way. The load has to end with status 1, unless the word may have any value
(FREE)."""
import socket
import subprocess
import tempfile

from bench.script import run
from bench.servers import build
from bench.table import NAMES
from nfs4tools import wire
from nfs4tools.model.server import Server
from nfs4tools.wire import records, Opnum

# So that each stateid that comes is used, the last ones but for CLOSE.
OPTIONS = ["--calls", "8", "--pairs", "2", "--bytes", "64"]
# The word of a record in which the second result begins: after the fragment's header, those of reply and COMPOUND, and
# the first result, which has two.
SECOND = 1 + 6 + 3 + 2
# Which words of a second result may have any value: change and size; change_info4; the stateid.
FREE: dict[int, range] = {Opnum.GETATTR: range(6, 10), Opnum.OPEN: range(6, 11), Opnum.CLOSE: range(2, 6)}
# And by a workload that has only one of these: the verifier of a WRITE, which no other one follows.
FREE_IN: dict[str, dict[int, range]] = {"read": {Opnum.WRITE: range(4, 6)}}


def word(record: bytes, place: int) -> int:
    return int.from_bytes(record[4 * place : 4 * place + 4], "big")


def changed(record: bytes, place: int) -> bytes:
    return record[: 4 * place] + wire.u32(word(record, place) ^ 2) + record[4 * place + 4 :]


def is_free(workload: str, record: bytes, place: int) -> bool:
    free = FREE | FREE_IN.get(workload, {})
    return len(record) > 4 * SECOND and place - SECOND in free.get(word(record, SECOND), ())


def answer(listener: socket.socket, change: tuple[int | None, int]) -> list[bytes]:
    """The replies to a connection, before one was changed: the number of that reply, and the place in it."""
    model = Server()
    replies: list[bytes] = []
    client, _ = listener.accept()
    with client, client.makefile("rb") as source:
        for number, record in enumerate(records(source.read)):
            replied = model.reply(record)
            assert replied is not None
            replies.append(wire.record(replied))
            client.sendall(changed(replies[-1], change[1]) if change[0] == number else replies[-1])
    return replies


class LoadCheck:
    def __init__(self, load: str, workload: str, listener: socket.socket) -> None:
        self.workload, self.listener = workload, listener
        self.words = [load, workload, "--server", f"127.0.0.1:{listener.getsockname()[1]}", *OPTIONS]

    def run(self, change: tuple[int | None, int] = (None, 0)) -> tuple[list[bytes], int]:
        """The replies, and how the load ended."""
        with subprocess.Popen(self.words, stdout=subprocess.DEVNULL, stderr=subprocess.DEVNULL) as load:
            try:
                replies = answer(self.listener, change)
            except ConnectionError:
                replies = []
        return replies, load.returncode

    def wrong(self) -> tuple[list[str], int]:
        """What is wrong, and how many words were changed."""
        replies, status = self.run()
        if status != 0:
            return [f"it ends with status {status}"], 0
        changes = [(number, place) for number, reply in enumerate(replies) for place in range(1, len(reply) // 4)]
        ends = [(number, place, self.run((number, place))[1]) for number, place in changes]
        return [
            f"reply {number}, word {place}: it ends with status {status}"
            for number, place, status in ends
            if status != (0 if is_free(self.workload, replies[number], place) else 1)
        ], len(changes)


def work() -> int:
    wrong = []
    with tempfile.TemporaryDirectory() as folder, socket.create_server(("127.0.0.1", 0)) as listener:
        listener.settimeout(10)
        load = build("load/main.rs", folder)
        for workload in NAMES:
            found, count = LoadCheck(load, workload, listener).wrong()
            print(f"{workload}: {count} words changed in turn, {len(found)} misjudged")
            wrong += [f"{workload}: {line}" for line in found]
    print("\n".join(wrong[:20]), end="\n" * bool(wrong))
    return 1 if wrong else 0


def main() -> None:
    run(work)
