"""Peers of a server, which come one at a time or as a crowd of 64: clients, and what sends garbage, never reads, resets
or stops within a record."""
import random
import time
from collections.abc import Callable, Sequence
from concurrent.futures import ThreadPoolExecutor
from functools import partial
from threading import Event
from typing import Any

from helpers.expecting_client import FILES, Client, done, expect, Wrong
from helpers.server_helpers import Late
from nfs4tools.messages import COMPOUND, GETATTR, NFS4_OK, NULL, PUTROOTFH, call, compound, reply, words
from nfs4tools.model.server import Server
from nfs4tools.processes import PATIENCE, Peer
from nfs4tools.wire import opaque, record

# The connections of the crowd.
MOST = 64
# Those of them that are clients, and how many of each other kind there are.
GOOD = 24
OTHERS = 10
# The rounds of a client.
ROUNDS = 12


def garbage() -> list[bytes]:
    """Bytes that are no NFS, and what is odd in other ways."""
    draw = random.Random(1)
    return [
        b"\x7f" + draw.randbytes(4095),
        b"GET / HTTP/1.1\r\nHost: localhost\r\n\r\n",
        b"\xff" * 1000,
        b"\x16\x03\x01\x02\x00\x01\x00\x01\xfc\x03\x03" + draw.randbytes(505),
        words(0x80040001),
        b"".join(record(draw.randbytes(draw.randrange(200))) for _ in range(40)),
        bytes(100000),
        call(1, COMPOUND, draw.randbytes(100)),
        call(2, COMPOUND, words(0, 0, 64) + draw.randbytes(400)),
        call(3, NULL) + reply(4) + record(b"") + call(5, 2) + b"\0" * 3,
    ]


def send_garbage(peer: Peer, data: bytes) -> None:
    """It gets the replies that the model gives, which ask for no state, and the end of its connection."""
    with peer:
        peer.send(data)
        peer.finish()
        expect(f"replies to {data[:40]!r}", peer.receive_all(), Server().converse(data)[0])


def never_read(peer: Peer, over: Event | None = None, seconds: float = 1, full: Event | None = None) -> None:
    """Sends calls with long replies until no more is taken, says so, and waits. Each has the state as well."""
    tag = 100000
    arguments = opaque(bytes(tag)) + words(0, 2, PUTROOTFH, GETATTR, 0)
    with peer:
        peer.fill(call(1, COMPOUND, arguments, uid=MOST), seconds)
        if full is not None:
            full.set()
        wait_for(over)


def reset(peer: Peer, way: int) -> None:
    """Resets at once, after a reply, within a record, or behind calls whose replies it doesn't read."""
    if way == 1:
        peer.send(call(1, NULL))
        expect("a reply before a reset", peer.receive(), reply(1))
    elif way == 2:
        peer.send(call(1, NULL)[:20])
    elif way == 3:
        peer.send(compound(1, words(PUTROOTFH), words(GETATTR, 0), uid=MOST) * 100)
    peer.reset()


def stop_within(peer: Peer, way: int, over: Event | None = None) -> None:
    """After a call that is answered, sends a part of a record; then it says that nothing more comes, or closes; at
    once, or at the end."""
    with peer:
        peer.send(call(1, NULL))
        expect("a reply before half a record", peer.receive(), reply(1))
        peer.send(call(2, NULL)[: 4 + 4 * way])
        if way % 2:
            wait_for(over)
        if way % 4 < 2:
            peer.finish()
            expect("after half a record", peer.receive_all(), b"")


def wait_for(over: Event | None) -> None:
    if over is not None and not over.wait(PATIENCE):
        raise Wrong("the clients don't come to an end")


def be_client(peer: Peer, uid: int) -> Client:
    client = Client(peer, uid, epoch=7)
    client.introduce()
    for turn in range(ROUNDS):
        client.round(list(FILES)[(uid + turn) % len(FILES)])
    return client


def crowd(peers: Sequence[Peer], over: Event) -> list[Callable[[], Any]]:
    """What is done on each of the connections, in a mixed order."""
    jobs: list[Callable[[Peer], Any]] = [partial(be_client, uid=uid) for uid in range(GOOD)]
    jobs += [partial(send_garbage, data=data) for data in garbage()]
    jobs += [partial(never_read, over=over)] * OTHERS
    jobs += [partial(reset, way=way % 4) for way in range(OTHERS)]
    jobs += [partial(stop_within, way=way, over=over) for way in range(OTHERS)]
    places = list(range(MOST))
    random.Random(2).shuffle(places)
    return [partial(job, peers[place]) for job, place in zip(jobs, places)]


def run_crowd(peers: Sequence[Peer]) -> list[Client]:
    """All that the crowd does on these connections, each of which is at its end then but for those of the clients,
    which are given."""
    over = Event()
    with ThreadPoolExecutor(MOST) as pool:
        try:
            doing = [pool.submit(job) for job in crowd(peers, over)]
            clients: list[Client] = [job.result() for job in doing[:GOOD]]
        finally:
            over.set()
        for job in doing[GOOD:]:
            job.result()
    return clients


def read_late(peer: Peer, length: int = 3000, more: int = 200000) -> None:
    """Sends ten calls whose replies have so many bytes more than they need, a record that is too long, and so many
    bytes of it; and gets the replies, though it is slow to read. A server waits for a silent peer for half a second."""
    tag = opaque(bytes(length))
    calls = b"".join(call(xid, COMPOUND, tag + words(0, 2, PUTROOTFH, GETATTR, 0)) for xid in range(10))
    body = words(NFS4_OK) + tag + words(2) + done(PUTROOTFH) + done(GETATTR, words(0, 0))
    wanted = b"".join(reply(xid, body) for xid in range(10))
    with peer:
        peer.send(calls + words(0xFFFFFFFF) + bytes(more))
        time.sleep(0.3)
        got = peer.receive_all()
    if got != wanted:
        raise Late(f"with {more} bytes behind a fault, {len(got)} bytes of {len(wanted)} come of the replies before")
