"""Connections of `nfs4state serve` that do wrong. Each run ends with the connection's fault, which loses none of the
replies before it. 64 connections come at once, of which 24 are clients that get every reply, while 10 send garbage, 10
never read, 10 reset and 10 stop within a record. Records come cut anywhere."""
from itertools import product

import pytest

from helpers.bad_peers import GOOD, MOST, garbage, never_read, read_late, reset, run_crowd, send_garbage, stop_within
from helpers.expecting_client import Client, done, expect, some, Wrong
from helpers.server_helpers import judged, peer_of, tried_again
from nfs4tools.messages import (
    GETATTR,
    LOOKUP,
    NFS4_OK,
    NULL,
    PUTROOTFH,
    TYPE_SIZE_FILEID,
    call,
    compound,
    lookup,
    reply,
    results,
    words,
)
from nfs4tools.wire import split_records
from serve.serve_runs import expect_end, serve

pytestmark = [pytest.mark.needs("nfs4state"), pytest.mark.quick]


def test_garbage():
    for data in some(garbage()):
        with serve() as served:
            send_garbage(peer_of(served), data)
            fault = split_records(data)[1]
            expect_end(served, *([] if fault is None else [fault]))


def test_half_a_record():
    for way in range(4):
        with serve() as served:
            stop_within(peer_of(served), way)
            expect_end(served, "input ends inside a record")


def test_reset():
    for way in range(3):
        with serve() as served:
            reset(peer_of(served), way)
            expect_end(served, "input not read")


def test_unread_replies():
    with serve() as served:
        never_read(peer_of(served, receive_buffer=4096), seconds=3)
        expect_end(served, "output not written")


# What a peer goes on to send, after a record that is too long, until it is ended.
ENDLESS = 64 << 20


@tried_again
def test_replies_before_a_fault():
    """After a fault the replies to what came before it reach the peer, also where bytes are left that nobody reads. But
    a peer that sends more and more is ended all the same, and so is one that is silent."""
    for length, more in product((0, 3000), (0, 1000, 60000, 200000)):
        with serve() as served:
            read_late(peer_of(served, receive_buffer=4096), length, more)
            expect_end(served, "record too long")
    with serve() as served, peer_of(served) as peer:
        peer.send(words(0xFFFFFFFF))
        for _ in range(ENDLESS >> 20):
            peer.send(bytes(1 << 20))
        expect_end(served, "record too long")
    with serve() as served, peer_of(served) as peer:
        peer.send(words(0xFFFFFFFF))
        expect_end(served, "record too long")


def test_crowd(path_of, tell):
    path = path_of("crowd.journal")
    with serve("--epoch", "7", "--journal", path, connections=MOST) as served:
        # Who never reads has a small buffer; for the others it does no harm.
        clients = run_crowd([peer_of(served, receive_buffer=4096) for _ in range(MOST)])
        if not served.is_running():
            raise Wrong("it ends before its last connection")
        for client in clients:
            client.peer.socket.close()
        expect_end(served, "record too long", "input ends inside a record", "input not read", "output not written")
    journal = judged(path, *clients)
    expect_judge(path, *clients)
    users = {entry.principal[1] for entry in journal.entries}
    expect("the users in the journal", users, {*range(GOOD), MOST})
    numbers = [client.number for client in clients]
    expect("how many client numbers", len(set(numbers)), GOOD)
    calls = sum(len(client.sent) for client in clients)
    tell(
        f"{GOOD} clients among {MOST} connections got each of their {calls} replies, and the journal of "
        f"{len(journal.entries)} entries is lawful"
    )


def expect_judge(path, client, *others):
    """A client with another reply than its own is found."""
    right = client.got.pop()
    client.got.append(right[:-1] + bytes([right[-1] ^ 1]))
    with pytest.raises(Wrong):
        judged(path, client, *others)
    client.got[-1] = right


def test_cuts():
    """A call cut anywhere, with its rest behind the reply to the call before it; and a call byte by byte."""
    with serve() as served, peer_of(served) as peer:
        client = Client(peer, 1)
        client.introduce()
        sent = compound(9, words(PUTROOTFH), lookup(b"a"), words(GETATTR, 1, TYPE_SIZE_FILEID), uid=1)
        wanted = results(
            9, NFS4_OK, done(PUTROOTFH), done(LOOKUP), done(GETATTR, words(1, TYPE_SIZE_FILEID, 20, 1, 0, 5, 0, 2))
        )
        for cut in range(len(sent) + 1):
            peer.send(call(8, NULL) + sent[:cut])
            expect(f"a reply before a cut at {cut}", peer.receive(), reply(8))
            peer.send(sent[cut:])
            expect(f"a reply behind a cut at {cut}", peer.receive(), wanted)
        for byte in sent:
            peer.send(bytes([byte]))
        expect("the reply to a call byte by byte", peer.receive(), wanted)
        peer.send(sent * 100)
        expect("the replies to 100 calls", [peer.receive() for _ in range(100)], [wanted] * 100)
        peer.finish()
        expect("the end of a connection", peer.receive_all(), b"")
        expect_end(served)
