"""How runs of `nfs4state serve` begin and end: with addresses that can't be bound, with more connections than are
served, interrupted, and with a journal that is full or can't be written."""
import os
import re
import signal
import socket
import time
from datetime import datetime

import pytest

from helpers.expecting_client import Client, done, expect, Wrong
from helpers.server_helpers import Late, greet, lawful_journal, peer_of, tried_again
from nfs4tools.messages import GETATTR, NFS4ERR_RESOURCE, NFS4_OK, PUTROOTFH, RENEW, compound, results, words
from nfs4tools.processes import PROGRAM, TOP, with_interrupts
from nfs4tools.program import Program, bytes_of
from serve.serve_runs import begin, expect_end, expect_no_reply, serve

pytestmark = [pytest.mark.needs("nfs4state"), pytest.mark.quick]


@tried_again
def test_addresses(path_of):
    """An address that is taken, isn't this machine's, or is none: the run ends before it has a journal. Other faults
    come before, and the port is free at once when a run has ended."""
    path = path_of("no.journal")
    with socket.create_server(("127.0.0.1", 0)) as taken:
        address = "127.0.0.1:%d" % taken.getsockname()[1]
        for listen in address, "", "nowhere", "127.0.0.1", "127.0.0.1:65536", ":0", "192.0.2.1:0", "256.0.0.1:0":
            with serve("--journal", path, listen=listen) as served:
                expect_end(served, "socket", what=listen)
        missing = path_of("missing")
        with serve(tree=missing, listen=address) as served:
            expect_end(served, "file not read", what=missing)
    with serve() as first:
        address = f"127.0.0.1:{first.port}"
        with serve(listen=address) as served:
            expect_end(served, "socket", what=address)
        greet(first)
        expect_end(first)
    for _ in range(2):
        with serve(listen=address) as served:
            # Somebody else may have taken it meanwhile.
            if f"127.0.0.1:{served.port}" != address:
                raise Late(f"it listens on port {served.port}, wanted {address}")
            greet(served)
            expect_end(served)
    if os.path.exists(path):
        raise Wrong("a journal of no run")


@tried_again
def test_connections(path_of):
    """An idle connection keeps its worker, and the others go on. The connection after the last that is served gets no
    reply, and ends with the run. A connection that sends no more is ended while others go on. All have one state."""
    path = path_of("three.journal")
    with serve("--journal", path, connections=3) as served:
        idle, first = peer_of(served), Client(peer_of(served), 1)
        first.introduce()
        first.peer.finish()
        expect("the end of the first connection", first.peer.receive_all(), b"")
        second = Client(peer_of(served), 1)
        second.name = b"another"
        second.introduce()
        second.want(((words(RENEW, 1, first.number)), done(RENEW)))
        expect("the second client's number", second.number, first.number + 1)
        with peer_of(served) as left:
            second.round(1)
            second.peer.socket.close()
            expect_no_reply(left)
            expect("it ends", served.is_running(), True)
            expect("there is a journal", os.path.exists(path), False)
            idle.socket.close()
            expect_end(served)
            expect("one connection too many", left.receive_all(), b"")
    entries = lawful_journal(PROGRAM, path).entries
    expect("the first entries", len(entries) > 4, True)
    try:
        peer_of(served)
        # Or somebody else does.
        raise Late("it listens when it has ended")
    except ConnectionRefusedError:
        pass


@tried_again
def test_defaults():
    """Without options it listens on port 2049, and serves four connections. A line says what is served."""
    try:
        socket.create_server(("127.0.0.1", 2049)).close()
        is_free = True
    except OSError:
        is_free = False
    with begin() as served:
        if served.port != (2049 if is_free else None):
            raise Late(f"it listens on port {served.port}, where 2049 is {'free' if is_free else 'taken'}")
        if not is_free:
            expect_end(served, "socket", what="127.0.0.1:2049")
    with begin("--listen", "127.0.0.1:0") as served:
        for uid in range(4):
            expect("it runs", served.is_running(), True)
            greet(served, uid)
        expect_end(served)
    for options, words_of_it in (
        ((), b"3 files, lease 90 s, epoch 1"),
        (
            ("--tree", os.path.join(TOP, "samples/letters.toml"), "--lease", "33", "--epoch", "7"),
            b"1 files, lease 33 s, epoch 7",
        ),
    ):
        before = time.time()
        with begin("--listen", "127.0.0.1:0", "--connections", "1", *options) as served:
            line = served.read_line()
            found = re.fullmatch(rb"serving (.*), moment 0 at (\S+Z)\n", line)
            expect("what is served, and when moment 0 was", found is not None, True)
            expect("what is served", found[1], words_of_it)
            begun = datetime.fromisoformat(found[2].decode()).timestamp()
            expect("moment 0 is when the run began", before - 0.001 <= begun <= time.time(), True)
            peer_of(served).socket.close()
            expect_end(served)


@pytest.mark.alone
@tried_again
def test_end():
    """It ends within a second of its last connection, though it sweeps once a second."""
    for pause in 0.1, 0.4, 0.7:
        with serve(connections=2) as served:
            with peer_of(served) as first, peer_of(served) as last:
                Client(first, 1).null()
                Client(last, 2).null()
                time.sleep(pause)
            begun = time.monotonic()
            expect_end(served)
            if (took := time.monotonic() - begun) > 1:
                raise Late(f"it ends {took:.2f} seconds after its last connection")


def test_signals(path_of):
    """An interrupted run ends by the signal, and leaves no journal."""
    for number in signal.SIGINT, signal.SIGTERM:
        path = path_of("interrupted.journal")
        with serve("--journal", path, connections=2, preexec_fn=with_interrupts) as served, peer_of(served) as peer:
            Client(peer, 1).introduce()
            served.program.send_signal(number)
            expect("the end by a signal", served.end(), (-number, b"", b""))
            expect("the connection", peer.receive_all(), b"")
        expect("there is a journal", os.path.exists(path), False)


def test_journal(path_of):
    """The journal is written also after a fault, and one that can't be written is the last fault."""
    path = path_of("fault.journal")
    with open(path, "wb") as file:
        file.write(bytes(10000))
    with serve("--journal", path) as served, peer_of(served) as peer:
        client = Client(peer, 1)
        client.introduce()
        expect("the file before the end", bytes_of(path), bytes(10000))
        peer.send(words(0x80040001))
        expect("after a record that is too long", peer.receive_all(), b"")
        expect_end(served, "record too long")
    expect("the entries", len(lawful_journal(PROGRAM, path).entries), 2)
    for rest, fault in (b"", "file not written"), (b"\0", "input ends inside a record"):
        path = path_of("missing/run.journal")
        with serve("--journal", path) as served:
            with peer_of(served) as peer:
                Client(peer, 1).introduce()
                peer.send(rest)
            expect_end(served, fault, what=path)


def test_full_journal(path_of):
    """The shared state takes each entry up to the 1,000,000th, and none after it; what has no entry is still answered.
    A call of 63 GETATTRs has an entry for each, so 15,873 calls leave room for one."""
    path = path_of("full.journal")
    sent = compound(1, words(PUTROOTFH), *[words(GETATTR, 0)] * 63)
    root, get, no_room = done(PUTROOTFH), done(GETATTR, words(0, 0)), done(GETATTR, status=NFS4ERR_RESOURCE)
    wanted = results(1, NFS4_OK, root, *[get] * 63)
    with serve("--journal", path) as served, peer_of(served) as peer:
        for turn in range(429):
            peer.send(sent * 37)
            for number in range(37):
                expect(f"the reply to call {turn * 37 + number}", peer.receive(), wanted)
        peer.send(sent * 2 + compound(1, words(PUTROOTFH)))
        expect("the reply with the last entry", peer.receive(), results(1, NFS4ERR_RESOURCE, root, get, no_room))
        expect("the reply after the last entry", peer.receive(), results(1, NFS4ERR_RESOURCE, root, no_room))
        expect("the reply to what has no entry", peer.receive(), results(1, NFS4_OK, root))
        peer.finish()
        expect("the end of a connection", peer.receive_all(), b"")
        expect_end(served)
    expect("an audit", Program(PROGRAM).run(["audit", path]), (0, b"lawful: 1000000 entries\n", b""))
