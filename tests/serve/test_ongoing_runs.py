"""`nfs4state serve` over TCP with the options by which it takes one connection after the other.

180 connections come in turn, and 64 at once, over one run, which ends with its input: its journal is lawful, and the
replies to each connection stand in it. A run whose input ends while 20 connections are busy gives all replies under
way, and ends within two seconds. Connections outlive a stop of the process. What ends a connection is told and is no
fault; a client that never reads doesn't keep the run from ending. What had come by the end is answered. Where no more
files may be open, a line says so, and who waits is served later."""
import re
import signal
import subprocess
import threading
import time
from concurrent.futures import ThreadPoolExecutor
from resource import RLIMIT_NOFILE, setrlimit

import pytest

from helpers.bad_peers import MOST, never_read, reset
from helpers.expecting_client import FILES, Client, done, expect, Wrong
from helpers.server_helpers import Late, greet, judged, lawful_journal, peer_of, tried_again
from nfs4tools.messages import (
    GETATTR,
    NFS4ERR_RESOURCE,
    NFS4_OK,
    NULL,
    PUTROOTFH,
    SETCLIENTID,
    call,
    compound,
    reply,
    results,
    setclientid,
    words,
)
from nfs4tools.model.server import CLIENTS_LIMIT
from nfs4tools.processes import PATIENCE, PROGRAM, REPLY_PATIENCE
from serve.ongoing_runs import BUSY_SOON, LATELY, be_client, expect_end, expect_no_part, serve

pytestmark = [pytest.mark.needs("nfs4state"), pytest.mark.quick]

# The connections that come in turn, each with a client, and those that are busy when the input ends.
TURNS, BUSY = 180, 20

# Many connections.


def be_client_at_once(served, uid, all_here):
    """The same, once all others are connected, too."""
    with peer_of(served) as peer:
        client = Client(peer, uid)
        client.introduce()
        all_here.wait(PATIENCE)
        client.round(list(FILES)[uid % len(FILES)])
    return client


def test_many(path_of, tell):
    path = path_of("many.journal")
    with ThreadPoolExecutor(MOST) as pool, serve("--journal", path) as served:
        begun = time.monotonic()
        clients = [be_client(served, uid, 1) for uid in range(TURNS)]
        took = time.monotonic() - begun
        all_here = threading.Barrier(MOST)
        jobs = [pool.submit(be_client_at_once, served, TURNS + place, all_here) for place in range(MOST)]
        clients += [job.result() for job in jobs]
        expect_end(served, f"no more connections: {MOST} of {MOST}")
    expect_no_part(path)
    judged(path, *clients)
    tell(f"{TURNS} connections in turn took {took:.1f} seconds")


# Ends.


def replies_to(peer, sent, count):
    """The replies to so many calls, of which each is empty once the connection has ended. Where the calls come behind
    that, the system resets it."""
    got = []
    try:
        peer.send(sent)
        while len(got) < count:
            got.append(peer.receive())
    except (ConnectionResetError, BrokenPipeError):
        pass
    return got + [b""] * (count - len(got))


def be_busy(served, uid, counts):
    """A client that calls again and again, each time with several calls, until its connection ends: how many replies
    came to the last of them. No reply is cut."""
    sent = compound(1, words(PUTROOTFH), words(GETATTR, 0), uid=uid) * 5
    with peer_of(served) as peer:
        for turn in range(1000000):
            got = replies_to(peer, sent, 5)
            if got[-1] == b"":
                break
            counts[uid] = turn + 1
        wanted = results(1, NFS4_OK, done(PUTROOTFH), done(GETATTR, words(0, 0)))
        if any(one not in (wanted, b"") for one in got):
            raise Wrong("a reply that is cut")
    return len([one for one in got if one])


@pytest.mark.alone
@tried_again
def test_busy_end(path_of, tell):
    """The input ends while connections are busy, another one is silent, and one never reads: the run ends soon."""
    path, counts = path_of("busy.journal"), {}
    with ThreadPoolExecutor(BUSY + 1) as pool, serve("--journal", path) as served:
        silent, over, full = peer_of(served), threading.Event(), threading.Event()
        try:
            unread = pool.submit(never_read, peer_of(served, receive_buffer=4096), over, full=full)
            jobs = [pool.submit(be_busy, served, uid, counts) for uid in range(BUSY)]
            until = time.monotonic() + PATIENCE
            while (len(counts) < BUSY or not full.is_set()) and time.monotonic() < until:
                time.sleep(0.1)
            expect("the connections that are busy", (len(counts), full.is_set()), (BUSY, True))
            took = expect_end(served, "connection [0-9]+ from 127.0.0.1:[0-9]+: output not written")
            rest = [job.result() for job in jobs]
        finally:
            over.set()
        unread.result()
        expect("the end of the silent one", silent.receive_all(), b"")
    numbers = [entry.principal[1] for entry in lawful_journal(PROGRAM, path).entries]
    for uid in range(BUSY):
        expect(f"the replies to {uid}", 5 * counts[uid] + rest[uid], numbers.count(uid))
    if took > BUSY_SOON:
        raise Late(f"a run with {BUSY} busy connections ends after {took:.1f} seconds")
    tell(f"a run with {BUSY} busy connections ended {took:.1f} seconds after its input")


def test_answered_end():
    """What had come when the input ends is answered, also what wasn't read by then."""
    long_call = compound(1, words(PUTROOTFH), *[words(GETATTR, 0)] * 63)
    with serve() as served:
        peers = [peer_of(served) for _ in range(8)]
        for peer in peers:
            Client(peer, 1).null()
        for peer in peers:
            peer.send(long_call * 10)
            peer.send(call(7, NULL))
        expect_end(served)
    for peer in peers:
        expect("replies to long calls", all(len(peer.receive()) > 0 for _ in range(10)), True)
        expect("the last reply", peer.receive_all(), reply(7))
        peer.socket.close()


def test_inputs():
    """An input that has ended from the start ends the run at once, and a line says so. Bytes in it mean nothing."""
    line = "the input ended before a connection came; `--until-killed` doesn't look at it"
    with serve(stdin=subprocess.DEVNULL) as served:
        expect_end(served, line, ends_input=False)
    with serve() as served:
        served.program.stdin.write(b"any bytes\n" * 100)
        greet(served)
        expect("it runs", served.is_running(), True)
        expect_end(served)
    with serve(until="--until-killed", stdin=subprocess.DEVNULL) as served:
        time.sleep(1)
        greet(served)
        served.program.kill()
        expect("the end", served.end(), (-signal.SIGKILL, b"", b""))


def test_connections():
    """What ends a connection is told, with its number and its peer, and is no fault of the run; and once, that all
    workers are busy. A connection that waits is served when another one has ended."""
    with serve("--connections", "2") as served:
        lines = []
        for number, way in enumerate((0, 1, 2), 1):
            peer = peer_of(served)
            address = "%s:%d" % peer.socket.getsockname()
            reset(peer, way)
            lines.append(f"connection {number} from {address}: input not read")
        for turn in range(2):
            first, second, waits = (peer_of(served) for _ in range(3))
            Client(first, 1).null()
            Client(second, 2).null()
            waits.send(call(7, NULL))
            expect("a reply to the one that waits", not waits_for_reply(waits), True)
            first.socket.close()
            expect("its reply then", waits.receive(), reply(7))
            second.socket.close()
            waits.socket.close()
        with peer_of(served) as peer:
            Client(peer, 3).null()
            lines.append("connection 10 from %s:%d: input ends inside a record" % peer.socket.getsockname())
            peer.send(bytes(2))
            peer.finish()
            expect("the end of a connection", peer.receive_all(), b"")
        expect_end(served, "no more connections: 2 of 2", *[re.escape(line) for line in lines])


def test_room():
    """It isn't told that there is no room for connections where there was: some come in turn, each when the one before
    has ended, and all but one of as many as may be there come at once."""
    with serve("--connections", "8") as served:
        for uid in range(24):
            with peer_of(served) as peer:
                Client(peer, uid).null()
                peer.finish()
                expect("the end of a connection", peer.receive_all(), b"")
        expect_end(served)
    with serve("--connections", "8") as served:
        peers = [peer_of(served) for _ in range(7)]
        for uid, peer in enumerate(peers):
            Client(peer, uid).null()
        for peer in peers:
            peer.socket.close()
        expect_end(served)


def limit_connections():
    """In a new process: no more than one connection may be open, beside its streams, the listener, and the files of the
    thread that calls clients back."""
    setrlimit(RLIMIT_NOFILE, (7, 7))


def test_refused():
    """Where no more files may be open a line says so, once. Connections that wait are served when there is room again,
    and a server that tries again and again takes hardly any processor time."""
    with serve("--connections", "4", preexec_fn=limit_connections) as served:
        expect("a thread that calls clients back", served.has_caller(REPLY_PATIENCE), True)
        peers = [peer_of(served) for _ in range(3)]
        for peer in peers:
            peer.send(call(7, NULL))
        for place, peer in enumerate(peers):
            expect("the reply to one for which there is room", peer.receive(), reply(7))
            for other in peers[place + 1 :]:
                expect("a reply to one that waits", not waits_for_reply(other), True)
            begun, pause = served.processor_seconds(), 0.5
            time.sleep(pause)
            took = served.processor_seconds() - begun
            if took > pause / 4:
                raise Wrong(f"a server without room takes {took:.2f} seconds of processor time in {pause}")
            peer.socket.close()
        expect_end(served, "a connection isn't accepted; it is tried again")


def waits_for_reply(peer):
    """Whether a reply comes at once."""
    try:
        peer.receive(0.3)
        return True
    except TimeoutError:
        return False


def test_stop():
    """A server that is stopped and continued loses no connection, however often."""
    with serve() as served:
        peers = [peer_of(served) for _ in range(4)]
        clients = [Client(peer, uid) for uid, peer in enumerate(peers)]
        for client in clients:
            client.introduce()
        for turn in range(5):
            served.program.send_signal(signal.SIGSTOP)
            time.sleep(0.1)
            if turn % 2:
                for client in clients[:2]:
                    client.peer.send(call(7, NULL, uid=client.uid))
            time.sleep(0.6 if turn % 2 else 0.1)
            served.program.send_signal(signal.SIGCONT)
            if turn % 2:
                for client in clients[:2]:
                    expect("a reply after a stop", client.peer.receive(), reply(7))
            for client in clients:
                client.null()
        for client in clients:
            client.round(1)
            client.peer.socket.close()
        expect_end(served)


def test_stopped_end():
    """What comes while the process is stopped is answered, also where its input ends meanwhile."""
    for _ in range(5):
        with serve() as served:
            peers = [peer_of(served) for _ in range(BUSY)]
            for peer in peers:
                peer.send(call(1, NULL))
                expect("a reply before the stop", peer.receive(), reply(1))
            served.program.send_signal(signal.SIGSTOP)
            time.sleep(0.05)
            for peer in peers:
                peer.send(call(7, NULL))
            served.end_input()
            time.sleep(0.05)
            served.program.send_signal(signal.SIGCONT)
            expect("the replies behind a stop", [peer.receive_all() for peer in peers], [reply(7)] * BUSY)
            for peer in peers:
                peer.socket.close()
            expect_end(served, ends_input=False)


def test_limits():
    """That there are as many clients as slots is told, once."""
    line = "no client slot is left: 255 of 255"
    with serve() as served, peer_of(served) as peer:
        for uid in range(CLIENTS_LIMIT):
            Client(peer, uid).introduce()
        peer.send(compound(1, setclientid(b"verifier", b"one more")))
        full = results(1, NFS4ERR_RESOURCE, done(SETCLIENTID, status=NFS4ERR_RESOURCE))
        expect("the reply to one more", peer.receive(), full)
        expect("the line", served.next_line(), f"{line}\n".encode())
        time.sleep(LATELY)
        peer.socket.close()
        expect_end(served)
