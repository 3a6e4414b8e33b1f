"""`nfs4state serve` where the system gives little. 64 connections that are all within a long record fit into the memory
that is named below. Where threads are refused, the connections without one end, and a run that can't sweep says so.
Where no more files may be open, connections that can't be accepted get no reply."""
import threading
import time
from concurrent.futures import ThreadPoolExecutor
from resource import RLIMIT_AS, RLIMIT_NOFILE, setrlimit

import pytest

from helpers.bad_peers import MOST, wait_for
from helpers.expecting_client import FILES, Client, done, expect, Wrong
from helpers.server_helpers import greet, judged, lawful_journal, peer_of
from nfs4tools.journal.entries import Expire
from nfs4tools.messages import COMPOUND, GETATTR, NFS4_OK, PUTROOTFH, RENEW, call, reply, words
from nfs4tools.processes import PATIENCE, PROGRAM
from nfs4tools.wire import opaque
from serve.serve_runs import PATIENT, expect_end, expect_no_reply, serve

pytestmark = [pytest.mark.needs("nfs4state"), pytest.mark.quick]

# The addresses in bytes that 64 connections within long records are given, which is room for 64 stacks of 8 MB and as
# many arenas of the C library of 64 MB; and the most of it that may be in use.
ADDRESSES, IN_USE = 5 << 30, 256 << 20


def long_call(xid, uid):
    """A record of 262,144 bytes, and its reply, which is nearly as long."""
    tag = 262144 - len(call(xid, COMPOUND, words(0, 0, 2, PUTROOTFH, GETATTR, 0), uid=uid)) + 4 - 2048
    tag -= tag % 4
    arguments = words(0, 2, PUTROOTFH, GETATTR, 0)
    sent = call(xid, COMPOUND, opaque(bytes(tag)) + arguments + bytes(2048), uid=uid)
    got = reply(xid, words(NFS4_OK) + opaque(bytes(tag)) + words(2) + done(PUTROOTFH) + done(GETATTR, words(0, 0)))
    return sent, got


def hold_a_record(peer, uid, held, over):
    """Is served for a while, gets long replies, and sends all but the end of a long call, until all are there."""
    client = Client(peer, uid)
    client.introduce()
    client.round(1)
    sent, wanted = long_call(9, uid)
    for _ in range(3):
        peer.send(sent)
        expect("a long reply", peer.receive() == wanted, True)
    peer.send(sent[:-1])
    held.release()
    wait_for(over)
    peer.send(sent[-1:])
    expect("the last long reply", peer.receive() == wanted, True)
    peer.socket.close()


def wait_until_held(held, doing):
    """All of them hold a record; or what went wrong with one."""
    until = time.monotonic() + PATIENCE
    for _ in doing:
        while not held.acquire(timeout=0.1):
            for job in doing:
                if job.done():
                    job.result()
            if time.monotonic() > until:
                raise Wrong("not all connections are served at once")


def test_memory(tell):
    limit = lambda: setrlimit(RLIMIT_AS, (ADDRESSES, ADDRESSES))
    held, over = threading.Semaphore(0), threading.Event()
    with ThreadPoolExecutor(MOST) as pool, serve(connections=MOST, preexec_fn=limit) as served:
        peers = [peer_of(served) for _ in range(MOST)]
        try:
            doing = [pool.submit(hold_a_record, peer, uid, held, over) for uid, peer in enumerate(peers)]
            wait_until_held(held, doing)
            # While the server is there for sure; each connection has had three long replies by now.
            in_use, addresses = served.most_kilobytes("VmHWM"), served.most_kilobytes("VmPeak")
        finally:
            over.set()
        for job in doing:
            job.result()
        expect_end(served)
    if in_use * 1024 > IN_USE:
        raise Wrong(f"{in_use} kB in use, above {IN_USE // 1024}")
    tell(
        f"{MOST} connections, each within a record of 262,144 bytes, took {in_use >> 10} MB, of "
        f"{addresses >> 10} MB of addresses"
    )


def test_threads(preloaded):
    """Where no more threads can be made, the connections without one end, with a fault; the others are served. The
    first thread sweeps, and the second one calls clients back."""
    for most in range(6):
        with serve(connections=3, env=preloaded("refuse_threads.c", MOST_THREADS=str(most))) as served:
            for uid in range(most - 2):
                greet(served, uid)
            expect_end(served, *(["no memory"] if most < 5 else []))


def test_unswept(path_of, preloaded):
    """Where the first thread can't be made, which sweeps, all connections are served, no lease ends, and the run says
    so at its end, also where a connection ended inside a record."""
    path = path_of("unswept.journal")
    environment = preloaded("refuse_threads.c", REFUSED_THREAD="1")
    with serve("--lease", "1", "--journal", path, connections=3, env=environment) as served:
        clients = [Client(peer_of(served), uid) for uid in range(3)]
        for client, file in zip(clients, FILES):
            client.introduce()
            client.round(file)
        # Long enough for three sweeps.
        time.sleep(3.5)
        for client in clients:
            client.want((client.renew_words(), done(RENEW)))
        clients[0].peer.socket.sendall(bytes(2))
        for client in clients:
            client.peer.socket.close()
        expect_end(served, "no memory")
    entries = judged(path, *clients).entries
    expect("who expires", [entry for entry in entries if isinstance(entry, Expire)], [])


def introduced(peers, least):
    """Clients of the first of these peers, up to one that gets no reply; at least so many."""
    clients = []
    for uid, peer in enumerate(peers):
        client = Client(peer, uid)
        try:
            client.null()
        except TimeoutError:
            break
        client.introduce()
        clients.append(client)
    if len(clients) < least:
        raise Wrong(f"{len(clients)} connections are served, and at least {least} should be")
    return clients


def test_accept(path_of):
    """Where the process may have no more files open, the connections that can't be accepted are gone for the run, and
    their peers wait as those above the number do; that is a fault, and the others are served. Four files are open from
    the beginning, and the thread that calls clients back opens two, unless those that accept were there before. It may
    have one of the two for a moment alone, in which a thread that accepts finds no room."""
    for most in 7, 8, 9:
        path = path_of("accept.journal")
        limit = lambda: setrlimit(RLIMIT_NOFILE, (most, most))
        with serve("--journal", path, connections=3, preexec_fn=limit) as served:
            room = min(most - 4 - 2 * served.has_caller(PATIENT), 3)
            peers = [peer_of(served) for _ in range(3)]
            clients = introduced(peers[:room], room - 1)
            for peer in peers[room:]:
                expect_no_reply(peer)
            for peer in peers:
                peer.socket.close()
            expect_end(served, *(["input not read"] if len(clients) < 3 else []))
        expect("the entries", len(lawful_journal(PROGRAM, path).entries), 2 * len(clients))
