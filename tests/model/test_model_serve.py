"""The model's server over TCP, which takes the place of `nfs4state serve` where nothing is built.

Rows are sent to it, each to a server of its own, and the README's session is run by it. In runs that go on, 24
clients get every reply among 64 connections of which 40 misbehave, and each of those is told; 200 connections come
in turn; and the connection above the most there may be waits. Runs end with their input, also while 20 connections
are busy, one sends without an end and one never reads; before any connection; and by signals. A server that is
stopped and continued loses no connection. Arguments that `serve` refuses are refused. The lines of a trace are
compared.

Each journal has to be lawful by the model's audit, and by that of the program."""
import io
import os
import re
import signal
import subprocess
import sys
import threading
import time
from collections import Counter
from concurrent.futures import ThreadPoolExecutor
from contextlib import redirect_stderr
from resource import RLIMIT_NOFILE, setrlimit

import pytest

from helpers.bad_peers import GOOD, MOST, OTHERS, garbage, read_late, run_crowd
from helpers.expecting_client import Client, done, expect, Wrong
from helpers.server_helpers import Late, greet, judged, lawful_journal, peer_of, tried_again
from nfs4tools.journal.entries import Expire
from nfs4tools.journal.journal import Recorder
from nfs4tools.messages import (
    COMPOUND,
    GETATTR,
    GETFH,
    NFS4ERR_STALE_CLIENTID,
    NFS4_OK,
    NULL,
    PUTROOTFH,
    RENEW,
    call,
    compound,
    confirmation,
    lookup,
    reply,
    setclientid,
    words,
)
from nfs4tools.model.server import CLIENTS_LIMIT
from nfs4tools.model.tcp import SharedServer
from nfs4tools.model.state import JOURNAL_LIMIT
from nfs4tools.processes import NO_CALLBACKS, PATIENCE, PROGRAM, Served, TOP, is_silent, with_interrupts
from nfs4tools.wire import opaque, record, split_records

pytestmark = pytest.mark.quick

SERVE = [sys.executable, os.path.join(TOP, "tools/model/serve.py")]
ROWS = ["client_ids", "getattr", "limits", "records"]
# How many connections come in turn, and how many are busy when the input ends, each with so many calls.
IN_TURN, BUSY, CALLS = 200, 20, 30
# The seconds for which the server is stopped.
STOPPED = 0.5
# The seconds after the end of the input in which a run ends.
SOON = 2
# A moment at which the lease of each client is over.
LEASES_END = 1000


def serve(*options, listen="127.0.0.1:0", **how):
    return Served([*SERVE, "--listen", listen, "--tree", NO_CALLBACKS, *options], **how)


def serve_on(*options, **how):
    """A server that goes on until its input ends, as it does when `end` is called."""
    return serve("--until-input-ends", *options, stdin=subprocess.PIPE, **how)


def run(*command, **how):
    """The status of a command, and what it prints."""
    ran = subprocess.run(
        command, stdout=subprocess.PIPE, stderr=subprocess.STDOUT, timeout=300, text=True, cwd=TOP, **how
    )
    return ran.returncode, ran.stdout


# In the place of the program.


@pytest.mark.parametrize("name", ROWS)
def test_rows(tell, name):
    """Rows, also of other trees, leases and epochs, each with a server that ends by itself, as the row says."""
    path = f"crates/rows/data/{name}.rows"
    status, printed = run(sys.executable, "tools/send_rows", "--serve", " ".join(SERVE), path)
    if status != 0 or not re.match(r"[1-9][0-9]* rows: 0 failed", printed):
        raise Wrong(f"status {status}: {printed}")
    tell(printed.partition(" failed")[0] + " failed")


# Arguments that are refused before a server begins, and runs that end by a fault before they listen.
REFUSED = [
    "--until-input-ends --until-killed",
    "--connections 0",
    "--connections 65",
    "--connections +4",
    "--lease 86401",
    "--epoch 4294967296",
    "--tre x",
    "more",
    "--lease 5 --lease=6",
    "--until-killed --until-killed",
    "--each --journal x",
]
MISSING = "No such file or directory (os error 2)"
FAULTS = [
    ("--tree tools/missing", f"tools/missing: {MISSING}", "file not read"),
    ("--listen 127.0.0.1", "127.0.0.1: invalid socket address", "socket"),
    ("--listen 127.0.0.1:65536", "127.0.0.1:65536: invalid port value", "socket"),
    ("--listen 192.0.2.1:0", "192.0.2.1:0: Cannot assign requested address (os error 99)", "socket"),
    ("--listen 127.0.0.1:0 --tree README.md", "README.md:3: Expected '=' after a key in a key/value pair", "tree refused (1)"),
]  # fmt: skip


@pytest.mark.parametrize("given", REFUSED)
def test_arguments(given):
    expect("the status", run(*SERVE, *given.split())[0], 2)


@pytest.mark.parametrize("given, reason, fault", FAULTS)
def test_faults_at_first(given, reason, fault):
    expect("the end", run(*SERVE, *given.split()), (1, f"{reason}\nfault: {fault}\n"))


# A run that goes on.


def test_crowd(path_of, tell):
    """All connections come before anything is done on one, and end before the run does."""
    path = path_of("crowd.journal")
    with serve_on("--epoch", "7", "--journal", path) as served:
        peers = [peer_of(served, receive_buffer=4096) for _ in range(MOST)]
        names = [
            f"connection {place + 1} from 127.0.0.1:{peer.socket.getsockname()[1]}" for place, peer in enumerate(peers)
        ]
        expect("that all are there", served.next_line(), f"no more connections: {MOST} of {MOST}\n".encode())
        clients = run_crowd(peers)
        for client in clients:
            client.peer.socket.close()
        status, output, errors = served.end()
        expect("the end of a run with faults of connections", (status, output), (0, b""))
    expect_told(
        [line.rsplit(": ", 1) for line in errors.decode().splitlines()],
        set(names),
        {names[peers.index(client.peer)] for client in clients},
    )
    judged(path, *clients)
    tell(f"{GOOD} clients among {MOST} connections got each reply")


def expect_told(lines, names, orderly):
    """Each connection that misbehaved is told once, by its number and its address, and none that didn't."""
    expect("connections that are told twice", max(Counter(name for name, _ in lines).values(), default=1), 1)
    expect("connections that there aren't", {name for name, _ in lines} - names, set())
    expect("connections that end in order", orderly & {name for name, _ in lines}, set())
    wanted = Counter(split_records(data)[1] for data in garbage()) + Counter({"input ends inside a record": OTHERS})
    got = Counter(fault for _, fault in lines)
    for fault in "record too long", "input ends inside a record":
        expect(f"how often it is told: {fault}", got.pop(fault), wanted[fault])
    # What is left are those that reset, or close without reading what they were sent.
    expect("the other faults", set(got) - {"input not read", "output not written"}, set())
    expect("that each reset is told", OTHERS <= sum(got.values()) <= 2 * OTHERS, True)


def test_in_turn():
    """Many connections come in turn, and one that is there stays; it is answered also after the server was stopped
    for a while."""
    with serve_on() as served, peer_of(served) as first:
        for uid in range(IN_TURN):
            greet(served, uid)
        served.program.send_signal(signal.SIGSTOP)
        time.sleep(STOPPED)
        served.program.send_signal(signal.SIGCONT)
        Client(first, 1).null()
        expect("the end of a run of connections in turn", served.end(), (0, b"", b""))


def test_most():
    """The connection above the most that there may be waits until one of them has ended; so does one for which the
    process may have no more files open, of which there are five before the first connection."""
    wait_above("no more connections: 2 of 2", "--connections", "2")
    wait_above("a connection isn't accepted; it is tried again", preexec_fn=lambda: setrlimit(RLIMIT_NOFILE, (7, 7)))


def wait_above(line, *options, **how):
    """There may be two connections, and this is told once."""
    with serve("--until-killed", *options, **how) as served, peer_of(served) as first:
        with peer_of(served) as second:
            Client(second, 2).null()
            with peer_of(served) as third:
                expect_wait(third, second)
        Client(first, 1).null()
        served.program.send_signal(signal.SIGTERM)
        expect("the end", served.end(), (-signal.SIGTERM, b"", f"{line}\n".encode()))


def expect_wait(peer, other):
    """It gets no reply until the other one has ended."""
    peer.send(call(1, NULL))
    try:
        raise Wrong(f"a connection above the most is served: {peer.receive(0.5)}")
    except TimeoutError:
        pass
    other.socket.close()
    expect("the reply to who has waited", peer.receive(), reply(1))


def test_limits():
    """Of client slots, and of entries of the journal: each is told with the call that takes the last one, and once,
    though all clients end and others come."""
    server, lines = Recorder(), io.StringIO()
    shared = SharedServer(server, is_limit_told=True)

    def ask(operation):
        shared.answer(1, split_records(compound(1, words(PUTROOTFH), operation))[0][0])

    with redirect_stderr(lines):
        for number in [*range(1, CLIENTS_LIMIT + 1), *range(257, 257 + CLIENTS_LIMIT)]:
            ask(setclientid(bytes(8), b"%d" % number))
            if len(server.renewals) == CLIENTS_LIMIT - 1:
                print(number, file=lines)
            ask(confirmation(1, number, server.last_confirm))
            if len(server.renewals) == CLIENTS_LIMIT:
                server.sweep(LEASES_END)
        server.entries = JOURNAL_LIMIT - 1
        for number in range(2):
            print(number, file=lines)
            ask(words(GETATTR, 0))
    expect(
        "the limits",
        lines.getvalue().splitlines(),
        ["255", "no client slot is left: 255 of 255", "511", "0", "the journal is full: 1000000 of 1000000", "1"],
    )


@tried_again
def test_clock():
    """The moments of calls and of sweeps are by one clock, which begins with the run: a lease of 90 seconds that is
    renewed after 60 stands after 120, and has ended after 211."""
    shared = SharedServer(Recorder(lease=90))
    for number, (seconds, operation, status) in enumerate(
        [
            (0, setclientid(bytes(8), b"one"), NFS4_OK),
            (0, confirmation(1, 1, 1), NFS4_OK),
            (60, words(RENEW, 1, 1), NFS4_OK),
            (120, words(RENEW, 1, 2), NFS4ERR_STALE_CLIENTID),
            (211, words(RENEW, 1, 1), NFS4ERR_STALE_CLIENTID),
        ]
    ):
        shared.begun = time.monotonic() - seconds - 0.1
        shared.sweep()
        found = shared.answer(1, split_records(compound(number, operation))[0][0])
        if (late := time.monotonic() - shared.begun - seconds) > 1:
            raise Late(f"a moment of {seconds} seconds lasts for {late:.1f}")
        expect(f"the status at {seconds}", int.from_bytes(found[24:28], "big"), status)
    expect("the ends of leases", shared.server.recorded[2:], [Expire(1, 60, 211)])


# Ends.


@tried_again
def test_replies_before_a_fault():
    """After a record that is too long the replies to what came before it reach a peer that is slow to read them, also
    where it has sent more, which nobody reads. The fault is the run's where it doesn't go on."""
    with serve("--connections", "1") as served:
        read_late(peer_of(served, receive_buffer=4096))
        expect("the end", served.end(), (1, b"", b"fault: record too long\n"))


def send_on(peer, over):
    """Sends records that get no reply, without an end and without a pause."""
    while not over.is_set():
        peer.send(record(words(9)) * 1000)


@pytest.mark.alone
@tried_again
def test_busy(path_of, tell):
    """How long a run takes to end when its input does, while connections have calls under way, all of whose replies
    come; one goes on to send, and one never reads. The server is stopped while the calls and the end of its input
    come, so that it hasn't read them before."""
    path = path_of("busy.journal")
    tag = opaque(bytes(2000)) + words(0, 2, PUTROOTFH, GETATTR, 0)
    sent = b"".join(call(xid, COMPOUND, tag, uid=1) for xid in range(CALLS))
    body = words(NFS4_OK) + opaque(bytes(2000)) + words(2) + done(PUTROOTFH) + done(GETATTR, words(0, 0))
    wanted = b"".join(reply(xid, body) for xid in range(CALLS))
    over = threading.Event()
    with serve_on("--journal", path) as served, ThreadPoolExecutor(1) as pool:
        peers = [peer_of(served) for _ in range(BUSY + 2)]
        for peer in peers:
            Client(peer, 1).null()
        *busy, endless, deaf = peers
        sending = pool.submit(send_on, endless, over)
        deaf.fill(call(1, COMPOUND, opaque(bytes(100000)) + words(0, 1, PUTROOTFH)), seconds=1)
        served.program.send_signal(signal.SIGSTOP)
        for peer in busy:
            peer.send(sent)
        threading.Timer(STOPPED, served.program.send_signal, [signal.SIGCONT]).start()
        begun = time.monotonic()
        status, output, errors = served.end()
        took = time.monotonic() - begun - STOPPED
        over.set()
        sending.result()
        for number, peer in enumerate(busy, 1):
            expect(f"that connection {number} gets its replies", peer.receive_all() == wanted, True)
        for peer in peers:
            peer.socket.close()
    expect("the end of a busy run", (status, output), (0, b""))
    expect_told_at_end(errors.decode())
    expect("the entries", len(lawful_journal(PROGRAM, path).entries), BUSY * CALLS)
    if took > SOON:
        raise Late(f"it ends {took:.1f} seconds after its input")
    tell(f"a run with {BUSY} busy connections ended {took:.1f} seconds after its input")


def expect_told_at_end(errors):
    """Who never reads is told, by its number; who goes on to send may be within a record."""
    lines = re.sub(rf"connection {BUSY + 1} from \S+: input ends inside a record\n", "", errors)
    if not re.fullmatch(rf"connection {BUSY + 2} from \S+: output not written\n", lines):
        raise Wrong(f"a busy run tells {errors}")


def test_no_connection(path_of):
    """A run whose input ends at once says so, and which option never looks at it."""
    path = path_of("none.journal")
    with serve("--until-input-ends", "--journal", path) as served:
        status, output, errors = served.end()
        expect("the end of a run without input", (status, output), (0, b""))
        if b"the input ended" not in errors or b"--until-killed" not in errors:
            raise Wrong(f"a run without input tells {errors}")
    expect("the entries", lawful_journal(PROGRAM, path).entries, [])


def test_signals(path_of):
    """A signal ends a run, whatever its options: there is a journal of all that was answered, and the status is that
    of a process that the signal ends."""
    for number in signal.SIGINT, signal.SIGTERM:
        for options in ["--connections", "2"], ["--until-killed"]:
            path = path_of("interrupted.journal")
            with serve("--journal", path, *options, preexec_fn=with_interrupts) as served, peer_of(served) as peer:
                Client(peer, 1).introduce()
                peer.send(bytes(1))
                for _ in range(2):
                    served.program.send_signal(number)
                status, output, errors = served.end()
                expect("the end by a signal", (status, output), (-number, b""))
                is_told = re.fullmatch(rb"(connection 1 from \S+: input ends inside a record\n)?", errors)
                expect("what is told", (bool(is_told), errors == b""), (True, "--connections" in options))
                expect("the connection", peer.receive_all(), b"")
            expect("the entries", len(lawful_journal(PROGRAM, path).entries), 2)
            os.remove(path)


def test_background():
    """A run that a shell began in the background, where an interrupt is for who is in front, goes on."""
    with serve("--until-killed", preexec_fn=lambda: signal.signal(signal.SIGINT, signal.SIG_IGN)) as served:
        served.program.send_signal(signal.SIGINT)
        greet(served)
        served.program.send_signal(signal.SIGTERM)
        expect("the end", served.end(), (-signal.SIGTERM, b"", b""))


def test_file(path_of):
    """A journal that can't be written is a fault of the run, however it ends."""
    path = path_of("fifo")
    os.mkfifo(path)
    fault = b"%s: No such device or address (os error 6)\nfault: file not written\n" % path.encode()
    with serve_on("--journal", path) as served, peer_of(served) as peer:
        Client(peer, 1).introduce()
        expect("the end of the input", served.end(), (1, b"", fault))
    with serve("--until-killed", "--journal", path) as served, peer_of(served) as peer:
        Client(peer, 1).introduce()
        served.program.send_signal(signal.SIGTERM)
        expect("the end by a signal", served.end(), (1, b"", fault))


# Traces.


def test_trace():
    """A line for each call, and for the lease that ends."""
    read, readdir = words(25, 0, 0, 0, 0, 0, 0, 5), words(26)
    answered = [
        call(1, NULL),
        call(2, 7),
        call(3, COMPOUND, words(0, 1, 0)),
        compound(4, words(PUTROOTFH), lookup(b"a"), read, readdir, words(GETFH)),
    ]
    with serve_on("--trace", "--lease", "1") as served, peer_of(served) as peer:
        peer.send(record(words(9)) + b"".join(answered))
        for _ in answered:
            peer.receive()
        Client(peer, 5).introduce()
        printed, output = b"", served.program.stdout
        while b"expires" not in printed and not is_silent(output, PATIENCE):
            printed += os.read(output.fileno(), 4096)
        printed += served.end()[1]
    got = re.sub(r"(moment|seen at|now) [0-9]+", r"\1 N", printed.decode()).splitlines()
    expect("the lines", got, TRACE)


TRACE = [
    "connection 1, moment N: 4 bytes -> no reply",
    "connection 1, xid 1, moment N: NULL -> answered",
    "connection 1, xid 2, moment N: a call -> PROC_UNAVAIL",
    "connection 1, xid 3, moment N, AUTH_NONE: COMPOUND of 0 operations -> NFS4ERR_MINOR_VERS_MISMATCH",
    'connection 1, xid 4, moment N, AUTH_NONE: PUTROOTFH -> NFS4_OK; LOOKUP "a" -> NFS4_OK; READ 0 0 0 0 u64:0 5 -> '
    'NFS4_OK 1 "hello"; READDIR -> NFS4ERR_NOTSUPP',
    'connection 1, xid 1, moment N, AUTH_SYS 5: SETCLIENTID hex:7665726966696572 "client 5" 0x40000000 "tcp" '
    '"127.0.0.1.3.232" 1 -> NFS4_OK 1 1 u64:1',
    "connection 1, xid 2, moment N, AUTH_SYS 5: SETCLIENTID_CONFIRM 1 1 u64:1 -> NFS4_OK",
    "client 1 expires, seen at N, now N",
]
