"""The edges of a run of `nfs4state serve`: threads that are refused, a crowd that comes at once, and the file of the
journal, which is tried before the run begins and belongs to one run at a time. What a killed run left stays."""
import contextlib
import os
import re
import resource
import selectors
import signal
import socket
import stat
import subprocess
import sys
import threading
import time
from random import SystemRandom
from resource import RLIM_INFINITY, RLIMIT_NOFILE, RLIMIT_NPROC, setrlimit

import pytest

from helpers.expecting_client import expect
from helpers.server_helpers import MODEL_SERVES, PROGRAM_SERVES, SERVERS, Late, lawful_journal, peer_of, tried_again
from nfs4tools.journal.journal import verdict
from nfs4tools.messages import NULL, call, reply
from nfs4tools.processes import NO_CALLBACKS, PROGRAM, TOP, Process, Served
from nfs4tools.program import bytes_of
from serve.edge_runs import PATIENT, entries_in, make_entries, wait_for_entries
from serve.memory_runs import wait_for_line
from serve.ongoing_runs import expect_end, expect_no_part, part_name, serve

pytestmark = pytest.mark.quick

FAULT = "fault: file not written"
# How a run ends whose journal can't be written.
ENDS = ["--until-input-ends", "--until-killed", "--orders"]
# The connections of a crowd, and those of a run whose threads are refused.
CROWD, WORKERS = 1000, 8
# The processes that another user has there, and the threads that are left: those of the run beside its workers, and a
# few workers.
BUSY, LEFT = 20, 9


@pytest.fixture(params=SERVERS)
def command(request):
    """How a server is started: the program, then the model."""
    return request.param


def ended(command, *options, **how):
    """How a server ends by itself: its status, and the lines on standard error."""
    how = {"stdin": subprocess.DEVNULL, "capture_output": True, "timeout": PATIENT, **how}
    ran = subprocess.run([*command, *options], **how)
    return ran.returncode, ran.stderr.decode().splitlines()


# Threads and connections.


def as_another_user(uid):
    """What a new process does first: it is this user, who may have few threads."""

    def become():
        setrlimit(RLIMIT_NPROC, (BUSY + LEFT, BUSY + LEFT))
        os.setgroups([])
        os.setgid(uid)
        os.setuid(uid)

    return become


@pytest.fixture
def other_user():
    """A user who has no process, and can run the servers."""
    if os.geteuid() != 0:
        pytest.skip("needs root, to limit the threads of another user")
    uid = SystemRandom().randrange(100000, 1 << 30)
    tried = ended(["/bin/ls", os.path.join(TOP, "tools"), PROGRAM], preexec_fn=as_another_user(uid))
    if any("Permission denied" in line for line in tried[1]):
        pytest.skip(f"another user can't read the servers: {tried[1][0]}")
    return uid


@pytest.mark.parametrize("is_lifted", [True, False], ids=["lifted", "kept"])
def test_refused_threads(command, other_user, is_lifted):
    """Connections for which no thread can be made wait. They are served when threads can be made again; and if none can
    be to the end, the run has status 0 since the others were served."""
    how = {"preexec_fn": as_another_user(other_user)}
    with contextlib.ExitStack() as stack:
        others = [stack.enter_context(Process(["/bin/sleep", "600"], **how)) for _ in range(BUSY)]
        served = stack.enter_context(serve("--connections", str(WORKERS), command=command, **how))
        peers = [stack.enter_context(peer_of(served)) for _ in range(WORKERS)]
        for peer in peers:
            peer.send(call(7, NULL))
        refused = rf"no thread for a worker: [1-7] of {WORKERS} run; it is tried again each second"
        wait_for_line(served, refused)
        expect("the first one's reply", peers[0].receive(PATIENT), reply(7))
        lines = [refused]
        if is_lifted:
            for other in others:
                other.program.kill()
                other.program.wait()
            for peer in peers[1:]:
                expect("a reply", peer.receive(PATIENT), reply(7))
            again = rf"all workers run: {WORKERS} of {WORKERS}|each connection has a worker again"
            wait_for_line(served, rf"{again}|no more connections: .*")
            lines += [again, f"no more connections: {WORKERS} of {WORKERS}"]
        served.end_input()
        status, output, errors = served.end()
    expect("the end", (status, output), (0, b""))
    said = [line for line in errors.decode().splitlines() if not any(re.fullmatch(it, line) for it in lines)]
    expect("other lines", said, [])


@pytest.fixture
def many_files():
    """This process may have as many files open as a crowd has."""
    least, most = resource.getrlimit(RLIMIT_NOFILE)
    if most != RLIM_INFINITY and most < 2 * CROWD:
        pytest.skip(f"a process may have {most} files open at most")
    setrlimit(RLIMIT_NOFILE, (max(least, 2 * CROWD), most))
    yield
    setrlimit(RLIMIT_NOFILE, (least, most))


def longest_queue():
    """How many connections the system lets wait at a listener."""
    with open("/proc/sys/net/core/somaxconn", encoding="utf-8") as source:
        return int(source.read())


def crowd_at(port, count):
    """So many connections that are begun at once."""
    sockets = [socket.socket() for _ in range(count)]
    for it in sockets:
        it.setblocking(False)
        it.connect_ex(("127.0.0.1", port))
    return sockets


def wait_for_connections(sockets):
    """Waits until all are connected: how many aren't in time. What the system leaves out of a full queue is tried again
    by it, but not taken while nobody accepts."""
    with selectors.DefaultSelector() as selector:
        for it in sockets:
            selector.register(it, selectors.EVENT_WRITE)
        until = time.monotonic() + PATIENT / 6
        while selector.get_map() and time.monotonic() < until:
            for key, _ in selector.select(0.1):
                selector.unregister(key.fileobj)
        return len(selector.get_map())


def test_crowd(command, many_files):
    """A crowd that comes at once is connected while the server doesn't accept, and each is served then."""
    if longest_queue() < CROWD:
        pytest.skip(f"the system lets {longest_queue()} connections wait at most")
    with serve(command=command) as served:
        # What accepts is there.
        make_entries(served, 1)
        served.program.send_signal(signal.SIGSTOP)
        sockets = crowd_at(served.port, CROWD)
        try:
            left = wait_for_connections(sockets)
            served.program.send_signal(signal.SIGCONT)
            expect("the connections that aren't made", left, 0)
            for it in sockets:
                it.settimeout(PATIENT)
                it.sendall(call(7, NULL))
                expect("a reply", it.recv(1000), reply(7))
                it.close()
        finally:
            for it in sockets:
                it.close()
        served.end_input()
        expect("the status", served.end()[0], 0)


# The file of the journal.


@pytest.mark.parametrize("first", SERVERS)
def test_two_runs(command, first, path_of):
    """Two runs with one journal: the second one ends before it listens, and the first one is unharmed."""
    path = path_of("run.journal")
    with serve("--journal", path, command=first) as served:
        made = make_entries(served, 1)
        wait_for_entries(path, made)
        for until in ENDS:
            status, lines = ended(command, "--listen", "127.0.0.1:0", "--journal", path, until)
            expect("how the second run ends", (status, lines[1:]), (1, [FAULT]))
            expect("its reason", lines[0], f"{path}.part: another run keeps its journal there")
        made += make_entries(served, 1)
        expect_end(served)
    expect("the entries", len(lawful_journal(PROGRAM, path).entries), made)
    expect("what is there", os.listdir(os.path.dirname(path)), ["run.journal"])


@pytest.mark.parametrize("until", ENDS)
def test_no_folder(command, path_of, file_of, until):
    """A run that goes on ends before it listens if its journal can't be there. A bind that is refused is found before
    that."""
    os.mkdir(path_of("folder"))
    for path, end, why in [
        (path_of("missing/x"), ".part", "No such file or directory (os error 2)"),
        (os.path.join(file_of("file", b""), "x"), ".part", "Not a directory (os error 20)"),
        (path_of("folder"), "", "Is a directory (os error 21)"),
    ]:
        status, lines = ended(command, "--listen", "127.0.0.1:0", "--journal", path, until)
        expect("how it ends", (status, lines), (1, [f"{path}{end}: {why}", FAULT]))
        with socket.create_server(("127.0.0.1", 0)) as taken:
            address = f"127.0.0.1:{taken.getsockname()[1]}"
            status, lines = ended(command, "--listen", address, "--journal", path, until)
        expect("how it ends", (status, lines[0].startswith(f"{address}: "), lines[1:]), (1, True, ["fault: socket"]))


def test_no_folder_at_the_end(command, path_of):
    """A run of so many connections finds that at its end."""
    path = path_of("missing/x")
    words = [*command, "--listen", "127.0.0.1:0", "--tree", NO_CALLBACKS, "--connections", "1", "--journal", path]
    with Served(words) as served:
        make_entries(served, 1)
        status, _, errors = served.end()
    lines = [f"{path}: No such file or directory (os error 2)", FAULT]
    expect("the end", (status, errors.decode().splitlines()), (1, lines))


def once_of(command):
    """The command that reads records on its input, of the same server."""
    return (
        [PROGRAM, "once"] if command == PROGRAM_SERVES else [sys.executable, os.path.join(TOP, "tools/model/once.py")]
    )


def expect_no_reader(path, status, lines):
    """A FIFO without a reader is a fault behind its reason."""
    reasons = [f"{path}: No such device or address (os error 6)", f"{path}: Broken pipe (os error 32)"]
    expect("how it ends", (status, lines[-2] in reasons, lines[-1]), (1, True, FAULT))


def test_no_reader(command, path_of):
    """A FIFO that nobody reads is a fault, and the end of a run doesn't wait for a reader."""
    path = path_of("fifo")
    os.mkfifo(path)
    expect_no_reader(path, *ended(once_of(command), "--journal", path))
    listen = ["--listen", "127.0.0.1:0", "--journal", path]
    expect_no_reader(path, *ended(command, *listen, "--until-input-ends"))
    with Served([*command, *listen, "--connections", "1"]) as served:
        make_entries(served, 1)
        status, _, errors = served.end()
    expect_no_reader(path, status, errors.decode().splitlines())
    expect("a FIFO", stat.S_ISFIFO(os.stat(path).st_mode), True)


def test_reader(command, path_of):
    """A FIFO that somebody reads gets the journal."""
    path, got = path_of("fifo"), []
    os.mkfifo(path)
    reader = threading.Thread(target=lambda: got.append(bytes_of(path)), daemon=True)
    with serve("--journal", path, command=command) as served:
        made = make_entries(served, 5)
        reader.start()
        # The reader waits for what writes, or is there before.
        time.sleep(0.3)
        expect_end(served)
    reader.join(PATIENT)
    expect("the journal", verdict(got[0]), (True, f"lawful: {made} entries"))
    expect_no_part(path)


def test_link(command, path_of):
    """What a link leads to is written in place."""
    path, target = path_of("link"), path_of("target")
    with open(target, "wb") as file:
        file.write(bytes(1 << 20))
    os.symlink("target", path)
    with serve("--journal", path, command=command) as served:
        made = make_entries(served, 2)
        expect_end(served)
    expect("a link", os.path.islink(path), True)
    expect("the entries", len(lawful_journal(PROGRAM, target).entries), made)
    expect_no_part(path)


def test_device(command, path_of):
    """A device stays a device."""
    if os.geteuid() != 0:
        pytest.skip("needs root, to make a device")
    path = path_of("null")
    os.mknod(path, stat.S_IFCHR | 0o666, os.makedev(1, 3))
    with serve("--journal", path, command=command) as served:
        make_entries(served, 2)
        expect_end(served)
    expect("a device", stat.S_ISCHR(os.stat(path).st_mode), True)
    expect_no_part(path)


def test_kept_beginnings(command, path_of):
    """What killed runs left stays, each under a name of its own: the last one as `.old`, the one before as `.old.2`. An
    empty file isn't kept."""
    path, left = path_of("run.journal"), []
    for turn in range(4):
        with serve("--journal", path, command=command, until="--until-killed") as served:
            names = [part_name(path) + end for end in (".old", ".old.2", ".old.3")]
            expect("what is kept", [bytes_of(it) for it in names[: len(left)]], left[::-1])
            expect("what isn't there", [it for it in names[len(left) :] if os.path.exists(it)], [])
            wait_for_entries(path, make_entries(served, turn + 1))
            served.program.kill()
            served.end()
        left.append(bytes_of(part_name(path)))
        entries_in(part_name(path))


@pytest.mark.alone
@tried_again
@pytest.mark.needs("nfs4state")
def test_first_second(path_of):
    """A run that is ended by SIGTERM half a second after its begin leaves the entries but those of the last 0.2 seconds."""
    path = path_of("run.journal")
    with serve("--journal", path, command=PROGRAM_SERVES, until="--until-killed") as served:
        begun = time.monotonic()
        made = make_entries(served, 2)
        time.sleep(0.25)
        served.program.terminate()
        took = time.monotonic() - begun
        expect("the status", served.end()[0], -signal.SIGTERM)
    if took > 0.9:
        raise Late(f"the run took {took:.1f} seconds, and the first second is over")
    if len(entries_in(part_name(path))) != made:
        raise Late(f"{len(entries_in(part_name(path)))} of {made} entries are there")


@pytest.mark.alone
@tried_again
def test_at_any_second(command, path_of):
    """However long a run goes on, its file has what came a moment before."""
    path = path_of("run.journal")
    with serve("--journal", path, command=command, until="--until-killed") as served:
        made = 0
        for _ in range(5):
            made += make_entries(served, 1)
            time.sleep(0.25)
            found = len(entries_in(part_name(path)))
            if found != made:
                raise Late(f"{found} of {made} entries are there")
            time.sleep(0.15)
        served.program.kill()


def test_ended_by_the_model(path_of):
    """SIGTERM ends the model's run with its journal."""
    path = path_of("run.journal")
    with serve("--journal", path, command=MODEL_SERVES, until="--until-killed") as served:
        made = make_entries(served, 1)
        served.program.terminate()
        expect("the status", served.end()[0], -signal.SIGTERM)
    expect("the entries", len(lawful_journal(PROGRAM, path).entries), made)
    expect_no_part(path)
