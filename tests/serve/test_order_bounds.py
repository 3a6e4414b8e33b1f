"""What bounds `serve --orders`: orders beside busy connections, answers that nobody reads or whose reader is gone, and
how a path's marks are found, by the program and by the model; and of the program a thread that isn't there."""
import subprocess
import threading
import time
from concurrent.futures import ThreadPoolExecutor

import pytest

from helpers.expecting_client import Client, Wrong, done, expect, numbers_of
from helpers.server_helpers import PROGRAM_SERVES, SERVERS, lawful_journal, peer_of
from nfs4tools.journal.entries import Expire, Path
from nfs4tools.messages import SETCLIENTID_CONFIRM, confirmation
from nfs4tools.processes import NO_CALLBACKS, PATIENCE, PROGRAM, Served

pytestmark = pytest.mark.quick

# How many connections are busy, how many orders are done beside them, and how many come whose answers nobody reads.
BUSY, BESIDE, UNREAD = 16, 100, 60000
DROPPED = "answers are dropped: standard output takes no more"


@pytest.fixture(params=SERVERS)
def command(request):
    """How a server is started."""
    return request.param


class Ordered(Served):
    """A server whose input has orders."""

    def __init__(self, command, *options, **how):
        words = [*command, "--listen", "127.0.0.1:0", "--tree", NO_CALLBACKS, "--orders", *options]
        super().__init__(words, **{"stdin": subprocess.PIPE, "stdout": subprocess.PIPE} | how)

    def send(self, *orders):
        self.program.stdin.write("".join(order + "\n" for order in orders).encode())
        self.program.stdin.flush()

    def answer(self):
        return self.program.stdout.readline().decode().rstrip("\n")

    def expect(self, order, answer):
        self.send(order)
        expect(order, self.answer(), answer)


def expect_end(served, output=b"", errors=b"", status=0):
    """It ends by itself, with this status, and has written no more than these."""
    expect("the end", served.end(), (status, output, errors))


def be_busy(served, uid, is_over):
    """A client that has an open and locks, again and again, until it is told to end."""
    with peer_of(served) as peer:
        client = Client(peer, uid)
        client.introduce()
        while not is_over.is_set():
            client.round(1)


def test_busy_connections(command, path_of):
    """Orders are done beside busy connections. A call that comes after an answer has its moment, and the moments of a
    connection never go down."""
    path, is_over = path_of("busy.journal"), threading.Event()
    with ThreadPoolExecutor(BUSY) as pool, Ordered(command, "--lease", "86400", "--journal", path) as served:
        try:
            jobs = [pool.submit(be_busy, served, uid, is_over) for uid in range(BUSY)]
            with peer_of(served) as peer:
                client = Client(peer, BUSY)
                client.introduce()
                for moment in range(1, BESIDE + 1):
                    served.expect("advance 1", f"moment {moment}: expired 0 revoked 0 forgotten 0")
                    client.round(1)
        finally:
            is_over.set()
        for job in jobs:
            job.result()
        served.expect("end", "ended")
        expect_end(served)
    moments = {uid: [] for uid in range(BUSY + 1)}
    for entry in lawful_journal(PROGRAM, path).entries:
        moments[entry.principal[1]].append(entry.moment)
    for uid, found in moments.items():
        expect(f"the moments of user {uid}", found, sorted(found))
        if len(set(found)) < BESIDE // 10:
            raise Wrong(f"the calls of user {uid} have {len(set(found))} moments")
    expect("the moments between orders", sorted(set(moments[BUSY])), list(range(BESIDE + 1)))


def test_unread(command):
    """Orders whose answers nobody reads are done all the same, and the end waits a second for the reader."""
    with Ordered(command) as served:
        for _ in range(UNREAD // 50):
            served.send(*["moment"] * 50)
        served.send("advance 7")
        served.end_input()
        expect("the status", served.program.wait(PATIENCE), 0)
        errors = served.program.stderr.read().decode().splitlines()
        expect("the line", errors[-1:], [DROPPED])
        answers = served.program.stdout.read().decode().splitlines()
    # The end may cut the last one.
    expect("answers", set(answers[:-1]) <= {"moment 0", "error: 64 orders wait already"}, True)


def test_closed(command):
    """Orders whose answers have no reader are done all the same."""
    with Ordered(command) as served:
        served.program.stdout.close()
        served.send("advance 5", "end")
        expect("the status", served.program.wait(PATIENCE), 0)


def test_order_of_errors(command):
    """As many lines as wait behind one that is done are orders, and those beyond are errors, in their order."""
    with Ordered(command) as served:
        served.send("wait up 9 4")
        # Time for it to be begun, and then for the others to be read.
        time.sleep(0.5)
        served.send(*["advance 1"] * 70)
        time.sleep(0.2)
        served.send("wait up 9 601")
        answers = [served.answer() for _ in range(72)]
        expect("the first", answers[0], "error: not within 4 s")
        done = [f"moment {moment}: expired 0 revoked 0 forgotten 0" for moment in range(1, 65)]
        expect("those that wait", answers[1:65], done)
        expect("those beyond", answers[65:], ["error: 64 orders wait already"] * 7)
        served.end_input()
        expect_end(served)


@pytest.mark.needs("nfs4state")
def test_refused_thread(preloaded):
    """Where the thread can't be made that does the orders, the run ends at once, and says so."""
    environment = preloaded("refuse_threads.c", REFUSED_THREAD="5")
    with Ordered(PROGRAM_SERVES, env=environment) as served:
        expect_end(served, errors=b"fault: no memory\n", status=1)


def confirm_again(client):
    """The client's confirmation comes again, which changes nothing."""
    confirm = numbers_of(client.got[0])[14]
    client.want((confirmation(client.epoch, client.number, confirm), done(SETCLIENTID_CONFIRM)))


def test_marks(command, path_of):
    """A path is found as it was marked last: by an order, or by a confirmation that isn't sent again."""
    path = path_of("marks.journal")
    with Ordered(command, "--journal", path) as served, peer_of(served) as peer:
        client = Client(peer, 1)
        served.send("wait up 1")
        client.introduce()
        expect("a client's path at first", served.answer(), "client 1 up")
        served.expect("mark 1 down", "client 1 down")
        served.expect("wait up 1 1", "error: not within 1 s")
        served.expect("wait down 1", "client 1 down")
        confirm_again(client)
        served.expect("wait down 1", "client 1 down")
        served.expect("journal", "journal 4 entries")
        served.expect("advance 91", "moment 91: expired 1 revoked 0 forgotten 0")
        served.expect("wait down 1 1", "error: not within 1 s")
        served.expect("end", "ended")
        expect_end(served)
    entries = lawful_journal(PROGRAM, path).entries
    expect("the marks", [entry.is_up for entry in entries if isinstance(entry, Path)], [False])
    expect("the ends", [entry.now for entry in entries if isinstance(entry, Expire)], [91])
