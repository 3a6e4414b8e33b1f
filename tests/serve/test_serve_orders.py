"""`serve --orders`: a server in a test's hand, whose moments, marks and waits are lines of its input.

Each order gets its answer, and its errors, which change nothing: also a line that is too long, and one that the end of
the input cuts. Moments move by `advance` alone: a lease, a delegation and an idle owner end by it, and calls have its
moments in the journal. What has no room in the journal is counted. A wait ends when a callback marks the path, after its
time, and with the input. At most 64 orders wait, and the errors of the others come in their order. The journal is
lawful, and there in the middle of a run. A reader that never reads, or that is gone, keeps no order from being done, and
the end of a run by a second at most."""
import os
import subprocess
import sys
import threading
import time

import pytest

from helpers.expecting_client import expect
from helpers.server_helpers import MODEL_SERVES, SERVERS, lawful_journal
from nfs4tools import READ, WRITE, CallbackListener, Client, OrderRefused, OrderedServer, Status, StatusError, Swept
from nfs4tools.callbacks.listener import keep_silent, refuse_program
from nfs4tools.journal.entries import Expire, Forget, Path, Revoke
from nfs4tools.messages import GETATTR, NFS4_OK, PUTROOTFH, compound, words
from nfs4tools.model.order_queue import DROPPED, LINE_LIMIT, MOST_ANSWERS, MOST_ORDERS, TOO_MANY
from nfs4tools.model.orders import (
    CUT,
    FULL,
    JOURNAL_LOST,
    LAST_MOMENT,
    NO_JOURNAL,
    NO_MOMENT,
    NO_ORDER,
    RUN_ENDS,
    TOO_LONG,
)
from nfs4tools.model.state import JOURNAL_LIMIT
from nfs4tools.processes import NO_CALLBACKS, PROGRAM, Peer, Served, TOP, is_silent
from serve.edge_runs import limit_files

pytestmark = pytest.mark.quick

LENDING, PROBED = os.path.join(TOP, "samples/lending.toml"), os.path.join(TOP, "samples/files.toml")
# The seconds of the lease; and how many orders more are sent than may wait.
LEASE, MORE = 90, 6
# How many entries a call makes, how many calls are under way at once, and a number of entries that the model makes soon.
ENTRIES, AT_ONCE, FEW = 63, 64, 600
MODEL_WITH_FEW = f"""
from nfs4tools.model import serve
make = serve.server_of
def with_few_entries(*given):
    server = make(*given)
    server.journal_limit = {FEW}
    return server
serve.server_of = with_few_entries
serve.main()
"""


@pytest.fixture(params=SERVERS)
def command(request):
    """How a server is started that takes orders."""
    return request.param


@pytest.fixture
def ordered(command, path_of):
    """Begins a server that takes orders, with a journal."""

    def begin(*options, tree=NO_CALLBACKS):
        return OrderedServer("--tree", tree, *options, journal=path_of("run.journal"), command=command)

    return begin


def client_of(server, name, **how):
    host, port = server.address
    return Client(host, port, name, **how)


def refused(server, order):
    """An order is answered by an error: what it says."""
    with pytest.raises(OrderRefused) as caught:
        server.order(order)
    return str(caught.value).partition(": error: ")[2]


def entries_of(server):
    return lawful_journal(PROGRAM, server.journal).entries


def events(server, kind):
    """The entries of a kind in the journal of a server that has ended."""
    return [it for it in entries_of(server) if isinstance(it, kind)]


# Answers and errors.


def test_moments(ordered):
    with ordered() as server:
        assert [server.order(it) for it in ("moment", "advance 91", "advance 0", "sweep", "moment", "entries")] == [
            "moment 0",
            "moment 91: expired 0 revoked 0 forgotten 0",
            "moment 91: expired 0 revoked 0 forgotten 0",
            "moment 91: expired 0 revoked 0 forgotten 0",
            "moment 91",
            "entries 0",
        ]
        assert refused(server, f"advance {LAST_MOMENT - 90}") == NO_MOMENT and server.moment == 91
        assert refused(server, "advance 99999999999999999999999") == NO_MOMENT and server.moment == 91
        assert server.advance(LAST_MOMENT - 91) == Swept(LAST_MOMENT, 0, 0, 0)
        assert refused(server, "advance 1") == NO_MOMENT and server.moment == LAST_MOMENT == 1099511627773


UNREAD = [
    "",
    "advance",
    "advance -1",
    "advance x",
    "advance 1 2",
    "advance +1",
    "advance 1_0",
    "advance\t1",
    "Advance 1",
    "moment\r",
    "sweep 1",
    "mark 1",
    "mark up 1",
    "mark 1 left",
    "mark 4294967296 up",
    "wait 1 up",
    "wait up",
    "wait up 1 0",
    "wait up 1 601",
    "wait up 1 5 5",
    "journals",
    "\xff\xfe",
    "\x00",
    "advance \u0661",
    LINE_LIMIT * "x",
]
# Lines that are orders, but for their length.
LONG = [f"{order:{length}}" for order in ("sweep", "advance 1") for length in (LINE_LIMIT + 1, 200 * LINE_LIMIT)]


def test_unread_orders(ordered):
    """A line that is no order is answered by an error, and changes nothing."""
    with ordered() as server, client_of(server, "c1") as client:
        client.begin()
        for order in UNREAD:
            assert refused(server, order) == NO_ORDER, order
        for order in LONG:
            assert refused(server, order) == TOO_LONG, order
        assert (server.moment, server.entries) == (0, 2)


def test_blanks(ordered):
    """Blanks stand around words, and a line may be as long as that."""
    with ordered() as server:
        for order in ("  advance   3  ", "advance 007", f"{'advance 1':{LINE_LIMIT}}", f"{'advance 1':>{LINE_LIMIT}}"):
            server.order(order)
        assert server.moment == 12


def test_dead_client(ordered):
    with ordered() as server, client_of(server, "c1") as client:
        for order in ("mark 1 up", "mark 1 down"):
            assert refused(server, order) == "client 1 isn't live"
        assert refused(server, "mark 4294967295 up") == "client 4294967295 isn't live"
        client.begin()
        assert server.order("mark 1 up") == "client 1 up" and server.order("mark 1 down") == "client 1 down"
    assert events(server, Path) == [Path(1, 1), Path(1, 0)]


def test_no_journal(command):
    with OrderedServer(command=command) as server:
        assert refused(server, "journal") == NO_JOURNAL


def test_journal_so_far(ordered):
    """The journal is there in the middle of a run, up to the last entry, and is gone behind the whole one."""
    with ordered() as server, client_of(server, "c1") as client:
        assert server.order("journal") == "journal 0 entries"
        client.begin()
        client.open("a")
        count = server.entries
        assert server.order("journal") == f"journal {count} entries"
        found = server.journal_so_far()
        assert len(found) == count and [it.operation for it in found][2] == "OPEN"
    assert not os.path.exists(server.journal + ".part")
    assert len(entries_of(server)) == count


def test_arguments(command):
    for flag in ("--until-killed", "--orders"):
        ran = subprocess.run([*command, "--orders", flag], stdin=subprocess.DEVNULL, capture_output=True)
        assert ran.returncode == 2, flag


# What time ends.


def test_lease(ordered):
    """A client lives as long as the moments don't pass its lease, however many seconds that takes; and its calls have
    the moments that were ordered."""
    with ordered() as server, client_of(server, "c1") as client:
        client.begin()
        assert server.advance(LEASE) == Swept(LEASE, 0, 0, 0)
        client.renew()
        client.open("a")
        assert server.advance(LEASE) == Swept(2 * LEASE, 0, 0, 0)
        assert server.advance(1) == Swept(2 * LEASE + 1, 1, 0, 0)
        with pytest.raises(StatusError) as caught:
            client.renew()
        assert caught.value.status == Status.STALE_CLIENTID
    assert events(server, Expire) == [Expire(1, LEASE, 2 * LEASE + 1)]
    assert sorted({it.moment for it in entries_of(server) if hasattr(it, "answer")}) == [0, LEASE]


def test_delegation(ordered):
    """A recalled delegation is revoked once the moments pass a lease since its recall."""
    with ordered(tree=LENDING) as server:
        with client_of(server, "c1") as holder, client_of(server, "c2") as other:
            holder.begin()
            other.begin()
            holder.open_lent("a", READ)
            with pytest.raises(StatusError) as caught:
                other.open("a", WRITE)
            assert caught.value.status == Status.DELAY
            for _ in range(2):
                server.advance(LEASE // 2)
                holder.renew()
                other.renew()
            assert server.advance(1) == Swept(LEASE + 1, 0, 1, 0)
            other.open("a", WRITE)
    assert [it.now for it in events(server, Revoke)] == [LEASE + 1]


def test_idle_owner(ordered):
    with ordered() as server, client_of(server, "c1") as client:
        client.begin()
        client.close(client.open("a"))
        server.advance(LEASE)
        client.renew()
        assert server.advance(1) == Swept(LEASE + 1, 0, 0, 1)
    assert [it.now for it in events(server, Forget)] == [LEASE + 1]


def test_no_time_by_itself(ordered):
    """Seconds that go by end nothing."""
    with ordered("--lease", "1") as server, client_of(server, "c1") as client:
        client.begin()
        time.sleep(3)
        client.renew()
        assert server.moment == 0
    assert events(server, Expire) == []


def test_marks(ordered):
    """A client is lent files while its path is up, and no further one while it is down."""
    with ordered(tree=LENDING) as server, client_of(server, "c1") as client:
        client.begin()
        client.close(client.open("a"))
        for place, path in enumerate(("down", "up", "down", "up", "up")):
            server.mark(client, path == "up")
            lent = client.open("a")
            assert (lent.delegation is not None) == (path == "up"), place
            client.close(lent)
            if lent.delegation is not None:
                client.return_delegation(lent.delegation)
    assert [it.is_up for it in events(server, Path)] == [0, 1, 0, 1, 1]


def fill(peer, count):
    """Has the journal have so many entries more, by calls that change nothing."""
    sizes = [ENTRIES] * (count // ENTRIES) + [count % ENTRIES]
    while sizes:
        now, sizes = sizes[:AT_ONCE], sizes[AT_ONCE:]
        peer.send(b"".join(compound(1, words(PUTROOTFH), *[words(GETATTR, 0)] * size) for size in now))
        for _ in now:
            assert peer.receive()[28:32] == words(NFS4_OK)


def with_few_entries(command):
    """The command, and how many entries a journal has at most. Of the model that is less, since it is slow."""
    if command is not MODEL_SERVES:
        return command, JOURNAL_LIMIT
    return [sys.executable, "-c", MODEL_WITH_FEW], FEW


@pytest.mark.long
def test_full_journal(command):
    """The answer to a sweep says what has no room in the journal: of two idle owners the second one, and later also both
    clients."""
    command, limit = with_few_entries(command)
    with OrderedServer("--tree", NO_CALLBACKS, command=command) as server, client_of(server, "c1") as client:
        client.begin()
        for owner in ("one", "two"):
            client.close(client.open("a", owner=owner))
        with client_of(server, "c2") as other, Peer(server.address) as peer:
            server.advance(80)
            client.renew()
            other.begin()
            fill(peer, limit - 1 - server.entries)
            assert server.order("advance 11") == "moment 91: expired 0 revoked 0 forgotten 1 stopped"
            assert server.order("advance 79") == "moment 170: expired 0 revoked 0 forgotten 0 stopped"
            assert refused(server, "mark 1 up") == FULL
            assert server.order("advance 1") == "moment 171: expired 0 revoked 0 forgotten 0 refused 2 stopped"
            assert server.sweep() == Swept(171, 0, 0, 0, 2, True)
            assert server.entries == limit


# Waits.


def test_wait(ordered):
    """A wait ends soon after a callback has marked the path; a client that isn't live yet is waited for."""
    with ordered(tree=PROBED) as server, CallbackListener() as listener:
        waiting = threading.Thread(target=server.wait_up, args=(1, 60), daemon=True)
        waiting.start()
        with client_of(server, "c1", callback=listener) as client:
            time.sleep(0.2)
            assert waiting.is_alive()
            client.begin()
            waiting.join(60)
            assert not waiting.is_alive()
            assert client.open("a").delegation is None
            assert client.open("a").delegation is not None
            with CallbackListener(on_null=refuse_program) as other_home:
                client.callback = other_home.callback
                client.begin()
                server.wait_down(client, 60)
    assert events(server, Path) == [Path(1, 1), Path(1, 0)]


def test_wait_in_vain(ordered):
    """A wait has an end, after the seconds that it says, and 5 without them."""
    with ordered(tree=PROBED) as server, CallbackListener(on_null=keep_silent) as listener:
        with client_of(server, "c1", callback=listener) as client:
            client.begin()
            for order, seconds in (("wait up 1 1", 1), ("wait down 1", 5), ("wait up 9 1", 1)):
                begun = time.monotonic()
                assert refused(server, order) == f"not within {seconds} s"
                assert seconds <= time.monotonic() - begun < seconds + 20


def served(command, *options, **how):
    how = {"stdin": subprocess.PIPE, **how}
    return Served([*command, "--listen", "127.0.0.1:0", "--orders", "--tree", NO_CALLBACKS, *options], **how)


def ended(server):
    """The status, the answers and the lines of a server whose input has ended."""
    status, output, errors = server.end()
    return status, output.decode().splitlines(), errors.decode().splitlines()


def test_end_in_a_wait(command):
    """Orders that came before the end of the input are done; a wait ends with the input, also behind it, and also for a
    path that is marked so."""
    with served(command) as server, Client("127.0.0.1", server.port, "c1") as client:
        client.begin()
        server.program.stdin.write(b"wait up 1\nwait up 2 600\nadvance 2\nwait up 2 600\nwait up 1\nmoment\n")
        time.sleep(0.5)
        moved, error = "moment 2: expired 0 revoked 0 forgotten 0", f"error: {RUN_ENDS}"
        expect("the end", ended(server), (0, ["client 1 up", error, moved, error, error, "moment 2"], []))


def test_cut_line(command):
    """A line that the end of the input cuts is no order."""
    with served(command) as server:
        server.program.stdin.write(b"advance 1\nadvance 2")
        status, answers, lines = ended(server)
    assert (status, len(answers), lines) == (0, 2, [])
    assert answers[0].startswith("moment 1: ") and answers[1] == f"error: {CUT}"


def test_end(command, path_of):
    """`end` is the last order, and answered when the journal is written."""
    path = path_of("run.journal")
    with served(command, "--journal", path) as server:
        server.program.stdin.write(b"advance 1\nend\nmoment\n")
        assert server.next_answer().startswith(b"moment 1: ")
        assert server.next_answer() == b"ended\n"
        assert lawful_journal(PROGRAM, path).entries == []
        expect("the end", ended(server), (0, [], []))


def test_end_without_a_journal(command, path_of):
    """A limit on the size of files leaves the journal's file no room for what stands before the entries."""
    with served(command, "--journal", path_of("run.journal"), preexec_fn=limit_files(100)) as server:
        server.program.stdin.write(b"journal\nend\n")
        status, answers, lines = ended(server)
    assert (status, len(answers), lines[-1]) == (1, 2, "fault: file not written")
    assert answers == [f"error: {JOURNAL_LOST}", "ended"]


def test_many_orders(command):
    """64 orders wait behind the one that is done, or before it is begun, and the errors of others come behind their
    answers."""
    with served(command) as server:
        server.program.stdin.write(b"wait up 1 2\n" + b"moment\n" * (MOST_ORDERS + MORE))
        answers = [server.next_answer() for _ in range(1 + MOST_ORDERS + MORE)]
        assert answers[0] == b"error: not within 2 s\n"
        done = answers.count(b"moment 0\n")
        assert done in (MOST_ORDERS - 1, MOST_ORDERS) and answers[1 : 1 + done] == [b"moment 0\n"] * done
        assert answers[1 + done :] == [TOO_MANY.encode() + b"\n"] * (MOST_ORDERS + MORE - done)
        server.program.stdin.write(b"moment\n")
        assert server.next_answer() == b"moment 0\n"
        expect("the end", ended(server), (0, [], []))


# Readers of answers.


def order_slowly(server, order, count):
    """Sends so many orders, not more at once than may wait."""
    for _ in range(0, count, MOST_ORDERS // 2):
        server.program.stdin.write(order * (MOST_ORDERS // 2))
        time.sleep(0.002)


def test_silent_reader(command, path_of):
    """Nobody reads the answers: some are dropped, which a line says once, orders are done, and the run ends."""
    path = path_of("run.journal")
    with served(command, "--journal", path) as server:
        with Client("127.0.0.1", server.port, "c1") as client:
            client.begin()
            order_slowly(server, b"moment\n", 16384)
            with pytest.raises(StatusError):
                while True:
                    server.program.stdin.write(b"advance 91\n")
                    time.sleep(0.1)
                    client.renew()
        server.end_input()
        assert server.program.wait(60) == 0
        status, output, errors = server.end()
        lines = errors.decode().splitlines()
        assert lines == [DROPPED] and output.startswith(b"moment 0\n")
    assert [it for it in lawful_journal(PROGRAM, path).entries if isinstance(it, Expire)]


def test_late_reader(command):
    """A reader who comes late gets the first answers in their order, and those to later orders."""
    with served(command) as server:
        order_slowly(server, b"advance 1\n", 16384)
        answers = [server.next_answer()]
        while not is_silent(server.program.stdout, 1):
            answers.append(server.next_answer())
        # A pipe has as many as wait, and the thread that writes may have taken as many.
        assert MOST_ANSWERS <= len(b"".join(answers)) <= 3 * MOST_ANSWERS
        moments = [it for it in answers if it != TOO_MANY.encode() + b"\n"]
        assert moments == [b"moment %d: expired 0 revoked 0 forgotten 0\n" % (1 + it) for it in range(len(moments))]
        server.program.stdin.write(b"moment\n")
        assert int(server.next_answer().split()[-1]) > len(moments)
        expect("the end", ended(server), (0, [], [DROPPED]))


def test_reader_that_is_gone(command, path_of):
    path = path_of("run.journal")
    with served(command, "--journal", path) as server:
        with Client("127.0.0.1", server.port, "c1") as client:
            client.begin()
            server.program.stdout.close()
            server.program.stdout = None
            server.program.stdin.write(b"advance 80\nmoment\nadvance 80\n")
            server.end_input()
            assert server.program.wait(60) == 0
    assert [it.now for it in lawful_journal(PROGRAM, path).entries if isinstance(it, Expire)] == [160]
