"""Listeners that do wrong, and a system that refuses what callbacks need. A bad listener of each kind does no harm:
other calls are answered, the run ends in time, and its journal is lawful. If the system refuses a socket, a call is
made later. If it refuses the thread that calls, no call is made, and the run says so at its end."""
import time
from functools import partial
from resource import RLIMIT_NOFILE, setrlimit

import pytest

from callbacks.callback_runs import (
    SOON,
    expect_none_granted,
    expect_null_call,
    expect_over,
    expect_time,
    marks_of,
    slowest_answer,
)
from helpers.callback_client import Borrower
from helpers.callback_peers import bad_peers, callback_at
from helpers.expecting_client import Client, expect
from helpers.server_helpers import tried_again
from nfs4tools.callbacks.listener import Listener, accept, keep_silent
from nfs4tools.messages import NULL, call, reply
from nfs4tools.wire import BOTH, READ

pytestmark = pytest.mark.quick

# The most files that the server may have open where it is refused a socket.
FILES_OPEN = 16


@pytest.mark.alone
@tried_again
def test_silent_client(run):
    """A client whose listener never answers holds back no client behind it, and is granted nothing."""
    with Listener(keep_silent) as silent, Listener(accept) as home, run() as server:
        first = server.client(1, silent)
        expect_null_call(silent)
        begun = time.monotonic()
        second = server.client(2, home)
        seconds = expect_null_call(home).moment - begun
        second.borrow(b"a", BOTH)
        slowest = slowest_answer(Client(server.peer(), 3))
        expect_none_granted(first, b"b")
        entries = server.end(seconds=SOON)
        expect("the marks of the silent one", marks_of(entries, first), [])
        expect("the marks of the other one", marks_of(entries, second), [True])
        expect_time("CB_NULL", seconds, SOON)
        expect_time("a reply", slowest, SOON)


@pytest.mark.parametrize(
    "goes_on, bad",
    [
        pytest.param(goes_on, bad, id=bad.name + ("" if goes_on else ", so many connections"))
        for bad in bad_peers()
        for goes_on in (True, False)
        if goes_on or bad.is_unanswered or bad.takes_connection
    ],
)
def test_bad_peer(run, goes_on, bad):
    """One client's peer is bad: another client is called and granted a delegation, and calls are answered."""
    connections = None if goes_on else 3 + bad.takes_connection
    with Listener(accept) as home, run(connections=connections) as server, bad.place(server.served.port) as place:
        first, second = server.client(1, place), server.client(2, home)
        expect_null_call(home)
        second.borrow(b"a", BOTH)
        slowest_answer(Client(server.peer(), 3))
        if goes_on and not bad.is_unanswered:
            expect("the marks", server.marks(first, 1), [bad.mark])
            for heard in place.heard if isinstance(place, Listener) else []:
                expect_over(heard)
        if bad.mark:
            first.borrow(b"b", READ)
        else:
            expect_none_granted(first, b"b")
        entries = server.end()
        marks, wanted = marks_of(entries, first), [] if bad.is_unanswered else [bad.mark]
        # A run of so many connections may end before the mark.
        expect("the marks", marks == wanted or not goes_on and marks == [], True)
        expect("the marks of the other one", marks_of(entries, second), [True])
        if goes_on and not bad.is_unanswered:
            expect("how many reasons", len(server.reasons(first)), 1 - bad.mark)


def test_refused_socket(run):
    """Where the process may have no more files open, no client is called, and no path is marked; once it may, it is."""
    limit = partial(setrlimit, RLIMIT_NOFILE, (FILES_OPEN, FILES_OPEN))
    with Listener(accept) as home, run(preexec_fn=limit) as server:
        client = Borrower(server.peer(), 1)
        client.null()
        idle = [server.peer()]
        while is_served(idle[-1]) or len(server.served.open_files()) < FILES_OPEN:
            idle.append(server.peer())
        client.introduce(callback_at(home.address))
        # Time for a mark that isn't to be.
        time.sleep(1)
        expect("how many calls came", len(home.heard), 0)
        for peer in reversed(idle):
            peer.socket.close()
        expect_null_call(home)
        client.borrow(b"a", BOTH)
        expect("the marks", marks_of(server.end(b"a connection isn't accepted; it is tried again"), client), [True])


def test_refused_thread(run, preloaded):
    """Where the second thread can't be made, which calls clients back, no client is called, and no path is marked. The
    run says so at its end."""
    environment = preloaded("refuse_threads.c", REFUSED_THREAD="2")
    with Listener(accept) as home, run(connections=1, env=environment) as server:
        client = server.client(1, home)
        expect_none_granted(client, b"a")
        # Time for a call that isn't to be.
        time.sleep(1)
        expect_none_granted(client, b"b")
        expect("the marks", marks_of(server.end(b"fault: no memory", status=1), client), [])
        expect("how many calls came", len(home.heard), 0)


def is_served(peer):
    """Whether a call of a connection is answered soon; otherwise it waits for its turn."""
    peer.send(call(7, NULL))
    try:
        return peer.receive(5) == reply(7)
    except TimeoutError:
        return False
