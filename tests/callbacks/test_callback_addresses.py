"""Clients that give another address for callbacks, and clients whose slots others get. The new address is called. A
late answer of the old one marks no path."""
import time

import pytest

from callbacks.callback_runs import (
    expect_delay,
    expect_none_granted,
    expect_null_call,
    expect_over,
    expect_recall,
    expect_record,
    heard_by,
    marks_of,
    xid_of,
)
from helpers.callback_client import Borrower
from helpers.callback_peers import accept_null, callback_at, nobody
from helpers.expecting_client import expect
from nfs4tools.callbacks.listener import Listener, accept, keep_silent, refuse_program
from nfs4tools.callbacks.messages import recall_call
from nfs4tools.messages import NFS4_OK
from nfs4tools.wire import BOTH, READ, Status, WRITE

pytestmark = pytest.mark.quick

# When an old call is answered late: before the new one is heard, too, or behind it alone.
when_answered = pytest.mark.parametrize("is_at_once", [True, False], ids=["at once", "late"])


@when_answered
@pytest.mark.parametrize(
    "answer, is_up, late_answer",
    [(accept, True, refuse_program), (refuse_program, False, accept)],
    ids=["accepts, old one refuses", "refuses, old one accepts"],
)
def test_new_address(run, answer, is_up, late_answer, is_at_once):
    """A client gives another address while the old one hangs, is called at the new one, and its path is as that says.
    What the old one answers late, once the new one is confirmed or has been called, marks nothing."""
    with Listener(keep_silent) as old, Listener(answer) as new, run() as server:
        client = server.client(1, old)
        hanging = expect_null_call(old)
        client.introduce(callback_at(new.address))
        if is_at_once:
            late_answer(hanging)
        expect_null_call(new)
        late_answer(hanging)
        expect("the marks", server.marks(client, 1), [is_up])
        expect_over(hanging)
        if is_up:
            client.borrow(b"a", BOTH)
        else:
            expect_none_granted(client, b"a")
        # Time for a mark that isn't to be.
        time.sleep(0.5)
        expect("the marks", marks_of(server.end(), client), [is_up])
        expect("how many calls came", (len(old.heard), len(new.heard)), (1, 1))


def test_recalls_before_new_address(run):
    """Recalls go to the address that their client had when they were decided, also when it has given another one, and
    come before that is called. There they mark nothing any more."""
    with Listener(accept_null) as old, Listener(accept) as new, nobody() as callback, run() as server:
        holder, other = server.client(1, old), server.client(2, callback)
        lent = [holder.borrow(name, READ) for name in (b"a", b"b")]
        expect_delay(other, b"a", WRITE)
        first = expect_recall(old, holder, lent[0])
        expect_delay(other, b"b", WRITE)
        wanted = holder.recall_of(lent[1])
        holder.introduce(callback_at(new.address))
        second, asked = heard_by(old, 2), expect_null_call(new)
        expect_record("CB_RECALL", second, recall_call(xid_of(second), wanted))
        for heard in first, second:
            expect_over(heard)
        expect("the xids rise", xid_of(first) < xid_of(second) < xid_of(asked), True)
        expect("the marks", server.marks(holder, 2), [True, True])
        expect("the marks", marks_of(server.end(), holder), [True, True])


@when_answered
@pytest.mark.parametrize("late_answer", [refuse_program, accept], ids=["refused", "accepted"])
def test_slots_given_again(run, late_answer, is_at_once):
    """Two clients begin anew while calls to them hang, a recall and a CB_NULL, and others get their slots. What is
    answered to the old calls, before the others are called or behind that, marks no path; and who had the delegation
    has ended."""
    with Listener(accept_null) as old, Listener(keep_silent) as silent, Listener(accept) as home, Listener(
        keep_silent
    ) as new, run() as server:
        holder, mute, other = server.client(1, old), server.client(2, silent), server.client(3, home)
        lent = holder.borrow(b"a", BOTH)
        expect("an OPEN of another file", other.open_by_name(b"b", READ).status, NFS4_OK)
        expect_delay(other, b"a", READ)
        hanging, newcomers = [expect_recall(old, holder, lent), expect_null_call(silent)], []
        for client, heard in zip((holder, mute), hanging):
            Borrower(server.peer(), client.uid).introduce(callback_at(home.address), b"verified")
            newcomers.append(server.client(client.uid + 3, new))
            if is_at_once:
                late_answer(heard)
        expect("their numbers", [client.number for client in newcomers], [257, 258])
        asked = [expect_null_call(new, place) for place in range(2)]
        for heard in hanging:
            late_answer(heard)
        expect("DELEGRETURN of who has ended", holder.give_back(lent), Status.EXPIRED)
        expect("the OPEN that waited", other.open_by_name(b"a", READ).status, NFS4_OK)
        for heard in hanging:
            expect_over(heard)
        # Time for marks that aren't to be.
        time.sleep(0.5)
        for heard in asked:
            accept(heard)
        expect("the marks", [server.marks(client, 1) for client in newcomers], [[True], [True]])
        newcomers[0].borrow(b"b", READ)
        entries = server.end()
        marks = [marks_of(entries, client) for client in (holder, mute, *newcomers)]
        expect("the marks", marks, [[True], [], [True], [True]])
        expect("how many calls came", [len(listener.heard) for listener in (old, silent, new)], [2, 1, 2])
