"""`nfs4state serve` over TCP, where the tests are both its clients and the listeners of their callbacks.

A delegation is granted once a client's listener has answered CB_NULL. It is recalled by CB_RECALL, whose bytes are the
model's, and returned; or it is revoked after a lease. A client whose path is down is granted none."""
from functools import partial

import pytest

from callbacks.callback_runs import (
    expect_delay,
    expect_none_granted,
    expect_null_call,
    expect_over,
    expect_recall,
    marks_of,
    xid_of,
)
from helpers.callback_client import Opened
from helpers.callback_peers import accept_null, callback_at, nobody
from helpers.expecting_client import expect
from nfs4tools.callbacks.listener import Listener, accept, answer_status, keep_silent
from nfs4tools.journal.entries import Revoke
from nfs4tools.messages import NFS4_OK
from nfs4tools.wire import BOTH, READ, Status, WRITE

pytestmark = pytest.mark.quick

# The seconds of the lease.
LEASE = 90
# The answer of a client that doesn't know the file.
DENY_HANDLE = answer_status(Status.BADHANDLE)


@pytest.mark.parametrize("is_nobody", [False, True], ids=["AUTH_SYS", "AUTH_NONE"])
def test_recall_and_return(run, is_nobody):
    """CB_NULL is asked, and then a delegation granted; another client's OPEN is DELAY, and the delegation recalled.
    DELEGRETURN lets that OPEN through. Each callback has a connection of its own."""
    with Listener(accept) as home, Listener(accept) as other_home, run() as server:
        holder, other = server.client(1, home, is_nobody=is_nobody), server.client(2, other_home)
        asked = expect_null_call(home)
        lent = holder.borrow(b"a", BOTH)
        expect("what it is for", lent.kind, WRITE)
        expect("an OPEN of another file", other.open_by_name(b"b", READ).status, NFS4_OK)
        expect_delay(other, b"a", READ)
        recalled = expect_recall(home, holder, lent)
        expect_delay(other, b"a", READ)
        expect("the marks", server.marks(holder, 2), [True, True])
        expect("DELEGRETURN", holder.give_back(lent), NFS4_OK)
        expect("the OPEN that waited", other.open_by_name(b"a", READ), Opened(NFS4_OK, None))
        for heard in asked, recalled:
            expect_over(heard)
        expect("the xids differ", xid_of(asked) != xid_of(recalled), True)
        expect("the connections differ", asked.peer != recalled.peer, True)
        entries = server.end()
        expect("how many calls came", len(home.heard), 2)
        expect("the marks", marks_of(entries, holder), [True, True])


@pytest.mark.parametrize(
    "answer, marks",
    [(keep_silent, [True]), (accept, [True, True]), (DENY_HANDLE, [True, False])],
    ids=["no answer", "OK", "BADHANDLE"],
)
def test_revocation(run, answer, marks):
    """A recall isn't followed by DELEGRETURN, whatever is answered: the delegation is revoked after a lease, and then
    its stateid is BAD_STATEID. The OPEN that waited goes through. A recall without an answer is let go."""
    with Listener(partial(accept_null, answer=answer)) as home, Listener(accept) as other_home, run() as server:
        holder, other = server.client(1, home), server.client(2, other_home)
        lent = holder.borrow(b"a", READ)
        other.open_by_name(b"b", READ)
        expect_delay(other, b"a", WRITE)
        recalled = expect_recall(home, holder, lent)
        expect("the marks", server.marks(holder, len(marks)), marks)
        for seconds, revoked in ((LEASE // 2, 0), (LEASE // 2, 0), (1, 1)):
            expect_delay(other, b"a", WRITE)
            expect("a sweep", server.order(f"advance {seconds}").split()[5], str(revoked))
            holder.renew()
            other.renew()
        expect("the OPEN that waited", other.open_by_name(b"a", WRITE).status, NFS4_OK)
        expect("DELEGRETURN behind a revocation", holder.give_back(lent), Status.BAD_STATEID)
        expect_over(recalled)
        entries = server.end()
        expect("who loses what", [it.state for it in entries if isinstance(it, Revoke)], [lent.number])
        expect("the marks", marks_of(entries, holder), marks)
        expect("how many calls came", len(home.heard), 2)


def test_path_down(run):
    """A client that can't be called back is granted nothing, and so is in nobody's way."""
    with nobody() as callback, Listener(accept) as home, run() as server:
        client, other = server.client(1, callback), server.client(2, home)
        expect("the marks", server.marks(client, 1), [False])
        expect_none_granted(client, b"a")
        lent = other.borrow(b"b", BOTH)
        expect_delay(client, b"b", READ)
        expect_recall(home, other, lent)
        expect("the marks", marks_of(server.end(), client), [False])
        expect("the reasons", (server.reasons(client), server.reasons(other)), (["connection refused"], []))


def test_refused_recall(run):
    """A client that refuses a recall is granted nothing from then on, until it gives another callback."""
    with Listener(partial(accept_null, answer=DENY_HANDLE)) as home, Listener(accept) as other_home, run() as server:
        holder, other = server.client(1, home), server.client(2, other_home)
        lent = holder.borrow(b"a", READ)
        other.open_by_name(b"b", READ)
        expect_delay(other, b"a", WRITE)
        expect("the marks", server.marks(holder, 2), [True, False])
        expect_over(home.heard[1])
        expect("DELEGRETURN", holder.give_back(lent), NFS4_OK)
        expect_none_granted(holder, b"a")
        holder.introduce(callback_at(other_home.address))
        holder.borrow(b"a", READ)
        expect("the marks", marks_of(server.end(), holder), [True, False, True])
        expect("the reasons", server.reasons(holder), [f"status {Status.BADHANDLE:d} of CB_COMPOUND"])
