"""Ten tests of a client: opens, bytes, locks, leases, delegations, and what is lost. Each has a server of its own."""
from concurrent.futures import ThreadPoolExecutor

import pytest

from nfs4tools import READ, WRITE, Relay, Status, StatusError


def refusal_of(call, *given):
    """The status with which a call is refused."""
    with pytest.raises(StatusError) as refused:
        call(*given)
    return refused.value.status


# Opens and bytes.


def test_reads(mine):
    file = mine.open("a", READ)
    assert mine.read(file) == b"hello"
    mine.close(file)


def test_writes(mine, other):
    file = mine.open("b")
    mine.write(file, b"some bytes")
    mine.close(file)
    assert other.read(other.open("b", READ)).data == b"some bytes"


def test_shares(mine, other, allowed):
    """The application is told that another client denies it to write, and may read."""
    allowed.add(Status.SHARE_DENIED)
    other.open("a", access=READ, deny=WRITE)
    assert refusal_of(mine.open, "a", WRITE) == Status.SHARE_DENIED
    assert mine.read(mine.open("a", READ)) == b"hello"


# Locks.


def test_locks(server, mine, other, allowed):
    """Another client finds the locks, which are made one after the other, and none when they are gone."""
    allowed.add(Status.DENIED)
    file = mine.open("a")
    for offset in (0, 20, 40):
        mine.lock(file, offset, 10)
        server.advance(10)
    theirs = other.open("a")
    assert other.lock_test(theirs, 25, 1) is not None
    for offset in (0, 20, 40):
        mine.unlock(file, offset, 10)
    assert other.lock_test(theirs) is None
    mine.close(file)


def test_denied_lock(mine, other, allowed):
    allowed.add(Status.DENIED)
    other.lock(other.open("a"), 0, 10)
    file = mine.open("a")
    assert refusal_of(mine.lock, file, 5, 10) == Status.DENIED
    mine.lock(file, 10, 10)


def test_lost_reply(server, new_client):
    """The reply to LOCK is lost, and the call comes again as it was."""
    with Relay(server.address, "lose-reply LOCK 1") as relay:
        mine = new_client(relay.address)
        file = mine.open("a")
        mine.lock(file, 0, 10)
        mine.unlock(file, 0, 10)
        mine.end()


# Time.


def test_renews(server, mine):
    """The client lives for four leases in which the application does nothing."""
    file = mine.open("a", READ)
    for _ in range(8):
        server.advance(45)
        mine.work(45)
    assert mine.read(file) == b"hello"


def test_begins_anew(server, mine, allowed):
    """The network was away for more than a lease: the client begins anew, and opens its file again."""
    allowed.add(Status.EXPIRED)
    file = mine.open("a", READ)
    assert server.advance(91).expired == 1
    assert refusal_of(mine.read, file) == Status.EXPIRED
    mine.recover()
    assert mine.read(mine.open("a", READ)) == b"hello"


# Delegations.


def test_waits_for_a_delegation(server, mine, other, listener, allowed):
    """The file is lent to another client, which returns it when the server recalls it."""
    allowed.add(Status.DELAY)
    mine.open("b", READ)
    server.wait_up(other)
    lent = other.open_lent("a")
    with ThreadPoolExecutor() as pool:
        returned = pool.submit(lambda: other.return_delegation(listener.wait_for_recall()))
        file = mine.open("a", READ)
        returned.result()
    other.close(lent)
    assert mine.read(file) == b"hello"


def test_returns_a_delegation(server, mine, other, allowed):
    """The client returns a file that is recalled, within the lease."""
    allowed.add(Status.DELAY)
    server.wait_up(mine.number)
    server.wait_up(other)
    mine.close(mine.open("a"))
    assert mine.open("a").delegation is not None
    before = server.entries
    assert refusal_of(other.open, "a") == Status.DELAY
    # The OPEN, and the mark of the client's callback path: the client has answered the recall.
    server.wait_for_entries(before + 2)
    for seconds in (45, 45, 1):
        mine.work(seconds)
        other.renew()
        assert server.advance(seconds).revoked == 0, "the delegation was revoked: it wasn't returned"
    other.open("a")
