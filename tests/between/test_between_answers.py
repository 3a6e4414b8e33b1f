"""Answers of `tools/between` in the server's place: the sequence ids of owners behind them, and recalls and leases that
a rule keeps from their clients."""
import re
import time

import pytest

from helpers.between_peers import DELAY, GRACE, Patient, RESOURCE, Relay as Forwarding, Resender
from helpers.between_runs import (
    Between,
    relayed,
    serving,
    status_of,
    uids,
)
from helpers.callback_client import Borrower
from helpers.callback_peers import callback_at
from helpers.expecting_client import done, expect, numbers_of
from nfs4tools import CallbackListener, Client, Relay
from nfs4tools.callbacks.listener import CALLBACK_PROGRAM, Listener, accept
from nfs4tools.callbacks.messages import null_call
from nfs4tools.messages import (
    LOCK,
    NFS4_OK,
    NULL,
    PUTFH,
    PUTROOTFH,
    call,
    compound,
    reply,
    results,
    setclientid,
    words,
)
from nfs4tools.processes import Peer, REPLY_PATIENCE
from nfs4tools.trace.watching import Watcher
from nfs4tools.wire import BOTH as BOTH_ACCESS, Status, opaque


def test_answer_again(server):
    """The answer in the server's place is kept: the same request gets it again, behind the operations before it, which
    are run again; and another request with its sequence id is BAD_SEQID."""
    with relayed(
        server,
        "answer DELAY LOCK 2",
        status=1,
        wrong=[r"doesn't move on: LOCK"],
        told=[r"^1: answered \S*BAD_SEQID in the server's place$", "the stored reply"],
    ) as (client, relay, _):
        client.begin()
        lock = client.at_file(client.next_lock_words(2))
        before = len(relay.heard)
        for number in range(1, 3):
            expect("LOCK", status_of(client, *lock), (DELAY, 2))
            client.expect(DELAY, [(None, done(PUTFH)), (None, done(LOCK, status=DELAY))])
            expect("what the server is asked meanwhile", len(relay.heard), before + number)
        expect("LOCKs that the server is asked", relay.count(client.next_lock_words(2)), 0)
        expect("LOCKU by the same id", status_of(client, *client.at_file(client.locku_words(2))), (Status.BAD_SEQID, 2))
        client.lock_last, sent = 2, client.next_lock_words(2)
        client.take_next_lock()
        expect("the id that the server is given", relay.count(sent), 1)
        client.unlock()
        client.close()


# The xids of calls, and the status that each gets of a rule for each second call.
FIRST_OPERATIONS = [
    (0x71, NFS4_OK),
    (0x72, Status.DELAY),
    (0x72, NFS4_OK),
    (0x73, NFS4_OK),
    (0x74, Status.DELAY),
]


def test_answer_to_the_first_operation(server):
    """The answer to a call's first operation has the call's xid (RFC 5531, section 9), and its one result."""
    with Relay(server, "answer DELAY PUTROOTFH each 2") as relay, Peer(relay.address) as peer:
        for number, status in FIRST_OPERATIONS:
            peer.send(compound(number, words(PUTROOTFH)))
            assert peer.receive() == results(number, status, done(PUTROOTFH, status=status))


def test_release(server):
    """RELEASE_LOCKOWNER ends that ids are rewritten."""
    told = ["its owner goes on", r"\b1 faults, 0 wrong"]
    with relayed(server, "answer DELAY LOCK 2", told=told) as (client, relay, _):
        client.begin()
        client.take_next_lock()
        expect("an id that is rewritten", relay.count(client.next_lock_words(3)), 0)
        client.unlock()
        client.obtain(lambda _: [client.release_words()])
        client.lock_last = 0
        sent = client.first_lock_words(client.last + 1)
        client.take_first_lock()
        expect("a first LOCK as it is", relay.count(sent), 1)
        sent = client.next_lock_words(2)
        client.take_next_lock()
        expect("a LOCK as it is", relay.count(sent), 1)
        client.unlock()
        client.close()


def test_known_lock_owner(server):
    """A LOCK that brings a known lock owner isn't answered in the server's place; the next one is."""
    with relayed(
        server,
        "answer RESOURCE LOCK 2",
        told=["^1: answer RESOURCE LOCK 2: .*LOCK.*RESOURCE: answered in the" " server's place$"],
    ) as (client, _, _):
        client.begin()
        client.file = 2
        found = client.obtain(lambda last: [words(PUTROOTFH), client.open_words(last)], "last")
        client.open_seqid, client.open = found[13], found[16]
        operation = client.first_lock_words(client.last + 1)
        expect("a LOCK by a known lock owner", status_of(client, *client.at_file(operation)), (NFS4_OK, 2))
        found = numbers_of(client.got[-1])
        client.last, client.lock_last, client.lock_seqid, client.lock = client.last + 1, 2, found[13], found[16]
        expect("the next LOCK", status_of(client, *client.at_file(client.next_lock_words(3))), (RESOURCE, 2))
        client.take_next_lock()


def test_fault_before(server):
    """Where an operation before it isn't OK, that reply is given, and the fault waits. Results have the form that RFC
    7531 gives them."""
    with relayed(
        server,
        "answer DELAY READ 1",
        "answer GRACE SETATTR 1",
        told=["passed on unchanged; the fault waits$", r"\b[23] faults, 0 wrong"],
    ) as (client, relay, _):
        client.begin()
        expect("READ of no file", status_of(client, words(PUTFH) + opaque(b"nfh1none"), client.read_words())[1], 1)
        expect("READ", status_of(client, *client.at_file(client.read_words())), (DELAY, 2))
        setattr_words = words(34) + client.open_stateid() + words(0) + opaque(b"")
        status_of(client, *client.at_file(setattr_words))
        client.expect(GRACE, [(None, done(PUTFH)), (None, done(34, words(0), status=GRACE))])
        expect("what the server is asked", (relay.count(client.read_words()), relay.count(setattr_words)), (0, 0))


def test_addresses(server):
    """The address for callbacks passes as it is, but where a rule names a callback; so does one that isn't of TCP."""
    for rules, passed in ((), 1), (["twice CB_RECALL 1"], 0):
        with relayed(server, *rules, status=len(rules)) as (client, relay, _):
            client.introduce()
            other = setclientid(b"verifier", b"other %d" % client.uid, b"")
            client.obtain(lambda _: [other])
            expect("an address as it is", relay.count(setclientid(b"verifier", client.name)), passed)
            expect("no address", relay.count(other), 1)


def test_callbacks_come_through(server):
    """The address that the server has in the place of the client's leads to the client, through the relay."""
    with Forwarding(server) as forwarding, CallbackListener() as home:
        with Relay(forwarding.address, "twice CB_NULL 1") as relay:
            with Client(*relay.address, f"c{next(uids)}", callback=home) as client:
                client.begin()
                found = re.search(rb"127\.0\.0\.1\.(\d+)\.(\d+)", forwarding.heard[0].data)
                assert found is not None
                there = "127.0.0.1", 256 * int(found[1]) + int(found[2])
                assert there != home.address
                with Peer(there) as peer:
                    peer.send(null_call(7, CALLBACK_PROGRAM))
                    assert peer.receive() == reply(7)
        assert len(home.nulls) == 2
    assert relay.faults[0].place == "callback connection 1"


class Seen(Watcher):
    """What a relay shows of callbacks."""

    def __init__(self):
        self.callbacks = []

    def see(self, place, is_reply, body, fate=""):
        if place.is_callback:
            self.callbacks.append((place.number, is_reply, fate))


@pytest.mark.needs("nfs4state")
def test_watched_callbacks():
    """Callbacks come through a relay that is watched, without a rule that names them; otherwise they don't."""
    with serving("program", tree=None) as server:
        for watcher, path in (Seen(), "a"), (None, "b"):
            with CallbackListener() as home, Relay(server, watcher=watcher) as relay:
                with Client(*relay.address, f"c{next(uids)}", callback=home) as client:
                    client.begin()
                    client.open_lent(path)
                assert len(home.nulls) == 1
            assert watcher is None or watcher.callbacks == [(1, False, ""), (1, True, "")]
            assert relay.report()["connections"] == (1 if watcher is None else 2)


RECALLS = [
    (
        "lose-call",
        0,
        [
            "^1: lose-call CB_RECALL 1: callback connection .*CB_RECALL.*: the call is lost",
            "^1: never comes again: .*CB_RECALL",
        ],
    ),
    ("lose-reply", 1, ["^1: lose-reply CB_RECALL 1: callback connection .*the reply is lost"]),
    ("twice", 2, ["^1: twice CB_RECALL 1: .*the call is sent again$"]),
    ("answer DELAY", 0, ["^1: answer DELAY CB_RECALL 1: .*answered in the server's place$"]),
]


@pytest.mark.needs("nfs4state")
@pytest.mark.parametrize("fault, calls, told", RECALLS, ids=[fault for fault, *_ in RECALLS])
def test_recall(fault, calls, told):
    """A CB_RECALL that meets a fault: so many calls come to the client's listener. The file is given back."""
    with serving("program", tree=None) as server, Between(server, f"{fault} CB_RECALL 1") as between, Listener(
        accept
    ) as home, Listener(accept) as other_home, Resender(between.address) as peer, Resender(
        between.address
    ) as other_peer:
        holder, other = Borrower(peer, next(uids)), Borrower(other_peer, next(uids))
        holder.introduce(callback_at(home.address))
        other.introduce(callback_at(other_home.address))
        lent = holder.borrow(b"a", BOTH_ACCESS)
        expect("an OPEN that it is in the way of", other.open_by_name(b"a", 1).status, DELAY)
        between.wait_until_told(told[0])
        heard = home.wait_for(1 + calls, REPLY_PATIENCE)
        # Time for a call that isn't to come.
        time.sleep(0.5)
        expect("the calls that come", [call.call.recall is not None for call in home.heard], [False] + [True] * calls)
        if calls:
            expect("the file", heard[-1].call.recall.filehandle[-4:], words(lent.file))
            expect("the same call", len({call.data for call in heard[1:]}), 1)
        expect("DELEGRETURN", holder.give_back(lent), NFS4_OK)
        expect("the OPEN that waited", other.open_by_name(b"a", 1).status, NFS4_OK)
    between.expect_told(told=told)


def test_away_beyond_a_lease(kind):
    """A client that is kept away for longer than its lease has lost what it had."""
    with serving(kind, "--lease", "5") as server, Between(server, "away 12 RENEW 1") as between, Resender(
        between.address
    ) as peer, Resender(between.address) as other:
        client = Patient(peer, next(uids))
        other.send(call(1, NULL))
        other.receive()
        client.begin()
        expect("RENEW", status_of(client, client.renew_words()), (Status.STALE_CLIENTID, 1))
        expect("the connection of another client", other.peer.receive(), b"")
    between.expect_told(
        told=["all connections are ended, for 12 s", r"comes again (1[2-9]|[2-9]\d)\.", r"\b1 faults, 0 wrong"]
    )
