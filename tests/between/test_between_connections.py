"""What is told of connections that a fault leaves open: a client goes on, ends its connection, or falls silent. Among the
clients are the Linux kernels that can't read a fragment of less than eight bytes: two reconnect, and one hangs."""
import re
import threading
import time
from contextlib import contextmanager

import pytest

from helpers.between_peers import Patient, Relay as Slow, Resender, with_xid
from helpers.between_runs import serving, uids
from helpers.expecting_client import numbers_of
from nfs4tools import CallbackListener, Client, Outcome, Relay, RelayError, Status, StatusError
from nfs4tools.between import endings
from nfs4tools.messages import NULL, PUTROOTFH, call, compound, reply, words
from nfs4tools.processes import Peer, REPLY_PATIENCE
from nfs4tools.trace.watching import Watcher

# A reply of 44 bytes, which comes in six fragments of seven or eight bytes.
ASKED = compound(0x51, words(PUTROOTFH))
SPLIT = "split 6 PUTROOTFH 1"
# The size of the first fragment that these kernels can't read.
UNREAD = 8


def wait_until(is_so):
    """Waits until something is so."""
    until = time.monotonic() + REPLY_PATIENCE
    while not is_so():
        assert time.monotonic() < until
        time.sleep(0.02)


class FirstFragment(Watcher):
    """Lets the first fragment of a reply pass, and holds the others back until `rest` is set."""

    def __init__(self):
        self.count, self.rest = 0, threading.Event()

    def see_bytes(self, place, is_from_client, data):
        if not is_from_client:
            self.count += 1
            assert self.count == 1 or self.rest.wait(REPLY_PATIENCE)


def first_fragment(peer):
    """The size of the first fragment that comes, which is read with its header."""
    while len(peer.rest) < 4:
        assert peer.take_more(5)
    return int.from_bytes(peer.rest[:4], "big") & 0x7FFFFFFF


def reconnects(address, rest):
    """A client that ends its connection at a short fragment, and asks again over another one. It gets no more of the
    first reply."""
    with Peer(address) as peer:
        peer.send(ASKED)
        assert first_fragment(peer) == 7 < UNREAD
    rest.set()
    reads_whole(address)


@contextmanager
def hanging(relay):
    """A client that says nothing more after a short fragment, for more than a second after the last one."""
    with Peer(relay.address) as peer:
        peer.send(ASKED)
        assert first_fragment(peer) == 7 < UNREAD
        wait_until(lambda: relay.faults[0].is_given)
        time.sleep(1.2)
        yield peer


def reads(address):
    """A client that reads its reply in however many fragments, and ends."""
    with Peer(address) as peer:
        peer.send(ASKED)
        assert len(peer.receive()) == 44 + 6 * 4


def test_reads(server, monkeypatch):
    """A client that ends its connection soon after the whole reply does right. On a busy machine soon is later."""
    monkeypatch.setattr(endings, "NORMAL", REPLY_PATIENCE)
    with Relay(server, SPLIT, is_strict=True) as relay:
        reads(relay.address)
    assert len(relay.lines) == 2 and "given in 6 fragments" in relay.lines[0]
    assert [it.outcome for it in relay.faults[0].told] == [Outcome.ENDED]


def test_goes_on(server):
    """What a client does next is an outcome, and no line."""
    with Relay(server, SPLIT, is_strict=True) as relay, Peer(relay.address) as peer:
        peer.send(ASKED)
        peer.receive()
        peer.send(call(0x52, NULL))
        peer.receive()
    assert len(relay.lines) == 2
    assert [it.outcome for it in relay.faults[0].told] == [Outcome.NEXT]
    assert re.match(r"the next call is NULL, .* s later, on connection 1$", relay.faults[0].told[0].text)


def test_reconnects(server):
    """The client that reconnects is told, with its call; that is no fault but with --strict."""
    told = [
        r"1: connection 1 is ended by the client, [0-9.]+ s later, with 1 call under way$",
        r"1: comes again [0-9.]+ s later, on connection 2, with the same xid 0x00000051$",
        "1: answered NFS4_OK, the same answer$",
    ]
    watcher = FirstFragment()
    with Relay(server, SPLIT, watcher=watcher) as relay:
        reconnects(relay.address, watcher.rest)
    assert len(relay.lines) == 5
    assert all(re.match(phrase, line) for phrase, line in zip(told, relay.lines[1:]))
    watcher = FirstFragment()
    with pytest.raises(RelayError, match="is ended by the client"):
        with Relay(server, SPLIT, is_strict=True, watcher=watcher) as relay:
            reconnects(relay.address, watcher.rest)


def test_reconnects_late(server):
    """So is a client that ends its connection when the whole reply was given, as it asks again."""
    with pytest.raises(RelayError, match="1: comes again"):
        with Relay(server, SPLIT, is_strict=True) as relay:
            reads(relay.address)
            reads_whole(relay.address)


def reads_whole(address):
    with Peer(address) as peer:
        peer.send(ASKED)
        assert len(peer.receive()) == 48


def test_hangs(server):
    """A client that hangs is told at the end, whose status is 1 with --strict."""
    for is_strict in (False, True):
        relay = Relay(server, SPLIT, is_strict=is_strict)
        with hanging(relay):
            relay.close()
        assert "1: the client says nothing more since" in relay.lines
        assert relay.result.is_right is not is_strict


def test_hangs_until_it_is_killed(server):
    relay = Relay(server, SPLIT, is_strict=True)
    with hanging(relay):
        pass
    relay.close()
    assert re.match(
        r"1: connection 1 is ended by the client, [1-9]\.\d+ s later, with 0 calls under way$", relay.lines[1]
    )
    assert not relay.result.is_right


def test_long_hold(server):
    """A client may end its connection when a reply is held for long, and asks again: its other calls, too."""
    with Relay(server, "hold 30 PUTROOTFH 1", is_strict=True) as relay:
        with Peer(relay.address) as peer:
            peer.send(ASKED)
            wait_until(lambda: relay.faults)
        reads_whole(relay.address)
    assert re.match(r"1: connection 1 is ended by the client, .* with 1 call under way$", relay.lines[1])
    assert re.match("1: comes again .* on connection 2, with the same xid 0x00000051$", relay.lines[2])


def test_same_calls_but_for_the_xid(server):
    """Two calls that differ by the xid alone come again in another order: each is told by its own xid."""
    with Relay(server, "hold 30 NULL each") as relay:
        with Peer(relay.address) as peer:
            peer.send(call(0x61, NULL) + call(0x62, NULL))
            wait_until(lambda: len(relay.faults) == 2)
        with Peer(relay.address) as peer:
            for number in (0x62, 0x61):
                peer.send(call(number, NULL))
                assert peer.receive() == reply(number)
    again = [line for line in relay.lines if "comes again" in line]
    assert [re.sub("again .* on", "again on", line) for line in again] == [
        "2: comes again on connection 2, with the same xid 0x00000062",
        "1: comes again on connection 2, with the same xid 0x00000061",
    ]


def test_other_calls_of_a_connection(server):
    """Calls that were under way when a client ended its connection come again."""
    with Slow(server) as slow:
        with Relay(slow.address, "hold 30 PUTROOTFH 1") as relay:
            other = compound(0x53, words(30, 9, 9))
            with Peer(relay.address) as peer:
                peer.send(ASKED)
                wait_until(lambda: relay.faults)
                slow.seconds = 3  # type: ignore[attr-defined]
                peer.send(other)
                wait_until(lambda: len(slow.heard) == 2)
            slow.seconds = 0  # type: ignore[attr-defined]
            with Peer(relay.address) as peer:
                peer.send(other)
                peer.receive()
    assert re.search("1: RENEW 9 9 comes again .* s later, on connection 2$", "\n".join(relay.lines), re.MULTILINE)


def test_silence_with_a_call_under_way(server):
    """Of any fault silence is told if a call is under way."""
    relay = Relay(server, "hold 30 PUTROOTFH 1", is_strict=True)
    with Peer(relay.address) as peer:
        peer.send(ASKED)
        wait_until(lambda: relay.faults)
        relay.close()
    assert "1: the client says nothing more since" in relay.lines and not relay.result.is_right


# What the server has had, and whose callback it is.


def test_had_before(server):
    """A call that was passed on was had by the server, whatever became of its connection."""
    with Slow(server) as slow, Relay(slow.address, "lose-call PUTROOTFH 1", "lose-call RENEW 1") as relay:
        renewal = compound(0x54, words(30, 9, 9))
        for seconds, data in (0, ASKED), (5, ASKED + renewal), (0, ASKED):
            with Peer(relay.address) as peer:
                slow.seconds = seconds  # type: ignore[attr-defined]
                peer.send(data)
                peer.receive()
    lines = [line for line in relay.lines if line.startswith("1: answered")]
    assert lines == ["1: answered NFS4_OK; the server had the call before, and its first answer isn't known"]


def test_first_answer(server):
    with Relay(server, "lose-call PUTROOTFH 1") as relay:
        with Peer(relay.address) as peer:
            peer.send(ASKED)
            assert peer.receive() == b""
        reads_whole(relay.address)
    assert "1: answered NFS4_OK, the first answer" in relay.lines


@pytest.mark.needs("nfs4state")
def test_callbacks_of_two_clients():
    """The CB_NULL of another client, at another address, isn't the lost one that comes again."""
    with serving("program", tree=None) as server, CallbackListener() as home, CallbackListener() as other_home:
        with Relay(server, "lose-call CB_NULL 1") as relay:
            with Client(*relay.address, "one", callback=home) as one:
                with Client(*relay.address, "other", callback=other_home) as other:
                    one.begin()
                    wait_until(lambda: relay.faults)
                    other.begin()
                    other_home.wait_for_null()
        assert not home.nulls
    assert "1: never comes again: CB_NULL" in relay.lines
    assert not any("1: comes again" in line for line in relay.lines)


# Another xid.


def test_other_xid(server):
    """A client that waits for its own xid, and asks again over another connection, does right."""
    with Relay(server, "other-xid NULL 1") as relay:
        with Peer(relay.address) as peer:
            peer.send(call(7, NULL))
            assert peer.receive() == with_xid(reply(7), 0x80000007)
        with Peer(relay.address) as peer:
            peer.send(call(7, NULL))
            assert peer.receive() == reply(7)
    assert "the reply is given with xid 0x80000007 in place of 0x00000007" in relay.lines[0]
    assert any("1: comes again" in line for line in relay.lines)


class Credulous(Resender):
    """Takes whatever reply comes."""

    def receive(self):
        got = super().receive()
        return with_xid(got, len(self.sent) and int.from_bytes(self.sent[4:8], "big"))


def test_takes_another_xid(server):
    """A client that takes a reply by another xid goes on with its owner's next request, which is WRONG; so is the same
    call on the same connection."""
    with pytest.raises(RelayError, match=r"WRONG 1: another request comes instead: LOCK .*9\.1\.7"):
        with Relay(server, "other-xid LOCK 2") as relay, Credulous(relay.address) as peer:
            Patient(peer, next(uids)).session()
    with pytest.raises(RelayError, match=r"WRONG 1: comes again on connection 1, which is still open \(.*3\.1\.1\)"):
        with Relay(server, "other-xid NULL 1") as relay, Peer(relay.address) as peer:
            for _ in range(2):
                peer.send(call(7, NULL))
                peer.receive()


# Errors of RPC: what RFC 5531, section 9, has for each, behind the xid and REPLY.

ACCEPTED = {
    "PROG_UNAVAIL": [1],
    "PROG_MISMATCH": [2, 2, 3],
    "PROC_UNAVAIL": [3],
    "GARBAGE_ARGS": [4],
    "SYSTEM_ERR": [5],
}
AUTH = [
    "AUTH_BADCRED",
    "AUTH_REJECTEDCRED",
    "AUTH_BADVERF",
    "AUTH_REJECTEDVERF",
    "AUTH_TOOWEAK",
    "AUTH_INVALIDRESP",
    "AUTH_FAILED",
    "AUTH_KERB_GENERIC",
    "AUTH_TIMEEXPIRE",
    "AUTH_TKT_FILE",
    "AUTH_DECODE",
    "AUTH_NET_ADDR",
    "RPCSEC_GSS_CREDPROBLEM",
    "RPCSEC_GSS_CTXPROBLEM",
]
ERRORS = {name: [0, 0, 0, *rest] for name, rest in ACCEPTED.items()}
ERRORS |= {"RPC_MISMATCH": [1, 0, 3, 3]} | {name: [1, 1, number] for number, name in enumerate(AUTH, 1)}


@pytest.mark.parametrize("name", ERRORS)
def test_error_of_rpc(name, server):
    """The error has its form; nothing of the call has run; and the same call comes."""
    with Slow(server) as slow:
        with Relay(slow.address, f"answer {name} PUTROOTFH 1", f"answer {name} NULL 1") as relay:
            with Peer(relay.address) as peer:
                for asked in (ASKED, call(0x51, NULL)):
                    peer.send(asked)
                    assert numbers_of(peer.receive()) == [0x51, 1, *ERRORS[name]]
                assert not slow.heard
                peer.send(ASKED)
                assert numbers_of(peer.receive())[6] == 0
    assert f"PUTROOTFH -> {name}: answered in the server's place" in relay.lines[0]
    assert any("1: the same call comes" in line for line in relay.lines)


def attempts(relay, further):
    """A client whose LOCK is answered SYSTEM_ERR, and which asks again by a sequence id that is so much higher."""
    with Resender(relay.address) as peer:
        client = Patient(peer, next(uids))
        client.begin()
        client.peer.send(compound(0x99, *client.at_file(client.next_lock_words(2)), uid=client.uid))
        assert numbers_of(client.peer.receive())[5] == 5
        client.peer.send(compound(0x9A, *client.at_file(client.next_lock_words(2 + further)), uid=client.uid))
        client.peer.receive()


def test_sequence_id_behind_an_error_of_rpc(server):
    with Relay(server, "answer SYSTEM_ERR LOCK 2") as relay:
        attempts(relay, 0)
    with pytest.raises(RelayError, match=r"WRONG 1: its LOCK wasn't run, but the sequence id moves on: LOCK .*9\.1\.7"):
        with Relay(server, "answer SYSTEM_ERR LOCK 2") as relay:
            attempts(relay, 1)


def test_same_call(server):
    """After a status in the server's place the same call comes, which needn't be a retry."""
    with Relay(server, "answer RESOURCE READ 1") as relay, Client(*relay.address, f"c{next(uids)}") as client:
        client.begin()
        file = client.open("a")
        with pytest.raises(StatusError) as refused:
            client.read(file)
        assert refused.value.status == Status.RESOURCE
        client.read(file)
    assert any("1: the same call comes" in it and "in place of" in it for it in relay.lines)
