"""How `tools/between` counts, reads and passes on calls and replies, also those that can't be read, and its bounds."""
import random
import socket
import time

import pytest

from helpers.between_cases import KEPT
from helpers.between_forms import ARGUMENTS, OPENED, RESULTS
from helpers.between_peers import Patient, Relay, Resender, in_one_fragment
from helpers.between_runs import (
    Between,
    Echo,
    relayed,
    status_of,
    uids,
)
from helpers.expecting_client import done, expect, numbers_of
from nfs4tools.callbacks.listener import Listener
from nfs4tools.messages import (
    CLOSE,
    COMPOUND,
    NFS4_OK,
    NULL,
    OPEN,
    PUTROOTFH,
    RENEW,
    call,
    compound,
    reply,
    results,
    words,
    xid,
)
from nfs4tools.processes import Peer, REPLY_PATIENCE
from nfs4tools.wire import Status, opaque, record, u64


def test_rules_that_meet(server):
    """Where two rules meet a call the first is done, and the other at the next one."""
    with relayed(
        server,
        "split 2 READ 1",
        "split 3 READ 1",
        told=["^1: split 2 READ 1: ", "^2: split 3 READ 1: .* in 3 fragments$"],
    ) as (client, _, _):
        client.begin()
        for again in range(2):
            client.read()


def test_calls_under_way(server):
    """A call that was under way on a connection which ended comes again, and doesn't count."""
    with Relay(server) as relay, Between(relay.address, "lose-reply READ 1", "split 2 READ 3") as between, Resender(
        between.address
    ) as peer:
        client = Patient(peer, next(uids))
        client.begin()
        relay.seconds = 2  # type: ignore[attr-defined]
        first, second = (compound(number, *client.at_file(client.read_words()), uid=client.uid) for number in (91, 92))
        peer.send(first + second)
        expect("the end of the connection", peer.peer.receive(), b"")
        for data in first, second, compound(93, *client.at_file(client.read_words()), uid=client.uid):
            peer.peer.socket.close()
            peer.peer = None
            peer.send(data)
            expect("READ", numbers_of(peer.receive())[6], NFS4_OK)
    between.expect_told(
        told=["with 1 other calls? under way$", "^2: split 2 READ 3: connection 4, ", r"\b2 faults, 0 wrong"]
    )


def test_several_requests(server):
    """Of a COMPOUND with two requests of an owner the server keeps one answer: another one isn't wrong when it comes
    again."""
    with relayed(server, "lose-reply LOCKU 1", told=["another answer$", r"\b1 faults, 0 wrong"]) as (client, _, _):
        client.begin()
        lock = client.next_lock_words(2)
        client.lock_seqid += 1
        expect("LOCK again", status_of(client, *client.at_file(lock), client.locku_words(3))[0], Status.BAD_SEQID)


def test_chance():
    """Which calls a rule by chance meets depends on the seed and their count alone, whatever else is called."""

    def split_of(odd, *rules):
        with Echo() as server, Between(server.address, "split 2 NULL 1 in 4", *rules) as between, Peer(
            between.address
        ) as peer:
            found = []
            for number in range(60):
                peer.send(call(number, NULL))
                found.append(peer.receive() != call(number, NULL))
                if number % 7 in odd:
                    peer.send(compound(number, words(PUTROOTFH)))
                    peer.receive()
        return found

    found = split_of(()), split_of((1, 3)), split_of((2, 5), "twice PUTROOTFH 1 in 3")
    expect("which NULLs are met", (found[0], found[0]), found[1:])
    expect("how many", 5 <= sum(found[0]) <= 25, True)


def test_arguments(server):
    """The arguments of all operations of RFC 7531 are read: one behind them is found."""
    with relayed(
        server, "split 2 RENEW each 1", status=0, told=[rf"\b{sum(map(len, ARGUMENTS.values()))} faults, 0 wrong"]
    ) as (client, _, _):
        for opnum, forms in ARGUMENTS.items():
            for arguments in forms:
                client.ask(words(opnum) + arguments, words(RENEW) + u64(99))


class Answering(Listener):
    """A server that answers CLOSE and OPEN by results that are written out, of which the first time and the next ones
    differ before the request of an owner, and, where `is_wrong`, in it."""

    def __init__(self, found, is_wrong=False):
        self.found, self.is_wrong, self.seen = found, is_wrong, set()
        super().__init__(self.give)

    def give(self, heard):
        number = int.from_bytes(xid(heard.data), "big")
        is_again = number in self.seen
        self.seen.add(number)
        before, request = self.found[number]
        if is_again and self.is_wrong:
            # In its stateid.
            request = request[:23] + b"x" + request[24:]
        heard.send(results(number, NFS4_OK, done(SETATTR, words(1, 2 + is_again)), *before, request))


SETATTR = 34


@pytest.mark.parametrize("is_wrong", [False, True], ids=["alike", "that differ"])
def test_results(is_wrong):
    """The results of all operations are read: that of an owner's request behind them is compared, and nothing else."""
    closed = done(CLOSE, words(1, 2, 3, 4))
    found = [([done(opnum, rest)], closed) for opnum, rest in RESULTS] + [([], done(OPEN, rest)) for rest in OPENED]
    numbered = dict(enumerate(found, 1))
    with Answering(numbered, is_wrong) as server, Between(server.address, "lose-reply any each 1") as between, Resender(
        between.address
    ) as peer:
        for number, (before, request) in numbered.items():
            opnums = [int.from_bytes(result[:4], "big") for result in (*before, request)]
            asked = [words(opnum) + ARGUMENTS[opnum][0] for opnum in opnums[:-1]]
            # Each request is of an owner of its own.
            last = words(OPEN, 1, 3, 0, 1, number) + opaque(b"owner") + words(0, 0) + opaque(b"a")
            if opnums[-1] == CLOSE:
                last = words(CLOSE, 1, 1, 1, 1, number)
            peer.send(compound(number, words(SETATTR) + ARGUMENTS[SETATTR][0], *asked, last))
            peer.receive()
    wrong = [rf"^WRONG \d+: answered \S*OK, another answer than \S*OK{KEPT}"] * (len(found) if is_wrong else 0)
    told = [] if is_wrong else ["the stored reply", rf"\b{len(found)} faults, 0 wrong"]
    between.expect_told(int(is_wrong), wrong, told)


def test_hold_at_the_end(server):
    """What is held is given also to a client that sends nothing more, whose server has ended the connection."""
    with Between(server, "hold 1 NULL 1") as between, Peer(between.address) as peer:
        peer.send(call(1, NULL))
        peer.finish()
        expect("a reply that was held", peer.receive(), reply(1))
        expect("the end behind it", peer.receive(), b"")
    between.expect_told(told=["the reply is held for 1 s$"])


def test_overtaking(server):
    """What comes behind a reply that is held overtakes it."""
    with Between(server, "hold 4 NULL 1") as between, Peer(between.address) as peer:
        peer.send(call(1, NULL) + call(2, NULL))
        expect("the replies", [peer.receive(), peer.receive()], [reply(2), reply(1)])
    between.expect_told(told=["the reply is held for 4 s$"])


def test_parts(server):
    """What reaches the client of a reply, and the server of a call."""
    whole, asked = reply(1), call(1, NULL)
    for fault, given in (
        ("lose-reply", b""),
        ("cut-reply", whole[: len(whole) // 2]),
        ("lose-call", b""),
        ("cut-call", b""),
        ("away 0.1", b""),
    ):
        with Between(server, f"{fault} NULL 1") as between, Peer(between.address) as peer:
            peer.send(asked)
            expect(f"{fault}: what comes of the reply", peer.receive(), given)
        between.expect_told(told=["^1: never comes again: NULL$"])
    for fault, given in ("lose-call", b""), ("cut-call", asked[: len(asked) // 2]), ("lose-reply", asked):
        with Echo() as far, Between(far.address, f"{fault} NULL 1") as between, Peer(between.address) as peer:
            peer.send(asked)
            expect("the end", peer.receive(), b"")
        expect(f"{fault}: what comes of the call", far.data_of(len(given)), given)  # type: ignore[attr-defined]
    with Between(server, "split 3 NULL 1") as between, Peer(between.address) as peer:
        peer.send(asked)
        got = peer.receive()
        expect("fragments", (got[:1], len(got) - len(whole), in_one_fragment(got)), (b"\0", 8, whole))


LIMIT, MOST = 16 << 20, 256


def test_long_records():
    """A record of 16 MiB passes; one that is longer ends its connection, from either side and in fragments, too."""
    with Echo() as server, Between(server.address) as between:
        with Peer(between.address) as peer:
            data = record(bytes(LIMIT))
            peer.send(data)
            expect("the longest record comes back", peer.receive() == data, True)
        for begin in words(0x80000000 + LIMIT + 1), (words(1 << 20) + bytes(1 << 20)) * 16 + words(0x80000001):
            with Peer(between.address) as peer:
                peer.send(begin)
                expect("the end of its connection", peer.receive(), b"")
    between.expect_told(
        told=[
            f"^connection {number}: closed, because its client sends a record of more than {LIMIT} " "bytes$"
            for number in (2, 3)
        ]
    )
    with Listener(lambda heard: heard.send(words(0x80000000 + LIMIT + 1))) as server, Between(
        server.address
    ) as between, Peer(between.address) as peer:
        peer.send(call(1, NULL))
        expect("the end of its connection", peer.receive(), b"")
    between.expect_told(told=[f"^connection 1: closed, because its server sends a record of more than {LIMIT} bytes$"])


def test_many_connections():
    """256 connections are served at once; one more is closed, and another one taken when one has ended."""
    with Echo() as server, Between(server.address) as between:
        peers = [Peer(between.address) for _ in range(MOST)]
        for peer in peers:
            peer.send(call(1, NULL))
            expect("a record", peer.receive(), call(1, NULL))
        with Peer(between.address) as late:
            expect("one too many", late.receive(), b"")
        peers.pop().socket.close()
        until = time.monotonic() + REPLY_PATIENCE
        while True:
            with Peer(between.address) as late:
                late.send(call(2, NULL))
                if late.receive() == call(2, NULL) or time.monotonic() > until:
                    break
            time.sleep(0.1)
        expect("one that comes later", time.monotonic() < until, True)
        for peer in peers:
            peer.socket.close()
    between.expect_told(told=["^a connection is closed, because 256 are open$", rf"\b{MOST + 1} connections, "])


def test_as_it_is():
    """What can't be read passes byte for byte, in both directions, and isn't counted by `any`."""
    draw = random.Random(5)
    odd = [
        record(b""),
        record(b"abc"),
        record(draw.randbytes(1000)),
        words(3) + b"abc" + record(b"defg"),
        words(0) + record(b"x"),
        call(1, 7),
        call(1, COMPOUND, draw.randbytes(60)),
        compound(2, words(77), words(PUTROOTFH)),
        call(3, COMPOUND, words(0, 0, 99) + words(RENEW)),
        reply(9),
    ]
    with Echo() as server, Between(server.address) as between, Peer(between.address) as peer:
        for data in odd:
            peer.send(data)
            expect("what comes back", peer.receive(), data)
        peer.finish()
        expect("the end", peer.receive(), b"")
    between.expect_told(told=[r"\b0 faults, 0 wrong"])


def test_nobody_there():
    """Where the server isn't reached a connection is closed, by a line."""
    with socket.socket() as bound:
        bound.bind(("127.0.0.1", 0))
        with Between(bound.getsockname()) as between, Peer(between.address) as peer:
            expect("the end of a connection", peer.receive(), b"")
    between.expect_told(
        1, told=["^no call passed$", r"^a connection is closed, because 127\.0\.0\.1:\d+ can't be reached$"]
    )
