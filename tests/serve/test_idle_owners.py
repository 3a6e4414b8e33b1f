"""Owners that are idle, over TCP, with `nfs4state serve` and with the independent model in its place.

An owner that has closed its open gets the kept answer when its CLOSE comes again and again, until more than a lease has
passed since it came first; and soon after that it is BAD_STATEID, though the client's lease was renewed by each of
them. An OPEN with any id begins the owner. The journal has that it was forgotten, and its words and reasons say so.
Under a policy by which a CLOSE is refused beside locks it is LOCKS_HELD, over TCP, too, with its reason in words.

By hand: 100,000 owners of one client come, open, confirm and close a file, 4,000 a second, with a lease of one second.
Each has its answers, and the program needs hardly more memory than where one owner sends as many requests."""
import os
import subprocess
import sys
import threading
import time

import pytest

from helpers.expecting_client import Client, done, expect, under, way_to, Wrong
from helpers.server_helpers import PROGRAM_SERVES, SERVERS, judged, peer_of
from nfs4tools.journal.entries import Forget
from nfs4tools.messages import CLOSE, LOCK, LOCKU, NFS4_OK, OPEN, OPEN_CONFIRM, compound, results, words
from nfs4tools.model.tree import DEFAULT
from nfs4tools.processes import NO_CALLBACKS, Served, TOP
from nfs4tools.wire import OpenOwner, Status, opaque

pytestmark = pytest.mark.quick

# The lease, and how long after it an owner may still be known, on however busy a machine.
LEASE, SOON = 2, 20
# How many owners come, and how many in a second, and in a step of these.
MANY, RATE, STEP = 100_000, 4_000, 100
# The kilobytes that the owners which are known at once may take beside the journal.
SPARE = 32 << 10


@pytest.fixture(params=SERVERS)
def command(request):
    """How a server is started: the program, then the model."""
    return request.param


def serve(command, *options, tree=NO_CALLBACKS):
    return Served([*command, "--listen", "127.0.0.1:0", "--connections", "1", "--tree", tree, *options])


def tool(name, *words):
    """The lines that one of the tools prints."""
    ran = subprocess.run(
        [sys.executable, os.path.join(TOP, "tools", name), *words], stdout=subprocess.PIPE, check=True, text=True
    )
    return ran.stdout.splitlines()


def expect_end(served):
    expect("the end", served.end(), (0, b"", b""))


def close_again(client, operation):
    """The CLOSE once more, until its owner is forgotten: how many seconds that takes."""
    heard, kept = time.monotonic(), under(client.file, operation, done(CLOSE, client.open_stateid()))
    while True:
        status = client.ask(*(operation for operation, _ in kept))[6]
        seconds = time.monotonic() - heard
        if status != NFS4_OK:
            client.expect(Status.BAD_STATEID, under(client.file, operation, done(CLOSE, status=Status.BAD_STATEID)))
            return seconds
        client.expect(NFS4_OK, kept)
        if seconds > LEASE + SOON:
            raise Wrong(f"an owner is known {seconds:.1f} seconds after its CLOSE, with a lease of {LEASE}")
        time.sleep(0.1)


def test_forgotten(command, path_of, tell):
    path = path_of("idle.journal")
    with serve(command, "--lease", str(LEASE), "--journal", path) as served:
        client = Client(peer_of(served), 1)
        client.introduce()
        client.open_file(1)
        operation = client.close_words(client.last + 1)
        client.sequenced(CLOSE, operation)
        seconds = close_again(client, operation)
        # It begins with the id 7, as one that never came.
        client.last, client.is_confirmed = 6, False
        client.open_file(1)
        client.refuse(Status.BAD_STATEID, operation)
        client.sequenced(CLOSE, client.close_words(client.last + 1))
        client.peer.socket.close()
        expect_end(served)
    if seconds <= LEASE:
        raise Wrong(f"an owner is forgotten after {seconds:.2f} seconds, with a lease of {LEASE}")
    journal = judged(path, client)
    (number, entry), *_ = [(at, it) for at, it in enumerate(journal.entries) if isinstance(it, Forget)]
    kept = journal.entries[4]
    expect("who is forgotten", entry.owner, OpenOwner(1, client.number, client.owner))
    expect("whether that is in time", kept.moment + LEASE < entry.now, True)
    name = client.owner.decode()
    line = f'{number}: open owner "{name}" of client 1 is forgotten, now {entry.now}'
    expect("the entry in words", tool("show_journal", path)[number], line)
    reason = (
        f'    state 1, an open of file "/a" by open owner "{name}" of client 1, was ended by entry 4 (CLOSE), '
        f"and its owner was forgotten by entry {number} (RULES: Idle owners; RFC 7530, 9.1.10)"
    )
    expect("the reasons", tool("explain", "--each", path)[1::2], [reason] * 2)
    tell(f"an owner was forgotten {seconds:.1f} seconds after its CLOSE, with a lease of {LEASE}")


def test_locks_held(command, path_of):
    path, tree = path_of("held.journal"), path_of("refuse.toml")
    with open(tree, "w", encoding="utf-8") as file:
        file.write('policy = { delegations = "none", close_locks = "refuse" }\n' + DEFAULT)
    with serve(command, "--journal", path, tree=tree) as served:
        client = Client(peer_of(served), 1)
        client.introduce()
        client.open_file(1)
        client.lock_first()
        operation = client.close_words(client.last + 1)
        client.refuse(Status.LOCKS_HELD, operation, operation)
        client.last += 1
        client.lock_again(LOCKU, client.locku_words(client.lock_last + 1))
        client.sequenced(CLOSE, client.close_words(client.last + 1))
        client.peer.socket.close()
        expect_end(served)
    journal = judged(path, client)
    calls = [entry.opnum for entry in journal.entries if getattr(entry, "principal", None)]
    lock = journal.entries.index(next(it for it in journal.entries if getattr(it, "opnum", None) == LOCK))
    expect("the calls behind the LOCK", calls[calls.index(LOCK) + 1 :], [CLOSE, CLOSE, LOCKU, CLOSE])
    held = (
        f'lock owner "{client.locker.decode()}" of client 1 holds bytes 1000 to 1009 of file "/a" for writing, in '
        f"state 2, which was changed last by entry {lock} (LOCK)"
    )
    lines = tool("explain", path)[1::2]
    expect("the reason", lines[0], f"    {held} (RULES: CLOSE; RFC 7530, 16.2)")
    is_again = lines[1].endswith(f"{held} (RULES: Owners and sequenced operations; RFC 7530, 9.1.7)")
    expect("the reason when it comes again", is_again, True)


# Many owners.


def life(client, number, owner, first, flags):
    """A call by which this owner opens, confirms and closes file a, by ids from this one on, and the reply; the open
    has this number. An owner that was confirmed before isn't confirmed by it."""
    spelled, state = client.clientid() + opaque(owner), lambda seqid: client.stateid(number, seqid)
    opened = words(OPEN, first, 1, 0) + spelled + words(0, 0) + opaque(b"a")
    begun = done(OPEN, state(1) + words(1, 0, 0, 0, 0, flags, 0, 0))
    if flags == 4:
        closed = words(CLOSE, first + 1) + state(1), done(CLOSE, state(2))
        pairs = [*way_to(1), (opened, begun), closed]
    else:
        confirmed = words(OPEN_CONFIRM) + state(1) + words(first + 1), done(OPEN_CONFIRM, state(2))
        pairs = [*way_to(1), (opened, begun), confirmed, (words(CLOSE, first + 2) + state(2), done(CLOSE, state(3)))]
    sent = compound(number, *(operation for operation, _ in pairs), uid=client.uid)
    return sent, results(number, NFS4_OK, *(result for _, result in pairs))


def lives(client, is_one):
    """The calls and replies of so many owners; or of one that comes as often, and begins by the first."""
    for number in range(1, MANY + 1):
        owner = b"the one" if is_one else b"process %d" % number
        if is_one and number > 1:
            yield life(client, number, owner, 4 + 2 * (number - 2), 4)
        else:
            yield life(client, number, owner, 1, 6)


def run_many(command, is_one):
    """The most kilobytes that the program has in use, and the seconds that the owners take."""
    with serve(command, "--lease", "1") as served:
        client = Client(peer_of(served), 1)
        # Before the lease begins: it is the server's first client.
        client.number = 1
        calls = list(lives(client, is_one))
        client.introduce()
        expect("the client's number", client.number, 1)
        begun = time.monotonic()
        sent = [sent for sent, _ in calls]
        sender = threading.Thread(target=send_paced, args=(client.peer, sent, begun), daemon=True)
        sender.start()
        replies = client.peer.receive_each()
        for number, (_, wanted) in enumerate(calls):
            if (got := next(replies, b"")) != wanted:
                raise Wrong(f"owner {number} gets {got.hex(' ', 4)}, wanted {wanted.hex(' ', 4)}")
        seconds, most = time.monotonic() - begun, served.most_kilobytes("VmHWM")
        sender.join()
        client.peer.socket.close()
        expect_end(served)
    return most, seconds


def send_paced(peer, calls, begun):
    for at in range(0, len(calls), STEP):
        time.sleep(max(0, begun + at / RATE - time.monotonic()))
        peer.send(b"".join(calls[at : at + STEP]))


@pytest.mark.by_hand
@pytest.mark.alone
def test_many(command, tell):
    most, seconds = run_many(command, is_one=False)
    one, _ = run_many(command, is_one=True)
    tell(
        f"{MANY} owners came within {seconds:.0f} seconds, and the program had at most {most >> 10} MiB in use; "
        f"where one sent as many OPENs, {one >> 10} MiB"
    )
    # The journal of the others has twice as many entries: for each owner two more. The model's memory isn't judged.
    if command is PROGRAM_SERVES:
        assert most <= 2 * one + SPARE
