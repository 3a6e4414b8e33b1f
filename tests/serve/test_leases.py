"""Leases of `nfs4state serve`. A lease of a second ends while another client goes on. A delegation that isn't given
back is revoked.

By hand, for two minutes: nobody calls for as long as a lease lasts. Then the lease ends in time, and the server has
taken hardly any processor time meanwhile."""
import os
import subprocess
import threading
import time
from concurrent.futures import ThreadPoolExecutor

import pytest

from helpers.expecting_client import Client, done, expect, under, Wrong
from helpers.server_helpers import Late, judged, lawful_journal, peer_of, tried_again
from nfs4tools.journal.entries import Expire, Revoke
from nfs4tools.messages import CLOSE, DELEGRETURN, GETATTR, LOCKT, NFS4_OK, OPEN, PUTFH, PUTROOTFH, RENEW, handle, words
from nfs4tools.model.tree import DEFAULT
from nfs4tools.processes import PROGRAM, TOP
from nfs4tools.wire import Status
from serve.serve_runs import PATIENT, SOON, expect_end, serve

pytestmark = [pytest.mark.needs("nfs4state"), pytest.mark.quick]

# The user of the connection that comes at last.
LATE = 4

# The seconds of the lease of a server that lends a file, and those in which a lease of one is renewed at the latest.
LENT, RENEWAL = 3, 0.9
# The seconds of a lease in which nobody calls, and the most of them that a server has a processor meanwhile.
QUIET, HARDLY_ANY = 120, 0.1


def renewing(client, over):
    """RENEW again and again, which is late where the machine has no time for it."""
    longest, last = 0, time.monotonic()
    while not over.wait(0.2):
        try:
            client.want((client.renew_words(), done(RENEW)))
        except Wrong as wrong:
            if time.monotonic() - last > RENEWAL:
                raise Late(wrong) from None
            raise
        longest, last = max(longest, time.monotonic() - last), time.monotonic()
    if longest > RENEWAL:
        raise Late(f"a lease isn't renewed for {longest:.2f} seconds")


def lease_ends(served, pool):
    """The client that is heard of no more, one that goes on, what watched them, and what that saw (`watched`)."""
    gone, other = Client(peer_of(served), 1), Client(peer_of(served), 2)
    watcher = Client(peer_of(served), 3)
    over = threading.Event()
    other.introduce()
    watcher.number = other.number
    renewals = pool.submit(renewing, other, over)
    try:
        seen = watched(served, gone, watcher)
    finally:
        over.set()
        # That it was late comes before what was seen wrong.
        renewals.result()
    for client in gone, other, watcher:
        client.peer.socket.close()
    return gone, other, watcher, *seen


def watched(served, gone, watcher):
    """How long the client is known after it was heard of, as another client's second connection sees it; and the
    earliest moment at which a connection that comes at last may have its call."""
    begun = time.monotonic()
    watcher.open_file(2)
    gone.introduce()
    gone.open_file(1)
    gone.lock_first()
    heard = time.monotonic()
    gone.want((gone.renew_words(), done(RENEW)))
    seconds = watch(watcher, gone, heard, 1)
    after_the_lease(gone, watcher)
    watcher.lock_first()
    watcher.sequenced(CLOSE, watcher.close_words(watcher.last + 1))
    moment = int(time.monotonic() - begun)
    with peer_of(served) as peer:
        root = (words(PUTROOTFH), done(PUTROOTFH))
        Client(peer, LATE).want(root, (words(GETATTR, 0), done(GETATTR, words(0, 0))))
    return seconds, moment


def watch(watcher, gone, heard, lease):
    """Asks for a lock that the other client has, until it is free: how many seconds after that was heard of."""
    operation, denied = watcher.lockt_words(b"watcher", gone.span()), gone.denial()
    while True:
        found = watcher.ask(words(PUTFH) + handle(1), operation)
        seconds = time.monotonic() - heard
        if found[6] == NFS4_OK:
            watcher.expect(NFS4_OK, under(1, operation, done(LOCKT)))
            if seconds <= lease:
                raise Wrong(f"a lease of {lease} seconds ends after {seconds:.2f}")
            return seconds
        watcher.expect(Status.DENIED, under(1, operation, denied))
        if seconds > lease + SOON:
            raise Late(f"a lease of {lease} seconds hasn't ended after {seconds:.2f}")
        time.sleep(0.02)


def after_the_lease(gone, watcher):
    """Stateids of a client whose lease has ended are EXPIRED, also from another connection, and its clientid is
    STALE_CLIENTID."""
    last = gone.last + 1
    gone.refuse(
        Status.EXPIRED,
        gone.close_words(last),
        gone.downgrade_words(last),
        gone.open_confirm_words(last),
        gone.first_lock_words(last),
        gone.next_lock_words(2),
        gone.locku_words(2),
    )
    watcher.want(*under(1, gone.close_words(last), done(CLOSE, status=Status.EXPIRED)))
    for operation in gone.renew_words(), gone.release_words():
        opnum = int.from_bytes(operation[:4], "big")
        gone.want((operation, done(opnum, status=Status.STALE_CLIENTID)))
    gone.refuse(Status.STALE_CLIENTID, gone.lockt_words(b"any", gone.span()))
    root = (words(PUTROOTFH), done(PUTROOTFH))
    gone.want(root, (gone.open_words(last), done(OPEN, status=Status.STALE_CLIENTID)))


def expect_expiry(path, journal, gone):
    """The journal says that this client's lease ended, and nobody else's, and so do its words."""
    ends = [(number, entry) for number, entry in enumerate(journal.entries) if isinstance(entry, Expire)]
    expect("who expires", [entry.client for _, entry in ends], [gone.number])
    ((number, entry),) = ends
    if not entry.seen + journal.lease < entry.now:
        raise Wrong(f"an end of the lease at {entry.now}, seen at {entry.seen}")
    show = [os.path.join(TOP, "tools/show_journal"), path]
    shown = subprocess.run(show, stdout=subprocess.PIPE, check=True, text=True).stdout
    line = f"{number}: client {gone.number} expires, seen at {entry.seen}, now {entry.now}"
    expect("the entry in words", shown.splitlines()[number], line)


@pytest.mark.alone
@tried_again
def test_lease(path_of, tell):
    """A lease of a second ends when more than a second has passed, and soon after."""
    path, begun = path_of("lease.journal"), time.monotonic()
    with ThreadPoolExecutor(1) as pool, serve("--lease", "1", "--journal", path, connections=4) as served:
        gone, other, watcher, seconds, moment = lease_ends(served, pool)
        expect_end(served)
    journal = judged(path, gone, other, watcher)
    expect_expiry(path, journal, gone)
    # All connections' moments are whole seconds since the same start.
    (last,) = (entry.moment for entry in journal.entries if getattr(entry, "principal", None) == (1, LATE))
    if not moment <= last <= time.monotonic() - begun:
        raise Wrong(f"a call comes at {last}, {moment} seconds after the first")
    tell(f"a lease of 1 second ended after {seconds:.1f}")


@tried_again
def test_delegation(path_of, tell):
    """A delegation that isn't given back, though its client renews its lease, is taken when it was called back longer
    than a lease ago, and soon after."""
    path, tree = path_of("lent.journal"), path_of("lent.toml")
    with open(tree, "w", encoding="utf-8") as file:
        file.write('policy.callbacks = "assume"\n' + DEFAULT)
    with serve("--lease", str(LENT), "--journal", path, tree=tree, connections=2) as served:
        holder, other = Client(peer_of(served), 1), Client(peer_of(served), 2)
        number = borrow(holder)
        seconds = open_in_the_end(other, holder)
        holder.refuse(Status.BAD_STATEID, words(DELEGRETURN) + holder.stateid(number, 1))
        for client in holder, other:
            client.peer.socket.close()
        expect_end(served)
    ends = [entry for entry in judged(path, holder, other).entries if isinstance(entry, (Expire, Revoke))]
    expect("who loses what", [entry[:1] for entry in ends], [(number,)])
    tell(f"a delegation was taken {seconds:.1f} seconds after it was called back, with a lease of {LENT}")


def borrow(client):
    """The number of the delegation that the client gets by its second OPEN."""
    client.introduce()
    client.open_file(1)
    client.last, client.open_seqid = client.last + 1, client.open_seqid + 1
    delegation = words(2) + client.stateid(client.open + 1, 1) + words(0, 1, 0, 65536, 0, 0, 0, 0)
    rest = client.open_stateid() + words(1, 0, 0, 0, 0, 4, 0) + delegation
    client.want((words(PUTROOTFH), done(PUTROOTFH)), (client.open_words(client.last), done(OPEN, rest)))
    return client.open + 1


def open_in_the_end(client, holder):
    """Opens the file that the other one holds a delegation on, until that is OK: how many seconds it takes."""
    client.introduce()
    client.file, begun, renewed = 1, time.monotonic(), time.monotonic()
    while True:
        found, seconds = client.ask(words(PUTROOTFH), client.open_words(1)), time.monotonic() - begun
        if time.monotonic() - renewed > LENT - 1:
            raise Late("the lease of the other one isn't renewed")
        if found[6] == NFS4_OK:
            break
        client.expect(Status.DELAY, [(None, done(PUTROOTFH)), (None, done(OPEN, status=Status.DELAY))])
        if seconds > LENT + PATIENT:
            raise Wrong(f"a delegation isn't taken in {seconds:.2f} seconds")
        renewed = time.monotonic()
        holder.want((holder.renew_words(), done(RENEW)))
        time.sleep(0.02)
    if seconds <= LENT:
        raise Wrong(f"a delegation is taken after {seconds:.2f} seconds")
    return seconds


@pytest.mark.by_hand
@pytest.mark.alone
def test_quiet(path_of, tell):
    """A lease ends in time of which nobody asked meanwhile, and nobody called."""
    path = path_of("quiet.journal")
    with serve("--lease", str(QUIET), "--journal", path, connections=2) as served:
        gone = Client(peer_of(served), 1)
        gone.introduce()
        gone.open_file(1)
        gone.lock_first()
        begun, heard = served.processor_seconds(), time.monotonic()
        gone.want((gone.renew_words(), done(RENEW)))
        time.sleep(QUIET)
        took = served.processor_seconds() - begun
        watcher = Client(peer_of(served), 2)
        watcher.introduce()
        seconds = watch(watcher, gone, heard, QUIET)
        after_the_lease(gone, watcher)
        for client in gone, watcher:
            client.peer.socket.close()
        expect_end(served)
    if took > HARDLY_ANY:
        raise Wrong(f"a server that nobody calls takes {took:.2f} seconds of processor time in {QUIET}")
    expect_expiry(path, lawful_journal(PROGRAM, path), gone)
    tell(
        f"in {QUIET} seconds without a call it took {took:.2f} of processor time, and a lease of as many ended "
        f"after {seconds:.1f}"
    )
