"""Runs of `nfs4state serve` whose callbacks are heard: what comes to a client's listener, what the journal says of its
path, and the lines that tell why a callback failed."""
import re
import time

from helpers.callback_client import Borrower, Opened
from helpers.callback_peers import callback_at
from helpers.expecting_client import done, expect, Wrong
from helpers.server_helpers import Late, lawful_journal, peer_of
from nfs4tools.callbacks.listener import CALLBACK_PROGRAM, Listener
from nfs4tools.callbacks.messages import null_call, recall_call
from nfs4tools.journal.entries import Path
from nfs4tools.journal.journal import Growing
from nfs4tools.messages import GETATTR, NFS4_OK, PUTROOTFH, words, xid
from nfs4tools.processes import PATIENCE, PROGRAM, REPLY_PATIENCE
from nfs4tools.program import bytes_of
from nfs4tools.wire import READ, Status

# The seconds in which others are called and answered whatever one peer does, and in which a run ends behind its last
# connection. A server that a peer holds back is held back without an end: so where the machine may be busy, and nothing
# else is judged by the clock, there is patience.
SOON = 2
# The seconds between two looks at the journal.
LOOK = 0.02
# A line on a callback: which client was called, and where; why the call failed, or that a reply is missing yet. Or how
# many such lines were left out.
ON_CALLBACK = re.compile(
    rb"client (?P<client>\d+): callback to (?P<address>\S+ \S+)(?: failed|): (?P<reason>.*)\n"
    rb"|callbacks: (?P<left_out>\d+) more lines left out\n"
)


def expect_time(what, seconds, most):
    if seconds > most:
        raise Late(f"{what}: after {seconds:.2f} seconds, wanted {most}")


# A run of the server.


class Run:
    """A server with its clients' connections. It takes orders until its input ends, or it serves so many connections."""

    def __init__(self, served, path, goes_on):
        self.served, self.path, self.goes_on, self.peers = served, path, goes_on, []
        # The lines on callbacks, once the run has ended.
        self.told = []

    def peer(self):
        self.peers.append(peer_of(self.served))
        return self.peers[-1]

    def client(self, uid, callback, **how):
        """A client over a connection of its own, with a callback or a listener."""
        client = Borrower(self.peer(), uid, **how)
        client.introduce(callback_at(callback.address) if isinstance(callback, Listener) else callback)
        return client

    def order(self, words):
        """The answer to an order."""
        self.served.program.stdin.write(words.encode() + b"\n")
        return self.served.next_answer().decode().rstrip("\n")

    def marks(self, client, least):
        """How a client's path was marked, once it was so often, by the journal up to now."""
        until = time.monotonic() + REPLY_PATIENCE
        while len(found := marks_of(self.entries_so_far(), client)) < least:
            if time.monotonic() > until:
                raise Wrong(f"the callback path of client {client.number} has the marks {found}, and no more")
            time.sleep(LOOK)
        return found

    def entries_so_far(self):
        self.order("journal")
        return Growing().take(bytes_of(self.path + ".part") or b"")

    def end(self, *lines, status=0, seconds=PATIENCE):
        """Ends the connections, and then the run ends within so many seconds, with this status, and has told these
        lines, beside those on callbacks: its entries, which are lawful."""
        for peer in self.peers:
            peer.socket.close()
        begun = time.monotonic()
        if self.goes_on:
            self.served.end_input()
        ended, output, errors = self.served.end()
        told = errors.splitlines(keepends=True)
        self.told = [line for line in told if ON_CALLBACK.fullmatch(line)]
        others = b"".join(line for line in told if line not in self.told)
        expect("the end", (ended, output, others), (status, b"", b"".join(line + b"\n" for line in lines)))
        expect_time("the end", time.monotonic() - begun, seconds)
        return lawful_journal(PROGRAM, self.path).entries

    def reasons(self, client):
        """What the lines tell of the calls to this client: why each failed, or that a reply is missing yet."""
        found = [ON_CALLBACK.fullmatch(line) for line in self.told]
        return [line["reason"].decode() for line in found if line["client"] == b"%d" % client.number]


def marks_of(entries, client):
    return [bool(entry.is_up) for entry in entries if isinstance(entry, Path) and entry.client == client.number]


# What is heard.


def heard_by(listener, place, seconds=REPLY_PATIENCE):
    """The record of this place among those that came."""
    heard = listener.wait_for(place + 1, seconds)
    if len(heard) <= place:
        raise Wrong(f"{len(heard)} calls come to the listener, wanted {place + 1}")
    return heard[place]


def expect_null_call(listener, place=0):
    """CB_NULL came, as the model spells it."""
    heard = heard_by(listener, place)
    expect_record("CB_NULL", heard, null_call(xid_of(heard), CALLBACK_PROGRAM))
    return heard


def expect_recall(listener, client, lent, place=1):
    """CB_RECALL came, as the model spells it."""
    heard = heard_by(listener, place)
    expect_record("CB_RECALL", heard, recall_call(xid_of(heard), client.recall_of(lent)))
    return heard


def expect_record(what, heard, wanted):
    expect(what, heard.data.hex(" ", 4), wanted.hex(" ", 4))


def xid_of(heard):
    return int.from_bytes(xid(heard.data), "big")


def expect_over(heard):
    """The server has ended the connection of this call."""
    expect("the connection of a callback ends", heard.is_over.wait(REPLY_PATIENCE), True)


def expect_delay(client, name, access):
    expect("an OPEN that a delegation is in the way of", client.open_by_name(name, access), Opened(Status.DELAY, None))


def expect_none_granted(client, name):
    """The client opens the file, but gets no delegation, also by an owner that is confirmed."""
    for _ in range(3):
        expect("an OPEN that brings no delegation", client.open_by_name(name, READ), Opened(NFS4_OK, None))


def wait_until_open(client, name, access, begun):
    """Opens the file, until that isn't DELAY any more: how many seconds that took."""
    while (opened := client.open_by_name(name, access)).status == Status.DELAY:
        if time.monotonic() - begun > REPLY_PATIENCE:
            raise Wrong(f"a delegation isn't revoked in {REPLY_PATIENCE} seconds")
        time.sleep(0.05)
    seconds = time.monotonic() - begun
    expect("the OPEN that waited", opened.status, NFS4_OK)
    return seconds


def slowest_answer(client):
    """How many seconds the slowest of some calls takes."""
    slowest, root = 0, (words(PUTROOTFH), done(PUTROOTFH))
    for _ in range(20):
        begun = time.monotonic()
        client.null()
        client.want(root, (words(GETATTR, 0), done(GETATTR, words(0, 0))))
        slowest = max(slowest, time.monotonic() - begun)
        time.sleep(0.01)
    return slowest
