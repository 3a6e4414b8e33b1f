"""Each allocation of memory is refused in turn to the server's program as a server on TCP: while it has one connection,
while it goes on until its input ends, and while it calls a client back.

Memory also runs out for good: all allocations after the refused one are refused, too. The journal that the run leaves
has to be the model's, after the same replies. After the end of the connection nothing is allocated."""
import re
import subprocess
import time
from fcntl import ioctl
from termios import FIONREAD

import pytest

from helpers.callback_client import Borrower
from helpers.callback_peers import callback_at, nobody
from helpers.expecting_client import Wrong, numbers_of
from helpers.refused_allocations import (
    BEFORE,
    LONG,
    REFUSALS,
    allocations_at_once,
    allocations_in,
    journal_after,
    model_row,
    named_row,
    shown,
    taken,
)
from nfs4tools.callbacks.listener import Listener, accept
from nfs4tools.callbacks.messages import recall_call
from nfs4tools.journal.entries import Call
from nfs4tools.journal.journal import read_journal, verdict
from nfs4tools.messages import NFS4_OK, NFS4ERR_RESOURCE, NULL, call, compound, reply, words
from nfs4tools.processes import PROGRAM, Peer, REPLY_PATIENCE, Served
from nfs4tools.wire import BOTH, READ, Status, split_records

pytestmark = pytest.mark.needs("nfs4state")

# The seconds that the program has for a reply, on however busy a machine.
PATIENCE = 60
SINCE = pytest.mark.parametrize("since", [False, True], ids=["one", "all after it"])


class Sending:
    """A connection to a server, by which these bytes are sent. Where the server has ended before, nothing comes."""

    def __init__(self, served, sent):
        self.peer = None
        if served.port is not None:
            try:
                self.peer = Peer(("127.0.0.1", served.port))
                self.peer.send(sent)
                self.peer.finish()
            except (ConnectionRefusedError, ConnectionResetError):
                pass

    def receive(self, seconds=REPLY_PATIENCE):
        """What comes up to the end of the connection."""
        return b"" if self.peer is None else self.peer.receive_all(seconds)

    def has_end(self, seconds):
        """Whether the connection ends so soon, or there is none: it doesn't where a worker waits for memory that never
        comes."""
        try:
            while self.peer is not None and self.peer.take_more(seconds):
                pass
            return True
        except TimeoutError:
            return False

    def close(self):
        if self.peer is not None:
            self.peer.socket.close()


def sent_to(served, sent):
    """What a server sends for these bytes, up to the end of the connection."""
    sending = Sending(served, sent)
    try:
        return sending.receive()
    finally:
        sending.close()


def entries_of(data):
    """The calls of a journal, as if all came at one moment: a server on TCP also marks the paths of its clients, as it
    tries to call them."""
    return [entry._replace(moment=0) for entry in read_journal(data).entries if isinstance(entry, Call)]


def serve_command(row, path, *options):
    return [
        PROGRAM,
        "serve",
        "--listen",
        "127.0.0.1:0",
        f"--lease={row.lease}",
        f"--epoch={row.epoch}",
        "--journal",
        path,
        *options,
    ]


@SINCE
def test_serve(since, memory, tell):
    """A server that has the row's connection."""
    row = named_row(0)
    path, connection = memory.new_path("journal"), row.connections[0]

    def is_refused(allocation):
        refusal = memory.refusal(allocation, since)
        with Served(serve_command(row, path, "--connections", "1"), env=refusal.environment) as served:
            got, ending, data = sent_to(served, connection.sent), served.end(), taken(path)
        when = refusal.when()
        # Where an allocation was refused within a call, its reply says so; but there is one.
        are_as_many = len(split_records(got)[0]) == len(split_records(connection.wanted)[0])
        is_undisturbed = ending == (0, b"", b"") and are_as_many and (when is not None or got == connection.wanted)
        status, _, errors = ending
        is_refusal = when is not None and status == 1 and errors in REFUSALS
        is_left_out = is_refusal and data is None and when == BEFORE
        is_written = data is not None and entries_of(data) == entries_of(journal_after(row, got))
        if not (is_undisturbed or is_refusal) or not (is_left_out or is_written):
            raise Wrong(
                f"where allocation {allocation} is refused it ends with {ending}, after {got.hex()}, with the journal "
                f"{shown(data)}"
            )
        return when is not None

    allocations = allocations_in(is_refused)
    assert allocations
    tell(f"{allocations} allocations")


# What a run that goes on may tell where memory is refused to a part of it; and the seconds after which the thread that
# sweeps has looked at the journal.
TOLD = re.compile(
    rb"(connection [0-9]+ from 127\.0\.0\.1:[0-9]+: no memory|"
    rb".*\.part: .*; entries are lacking until a write succeeds|"
    rb"no thread for a worker: .*; it is tried again each second|all workers run: 2 of 2|"
    rb"the input ended before a connection came; .*|no more connections: 2 of 2|"
    rb"client [0-9]+: callback to .*)\n"
)
LOOKED = 1.5
# How many runs there are at a time, each of which mostly waits for that.
AT_ONCE = 32


def serves_on(served):
    """Whether a new connection is served, or the next one where the refused allocation was that one's; or the server
    has ended, since it couldn't begin."""
    if any(sent_to(served, call(7, NULL)) == reply(7) for _ in range(2)):
        return True
    try:
        return served.program.wait(PATIENCE) is not None
    except subprocess.TimeoutExpired:
        return False


@SINCE
def test_going_on(since, memory, tell):
    """A server that goes on until its input ends, and has the row's connection, and then another one. Only where no
    reply was made it may leave no journal."""
    row = named_row(0)
    connection = row.connections[0]

    def is_refused(allocation):
        path, refusal = memory.new_path("journal"), memory.refusal(allocation, since)
        command = serve_command(row, path, "--until-input-ends", "--connections", "2")
        with Served(command, env=refusal.environment, stdin=subprocess.PIPE) as served:
            sending = Sending(served, connection.sent)
            if not sending.has_end(LOOKED if since else REPLY_PATIENCE) and not since:
                raise Wrong(f"where allocation {allocation} is refused, its connection has no end")
            if not since and served.port is not None and not serves_on(served):
                raise Wrong(f"where allocation {allocation} is refused, it serves no connection after it")
            time.sleep(LOOKED * served.is_running())
            served.end_input()
            (status, _, errors), data, part = served.end(), taken(path), taken(path + ".part")
            # Also what came while it was thought to wait.
            got = sending.receive()
            sending.close()
        was_refused, fault = refusal.took_place(), TOLD.sub(b"", errors)
        is_ending = (status, fault) == (0, b"") or status == 1 and was_refused and fault in REFUSALS
        is_reply = was_refused or got == connection.wanted
        is_left_out = status == 1 and got == b"" and data is None
        is_written = data is not None and entries_of(data) == entries_of(journal_after(row, got))
        if not (is_ending and is_reply and part is None) or not (is_left_out or is_written):
            raise Wrong(
                f"where allocation {allocation} is refused, it ends with {status, errors}, after {got.hex()}, with the "
                f"journal {shown(data)}"
            )
        return was_refused

    allocations = allocations_at_once(is_refused)
    assert allocations
    tell(f"{allocations} allocations")


class Insisting(Borrower):
    """A client that sends a call again where the first reply is a refusal, and where none comes by a new connection."""

    def __init__(self, served, uid):
        self.address = "127.0.0.1", served.port
        super().__init__(Peer(self.address), uid)

    def ask(self, *operations):
        sent = compound(len(self.sent) + 1, *operations, uid=self.uid)
        self.peer.send(sent)
        got = self.peer.receive()
        if len(got) < 28:
            self.peer.socket.close()
            self.peer = Peer(self.address)
        elif len(got) > 28 and got[28:32] != words(NFS4ERR_RESOURCE):
            self.sent.append(sent)
            self.got.append(got)
            return numbers_of(got)
        return super().ask(*operations)


def begin_to_count(served, clients):
    """From now on allocations have numbers: once the clients are served, and others are called back, it reads a
    byte."""
    for client in clients:
        client.null()
    if not served.has_caller(PATIENCE):
        raise Wrong("a server without a thread that calls back")
    served.program.stdin.write(b"+")
    until = time.monotonic() + PATIENCE
    while any(ioctl(served.program.stdin, FIONREAD, bytes(4))) and time.monotonic() < until:
        time.sleep(0.001)


def lend_and_recall(served, home, callback):
    """A file is lent to a client, recalled for another one, and given back; each call of which is heard."""
    holder, other = clients = Insisting(served, 1), Insisting(served, 2)
    begin_to_count(served, clients)
    holder.introduce(callback_at(home.address))
    other.introduce(callback)
    other.open_by_name(b"b", READ)
    lent = holder.borrow(b"a", BOTH)
    waits = other.open_by_name(b"a", READ).status
    heard = home.wait_for(2, PATIENCE)
    # Where memory was refused for its first reply, it had been given back.
    back = holder.give_back(lent)
    opened = other.open_by_name(b"a", READ).status
    for client in clients:
        client.peer.socket.close()
    calls = [None if one.call is None else one.call.recall and one.data for one in heard]
    wanted = [None, recall_call(heard[1].call.xid, holder.recall_of(lent))] if len(heard) == 2 else "two calls"
    if (waits, opened, calls) != (Status.DELAY, NFS4_OK, wanted) or back not in (NFS4_OK, Status.BAD_STATEID):
        raise Wrong(f"{waits}, {back}, {opened}, {calls}, wanted {wanted}")


def test_callbacks(memory, tell):
    """A server that calls a client back."""

    def is_refused(allocation):
        path, refusal = memory.new_path("journal"), memory.refusal(allocation, after=0)
        command = [
            PROGRAM,
            "serve",
            "--listen",
            "127.0.0.1:0",
            "--until-input-ends",
            "--connections",
            "4",
            "--journal",
            path,
        ]
        with (
            Listener(accept) as home,
            nobody() as callback,
            Served(command, env=refusal.environment, stdin=subprocess.PIPE) as served,
        ):
            try:
                lend_and_recall(served, home, callback)
            except (Wrong, OSError) as wrong:
                raise Wrong(f"where allocation {allocation} is refused: {wrong}") from wrong
            served.end_input()
            (status, _, errors), data = served.end(), taken(path)
            count_heard = len(home.heard)
        was_refused, fault = refusal.took_place(), TOLD.sub(b"", errors)
        is_ending = (status, fault) == (0, b"") or status == 1 and was_refused and fault in REFUSALS
        if not is_ending or count_heard != 2 or data is None or not verdict(data)[0]:
            raise Wrong(
                f"where allocation {allocation} is refused, it ends with {status, errors}, after {count_heard} calls, "
                f"with the journal {shown(data)}"
            )
        return was_refused

    allocations = allocations_at_once(is_refused)
    assert allocations
    tell(f"{allocations} allocations")


def test_end_of_connection(memory):
    """The same for a server on TCP that has a row's connection, where the end is that of the connection."""
    row = model_row("many entries", *LONG["many entries"])
    connection, refusal, path = row.connections[0], memory.refusal_at_end(), memory.new_path("journal")
    with Served(serve_command(row, path, "--connections", "1"), env=refusal.environment) as served:
        # All threads have begun before the end, and asked for what they need.
        if not served.has_caller(PATIENCE):
            raise Wrong("a server without a thread that calls back")
        time.sleep(LOOKED)
        got = sent_to(served, connection.sent)
        ending, data = served.end(), taken(path)
    assert not refusal.took_place()
    assert got == connection.wanted and ending == (0, b"", b"")
    assert data is not None and entries_of(data) == entries_of(journal_after(row, connection.wanted))
