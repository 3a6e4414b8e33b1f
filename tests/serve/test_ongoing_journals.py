"""The journal of a run that goes on, while it is written. A run that is killed leaves a beginning of its journal."""
import os
import re
import signal
import subprocess
import sys
import time

import pytest

from helpers.expecting_client import expect, Wrong
from helpers.reply_oracle import Judge
from helpers.server_helpers import SERVERS, Late, expect_in_journal, lawful_journal, peer_of, tried_again
from nfs4tools.journal.journal import Growing, journal_bytes
from nfs4tools.messages import GETATTR, PUTROOTFH, compound, opening, words
from nfs4tools.processes import PATIENCE, PROGRAM, TOP
from nfs4tools.program import bytes_of
from serve.ongoing_runs import LATELY, NOBODY, be_client, expect_end, expect_no_part, part_name, serve

pytestmark = [pytest.mark.needs("nfs4state"), pytest.mark.quick]

# The long calls that come just before the input ends.
LONG = 4


def beginning(data):
    """The journal of a beginning, all of whose entries are whole."""
    growing = Growing()
    entries = growing.take(data)
    if growing.head is None or growing.rest:
        raise Wrong(growing.ending())
    expect("the number of entries that a beginning says", growing.count, 0)
    return growing.head._replace(entries=entries)


def calls_on_state(client):
    """How many entries a client's calls have: one each, but for RENEW."""
    return len([sent for sent in client.sent if client.renew_words() not in sent])


def part_of(path, least):
    """The journal as it goes, once it has so many entries."""
    until = time.monotonic() + PATIENCE
    while time.monotonic() < until:
        data = bytes_of(part_name(path))
        try:
            if data is not None and len(beginning(data).entries) >= least:
                return data
        except Wrong:
            # It is being written.
            pass
        time.sleep(0.05)
    raise Wrong(f"no journal as it goes, with {least} entries")


def expect_shown(path, saved, entries):
    """It is shown, an entry a line, and saved as a journal that is lawful."""
    show = [sys.executable, os.path.join(TOP, "tools/show_journal")]
    shown = subprocess.run([*show, path], stdout=subprocess.PIPE, check=True).stdout.splitlines()
    expect("the lines", len(shown) - entries in (0, 1), True)
    subprocess.run([*show, "--save", saved, path], stdout=subprocess.PIPE, check=True)
    expect("the entries", len(lawful_journal(PROGRAM, saved).entries), entries)


@pytest.fixture(params=SERVERS)
def command(request):
    """How a server is started: the program, then the model."""
    return request.param


def test_killed(command, path_of):
    """A run that is killed leaves a beginning of its journal, which has what came a while before. What an earlier run
    left has another name then, in place of what had that name. It never looks at its input, which has ended."""
    path, last = path_of("killed.journal"), b"an earlier one"
    with open(part_name(path) + ".old", "wb") as file:
        file.write(last)
    for turn in range(2):
        with serve("--journal", path, command=command, until="--until-killed", stdin=subprocess.DEVNULL) as served:
            expect("the beginning", len(beginning(part_of(path, 0)).entries), 0)
            clients = [be_client(served, uid, 2) for uid in range(3 + turn)]
            part_of(path, sum(map(calls_on_state, clients)))
            served.program.kill()
            expect("the end", served.end(), (-signal.SIGKILL, b"", b""))
        expect("a journal", os.path.exists(path), False)
        part = bytes_of(part_name(path))
        judge = Judge(beginning(part))
        for client in clients:
            expect_in_journal(judge, client)
        expect_shown(part_name(path), path_of("saved.journal"), len(judge.journal.entries))
        expect("what the run before left", bytes_of(part_name(path) + ".old"), last)
        last = part


@tried_again
def test_journal(command, path_of):
    """While a run goes on, the beginning of its journal is there, with what came a while before; once the journal
    stands, it isn't any more."""
    path = path_of("whole.journal")
    with serve("--journal", path, command=command) as served:
        client = be_client(served, 1, 3)
        begun = time.monotonic()
        part = part_of(path, calls_on_state(client))
        if (seconds := time.monotonic() - begun) > LATELY:
            raise Late(f"the journal as it goes has what came {seconds:.1f} seconds before")
        expect_in_journal(Judge(beginning(part)), client)
        expect("a journal", os.path.exists(path), False)
        be_client(served, 2, 3)
        expect_end(served)
    expect_no_part(path)
    journal = lawful_journal(PROGRAM, path)
    empty = journal_bytes(journal._replace(entries=[]))
    expect("the beginning of the journal", bytes_of(path)[len(empty) :].startswith(part[len(empty) :]), True)
    expect("its head", part[: len(empty)], empty)


def expect_replies(peer, sent, count=1):
    """Each of so many calls, which are sent at once, is answered."""
    peer.send(sent * count)
    for _ in range(count):
        expect("whether a reply comes", peer.receive() != b"", True)


def test_long_entries(path_of):
    """Entries of 250,000 bytes, and as many short ones as are written in several pieces. At last come so many long ones
    that they aren't there in time if a second goes by from one to the next."""
    path, open_long = path_of("long.journal"), opening(0, 3, 0, NOBODY, bytes(250000))
    long_call = compound(1, words(PUTROOTFH), open_long)
    sent = compound(1, words(PUTROOTFH), *[words(GETATTR, 0)] * 63)
    with serve("--journal", path) as served:
        with peer_of(served) as peer:
            for turn in range(4):
                expect_replies(peer, long_call)
                for _ in range(50):
                    expect_replies(peer, sent)
            for _ in range(80):
                expect_replies(peer, long_call)
        part = part_of(path, 84 + 4 * 50 * 63)
        expect_end(served)
    empty = journal_bytes(lawful_journal(PROGRAM, path)._replace(entries=[]))
    expect("the journal as it went", part[len(empty) :], bytes_of(path)[len(empty) :])


def test_unwritten(command, path_of):
    """If the journal can't be written in place at the end, its file as it goes is brought up to the last entry, and
    stays."""
    path, open_long = path_of("fifo"), opening(0, 3, 0, NOBODY, bytes(90000))
    long_call = compound(1, words(PUTROOTFH), open_long, uid=2)
    os.mkfifo(path)
    with serve("--journal", path, command=command) as served:
        client = be_client(served, 1, 2)
        # More than is written at once.
        with peer_of(served) as peer:
            expect_replies(peer, long_call, LONG)
        expect_end(served, re.escape(f"{path}: ") + ".*", "fault: file not written", status=1)
    judge = Judge(beginning(bytes_of(part_name(path))))
    expect_in_journal(judge, client)
    users = [entry.principal for entry in judge.journal.entries]
    expect("the long entries", users.count((1, 2)), LONG)
