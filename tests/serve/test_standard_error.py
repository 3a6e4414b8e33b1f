"""`nfs4state serve` with a standard error that takes nothing: 5,000 connections that are reset leave a run to be served
and to be ended whose standard error is full, and one where it is closed; what couldn't be told is counted."""
import os
import subprocess
import time

import pytest

from helpers.expecting_client import Client, Wrong, expect
from helpers.reply_oracle import Judge
from helpers.server_helpers import Late, lawful_journal, peer_of, tried_again
from nfs4tools.processes import PATIENCE, PROGRAM
from serve.memory_runs import expect_end
from serve.test_memory import RESETS

pytestmark = pytest.mark.needs("nfs4state")


# The seconds in which a run ends with its input where nobody reads what it tells.
AT_ONCE = 2


# A standard error that takes nothing.
def fill_errors(served):
    """Fills the pipe that is its standard error, of which nobody reads: how many bytes."""
    pipe, count = os.open(f"/proc/{served.program.pid}/fd/2", os.O_WRONLY | os.O_NONBLOCK), 0
    try:
        while True:
            count += os.write(pipe, b"\n" * 4096)
    except BlockingIOError:
        return count
    finally:
        os.close(pipe)


def reset_all(served, count):
    """So many connections that are reset within a record."""
    for _ in range(count):
        peer = peer_of(served)
        peer.send(b"\x80\x00")
        peer.reset()


def expect_served(served):
    """A connection is served that comes now: its client."""
    with peer_of(served) as peer:
        client = Client(peer, 2)
        client.introduce()
        client.round(1)
    return client


def expect_journal_of(path, client):
    """The journal is lawful, and its entries are those of the client's calls."""
    journal = lawful_journal(PROGRAM, path)
    Judge(journal).expect_link(b"".join(client.sent), b"".join(client.got), range(len(journal.entries)))


def end(served):
    """It ends with its input, also where nobody reads what it tells: after how many seconds."""
    begun = time.monotonic()
    served.end_input()
    try:
        expect("the status", served.program.wait(PATIENCE), 0)
    except subprocess.TimeoutExpired:
        raise Wrong(f"it hasn't ended {PATIENCE} seconds after its input") from None
    return time.monotonic() - begun


@pytest.mark.alone
@tried_again
def test_full_errors(serve, path_of, tell):
    """Where nobody reads its standard error, which is full, it serves on and ends."""
    path = path_of("full.journal")
    with serve("--journal", path) as served:
        # Its second line is there, too, before there is no more room.
        served.read_line()
        fill_errors(served)
        reset_all(served, RESETS)
        client = expect_served(served)
        took = end(served)
    expect_journal_of(path, client)
    if took > AT_ONCE:
        raise Late(f"a run whose standard error is full ends {took:.1f} seconds after its input")
    tell(
        f"a run whose standard error is full ended {took:.1f} seconds after its input, behind {RESETS} connections "
        "that were reset"
    )


def test_read_late(serve):
    """What found no room is counted, and told once there is some: each connection is told, or counted."""
    with serve() as served:
        served.read_line()
        fill_errors(served)
        reset_all(served, RESETS // 5)
        # Time for some more seconds' lines, for which there is no room.
        time.sleep(1.5)
        reset_all(served, RESETS // 5)
        expect_served(served)
        lines = expect_end(served)
    lines.others = [line for line in lines.others if line]
    lines.expect_ended(2 * (RESETS // 5), "input not read")
    expect("the other lines", lines.others, [])
    if sum(lines.ended.values()) > 200:
        raise Wrong(f"{sum(lines.ended.values())} lines tell of connections")


def test_closed_errors(serve, path_of):
    """Where its standard error is closed, it serves on and ends."""
    path = path_of("closed.journal")
    with serve("--journal", path) as served:
        served.read_line()
        served.program.stderr.close()
        reset_all(served, 100)
        client = expect_served(served)
        served.program.stderr = None
        end(served)
    expect_journal_of(path, client)
