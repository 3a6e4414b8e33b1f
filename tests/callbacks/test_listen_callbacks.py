"""`tools/listen_callbacks` prints what it hears, and returns delegations."""
import os
import re
import subprocess
import sys
import threading
import time
from contextlib import contextmanager

import pytest

from callbacks.callback_runs import expect_delay, expect_none_granted, wait_until_open
from helpers.callback_peers import IDENT, callback_at
from helpers.expecting_client import expect, Wrong
from nfs4tools.callbacks.listener import Listener, accept
from nfs4tools.processes import PATIENCE, TOP
from nfs4tools.wire import BOTH, READ

pytestmark = pytest.mark.quick


class Tool:
    """`tools/listen_callbacks` as a process, with these options."""

    def __init__(self, *options):
        command = [sys.executable, os.path.join(TOP, "tools/listen_callbacks"), *options]
        self.process = subprocess.Popen(command, stdout=subprocess.PIPE, text=True)
        first = self.process.stdout.readline()
        found = re.fullmatch(r"listening on (127\.0\.0\.1):(\d+): r_netid tcp, r_addr (\S+)\n", first)
        if found is None:
            raise Wrong(f"listen_callbacks prints {first}")
        self.callback = callback_at((found[1], int(found[2])))
        expect("its r_addr", found[3].encode(), self.callback.address)

    def __enter__(self):
        return self

    def __exit__(self, *_):
        self.process.kill()
        self.process.wait()
        self.process.stdout.close()

    def expect_lines(self, *patterns):
        """Behind the first line it prints these, each in its time; and nothing else before it is ended behind them."""
        # What waits for a line that never comes ends with the tool.
        with ended_after(self.process, PATIENCE):
            lines = [self.process.stdout.readline() for _ in patterns]
        self.process.terminate()
        lines = "".join([*lines, self.process.communicate(timeout=PATIENCE)[0]]).splitlines()
        is_so = len(lines) == len(patterns) and all(map(re.fullmatch, patterns, lines))
        expect(f"that it prints {patterns}, where it prints {lines}", is_so, True)


@contextmanager
def ended_after(process, seconds):
    """Ends this process where what is done within takes so long."""
    timer = threading.Timer(seconds, process.terminate)
    timer.start()
    try:
        yield
    finally:
        timer.cancel()


# The beginning of a line of the tool: the time, and who calls how.
CALLED = r"\d\d:\d\d:\d\d\.\d{3} 127\.0\.0\.1:\d+, xid \d+, program 0x40000000, "


def test_returning_tool(run):
    """The tool gives a delegation back that is recalled, so that the OPEN that waits goes through."""
    with Listener(accept) as home, run() as server, Tool("--return", f"127.0.0.1:{server.served.port}") as tool:
        holder, other = server.client(1, tool.callback), server.client(2, home)
        lent = holder.borrow(b"a", BOTH)
        other.open_by_name(b"b", READ)
        expect_delay(other, b"a", READ)
        wait_until_open(other, b"a", READ, time.monotonic())
        stateid = f"1 1 {holder.number} {lent.number}"
        recall = f"CB_RECALL {stateid}, callback_ident {IDENT}, filehandle 8 0x6e666831 0x00000001"
        tool.expect_lines(
            CALLED + "AUTH_NONE: CB_NULL", CALLED + f"AUTH_SYS 1: {recall}", rf"\S+ DELEGRETURN {stateid} -> NFS4_OK"
        )
        server.end()


def test_silent_tool(run):
    """The tool answers nothing."""
    with run() as server, Tool("--silent") as tool:
        client = server.client(1, tool.callback)
        expect_none_granted(client, b"a")
        time.sleep(1)
        expect_none_granted(client, b"a")
        tool.expect_lines(CALLED + "AUTH_NONE: CB_NULL")
        server.end()
