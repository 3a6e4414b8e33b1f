"""`nfs4state serve` over TCP where memory is refused.

Eight connections write under a limit of addresses (`ulimit -v`) until 1,000 calls were refused, 4 KiB a time and 64 KiB
a time: each is answered, by SYSTEM_ERR or NFS4ERR_RESOURCE, or its connection ends, and a line tells or counts it. Who
comes again is served, all threads are there at the end, and the journal has what was answered. 300,000 GETATTRs find
room where no block of memory above 8 MiB is to be had."""
import os
import threading
import time
from collections import Counter
from concurrent.futures import ThreadPoolExecutor
from resource import RLIMIT_AS, prlimit, setrlimit

import pytest

from helpers.entry_memory import ENTRY, write_len
from helpers.expecting_client import Client, Wrong, done, expect
from helpers.preload import is_loaded
from helpers.server_helpers import greet, peer_of
from nfs4tools.messages import (
    GETATTR,
    NFS4_OK,
    NULL,
    PUTFH,
    TYPE_SIZE_FILEID,
    call,
    compound,
    handle,
    reply,
    results,
    words,
)
from nfs4tools.processes import PATIENCE, REPLY_PATIENCE
from nfs4tools.wire import Status, record
from serve.memory_runs import (
    ENDED,
    FILE,
    MIB,
    OK,
    RESOURCE,
    WORKERS,
    entries_of,
    expect_end,
    status_of,
    threads_of,
    under,
    wait_for_line,
    write_words,
)

pytestmark = pytest.mark.needs("nfs4state")


# The limit of addresses, in bytes, which leaves room for the threads' stacks and for arenas of the C library.
ADDRESSES = 1_000_000 << 10


# The connections that write, and the calls that each has under way.
WRITERS = 8


UNDER_WAY = 8


# How many calls have to be refused; or else, where it is mostly their records that find no room, how many calls and
# connections together.
REFUSED, REFUSED_OR_ENDED = 1000, 4000


# The seconds that a connection waits that comes again; those in which all this has to come; and those after which what
# came was looked at.
PAUSE, MOST_SECONDS, LATELY = 0.005, 240, 2.5


# No more than this is given out at once, and so many GETATTRs come.
LARGEST, GETATTRS = 8 << 20, 300_000


# The connections that are reset; and the threads of the race, with the calls of each.
RESETS, RACERS, RACES = 5000, 8, 300


# Without memory.
class Tally:
    """What became of calls, by several threads."""

    def __init__(self):
        self.lock, self.ends, self.until = threading.Lock(), Counter(), time.monotonic() + MOST_SECONDS

    def is_enough(self):
        if time.monotonic() > self.until:
            raise Wrong(f"in {MOST_SECONDS} seconds too few calls are refused, of these: {dict(self.ends)}")
        refused = self.ends[RESOURCE] + self.ends["SYSTEM_ERR"]
        return refused >= REFUSED or refused + self.ends[ENDED] >= REFUSED_OR_ENDED

    def receive(self, peer, what):
        """The next reply; who gets none in time is told what became of the others."""
        try:
            return peer.receive()
        except TimeoutError:
            raise Wrong(
                f"{what} gets no answer, and its connection no end, in {REPLY_PATIENCE} seconds; before it the "
                f"calls ended like this: {dict(self.ends)}"
            ) from None

    def add(self, end, count=1):
        with self.lock:
            self.ends[end] += count


def write_and_write(served, data, tally):
    """Writes again and again until enough calls were refused, over one connection as long as it is there, and then over
    the next one."""
    sent = under(write_words(data)) * UNDER_WAY
    while not tally.is_enough():
        with peer_of(served) as peer:
            if write_on(peer, sent, tally):
                return
        time.sleep(PAUSE)


def write_on(peer, sent, tally):
    """The same over one connection: whether it was enough, or the connection ended."""
    while not tally.is_enough():
        peer.send(sent)
        for place in range(UNDER_WAY):
            status = status_of(tally.receive(peer, "a WRITE"))
            if status is None:
                tally.add(ENDED)
                tally.add("unanswered", UNDER_WAY - place)
                return False
            if status not in (Status.OK, Status.RESOURCE, "SYSTEM_ERR"):
                raise Wrong(f"a WRITE gets {status!r}")
            tally.add({Status.OK: OK, Status.RESOURCE: RESOURCE}.get(status, status))
    return True


def write_by_all(served, data, tally):
    with ThreadPoolExecutor(WRITERS) as pool:
        jobs = [pool.submit(write_and_write, served, data, tally) for _ in range(WRITERS)]
        for job in jobs:
            job.result()


def come_again(served, tally):
    """A new connection is served; a few may end before one is. Its GETATTR is answered, too."""
    for _ in range(1000):
        with peer_of(served) as peer:
            peer.send(call(7, NULL))
            if tally.receive(peer, "the NULL of who comes again") == reply(7):
                peer.send(under(words(GETATTR, 0)))
                if (status := status_of(tally.receive(peer, "a GETATTR behind it"))) is not None:
                    return tally.add("GETATTR" if status == Status.OK else status)
        tally.add(ENDED)
        time.sleep(PAUSE)
    raise Wrong("of 1,000 connections none is served after the memory ran out")


@pytest.mark.parametrize("kib", [4, 64])
def test_limited(serve, path_of, tell, kib):
    """Under a limit of addresses."""
    path, limit = path_of("limited.journal"), lambda: setrlimit(RLIMIT_AS, (ADDRESSES, ADDRESSES))
    begun, tally = time.monotonic(), Tally()
    with serve("--connections", str(WORKERS), "--journal", path, preexec_fn=limit) as served:
        greet(served)
        threads = threads_of(served)
        write_by_all(served, bytes(kib << 10), tally)
        for _ in range(WORKERS):
            come_again(served, tally)
        expect("the threads at the end", threads_of(served), threads)
        in_use = served.most_kilobytes("VmHWM")
        lines = expect_end(served)
    lines.expect_ended(tally.ends[ENDED], "no memory")
    # The journal as it goes may be given up.
    lines.others = [line for line in lines.others if not line.startswith(f"{path}.part: ")]
    expect("the other lines", lines.others, [])
    found, least = entries_of(path), tally.ends[OK] + tally.ends["GETATTR"]
    if not least <= found <= least + tally.ends["unanswered"]:
        raise Wrong(f"the journal has {found} entries, and the calls were answered like this: {dict(tally.ends)}")
    tell(
        f"under {ADDRESSES >> 10} KB of addresses, of which {in_use} were in use, WRITEs of {kib} KiB had "
        f"{tally.ends[OK]} answers OK, {tally.ends[RESOURCE]} RESOURCE and {tally.ends['SYSTEM_ERR']} SYSTEM_ERR, and "
        f"{tally.ends[ENDED]} connections ended, in {time.monotonic() - begun:.0f} seconds"
    )


def test_beforehand(serve):
    """A worker has what a connection needs of memory, but for its records, before it accepts one: where no more is to
    be had from then on, the next one is served, and ends with a record that is long."""
    # With one arena nothing is set aside for a thread.
    with serve("--connections", "1", env={**os.environ, "MALLOC_ARENA_MAX": "1"}) as served:
        size, until = None, time.monotonic() + PATIENCE
        # Its threads have begun, and nothing asks for memory any more.
        expect("a thread that calls clients back", served.has_caller(PATIENCE), True)
        threads_of(served)
        while size != (size := served.addresses()) and time.monotonic() < until:
            time.sleep(0.5)
        prlimit(served.program.pid, RLIMIT_AS, (size, size))
        with peer_of(served) as peer:
            Client(peer, 1).null()
            peer.send(record(bytes(250_000)))
            expect("what a record gets that finds no room", peer.receive_all(), b"")
        expect_end(served).expect_ended(1, "no memory")


@pytest.mark.parametrize("kib", [4, 64])
def test_bounded(serve, path_of, kib):
    """Under a bound of the entries' memory, and without a limit of addresses, no connection ends."""
    path, tally, bound = path_of("bounded.journal"), Tally(), 600
    with serve("--connections", str(WORKERS), "--memory", str(bound), "--journal", path) as served:
        write_by_all(served, bytes(kib << 10), tally)
        wait_for_line(served, "the memory is full.*")
        lines = expect_end(served)
    lines.expect_ended(0, None)
    lines.expect_memory(bound, True)
    ends = dict(tally.ends)
    if set(ends) != {OK, RESOURCE} or ends[OK] != bound * MIB // (ENTRY + write_len(0, kib << 10)):
        raise Wrong(f"WRITEs of {kib} KiB under a bound of {bound} MiB get {ends}")
    expect("the entries", entries_of(path), ends[OK])


# No large blocks.
def test_large(serve, path_of, preloaded):
    """No list of the entries asks for much at once."""
    path, mark = path_of("large.journal"), path_of("large.mark")
    environment = preloaded("refuse_large.c", REFUSED_ABOVE=str(LARGEST), REFUSED_MARK=mark)
    each, some = 60, 20
    sent = compound(1, words(PUTFH) + handle(FILE), *[words(GETATTR, 1, TYPE_SIZE_FILEID)] * each) * some
    has = done(GETATTR, words(1, TYPE_SIZE_FILEID, 20, 1, 0, 5, 0, 2))
    wanted = results(1, NFS4_OK, done(PUTFH), *[has] * each)
    with serve("--journal", path, env=environment) as served:
        expect("whether large blocks are refused", is_loaded(served.program.pid, environment), True)
        with peer_of(served) as peer:
            for turn in range(0, GETATTRS, each * some):
                peer.send(sent)
                for place in range(some):
                    if (got := peer.receive()) != wanted:
                        raise Wrong(
                            f"of {GETATTRS} GETATTRs, {each} in a call, those from {turn + each * place} on "
                            f"get {status_of(got)!r}; a block was refused: {os.path.exists(mark)}"
                        )
        lines = expect_end(served)
    lines.expect_ended(0, None)
    expect("the other lines", lines.others, [])
    expect("the entries", entries_of(path), GETATTRS)
