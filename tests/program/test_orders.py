"""What the program of rows does by an order, where no row and no run under stress shows it: the clock that connections
of one order share, and their receipts; how many bytes are left behind the last whole record; at which moments leases
are swept meanwhile, and how often; in which pieces a connection is read, before each of which other threads may go on;
that owners which are forgotten leave their places, and that none is where the journal is full; and which inputs it
refuses."""
import os
import subprocess

import pytest

from helpers import call_steps as limits
from helpers.expecting_client import expect
from helpers.preload import is_loaded, preloading
from nfs4tools.journal.entries import Expire, Path
from nfs4tools.journal.journal import read_journal
from nfs4tools.messages import NULL, PUTROOTFH, call, compound, confirmation, setclientid, split, words
from nfs4tools.model.state import JOURNAL_LIMIT, OWNERS_LIMIT
from nfs4tools.rows.driver import (
    ALONE,
    Driver,
    FORGET,
    FULL,
    Forgotten,
    MARK,
    Marked,
    NOT_LIVE,
    PENDING,
    PROBE,
    PROGRAM,
    REVOKE,
    Revoked,
    SERVE,
    SHARED,
    SWEEP,
    Swept,
    TAKE,
    head,
    part,
)
from nfs4tools.wire import Opnum, Status, u32, u64

pytestmark = pytest.mark.needs("rows")
ROOT = compound(9, words(PUTROOTFH))
each_way = pytest.mark.parametrize("way", [ALONE, SHARED], ids=["alone", "shared"])
# It writes a byte into the file YIELDS for each time that other threads are let go on.
YIELDS = """#include <fcntl.h>
#include <stdlib.h>
#include <unistd.h>
int sched_yield(void) {
    int file = open(getenv("YIELDS"), O_WRONLY | O_APPEND | O_CREAT, 0600);
    if (write(file, "y", 1) != 1) abort();
    return close(file);
}
"""


class Counting(Driver):
    """A driver that keeps how many bytes were left of each connection."""

    rests = ()

    def ended(self):
        _, rest = self.word(), self.word()
        self.rests += (rest,)
        self.at -= 8
        return super().ended()


def begin(way, environment=None, **given):
    driver = Counting(PROGRAM, environment)
    expect("the tree", driver.begin(way, **given), 0)
    return driver


def introduction(xid, name):
    return compound(xid, setclientid(b"verifier", name))


@each_way
def test_clock(way):
    """Two connections of one order have one clock, which a second order begins anew; and each gets its receipts."""
    with begin(way, seats=4 * way) as driver:
        first = [
            b"".join(introduction(xid, b"%s%d" % (name, xid)) for xid in range(count))
            for name, count in ((b"a", 3), (b"b", 2))
        ]
        ended = driver.serve(first, 100, 1000, pace=2).ended
        ended += driver.serve([introduction(7, b"c")] * 2, 50, 1000).ended
        moments = [entry.moment for entry in read_journal(driver.end()).entries]
    expect("replies", [len(split(one.replies)[0]) for one in ended], [3, 2, 1, 1])
    receipts = [one.receipts for one in ended]
    expect("receipts", [len(numbers) for numbers in receipts], [0] * 4 if way == ALONE else [3, 2, 1, 1])
    expect("their numbers", sorted(sum(receipts, [])), [] if way == ALONE else [*range(7)])
    expect("moments", sorted(moments[:5]) + moments[5:], [100, 100, 101, 101, 102, 50, 50])
    expect("moments in order", way == SHARED or moments[:5] == sorted(moments[:5]), True)


@each_way
def test_rests(way):
    whole = call(7, NULL)
    with begin(way, seats=8) as driver:
        for count in range(8):
            driver.serve([whole + whole[:count]], 0, 3)
        expect("bytes left", driver.rests, tuple(range(8)))
        driver.end()


def test_sweeps():
    """A client that was heard of at 0 stays at the moment 1, which all calls have, and ends at 2, when they were
    answered. There is no more than a sweep at each moment that is seen, and one at the end."""
    with begin(SHARED, seats=2, lease=1) as driver:
        driver.serve([introduction(1, b"gone") + compound(2, confirmation(1, 1, 1))], 0, 1000)
        none = driver.serve([], 1, 1000, is_swept=True)
        calls = driver.serve([ROOT * 300], 1, 1, pace=300, is_swept=True)
        ends = [
            (entry.client, entry.seen, entry.now)
            for entry in read_journal(driver.end()).entries
            if isinstance(entry, Expire)
        ]
    expect("sweeps with nothing sent", (none.sweeps in (1, 2), none.expired), (True, 0))
    expect("sweeps", (calls.sweeps in (1, 2, 3), calls.expired, ends), (True, 1, [(1, 0, 2)]))


def test_last_sweep(preloaded):
    """Without a thread there is one sweep, at the end."""
    environment = preloaded("refuse_threads.c", MOST_THREADS="0")
    with begin(SHARED, environment, seats=1) as driver:
        expect("whether threads are refused", is_loaded(driver.program.pid, environment), True)
        expect("sweeps without a thread", driver.serve([ROOT], 1, 1, is_swept=True).sweeps, 1)
        driver.end()


def test_pieces(path_of, file_of):
    counted, sent = path_of("yields"), ROOT * 30
    environment = preloading(file_of("yields.c", YIELDS), path_of(""), YIELDS=counted)
    for piece, length in ((1, 1), (0, 1), (7, 7), (len(sent), len(sent))):
        with begin(ALONE, environment) as driver:
            driver.serve([sent], 0, piece)
            driver.end()
        # The last read brings the end.
        expect(f"reads with pieces of {piece}", os.path.getsize(counted), -(-len(sent) // length) + 1)
        os.remove(counted)


def serving(count, swept=0, moment=5):
    return u32(SERVE) + u64(moment) + u32(0, 0, swept, count) + u32(0, 0) * count


def sweeping(moment):
    return u32(SWEEP) + u64(moment)


def revoking(moment):
    return u32(REVOKE) + u64(moment)


def forgetting(moment):
    return u32(FORGET) + u64(moment)


# The last moment.
LAST = 2**40 - 3
SHARING = head(SHARED, seats=1)
LONE = head(ALONE)
INVALID = [
    b"",
    head(2),
    head(ALONE, lease=0),
    head(ALONE, lease=86401),
    SHARING[:-1],
    u32(ALONE, 90, 1, 0) + part(b"\xff"),
    SHARING + serving(2),
    SHARING + serving(1) * 2,
    SHARING + u32(9),
    SHARING + serving(1)[:-1],
    SHARING + b"\0",
    SHARING + sweeping(LAST + 1),
    SHARING + serving(1, moment=LAST + 1),
    LONE + serving(1, swept=1),
    SHARING + serving(1, swept=2),
    LONE + u32(0),
    LONE + u32(MARK, 1, 2),
    LONE + u32(MARK, 1),
    LONE + revoking(LAST + 1),
    LONE + revoking(0)[:-1],
    SHARING + revoking(0),
    LONE + u32(TAKE),
    LONE + u32(PENDING)[:-1],
    SHARING + u32(PROBE),
    LONE + forgetting(LAST + 1),
    LONE + forgetting(0)[:-1],
    SHARING + forgetting(0),
]
VALID = [
    SHARING,
    SHARING + serving(1),
    head(SHARED, seats=3) + serving(2),
    SHARING + sweeping(LAST),
    LONE + serving(2),
    head(ALONE, lease=86400),
    LONE + u32(MARK, 2**32 - 1, 0),
    SHARING + u32(MARK, 0, 1),
    LONE + revoking(LAST),
    LONE + forgetting(LAST),
    LONE + u32(TAKE, 2**32 - 1),
    SHARING + u32(TAKE, 0),
    LONE + u32(PENDING),
    SHARING + u32(PENDING),
    SHARING + u32(PROBE, 0),
    LONE + u32(PROBE, 2**32 - 1),
]


@each_way
def test_changes(way):
    """Of a server with one client, which has nothing: what comes of a mark, a revocation, a forgetting, and of recalls;
    and the entry that the mark alone makes."""
    with begin(way, seats=1) as driver:
        driver.serve([introduction(1, b"one") + compound(2, confirmation(1, 1, 1))], 0, 1000)
        expect("a mark", [driver.mark(1, True), driver.mark(2, True)], [Marked(0), Marked(NOT_LIVE)])
        expect("a recall", driver.take_recall(7), b"")
        expect("recalls that wait", driver.pending(), 0)
        if way == ALONE:
            expect("a revocation", driver.revoke(1000), Revoked(0, 0, 0))
            expect("a forgetting", driver.forget(1000), Forgotten(0, 0, 0))
        entries = read_journal(driver.end()).entries
    expect("entries", entries[2:], [Path(1, 1)])


# Owners that are idle.


def serve_steps(driver, steps, moment):
    """Serves a connection with these steps at the moment, and compares its replies."""
    found = list(enumerate(limits.compounds(steps), 1))
    ended = driver.serve([b"".join(limits.call(*each) for each in found)], moment, 65536).ended[0]
    wanted = b"".join(limits.reply(*each) for each in found)
    expect(f"the replies to {len(found)} calls", (ended.fault, ended.replies == wanted), (None, True))


def idle_owners(count):
    """Of client 1: owners that each open, confirm and close a file."""
    yield limits.introduce(1, 1)
    for owner in range(count):
        number = owner + 1
        yield (
            limits.opening(owner, 1, 0, number=number, flags=6)
            + limits.confirming(2, number)
            + limits.closing(3, 2, number, 0)
        )


RENEWAL = [[(u32(Opnum.RENEW, 1, 1), limits.result(Opnum.RENEW))]]


@each_way
def test_places(way):
    """Owners that are forgotten leave their places to others."""
    with begin(way, seats=3, document=limits.TREE) as driver:
        last = limits.opening(OWNERS_LIMIT, 1, 0, status=Status.RESOURCE)
        serve_steps(driver, [*idle_owners(OWNERS_LIMIT), last], 100)
        serve_steps(driver, RENEWAL, 150)
        for moment, forgotten in (190, 0), (191, OWNERS_LIMIT), (191, 0):
            expect(f"a sweep at {moment}", driver.sweep(moment), Swept(0, 1, 0, 0, 0, forgotten, 0))
        others = range(OWNERS_LIMIT, 2 * OWNERS_LIMIT)
        begun = [limits.opening(owner, 7, 0, number=owner + 1, flags=6) for owner in others]
        serve_steps(driver, [*begun, limits.opening(0, 1, 0, status=Status.RESOURCE)], 192)
        driver.end()


def test_full_journal():
    """Of two owners that are due one is forgotten, where the journal has one entry left; and it is told that another
    one is due."""
    asked = [(u32(Opnum.PUTROOTFH), limits.result(Opnum.PUTROOTFH))]
    asked += [(u32(Opnum.GETATTR, 0), limits.result(Opnum.GETATTR, rest=u32(0, 0)))] * 63
    # Two entries of the client, three of each owner, and one that is left.
    whole, rest = divmod(JOURNAL_LIMIT - 2 - 6 - 1, 63)
    with begin(ALONE, document=limits.TREE) as driver:
        serve_steps(driver, [*idle_owners(2), *[asked] * whole, asked[: 1 + rest]], 100)
        serve_steps(driver, RENEWAL, 150)
        expect("nobody is due", driver.forget(190), Forgotten(0, 0, 0))
        expect("a sweep with one entry left", driver.sweep(191), Swept(0, 1, 0, 0, 0, 1, 1))
        expect("a full journal", [driver.forget(190), driver.forget(191)], [Forgotten(0, 0, 0), Forgotten(FULL, 0, 0)])
        expect("a sweep with a full journal", driver.sweep(191), Swept(0, 1, 0, 0, 0, 0, 1))
        expect("a client that stays", driver.sweep(241), Swept(0, 0, 0, 1, 0, 0, 1))
        driver.end()


def test_inputs(tell):
    refusal = 2, b"rows: invalid input\n"
    for data, wanted in [(data, refusal) for data in INVALID] + [(data, (0, b"")) for data in VALID]:
        ran = subprocess.run([PROGRAM], input=data, stdout=subprocess.DEVNULL, stderr=subprocess.PIPE, timeout=60)
        expect(f"the input {data.hex()}", (ran.returncode, ran.stderr), wanted)
    tell(f"{len(INVALID)} inputs are refused, and {len(VALID)} aren't")
