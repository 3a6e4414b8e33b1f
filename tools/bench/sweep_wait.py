"""Measures how long a call to a built `nfs4state serve` waits beside a sweep.

- live: a GETATTR, beside sweeps of 255 clients, which came over four connections, and whose leases don't end. At
  first nobody calls for some seconds: meanwhile the kernel counts how long the sweeper's thread runs. Sweeps come
  once a second. A sweep locks the state, and GETATTR waits for the lock.
- revoke: a RENEW, which waits for no lock, beside the sweep that revokes 16,000 delegations. 254 clients have 63
  delegations each, and another client had all of them recalled a lease before. That is done five times, and takes
  some three minutes.

The call comes in turn with NULL on one connection, one call at a time. NULL doesn't wait. So this script and the
machine have the same part in the times of both.

It prints milliseconds. For live it prints how long a sweep ran, and for GETATTR and NULL:

- the time within which 999 in 1,000 replies came, and the longest time
- the median of each second's longest time, and in how many seconds that was above 4 ms, the bound for a GETATTR

A GETATTR that meets a sweep is the longest of its second, unless the machine was busy. For revoke it prints how long
each sweep ran, and the longest time of RENEW and of NULL in its second. The status is 1 in each of these cases:

- a sweep of live clients ran for more than 0.3 ms
- the median for GETATTR is more than 4 ms above the median for NULL
- GETATTR has at least three seconds more with a time above 4 ms
- RENEW's longest time is more than 2 ms above NULL's, in the median"""
import argparse
import gc
import socket
import time
from collections import defaultdict
from statistics import median

from bench.scenes import lenders, Scene
from bench.clients import FILE, OTHERS, SceneClient
from bench.lending import call_back, open_revoked, renew, server, sweep_alone, sweeper_milliseconds
from bench.script import parser_of, run
from bench.servers import serving
from helpers.expecting_client import Client, done, Wrong
from helpers.server_helpers import peer_of
from nfs4tools.messages import GETATTR, NFS4_OK, NULL, PUTROOTFH, RENEW, call, compound, reply, results, words
from nfs4tools.processes import NO_CALLBACKS, Peer

# Connections that make clients, and the seconds without a call.
MAKERS, QUIET = 4, 5
# In milliseconds, of a sweep and of a wait; and in how many seconds more GETATTR may be above that than NULL.
SWEEP_BOUND, BOUND, CHANCE = 0.3, 4, 2
# By how many milliseconds RENEW may be above NULL, and how often that is measured.
RENEW_BOUND = 2
TIMES = 5
# The seconds of a lease; those before its end in which nobody calls; and those that are measured then.
LEASE = 30
BEFORE = 2
MEASURED = 6
# Milliseconds for which a sweep runs at least that revokes.
BUSY = 1


def make_clients(peers: list[Peer], count: int) -> list[Client]:
    """The clients, each introduced and confirmed."""
    clients = [Client(peers[uid % len(peers)], uid) for uid in range(count)]
    for client in clients:
        client.introduce()
    return clients


class Times:
    """How long each call of a kind took, in milliseconds, by the seconds in which they came."""

    def __init__(self, name: str, sent: bytes, wanted: bytes) -> None:
        self.name, self.sent, self.wanted = name, sent, wanted
        self.seconds: dict[int, list[float]] = defaultdict(list)

    def take(self, stream: socket.socket, start: int) -> None:
        begun = time.perf_counter_ns()
        stream.sendall(self.sent)
        got = stream.recv(1 << 16)
        ended = time.perf_counter_ns()
        if got != self.wanted:
            raise Wrong(f"{self.name} gets {got.hex(' ', 4)}, wanted {self.wanted.hex(' ', 4)}")
        self.seconds[(begun - start) // 10**9].append((ended - begun) / 1e6)

    def slowest(self) -> float:
        return max(self.longest())

    def longest(self) -> list[float]:
        """Of each second."""
        return [max(values) for values in self.seconds.values()]

    def usual(self) -> float:
        return median(self.longest())

    def above(self) -> int:
        return sum(value > BOUND for value in self.longest())

    def tell(self) -> None:
        values = sorted(value for values in self.seconds.values() for value in values)
        within = values[-(len(values) // 1000) - 1]
        print(
            f"{self.name}: {len(values)} calls, 999 in 1,000 within {within:.3f} ms, the longest {values[-1]:.3f}, "
            f"the median of each second's longest {self.usual():.3f}, above {BOUND} ms in {self.above()} of "
            f"{len(self.seconds)} seconds"
        )


def measure(peer: Peer, asked: Times, seconds: float) -> tuple[Times, Times]:
    """The times of what is asked, and those of NULL."""
    kinds = asked, Times("NULL", call(2, NULL), reply(2))
    # Python shall not look for garbage meanwhile.
    gc.disable()
    start = time.perf_counter_ns()
    while time.perf_counter_ns() < start + seconds * 10**9:
        for kind in kinds:
            kind.take(peer.socket, start)
    gc.enable()
    return kinds


def live(given: argparse.Namespace) -> bool:
    with serving([given.program, "serve", "--lease", "86400", "--tree", NO_CALLBACKS], MAKERS + 1) as served:
        peers = [peer_of(served) for _ in range(MAKERS + 1)]
        clients = make_clients(peers[:MAKERS], given.clients)
        alone = sweep_alone(served.program.pid, QUIET)
        sent, got = compound(1, words(PUTROOTFH), words(GETATTR, 0)), (done(PUTROOTFH), done(GETATTR, words(0, 0)))
        asked, null = measure(peers[MAKERS], Times("GETATTR", sent, results(1, NFS4_OK, *got)), given.seconds)
        for peer in peers:
            peer.socket.close()
    print(f"a sweep of {len(clients)} clients: {alone:.3f} ms")
    asked.tell()
    null.tell()
    return bool(alone > SWEEP_BOUND) or asked.usual() > null.usual() + BOUND or asked.above() > null.above() + CHANCE


def await_sweep(pid: int) -> None:
    """Until the next one."""
    ran = sweeper_milliseconds(pid)
    while sweeper_milliseconds(pid) == ran:
        time.sleep(0.001)


def lend_and_call_back(scene: Scene, pid: int, count: int) -> SceneClient:
    """The last of these clients, which calls back, in one second, what the others are lent: shortly before it is
    revoked."""
    clients, caller = lenders(scene, count - 1, len(OTHERS)), scene.come()
    caller.open_file(FILE)
    renew(clients)
    await_sweep(pid)
    call_back(caller, OTHERS)
    end = time.monotonic() + LEASE - BEFORE
    for left in 3, 2:
        time.sleep((end - time.monotonic()) / left)
        renew([*clients, caller])
    time.sleep(end - time.monotonic())
    return caller


def second(pid: int, caller: SceneClient) -> tuple[float, float, float]:
    """How long the sweeps ran in a second, and the longest time of RENEW and of NULL."""
    sent, got = compound(1, caller.renew_words()), results(1, NFS4_OK, done(RENEW))
    ran = sweeper_milliseconds(pid)
    renewed, null = measure(caller.peer, Times("RENEW", sent, got), 1)
    return sweeper_milliseconds(pid) - ran, renewed.slowest(), null.slowest()


def revoke_once(given: argparse.Namespace) -> float:
    """By how much RENEW is above NULL."""
    with server(given.program, LEASE) as (pid, scene):
        caller = lend_and_call_back(scene, pid, given.clients)
        # So that a sweep is in the middle of a second.
        await_sweep(pid)
        time.sleep(0.5)
        swept, renewed, null = max(second(pid, caller) for _ in range(MEASURED))
        open_revoked(caller, OTHERS)
    if swept < BUSY:
        raise Wrong(f"the sweep that revokes came before the calls: the longest ran for {swept:.3f} ms")
    print(
        f"a sweep that revokes {(given.clients - 1) * len(OTHERS)}: {swept:.3f} ms, RENEW {renewed:.3f}, "
        f"NULL {null:.3f}",
        flush=True,
    )
    return renewed - null


def revoke(given: argparse.Namespace) -> bool:
    above = median(revoke_once(given) for _ in range(TIMES))
    print(f"RENEW above NULL: {above:.3f} ms, at most {RENEW_BOUND}")
    return bool(above > RENEW_BOUND)


KINDS = {"live": live, "revoke": revoke}


def work() -> bool:
    parser = parser_of(__doc__)
    parser.add_argument("--of", choices=KINDS, action="append", help="[default: both]")
    parser.add_argument("--clients", type=int, default=255, metavar="N", help="[default: 255]")
    parser.add_argument("--seconds", type=int, default=15, metavar="S", help="of GETATTR and NULL [default: 15]")
    given = parser.parse_args()
    return any([KINDS[kind](given) for kind in given.of or KINDS])


def main() -> None:
    run(work)
