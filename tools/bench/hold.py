"""Measures how long a sweep of a built `nfs4state serve` keeps the state locked.

- quiet: 255 live clients have 63 delegations each, which are some 16,000, and nothing is due. The mean of ten sweeps
  is at most 0.3 ms.
- revoke: 250 clients have sixty delegations each. Twenty of each client's were recalled a lease before, and another
  twenty half a lease before. The sweep that revokes the 5,000 that are due takes at most 30 ms.
- forget: a client has 4,000 owners, which closed their opens together a lease before. Another client has 4,000
  earlier owners, which closed theirs half a lease before. The sweep that forgets the first 4,000 takes at most 40 ms.
- end: 200 clients have fifty owners with an open each, and another client, which goes on, has 5,000 owners. The sweep
  that ends the 200 takes at most 300 ms.

It prints the milliseconds for which the sweeper's thread ran. The kernel counts them, and other loads hardly change
them. It prints each sweep that took more than a millisecond, or else the longest. If two sweeps share what is due,
both are printed. Calls show that the sweeps did what they should. If a sweep is above its bound, the status is 1. The
last three take little more than a lease each, which is a minute."""
import time
from collections.abc import Sequence
from itertools import cycle, islice

from bench.scenes import lenders, use
from bench.clients import FILE, OTHERS, SceneClient
from bench.lending import call_back, open_revoked, renew, server, sweep_alone, sweeper_milliseconds
from bench.script import parser_of, run
from helpers.expecting_client import done, under, Client
from nfs4tools.messages import CLOSE, NFS4ERR_STALE_CLIENTID, RENEW
from nfs4tools.wire import Status

# Seconds of a lease that ends, of one that doesn't, and without a call.
LEASE, LONG_LEASE, QUIET = 60, 86400, 10
# Milliseconds for which a sweep runs that does something, and seconds between a sweep and the next, at least.
BUSY, APART = 1, 0.5
# Files that are called back in time, and that many more that are called back later.
CALLED_BACK = 20
# Owners that are forgotten, and that many more that are kept and came before them, so that a walk that began anew for
# each would look at these each time; and how many close by one call.
IDLE, TOGETHER = 4000, 30


def watch(pid: int, moment: float, renewed: Sequence[SceneClient] = ()) -> list[float]:
    """How long each sweep runs up to a moment; these clients are renewed meanwhile."""
    sweeps: list[float] = []
    ran, seen, next_renewal = sweeper_milliseconds(pid), 0.0, 0.0
    while True:
        now = time.monotonic()
        if now >= moment:
            return sweeps
        if now > next_renewal:
            renew(renewed)
            next_renewal = now + LEASE / 4
        time.sleep(0.005)
        more = sweeper_milliseconds(pid) - ran
        if more > 0:
            if now > seen + APART:
                sweeps.append(0)
            sweeps[-1] += more
            ran, seen = ran + more, now


def quiet(program: str) -> list[float]:
    with server(program, LONG_LEASE) as (pid, scene):
        lenders(scene, 255, len(OTHERS))
        time.sleep(2)
        return [sweep_alone(pid, QUIET)]


def revoke(program: str) -> list[float]:
    with server(program, LEASE) as (pid, scene):
        clients = lenders(scene, 250)
        caller = scene.come()
        caller.open_file(FILE)
        clients.append(caller)
        renew(clients)
        call_back(caller, OTHERS[:CALLED_BACK])
        begun = time.monotonic()
        watch(pid, begun + LEASE / 2, clients)
        call_back(caller, OTHERS[CALLED_BACK : 2 * CALLED_BACK])
        sweeps = watch(pid, begun + LEASE + 4, clients)
        open_revoked(caller, OTHERS[:CALLED_BACK])
        call_back(caller, OTHERS[CALLED_BACK : 3 * CALLED_BACK])
        return sweeps


def close_together(client: Client, owners: Sequence[SceneClient]) -> list[tuple[SceneClient, bytes]]:
    """Each closes its open: their CLOSEs, and what is answered."""
    closings: list[tuple[SceneClient, bytes]] = []
    for owner in owners:
        words = owner.close_words(owner.last + 1)
        owner.open_seqid += 1
        closings.append((owner, words))
    for at in range(0, len(closings), TOGETHER):
        client.want(
            *(
                pair
                for owner, words in closings[at : at + TOGETHER]
                for pair in under(owner.file, words, done(CLOSE, owner.open_stateid()))
            )
        )
    return closings


def forget(program: str) -> list[float]:
    with server(program, LEASE) as (pid, scene):
        clients = first, last = scene.come(), scene.come()
        staying, leaving = (list(client.owners(islice(cycle(OTHERS), IDLE))) for client in clients)
        renew(clients)
        closed = close_together(last, leaving)
        begun = time.monotonic()
        watch(pid, begun + LEASE / 2, clients)
        kept = close_together(first, staying)
        sweeps = watch(pid, begun + LEASE + 4, clients)
        for client, (owner, words), result in (
            (last, closed[0], done(CLOSE, status=Status.BAD_STATEID)),
            (last, closed[-1], done(CLOSE, status=Status.BAD_STATEID)),
            (first, kept[0], done(CLOSE, kept[0][0].open_stateid())),
        ):
            client.want(*under(owner.file, words, result))
        return sweeps


def owners_of(client: SceneClient, count: int) -> None:
    use(client.owners(islice(cycle(OTHERS), count)))


def end(program: str) -> list[float]:
    with server(program, LEASE) as (pid, scene):
        keeper, clients = scene.come(), [scene.come() for _ in range(200)]
        owners_of(keeper, 5000)
        for client in clients:
            owners_of(client, 50)
            keeper.renew()
        renew(clients)
        begun = time.monotonic()
        sweeps = watch(pid, begun + LEASE + 4, [keeper])
        for client in clients:
            client.want((client.renew_words(), done(RENEW, status=NFS4ERR_STALE_CLIENTID)))
        return sweeps


# What is measured, and the bound in milliseconds.
KINDS = {"quiet": (quiet, 0.3), "revoke": (revoke, 30), "forget": (forget, 40), "end": (end, 300)}


def work() -> bool:
    parser = parser_of(__doc__)
    parser.add_argument("--of", choices=KINDS, action="append", help="[default: all]")
    given = parser.parse_args()
    is_missed = False
    for name in given.of or KINDS:
        measure, most = KINDS[name]
        sweeps = measure(given.program)
        told = [sweep for sweep in sweeps if sweep > BUSY] or [max(sweeps)]
        print(f"{name}: {', '.join(f'{sweep:.3f}' for sweep in told)} ms, at most {most}", flush=True)
        is_missed |= max(told) > most
    return is_missed


def main() -> None:
    run(work)
