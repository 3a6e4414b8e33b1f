"""Random series of calls by clients that do right, to the model in memory: what `tools/judge` finds no error in.

Each series has a few clients, whose owners open files, confirm, upgrade, downgrade and close them, lock bytes of them
and unlock some, ask again where they are denied, read and write, and get delegations and give them back. Replies are
lost and calls come again; calls of several owners are under way at once; leases are renewed; clients begin anew, some
as they end without a word; some come from a run before; some sleep without having anything; some can't be called back.
Sequence ids begin near their last. Each answer is one that a client may get that does right."""
import random
from collections import Counter
from collections.abc import Callable, Sequence
from typing import Any

from helpers.expecting_client import Wrong
from helpers.right_client import Lent, Locked, NOWHERE, Opened, Operation, Owner, Results, Share, Span, Steps, ZEROS
from helpers.series_clients import SeriesClient, Task
from nfs4tools.journal.journal import Journal, Recorder
from nfs4tools.model.tree import CLOSE_LOCKS, DEFAULT, PROFILES, Tree
from nfs4tools.wire import (
    CLAIM_PREVIOUS,
    Claim,
    OPEN_DELEGATE_WRITE,
    OpenOwner,
    Openhow,
    Open,
    Opnum,
    Putfh,
    READ,
    READ_LT,
    Read,
    Setattr,
    Stateid,
    Status,
    WRITE,
    WRITE_LT,
    u64,
)

PATHS = [(b"a",), (b"b",), (b"d", b"c")]
SHARES: list[Share] = [(1, 0)] * 4 + [(2, 0)] * 2 + [(3, 0)] * 5 + [(1, 2), (3, 2), (2, 1)]
# Where files are lent there are fewer that exclude others.
SHARES_OF_LENT: list[Share] = [(1, 0)] * 3 + [(3, 0)]
LEASES = [5, 12, 90]
# How often a request is made again that is denied, and how many actions a series begins.
TRIES, ACTIONS = 4, 60
# What an OPEN, a LOCK, a READ or a WRITE may be answered.
OPEN_ANSWERS = {Status.OK, Status.SHARE_DENIED, Status.DELAY, Status.NOENT}
LOCK_ANSWERS = {Status.OK, Status.DENIED}
# A request that came behind one which changed the stateid.
BYTES_ANSWERS = {Status.OK, Status.OLD_STATEID}


class Series:
    """A server, its clients, and what they do."""

    def __init__(self, seed: int, actions: int = ACTIONS) -> None:
        self.chance, self.actions, self.moment = random.Random(seed), actions, 0
        self.close_locks, self.profile = self.chance.choice(CLOSE_LOCKS), self.chance.choice(PROFILES)
        delegations = self.chance.choice(["all", "all", "read", "none"])
        self.shares = SHARES_OF_LENT if delegations != "none" and self.is_rare(0.6) else SHARES
        words = f'delegations = "{delegations}", callbacks = "assume", '
        words += f'close_locks = "{self.close_locks}", profile = "{self.profile}"'
        self.lease, epoch = self.chance.choice(LEASES), self.chance.choice([1, 1, 1, 7])
        self.server = Recorder(Tree(f"policy = {{ {words} }}\n{DEFAULT}"), self.lease, epoch)
        self.clients = [
            SeriesClient(self, b"client %d" % number, self.chance.choice([None, number]))
            for number in range(self.chance.choice([1, 2, 2, 3]))
        ]
        self.tasks: list[Task] = []
        self.done: Counter[str] = Counter()

    def is_rare(self, share: float) -> bool:
        return self.chance.random() < share

    def journal(self) -> Journal:
        return self.server.journal()

    # The run.

    def run(self, between: Callable[["Series", int], None] = lambda series, place: None) -> "Series":
        """All of it; `between` is called before each action, with its place."""
        for place in range(self.actions):
            between(self, place)
            self.act()
            self.deliver_some(self.chance.choice([0, 1, 1, 2, 3]))
            if self.is_rare(0.25):
                self.advance()
        self.finish()
        return self

    def act(self) -> None:
        """One of the clients begins something, if it can."""
        client = self.chance.choice(self.clients)
        if not client.is_live():
            self.begin(client, self.coming(client), own={client}, name="comes")
        elif client.is_asleep:
            if client.begun + 2 * self.lease < self.moment:
                self.begin(client, self.waking(client), own={client}, name="wakes")
        else:
            self.chance.choice(ACTS)(self, client)

    def begin(
        self, client: SeriesClient, steps: Steps[Any], own: set[Any] = set(), shared: set[Any] = set(), name: str = ""
    ) -> bool:
        """Begins steps, unless others hinder them: whether it did. The client itself is one of what they share."""
        mine, ours = frozenset(own), frozenset(shared | ({client} - own))
        if any(task.hinders(mine, ours) for task in self.tasks):
            return False
        self.done[name] += 1
        self.tasks.append(Task(client, steps, mine, ours))
        self.go_on(self.tasks[-1], None)
        return True

    def go_on(self, task: Task, results: Results | None) -> None:
        """A task gets the results of its call, and makes its next one."""
        try:
            task.operations = next(task.steps) if results is None else task.steps.send(results)
            task.built = self.moment
        except StopIteration:
            self.tasks.remove(task)

    def deliver_some(self, count: int) -> None:
        for _ in range(count):
            self.deliver_any()

    def deliver_any(self) -> None:
        ready = [task for task in self.tasks if task.operations or task.built < self.moment]
        if ready:
            self.deliver(self.chance.choice(ready))

    def deliver(self, task: Task) -> None:
        """The call of a task reaches the server, and the client gets the reply."""
        self.go_on(task, task.client.call(*task.operations) if task.operations else [])
        self.call_back()

    def call_back(self) -> None:
        """The recalls reach their clients, but for those that can't be called."""
        while (recall := self.server.take_recall()) is not None:
            number = recall.stateid.client
            holder = next((it for it in self.clients if it.clientid == (recall.stateid.epoch, number)), None)
            is_reached = holder is not None and holder.is_reached
            if self.server.is_live(number):
                self.server.mark_path(number, is_reached)
            if holder is not None and is_reached:
                holder.hear_of(recall.stateid)

    def advance(self) -> None:
        """Time passes; no call is under way for two moments, and leases are renewed."""
        self.deliver_old()
        is_calm = not self.tasks and not any(it.recalled is not None for it in self.server.delegations)
        self.moment += self.chance.randint(1, max(1, self.lease // 3)) if is_calm else 1
        self.server.moment = self.moment
        self.renew_leases()
        self.server.sweep(self.moment)
        for client, lent in [(client, it) for client in self.clients for it in client.lent if it.is_recalled]:
            self.give_back(client, lent)

    def deliver_old(self) -> None:
        while old := [task for task in self.tasks if task.operations and task.built < self.moment]:
            self.deliver(old[0])

    def renew_leases(self) -> None:
        """Those of clients that are awake, and neither come nor go."""
        itself = {task.client for task in self.tasks if task.client in task.own}
        for client in [it for it in self.clients if it.is_live() and not it.is_asleep and it not in itself]:
            if client.renewed + self.lease // 3 < self.moment:
                self.expect(client.do(client.renewing()), {Status.OK})
                client.renewed = self.moment

    def finish(self) -> None:
        """What has begun comes to its end; recalled delegations are given back; some clients leave."""
        self.come_to_end()
        for client in self.clients:
            if client.is_live() and not client.is_asleep and (not client.is_reached or self.is_rare(0.5)):
                client.do(client.leaving())
                self.call_back()

    def come_to_end(self) -> None:
        while self.tasks or any(it.is_recalled for client in self.clients for it in client.lent):
            self.deliver_any()
            self.advance()

    def expect(self, status: int, allowed: set[Status]) -> int:
        if status not in allowed:
            raise Wrong(
                f"entry {len(self.server.recorded) - 1}: {Status(status).name}, "
                f"wanted {sorted(it.name for it in allowed)}"
            )
        return status

    # What clients do.

    def coming(self, client: SeriesClient) -> Steps[None]:
        """A client introduces itself, some after they had something in a run before."""
        if self.server.epoch > 1 and self.is_rare(0.5):
            earlier = Stateid(1, self.server.epoch - 1, 1, 1)
            results = yield [(Opnum.PUTFH, Putfh(b"nfh1\0\0\0\1")), (Opnum.READ, Read(earlier, 0, 5))]
            self.expect(results[-1].status, {Status.STALE_STATEID})
        yield from self.introduced(client)
        if self.server.epoch > 1 and self.is_rare(0.3):
            named = OpenOwner(*client.clientid, b"reclaims")
            reclaim = Open(1, 1, 0, named, Openhow(0, None, None), Claim(CLAIM_PREVIOUS, None, 0))
            results = yield [(Opnum.PUTFH, Putfh(b"nfh1\0\0\0\1")), (Opnum.OPEN, reclaim)]
            self.expect(results[-1].status, {Status.NO_GRACE})

    def introduced(self, client: SeriesClient) -> Steps[None]:
        """Another callback of a live client doesn't renew its lease."""
        before = client.clientid
        self.expect((yield from client.introducing()), {Status.OK})
        client.renewed = client.renewed if client.clientid == before else self.moment

    def waking(self, client: SeriesClient) -> Steps[None]:
        """The lease of a client that had nothing has ended meanwhile: it is told so, and begins anew."""
        client.is_asleep = False
        found = yield from client.opening(client.owner(b"A"), (b"b",), (READ, 0))
        if self.expect(found, OPEN_ANSWERS | {Status.STALE_CLIENTID}) == Status.STALE_CLIENTID:
            client.forget_all()
            yield from self.introduced(client)

    def opens(self, client: SeriesClient) -> None:
        path = self.chance.choice([*PATHS * 3, (b"e",)])
        owner, share = client.owner(self.chance.choice([b"A", b"A", b"B"])), self.chance.choice(self.shares)
        self.begin(client, self.opening(client, owner, path, share), {owner}, name="opens")

    def opening(self, client: SeriesClient, owner: Owner, path: tuple[bytes, ...], share: Share) -> Steps[None]:
        for _ in range(TRIES):
            status = self.expect((yield from client.opening(owner, path, share)), OPEN_ANSWERS)
            self.done[Status(status).name] += 1
            if status not in (Status.SHARE_DENIED, Status.DELAY):
                break
            yield []

    def downgrades(self, client: SeriesClient) -> None:
        fitting = [it for it in client.usable() if len(it.pairs) > 1]
        if fitting:
            opened = self.chance.choice(fitting)
            pairs = self.chance.sample(opened.pairs, self.chance.randint(1, len(opened.pairs)))
            share = union(pairs)
            if share[0] != opened.access and any(it.held for it in opened.locks):
                return
            self.begin(client, self.expected(client.downgrading(opened, share)), whole(opened), name="downgrades")

    def expected(self, steps: Steps[int], allowed: set[Status] = {Status.OK}) -> Steps[None]:
        self.expect((yield from steps), allowed)

    def closes(self, client: SeriesClient) -> None:
        if client.usable():
            opened = self.chance.choice(client.usable())
            self.begin(client, self.closing(client, opened), whole(opened), name="closes")

    def closing(self, client: SeriesClient, opened: Opened) -> Steps[None]:
        """Some close a file whose bytes they have locked, where they may."""
        if self.close_locks == "refuse" or not self.is_rare(0.2):
            for held in [it for it in opened.locks if it.held]:
                yield from self.expected(client.unlocking(held))
        yield from self.expected(client.closing(opened))
        self.come_late(client)

    def come_late(self, client: SeriesClient) -> None:
        """Another copy of the last call may come later, as its reply was lost and nobody waits any more."""
        if self.is_rare(0.15):
            self.begin(client, self.late(client.last_call), name="comes late")

    def late(self, operations: Sequence[Operation]) -> Steps[None]:
        results = yield list(operations)
        self.expect(results[-1].status, {Status.OK, Status.BAD_STATEID})

    # Locks.

    def locks(self, client: SeriesClient) -> None:
        if client.usable():
            opened = self.chance.choice(client.usable())
            # A lock owner may have the name of the open owner.
            locker = client.locker(opened.owner.name + self.chance.choice([b"", b" y"]))
            span = self.span(opened)
            own = {locker} if client.lock_for(locker, opened) else {locker, opened.owner}
            self.begin(client, self.locking(client, locker, opened, span), own, {opened}, name="locks")

    def span(self, opened: Opened) -> Span:
        types = [kind for kind, mode in ((READ_LT, READ), (WRITE_LT, WRITE)) if opened.access & mode]
        offset, length = self.chance.choice([(0, 10), (5, 3), (8, 4), (20, 2**64 - 1), (0, 2**64 - 1), (2, 1)])
        return Span(self.chance.choice(types) + self.chance.choice([0, 0, 2]), offset, length)

    def locking(self, client: SeriesClient, locker: Owner, opened: Opened, span: Span) -> Steps[None]:
        for _ in range(TRIES):
            status = self.expect((yield from client.locking(locker, opened, span)), LOCK_ANSWERS)
            self.done[f"LOCK {Status(status).name}"] += 1
            if status == Status.OK:
                break
            yield []

    def unlocks(self, client: SeriesClient) -> None:
        held = [it for opened in client.opens for it in opened.locks]
        if held:
            locked, part = self.chance.choice(held), self.chance.choice([(0, 2**64 - 1), (3, 2), (0, 10)])
            self.begin(client, self.expected(client.unlocking(locked, *part)), {locked.owner}, name="unlocks")

    def tests(self, client: SeriesClient) -> None:
        if client.usable():
            opened = self.chance.choice(client.usable())
            locker = client.locker(opened.owner.name)
            self.begin(
                client,
                self.expected(client.testing(locker, opened.handle, self.span(opened)), LOCK_ANSWERS),
                name="tests",
            )

    def releases(self, client: SeriesClient) -> None:
        idle = [
            it
            for it in client.lockers.values()
            if not any(locked.owner is it and locked.held for opened in client.opens for locked in opened.locks)
        ]
        if idle:
            locker = self.chance.choice(idle)
            users = {opened for opened in client.opens for locked in opened.locks if locked.owner is locker}
            self.begin(client, self.expected(client.releasing(locker)), {locker} | users, name="releases")

    # Bytes and delegations.

    def moves_bytes(self, client: SeriesClient) -> None:
        opens = client.usable()
        held: list[Any] = [*opens, *[locked for opened in opens for locked in opened.locks], *client.lent]
        if held:
            one = self.chance.choice(held)
            used = {one.opened, one} if isinstance(one, Locked) else {one}
            self.begin(client, self.moving(client, one), shared=used, name="moves bytes")

    def moving(self, client: SeriesClient, held: Opened | Locked | Lent) -> Steps[None]:
        """A READ or a WRITE. The delegation of a client that can't be called back may have been revoked."""
        allowed, opened = set(BYTES_ANSWERS), held.opened if isinstance(held, Locked) else held
        if isinstance(opened, Opened):
            access = opened.access
        else:
            access = READ | WRITE if opened.kind == OPEN_DELEGATE_WRITE else READ
            allowed |= set() if client.is_reached else {Status.BAD_STATEID}
        ways = [client.reading] * (access & READ) + [client.writing] * (access & WRITE)
        status = self.expect((yield from self.chance.choice(ways)(held)), allowed)
        self.done[f"bytes {Status(status).name}"] += 1
        if status == Status.BAD_STATEID and isinstance(held, Lent):
            client.lent = [it for it in client.lent if it is not held]

    def looks(self, client: SeriesClient) -> None:
        """GETATTR, a READ by a special stateid, or the size that is set."""
        handle = b"nfh1\0\0\0" + bytes([self.chance.choice([1, 2, 4])])
        read = (Opnum.READ, Read(ZEROS, 0, 5))
        size = (Opnum.SETATTR, Setattr(ZEROS, ((16,), u64(5))))
        asked = [read, size] if self.profile == "clients" else [read]
        self.begin(
            client,
            client.looking(handle)
            if self.is_rare(0.4)
            else self.bypassing([(Opnum.PUTFH, Putfh(handle)), self.chance.choice(asked)]),
            name="looks",
        )

    def bypassing(self, operations: list[Operation]) -> Steps[None]:
        results = yield operations
        self.expect(results[-1].status, {Status.OK, Status.LOCKED, Status.DELAY})

    def gives_back(self, client: SeriesClient) -> None:
        if client.lent:
            self.give_back(client, self.chance.choice(client.lent))

    def give_back(self, client: SeriesClient, lent: Lent) -> None:
        owner, opens = client.owner(b"D"), [it for it in client.usable() if it.path == lent.path and it.access & READ]
        crossed = self.chance.choice(opens) if opens and self.is_rare(0.3) else None
        self.begin(
            client,
            self.giving_back(client, lent, owner, crossed),
            {lent, owner},
            {*filter(None, [crossed])},
            name="gives back",
        )

    def giving_back(self, client: SeriesClient, lent: Lent, owner: Owner, crossed: Opened | None) -> Steps[None]:
        """Some have opens of their own to tell of before. Or a READ was under way, and is made again by an open."""
        if client.is_reached and self.is_rare(0.4):
            share = (3, 0) if lent.kind == OPEN_DELEGATE_WRITE else (1, 0)
            found = yield from client.opening(owner, lent.path, share, lent)
            self.expect(found, {Status.OK, Status.SHARE_DENIED})
        yield from self.expected(client.giving_back(lent), {Status.OK, Status.BAD_STATEID})
        self.come_late(client)
        if crossed is not None:
            yield from self.expected(client.reading(lent), {Status.BAD_STATEID})
            while self.expect((yield from client.reading(crossed)), BYTES_ANSWERS) != Status.OK:
                self.done["a READ that crosses a DELEGRETURN"] += 1

    # The client itself.

    def begins_anew(self, client: SeriesClient) -> None:
        """It leaves, or ends without a word, also with calls under way, and comes again."""
        if self.is_rare(0.5):
            self.tasks = [task for task in self.tasks if task.client is not client]
            self.begin(client, self.restarting(client, False), {client}, name="crashes")
        else:
            self.begin(client, self.restarting(client, True), {client}, name="begins anew")

    def restarting(self, client: SeriesClient, leaves: bool) -> Steps[None]:
        if leaves:
            yield from client.leaving()
        client.forget_all()
        client.verifier = self.chance.randbytes(8)
        yield from self.introduced(client)

    def moves_callback(self, client: SeriesClient) -> None:
        """It says again who it is, with another callback."""
        client.callback = NOWHERE._replace(ident=client.callback.ident + 1)
        self.begin(client, self.introduced(client), {client}, name="moves its callback")

    def sleeps(self, client: SeriesClient) -> None:
        self.begin(client, self.falling_asleep(client), {client}, name="sleeps")

    def falling_asleep(self, client: SeriesClient) -> Steps[None]:
        yield from client.leaving()
        client.begun, client.is_asleep = self.moment, True

    def renews(self, client: SeriesClient) -> None:
        self.begin(client, self.expected(client.renewing()), name="renews")


def union(pairs: list[Share]) -> Share:
    access = deny = 0
    for pair in pairs:
        access, deny = access | pair[0], deny | pair[1]
    return access, deny


def whole(opened: Opened) -> set[Any]:
    """An open with all that others might use of it."""
    return {opened, opened.owner, *opened.locks, *(it.owner for it in opened.locks)}


# What a client does at random, each as often as it stands here.
ACTS: list[Callable[[Series, SeriesClient], None]] = [
    *[Series.opens] * 10,
    *[Series.closes] * 5,
    *[Series.downgrades] * 4,
    *[Series.locks] * 12,
    *[Series.unlocks] * 6,
    *[Series.moves_bytes] * 8,
    *[Series.tests] * 2,
    *[Series.releases] * 2,
    *[Series.looks] * 2,
    *[Series.gives_back] * 2,
    Series.begins_anew,
    Series.moves_callback,
    Series.sleeps,
    Series.renews,
]
