"""Clients that renew their leases at the last moment, beside the sweeps of `nfs4state serve`.

By the journal, the replies and their times (`reply_times.py`) none is ended within a lease of a renewal that was
answered, or seen last when nothing renewed; no RENEW is OK that was sent behind a reply from after its client's end,
also where its slot is given again; and a sweep that ends one leaves none whose lease is over.

Several threads have two connections and a few clients each. A client renews its lease where that would be over, at the
edge of a second, a little before or behind the time at which the sweep comes: there where as many renewals miss it as
come in time. It does so by RENEW, or by another operation that renews; alone, or in one write with others; now and then
beside one that names an earlier number of its slot. Some clients let their leases end. Who has ended comes again, and
so does now and then one that hasn't, whose place it takes; meanwhile the thread's other connection sends RENEWs of both
numbers. One more connection keeps the lock busy about the time of the sweep."""
import os
import random
import tempfile
import time
from collections import Counter
from collections.abc import Sequence
from concurrent.futures import ThreadPoolExecutor
from typing import NamedTuple

from helpers.expecting_client import Client, numbers_of as words_of, way_to, Wrong
from helpers.reply_times import Exchange, SECOND, TimedJudge, numbers_of
from nfs4tools.journal.entries import Call, Expire, NotJournal
from nfs4tools.journal.journal import read_journal, verdict
from nfs4tools.messages import (
    CLOSE,
    DELEGRETURN,
    GETATTR,
    LOCKU,
    NFS4_OK,
    NFS4ERR_STALE_CLIENTID,
    OPEN_CONFIRM,
    OPEN_DOWNGRADE,
    PUTFH,
    PUTROOTFH,
    READ,
    RENEW,
    SETATTR,
    WRITE,
    compound,
    confirmation,
    handle,
    setclientid,
    words,
)
from nfs4tools.model.attributes import SIZE
from nfs4tools.model.sequenced import NOT_COUNTED
from nfs4tools.model.server import OPERATIONS, Lease
from nfs4tools.model.state_parts import SLOTS
from nfs4tools.processes import Peer, Served, tree_for_clients
from nfs4tools.program import Program, bytes_of
from nfs4tools.wire import Opnum, READ_LT, Status, Unreadable, opaque, u64

# The seconds of a lease, each of a server of its own.
LEASES = (1, 2)
# The threads with two connections each, and the clients of each thread.
THREADS = 12
EACH = 8
EPOCH = 7
# The node of the file that all have open.
FILE = 1
# How many renewals are nearest to the time at which the sweep is thought to come, and how far from it, in seconds, most
# of these are; and how far from it the others are at most.
NEAR, SPREAD, MOST = 0.6, 0.0005, 0.01
# How often a client lets its lease end, or comes again while it is live.
SILENT = 0.06
AGAIN = 0.03
# How often an earlier number of a client's slot is named.
EARLIER = 0.3
# How often a write has RENEW alone.
ONLY_RENEW = 0.4
# How many writes keep the lock busy at an edge; each is one batch.
BUSY = 2
RENEWING = {opnum for opnum, operation in OPERATIONS.items() if operation.lease != Lease.OF_NOBODY}


class Outcome(NamedTuple):
    """What came of a server: by the users of its connections what went over each; its journal; and how many of the
    renewals at the last moment came in time, and how many missed."""

    lease: int
    exchanges: dict[int, list[Exchange]]
    journal: bytes
    in_time: int
    missed: int


class Link:
    """A connection of a user of its own, and what went over it."""

    def __init__(self, port: int, uid: int) -> None:
        self.peer, self.uid, self.sent = Peer(("127.0.0.1", port)), uid, 0
        self.exchanges: list[Exchange] = []
        self.waiting: list[bytes] = []

    def send(self, calls: Sequence[list[bytes]]) -> None:
        """Calls of these operations each, in one write."""
        first = len(self.exchanges) + 1
        self.waiting = [compound(xid, *operations, uid=self.uid) for xid, operations in enumerate(calls, first)]
        self.sent = time.monotonic_ns()
        self.peer.send(b"".join(self.waiting))

    def receive(self) -> list[list[int]]:
        """The words of the replies to them."""
        for record in self.waiting:
            reply = self.peer.receive()
            self.exchanges.append(Exchange(record, reply, self.sent, time.monotonic_ns()))
            if len(reply) < 40:
                raise Wrong(f"user {self.uid} gets {reply.hex(' ', 4)} for {record.hex(' ', 4)}")
        return [words_of(it.reply) for it in self.exchanges[len(self.exchanges) - len(self.waiting) :]]

    def ask(self, *calls: list[bytes]) -> list[list[int]]:
        self.send(calls)
        return self.receive()


def status_of(reply: list[int]) -> int:
    return reply[6]


def renew(number: int) -> list[bytes]:
    return [words(RENEW, EPOCH, number)]


class SweepTiming:
    """How far behind the edge, in seconds, the sweep comes, as the renewals before have found it."""

    def __init__(self, chance: random.Random) -> None:
        self.chance, self.middle = chance, 0.0
        self.counts: Counter[bool] = Counter()
        # Of renewals since the time was looked for last: how far behind the edge they were, and whether in time.
        self.tries: list[tuple[float, bool]] = []

    def draw(self) -> float:
        """When to renew."""
        is_near = self.chance.random() < NEAR
        return self.middle + (self.chance.gauss(0, SPREAD) if is_near else self.chance.uniform(-MOST, MOST))

    def tell(self, behind: float, is_in_time: bool) -> None:
        self.counts[is_in_time] += 1
        self.tries.append((behind, is_in_time))

    def look(self) -> None:
        """Takes the time before which most came in time, and behind which most missed."""
        tries, self.tries = sorted(self.tries), []
        if tries:
            right = [
                sum(is_in_time == (place < split) for place, (_, is_in_time) in enumerate(tries))
                for split in range(len(tries) + 1)
            ]
            times = [tries[0][0] - MOST, *(behind for behind, _ in tries), tries[-1][0] + MOST]
            split = right.index(max(right))
            middle = (times[split] + times[split + 1]) / 2
            # Sweeps that have come a second later, as they take time, are at the next edge.
            self.middle = middle if middle < 1 - MOST else middle - 1


class LeaseHolder(Client):
    """A client that holds a lease, with one open."""

    def __init__(self, uid: int) -> None:
        super().__init__(None, uid, EPOCH)
        # How often it came; the second at whose edge its lease is over; and whether it lets that happen.
        self.visits, self.edge, self.is_silent = 0, 0, False

    def come(self, home: Link, side: Link) -> None:
        """Comes over one connection, and in its own place if it is there, while the other one asks for both."""
        before, self.visits, self.is_silent, self.open = self.number, self.visits + 1, False, 0
        (found,) = home.ask([setclientid(u64(self.visits), self.name)])
        if status_of(found) != NFS4_OK:
            raise Wrong(f"SETCLIENTID is answered {status_of(found)}")
        self.number, value = found[12], found[14]
        both = [renew(number) for number in (self.number, before) if number is not None]
        home.send([[confirmation(EPOCH, self.number, value)]])
        side.ask(*both)
        home.receive()
        side.ask(*both)
        self.begin(home)

    def begin(self, link: Link) -> None:
        """Opens the file, unless the lease has ended meanwhile."""
        self.file, self.last, self.open_seqid, self.lock_last = FILE, 1, 1, 0
        (found,) = link.ask([*(words for words, _ in way_to(FILE)), self.open_words(1)])
        if status_of(found) == NFS4_OK:
            self.open = found[16]
            link.ask([words(PUTFH) + handle(FILE), self.open_confirm_words(2)])
            self.last, self.open_seqid = 2, 2

    def earlier(self, kind: str, chance: random.Random) -> list[bytes] | None:
        """A RENEW or a READ that names a number which its slot had before, if there is one."""
        generation = self.number // SLOTS
        if not generation:
            return None
        number = self.number - SLOTS * chance.randint(1, generation)
        if kind == "renew":
            return renew(number)
        return [words(PUTFH) + handle(FILE), words(READ, 1, EPOCH, number, 1) + u64(0) + words(1)]

    def operations(self, kind: str) -> list[bytes]:
        """Those of this kind, which renew by the clientid, by the open, or by a stateid that isn't there."""
        if kind == "renew":
            return renew(self.number)
        if kind == "open":
            return [*(words for words, _ in way_to(FILE)), self.open_words(self.last + 1)]
        none = self.stateid(2**32 - 1, 1)
        return [
            words(PUTFH) + handle(FILE),
            {
                "read": words(READ) + self.open_stateid() + u64(0) + words(1),
                "write": words(WRITE) + self.open_stateid() + u64(0) + words(0) + opaque(b""),
                "setattr": words(SETATTR) + self.open_stateid() + words(1, 1 << SIZE) + opaque(u64(5)),
                "lock": self.first_lock_words(self.last + 1),
                "lockt": self.lockt_words(b"other", self.span()),
                "release": self.release_words(),
                "close": words(CLOSE, 1) + none,
                "locku": words(LOCKU, READ_LT, 1) + none + self.span(),
                "delegreturn": words(DELEGRETURN) + none,
                "open_confirm": words(OPEN_CONFIRM) + none + words(1),
                "open_downgrade": words(OPEN_DOWNGRADE) + none + words(1, 1, 0),
            }[kind],
        ]

    def take(self, kind: str, reply: list[int]) -> bool:
        """Whether the lease was there, by the reply to such a call."""
        status = status_of(reply)
        if kind in ("open", "lock") and status not in NOT_COUNTED:
            self.last += 1
        if kind == "lock" and status == NFS4_OK:
            # The next one is of another lock owner.
            self.locker += b"."
        if kind == "open" and status == NFS4_OK:
            self.open_seqid += 1
        return status not in (NFS4ERR_STALE_CLIENTID, Status.EXPIRED)


KINDS = ("renew",) * 8 + (
    "read",
    "write",
    "setattr",
    "open",
    "lock",
    "lockt",
    "release",
    "close",
    "locku",
    "delegreturn",
    "open_confirm",
    "open_downgrade",
)


class ClientThread:
    """The clients of a thread, and its two connections."""

    def __init__(self, setting: "ServerRun", place: int) -> None:
        self.setting, self.chance = setting, random.Random(f"{setting.seed} {place}")
        self.home, self.side = setting.links[2 * place : 2 * place + 2]
        self.holders = [LeaseHolder(1 + place * EACH + number) for number in range(EACH)]

    def live(self) -> None:
        """From the first second to the last."""
        for holder in self.holders:
            self.come(holder)
        while (edge := min(holder.edge for holder in self.holders)) < self.setting.seconds:
            due = [holder for holder in self.holders if holder.edge == edge]
            self.chance.shuffle(due)
            groups = []
            while due:
                groups.append([due.pop() for _ in range(min(len(due), self.chance.randint(1, 4)))])
            for group, behind in zip(groups, sorted(self.setting.pace.draw() for _ in groups)):
                self.setting.wait(edge + behind)
                self.turn(group, edge)

    def come(self, holder: LeaseHolder) -> None:
        holder.come(self.home, self.side)
        holder.edge = self.setting.edge()

    def turn(self, group: list[LeaseHolder], edge: int) -> None:
        """Each of these renews its lease, or has let it end, in one write."""
        calls: list[tuple[LeaseHolder | None, str, list[bytes]]] = []
        kinds = ("renew",) if self.chance.random() < ONLY_RENEW else KINDS
        for holder in group:
            kind, likely = self.chance.choice(kinds), EARLIER
            if not holder.is_silent and self.chance.random() < SILENT:
                holder.is_silent, likely = True, 1
                holder.edge += 1
            else:
                calls.append((holder, kind, holder.operations(kind)))
            earlier = holder.earlier(self.chance.choice(kinds), self.chance)
            if earlier is not None and self.chance.random() < likely:
                calls.insert(self.chance.randint(0, len(calls)), (None, "", earlier))
        link = self.chance.choice([self.home, self.side])
        replies = link.ask(*(operations for _, _, operations in calls))
        behind, next_edge = self.setting.since(link.sent) - edge, self.setting.edge()
        for (whose, kind, _), reply in zip(calls, replies):
            if whose is not None:
                self.go_on(whose, whose.take(kind, reply), behind, next_edge)

    def go_on(self, holder: LeaseHolder, is_live: bool, behind: float, edge: int) -> None:
        """Comes again if it has to."""
        if not holder.is_silent:
            self.setting.pace.tell(behind, is_live)
        if is_live and self.chance.random() >= AGAIN:
            holder.edge, holder.is_silent = edge, False
        else:
            self.come(holder)


class ServerRun:
    """A server's process, its connections, and when they come to it."""

    def __init__(self, served: Served, lease: int, seconds: int, seed: int) -> None:
        self.lease, self.seconds, self.seed, self.begun = lease, seconds, seed, time.monotonic_ns()
        self.links = [Link(served.port or 0, uid) for uid in range(1, 2 * THREADS + 2)]
        self.pace = SweepTiming(random.Random(seed))

    def since(self, time: int) -> float:
        """The seconds up to this time since the server began, about."""
        return (time - self.begun) / SECOND

    def wait(self, seconds: float) -> None:
        """Until so many seconds have passed since then."""
        time.sleep(max(0, seconds - self.since(time.monotonic_ns())))

    def edge(self) -> int:
        """The second at whose edge a lease is over that was renewed just now."""
        return int(self.since(time.monotonic_ns())) + self.lease + 1

    def keep_busy(self) -> None:
        """Batches of calls about when each sweep comes, which name no client; and before, a call about the edge, which
        tells the judge of the server's clock. Behind the sweep, looks when it came."""
        link, look = self.links[-1], [words(PUTROOTFH), words(GETATTR, 1, 0x10)]
        for edge in range(1, self.seconds):
            self.wait(edge + self.pace.chance.gauss(0, MOST))
            link.ask(look)
            self.wait(edge + self.pace.middle - SPREAD)
            for _ in range(BUSY):
                link.ask(*[look * 2] * 16)
            self.wait(edge + self.pace.middle + 0.2)
            self.pace.look()

    def live(self) -> None:
        jobs = [ClientThread(self, place).live for place in range(THREADS)] + [self.keep_busy]
        with ThreadPoolExecutor(len(jobs)) as pool:
            for job in [pool.submit(job) for job in jobs]:
                job.result()
        for link in self.links:
            link.peer.socket.close()


def serve(program: str, lease: int, seconds: int, seed: int) -> Outcome:
    """What comes of a server with this lease. Their seconds begin apart."""
    time.sleep(LEASES.index(lease) / len(LEASES))
    with tempfile.TemporaryDirectory() as folder:
        journal = os.path.join(folder, "journal")
        options = {
            "--listen": "127.0.0.1:0",
            "--connections": str(2 * THREADS + 1),
            "--tree": tree_for_clients(folder),
            "--lease": str(lease),
            "--epoch": str(EPOCH),
            "--journal": journal,
        }
        with Served([program, "serve", *(word for option in options.items() for word in option)]) as served:
            if served.port is None:
                raise Wrong(f"it doesn't listen: {served.end()}")
            setting = ServerRun(served, lease, seconds, seed)
            setting.live()
            if (ending := served.end()) != (0, b"", b""):
                raise Wrong(f"the server ends with {ending}")
        exchanges = {link.uid: link.exchanges for link in setting.links}
        return Outcome(lease, exchanges, bytes_of(journal) or b"", *(setting.pace.counts[it] for it in (True, False)))


# What is made of it.


def judge(outcome: Outcome, program: Program) -> TimedJudge:
    """Who judged it; the journal is lawful by the model and by this program."""
    is_lawful, line = verdict(outcome.journal)
    if not is_lawful:
        raise Wrong(f"the model says of the journal: {line}")
    if program.audit(outcome.journal) != (0, f"{line}\n".encode(), b""):
        raise Wrong(f"the program says of the journal: {program.audit(outcome.journal)}")
    judge = TimedJudge(read_journal(outcome.journal))
    for uid, exchanges in outcome.exchanges.items():
        try:
            judge.expect_exchanges(exchanges, numbers_of(judge.journal, uid))
        except (Wrong, Unreadable) as wrong:
            raise Wrong(f"user {uid}: {wrong}") from None
    judge.expect_times()
    return judge


def keep(outcome: Outcome) -> str:
    """The folder with what there is of a server: its journal, and a line for each call, with its user and times."""
    folder = tempfile.mkdtemp(prefix=f"stress.lease{outcome.lease}.")
    with open(os.path.join(folder, "journal"), "wb") as file:
        file.write(outcome.journal)
    with open(os.path.join(folder, "calls"), "w", encoding="ascii") as file:
        for uid, exchanges in outcome.exchanges.items():
            for it in exchanges:
                print(uid, it.sent, it.answered, it.record.hex(), it.reply.hex(), file=file)
    return folder


class Tally:
    """What there was at all servers."""

    def __init__(self) -> None:
        self.counts: Counter[str] = Counter()
        self.renewed: set[Opnum] = set()

    def add(self, outcome: Outcome, judge: TimedJudge) -> None:
        entries, came = judge.journal.entries, judge.came
        for one in judge.heard:
            opnum = Opnum.RENEW if one.number is None else entries[one.number].opnum
            is_live = one.is_ok if one.number is None else one.client in judge.lives[one.number]
            self.counts["renewed" if is_live else "refused"] += 1
            self.renewed |= {opnum} if is_live else set()
        self.counts.update(
            {
                "in time": outcome.in_time,
                "missed": outcome.missed,
                "came": len(came),
                "ended": sum(isinstance(entry, Expire) for entry in entries),
                "replaced": sum(isinstance(entries[number], Call) for number in judge.went.values()),
                "again": sum(number >= SLOTS for number in came),
                "sure": sum(judge.renews),
                "renews": len(judge.renews),
            }
        )
        sends = Counter(exchange.sent for exchanges in outcome.exchanges.values() for exchange in exchanges)
        self.counts["writes of many"] += sum(count > 1 for count in sends.values())

    def missing(self) -> list[str]:
        found = [f"{opnum.name} that renews" for opnum in sorted(RENEWING - self.renewed)]
        found += [what for what in ("ended", "replaced", "again", "refused", "writes of many") if not self.counts[what]]
        # Few of either say that they weren't about the time of the sweeps.
        tries = self.counts["in time"] + self.counts["missed"]
        return found + [what for what in ("in time", "missed") if 20 * self.counts[what] < tries]

    def words(self) -> str:
        return (
            "leases of {} s are renewed at the last moment {in time} times in time, and {missed} times missed; "
            "{came} clients came, {again} of them in slots that were given before, {ended} were ended by sweeps, "
            "none within a lease of a renewal that was answered, and {replaced} replaced; {renewed} operations "
            "renewed a lease, and {refused} named a client that wasn't live; {renews} RENEWs are answered as their "
            "clients were live, of which {sure} could be answered only so"
        ).format(" and ".join(map(str, LEASES)), **self.counts)


def run(program: Program, seconds: int, seed: int) -> Tally:
    """Clients at one server for each lease, at once."""
    tally = Tally()
    with ThreadPoolExecutor(len(LEASES)) as pool:
        servers = [pool.submit(serve, program.path, lease, seconds, seed) for lease in LEASES]
    for lease, server in zip(LEASES, servers):
        outcome = None
        try:
            outcome = server.result()
            tally.add(outcome, judge(outcome, program))
        except (Wrong, NotJournal, OSError) as wrong:
            kept = f"; see {keep(outcome)}" if outcome else ""
            raise Wrong(f"at the last moment of leases of {lease} s: {wrong}{kept}") from wrong
    return tally
