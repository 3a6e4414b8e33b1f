"""Leases that end while their clients have state, and who got what they held; and clients that go on by a clientid that
is dead."""
from collections import Counter
from collections.abc import Hashable, Iterator
from dataclasses import dataclass, field

from nfs4tools.explain import Kind, Reason, ExplainedEntry
from nfs4tools.explain.sentences import run_words
from nfs4tools.journal.entries import Call, Entry, Expire
from nfs4tools.journal.history import History
from nfs4tools.journal.words import STATUS_NAMES, client_words, owner_words
from nfs4tools.judge.clients import client_of, id_of
from nfs4tools.judge.findings import Finding, found
from nfs4tools.judge.refusals_faults import TRANSFERS, transfer_of
from nfs4tools.judge.watching import Holdings, Watcher, is_new
from nfs4tools.model.delegations import bars
from nfs4tools.model.ranges import Run, meets, range_of
from nfs4tools.model.state_parts import Delegation, KeptState, LockState, OpenState, conflict, mode_of
from nfs4tools.wire import Lock, Open, Setclientid, SetclientidConfirm, Status

# A client has so many moments for a SETCLIENTID after it was told that its clientid is dead.
PATIENCE = 2
# The same request so many times again may be of lost replies.
LOST_REPLIES = 2
DEAD = {
    Kind.CLIENT_EXPIRED,
    Kind.CLIENT_REPLACED,
    Kind.CLIENT_NEVER_CONFIRMED,
    Kind.CLIENTID_OTHER_EPOCH,
    Kind.STATEID_OTHER_EPOCH,
}


@dataclass
class Lapse:
    """A lease that ended: the entry, whose it was, the sentence, and the entries that made what was lost."""

    number: int
    client: bytes | None
    text: str
    made: tuple[int, ...]
    # Who got some of it since, and by which entry.
    taken: str = ""
    taker: tuple[int, ...] = ()


@dataclass(frozen=True)
class Lost:
    """A state that ended with a lease, with what it held of its file then."""

    lapse: Lapse
    share: tuple[int, int] | None
    kind: int | None
    runs: tuple[Run, ...]


class Lapses(Watcher):
    """Looks at the leases that end."""

    def __init__(self, server: History, holdings: Holdings) -> None:
        super().__init__(server)
        self.holdings = holdings
        self.lapses: list[Lapse] = []
        # What was lost and nobody has got yet, by the file.
        self.lost: dict[int, list[Lost]] = {}

    def before(self, number: int, entry: Entry, reason: Reason | None) -> None:
        if not isinstance(entry, Expire) or not self.holdings.of_client.get(entry.client):
            return
        states = sorted(self.holdings.of_client[entry.client])
        client = id_of((self.server.epoch, entry.client), self.server)
        text = (
            f"{client_words(entry.client)} renewed its lease of {self.server.lease} s last at {entry.seen}, and "
            f"was removed at {entry.now} with {self.states_words(states)}; either no RENEW came since, or RENEWs "
            "of another clientid"
        )
        lapse = Lapse(number, client, text, tuple(self.server.begun[it] for it in states))
        self.lapses.append(lapse)
        for state in map(self.server.given.__getitem__, states):
            self.lost.setdefault(state.file, []).append(lost_of(lapse, state))

    def after(self, told: ExplainedEntry) -> None:
        entry = told.entry
        if not self.lost or not (isinstance(entry, Call) and is_new(entry, told.reason)):
            return
        if isinstance(entry.arguments, Open):
            assert entry.filehandle is not None
            self.note_open(told.number, entry, self.server.tree.child(entry.filehandle, entry.arguments.claim.name))
        elif isinstance(entry.arguments, Lock):
            self.note_lock(told.number, entry, entry.filehandle)

    def note_open(self, number: int, entry: Call, file: int | None) -> None:
        share = entry.arguments.access, entry.arguments.deny
        for lost in self.lost_of_others(file, entry):
            if lost.share and conflict(lost.share, share) or lost.kind is not None and bars(lost.kind, share):
                what = f"{self.sentences.place(file or 0)} open"
                self.take(lost, number, f"{owner_words(entry.arguments.owner)} has {what}")

    def note_lock(self, number: int, entry: Call, file: int | None) -> None:
        arguments = entry.arguments
        asked, mode = range_of(arguments.offset, arguments.length), mode_of(arguments.locktype)
        assert asked is not None and file is not None
        for lost in self.lost_of_others(file, entry):
            if any(meets(it.mode, mode) and it.first <= asked[1] and asked[0] <= it.last for it in lost.runs):
                place = self.sentences.place(file)
                self.take(lost, number, f"{self.locker_words(entry)} has locked {run_words(Run(*asked, mode), place)}")

    def locker_words(self, entry: Call) -> str:
        """The lock owner of a LOCK that was answered OK."""
        client = client_of(entry, self.server)
        owner = getattr(entry.arguments.locker, "owner", None)
        if owner is None:
            state = self.server.given[entry.arguments.locker.lock_stateid.number]
            assert isinstance(state, LockState) and client is not None
            owner = state.owner
        return owner_words(owner)

    def lost_of_others(self, file: int | None, entry: Call) -> list[Lost]:
        """What was lost of the file, and nobody has got yet, by other clients than that of the entry."""
        waiting = [] if file is None else [it for it in self.lost.get(file, []) if not it.lapse.taker]
        if file in self.lost:
            self.lost[file] = waiting
        client = client_of(entry, self.server) if waiting else None
        return [it for it in waiting if it.lapse.client != client]

    def take(self, lost: Lost, number: int, text: str) -> None:
        if not lost.lapse.taker:
            lost.lapse.taken, lost.lapse.taker = f"; since entry {number} {text}", (number,)

    def findings(self) -> Iterator[Finding]:
        for it in self.lapses:
            yield found("lease-lapsed", it.client, (it.number,), it.text + it.taken, it.made + it.taker)


def lost_of(lapse: Lapse, state: KeptState) -> Lost:
    share = state.share() if isinstance(state, OpenState) else None
    kind = state.kind if isinstance(state, Delegation) else None
    return Lost(lapse, share, kind, tuple(state.ranges.held()) if isinstance(state, LockState) else ())


@dataclass
class Dead:
    """The use of a clientid since its client was told that it is dead: by which entry, and when."""

    told: int
    moment: int
    # How often each request came.
    requests: Counter[tuple[object, ...]] = field(default_factory=Counter)


@dataclass
class Continued:
    """A client that goes on: whose entries these are, and since which entry it should have known better."""

    client: bytes | None
    text: str
    others: tuple[int, ...]
    entries: list[int] = field(default_factory=list)


class DeadClientids(Watcher):
    """Looks at refusals since a clientid is dead. RENEWs aren't in a journal."""

    def __init__(self, server: History) -> None:
        super().__init__(server)
        # By the clientid; and what was found.
        self.dead: dict[tuple[int, int], Dead] = {}
        self.continued: dict[tuple[int, int], Continued] = {}
        # By the id: the clientids that were refused, and the last one that was confirmed, and where.
        self.of_id: dict[bytes, set[tuple[int, int]]] = {}
        self.confirmed: dict[bytes, tuple[int, int]] = {}
        # By the number of a client: the entry that gave it.
        self.given: dict[int, int] = {}
        # Of each id the transfers by a dead clientid that may have been under way when the newer one was confirmed:
        # what they ask, with the clientid and the entry.
        self.under_way: dict[tuple[bytes | None, Hashable], list[tuple[tuple[int, int], int]]] = {}

    def after(self, told: ExplainedEntry) -> None:
        entry = told.entry
        if not isinstance(entry, Call):
            return
        if isinstance(entry.arguments, Setclientid):
            self.note_introduction(told.number, entry)
        elif isinstance(entry.arguments, SetclientidConfirm):
            self.note_confirmation(told.number, entry, told.reason)
        elif told.reason is not None and told.reason.kind in DEAD:
            self.note_use(told.number, entry, told.reason)
        elif self.under_way and entry.opnum in TRANSFERS and entry.answer.status == Status.OK:
            self.note_transfer(entry)

    def note_introduction(self, number: int, entry: Call) -> None:
        """The id begins anew, and maybe also one that this server doesn't know."""
        client = entry.arguments.id
        for clientid in self.of_id.pop(client, set()):
            self.dead.pop(clientid, None)
        for clientid in [it for it in self.dead if it[0] != self.server.epoch]:
            del self.dead[clientid]
        introduction = self.server.introductions.get(self.server.last_confirm)
        if introduction is not None and introduction.entry == number:
            self.given.setdefault(introduction.record.number, number)

    def note_confirmation(self, number: int, entry: Call, reason: Reason | None) -> None:
        if is_new(entry, reason):
            clientid = entry.arguments.epoch, entry.arguments.client
            client = id_of(clientid, self.server)
            self.dead.pop(clientid, None)
            if client is not None:
                self.confirmed[client] = clientid[1], number

    def note_use(self, number: int, entry: Call, reason: Reason) -> None:
        """A request that is refused as its client isn't live."""
        clientid = dead_clientid(reason, self.server)
        client = id_of(clientid, self.server)
        newer = None if client is None else self.confirmed.get(client)
        if newer is not None and self.given[newer[0]] > self.given[clientid[1]]:
            text = (
                f"entry {newer[1]} confirmed {client_words(newer[0])} for this id, but the client goes on by "
                f"{client_words(clientid[1])}, which is dead"
            )
            self.add(clientid, Continued(client, text, (newer[1],)), number)
            if entry.opnum in TRANSFERS and entry.moment - self.server.recorded[newer[1]].moment < PATIENCE:
                self.under_way.setdefault((client, transfer_of(entry)), []).append((clientid, number))
            return
        since = self.dead.setdefault(clientid, Dead(number, entry.moment))
        if client is not None:
            self.of_id.setdefault(client, set()).add(clientid)
        request = entry.opnum, entry.arguments, entry.filehandle
        since.requests[request] += 1
        may_be_lost = 1 < since.requests[request] <= 1 + LOST_REPLIES
        if entry.moment - since.moment >= PATIENCE and not may_be_lost:
            self.add(clientid, Continued(client, self.dead_words(since), (since.told,)), number)

    def note_transfer(self, entry: Call) -> None:
        """The client makes a transfer by a state that it has now: it didn't go on, the earlier one was under way."""
        for clientid, number in self.under_way.pop((client_of(entry, self.server), transfer_of(entry)), []):
            self.continued[clientid].entries.remove(number)

    def dead_words(self, since: Dead) -> str:
        told = self.server.recorded[since.told]
        status = STATUS_NAMES[told.answer.status]
        return (
            f"{self.sentences.entry(since.told)} was answered {status} at {since.moment}, but the client goes on "
            f"by the dead clientid {PATIENCE} moments later or more, without a SETCLIENTID"
        )

    def add(self, clientid: tuple[int, int], one: Continued, number: int) -> None:
        self.continued.setdefault(clientid, one).entries.append(number)

    def findings(self) -> Iterator[Finding]:
        for it in (one for one in self.continued.values() if one.entries):
            yield found("continues-with-dead-clientid", it.client, tuple(it.entries), it.text, it.others)


def dead_clientid(reason: Reason, server: History) -> tuple[int, int]:
    """The clientid by epoch and number that a reason says is dead."""
    facts = reason.facts
    epoch: int = getattr(facts, "given", server.epoch)
    client: int = getattr(facts, "client")
    return epoch, client
