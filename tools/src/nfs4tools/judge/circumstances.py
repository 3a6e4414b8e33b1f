"""What a client may not be to blame for, or does to itself: shares of its own owners that exclude each other, reclaims,
what it has from another run of the server, and an address at which nobody can call it."""
from collections.abc import Callable, Hashable, Iterator
from dataclasses import dataclass, field

from nfs4tools.callbacks.messages import address_of
from nfs4tools.explain import Kind, Reason, ExplainedEntry
from nfs4tools.explain.kinds import EpochFacts, ShareConflicts
from nfs4tools.journal.entries import Call
from nfs4tools.journal.history import History
from nfs4tools.journal.words import name_words, owner_words
from nfs4tools.judge.clients import client_of
from nfs4tools.judge.findings import Finding, found
from nfs4tools.judge.watching import Watcher
from nfs4tools.model.state_parts import LAST
from nfs4tools.wire import Callback, Open, Setclientid, Stateid, Status

# A callback by which a client says that it wants none.
NO_ADDRESSES = {b"", b"0.0.0.0.0.0", b"::.0.0"}


@dataclass
class Repeated:
    """A finding that comes again and again: its entries are gathered."""

    sort: str
    client: bytes | None
    text: str
    others: tuple[int, ...] = ()
    entries: list[int] = field(default_factory=list)


class Circumstances(Watcher):
    """Looks at such calls. Those that are alike make one finding."""

    def __init__(self, server: History) -> None:
        super().__init__(server)
        self.found: dict[Hashable, Repeated] = {}

    def after(self, told: ExplainedEntry) -> None:
        entry = told.entry
        if not isinstance(entry, Call):
            return
        if told.reason is not None and told.reason.kind in BY_KIND:
            BY_KIND[told.reason.kind](self, told.number, entry, told.reason)
        elif isinstance(entry.arguments, Setclientid) and entry.answer.status == Status.OK:
            self.note_callback(told.number, entry)

    def add(self, key: Hashable, number: int, one: Repeated) -> None:
        self.found.setdefault((one.sort, one.client, key), one).entries.append(number)

    def note_own_deny(self, number: int, entry: Call, reason: Reason) -> None:
        """SHARE_DENIED, as another owner of the same client has the file open."""
        if not isinstance(entry.arguments, Open) or not isinstance(reason.facts, ShareConflicts):
            return
        owner = entry.arguments.owner
        own = [it for it in reason.facts.conflicts if it.owner.client == owner.client]
        if own:
            place = self.sentences.place(self.server.given[own[0].state].file)
            others = tuple(
                sorted({since for it in own for since in (it.denied_since, it.held_since) if since is not None})
            )
            text = f"{owner_words(own[0].owner)} has {place} open, and its share excludes that of {owner_words(owner)}"
            one = Repeated("own-deny-met", client_of(entry, self.server), text, others)
            self.add((owner, own[0].state), number, one)

    def note_reclaim(self, number: int, entry: Call, reason: Reason) -> None:
        text = "the client reclaims, but this server has no grace period"
        self.add(None, number, Repeated("reclaim-without-grace", client_of(entry, self.server), text))

    def note_stale(self, number: int, entry: Call, reason: Reason) -> None:
        if isinstance(reason.facts, EpochFacts) and not is_made_up(reason):
            given, expected = reason.facts.given, reason.facts.expected
            named = "clientid" if reason.facts.stateid is None else "stateid"
            text = f"a {named} has epoch {given}, but this run of the server has epoch {expected}"
            self.add((named, given), number, Repeated("stale-from-another-run", client_of(entry, self.server), text))

    def note_callback(self, number: int, entry: Call) -> None:
        callback = entry.arguments.callback
        if address_of(callback) is None and callback.address not in NO_ADDRESSES:
            one = Repeated("callback-address-unusable", entry.arguments.id, unusable_words(callback))
            self.add(callback, number, one)

    def findings(self) -> Iterator[Finding]:
        for it in self.found.values():
            yield found(it.sort, it.client, tuple(it.entries), it.text, it.others)


def unusable_words(callback: Callback) -> str:
    named = f"the callback has netid {name_words(callback.netid)} and address {name_words(callback.address)}"
    if callback.netid != b"tcp":
        return f"{named}; this server makes callbacks only over tcp with IPv4"
    return f"{named}, which isn't of the form h1.h2.h3.h4.p1.p2 with a port above 0"


def is_made_up(reason: Reason) -> bool:
    """Whether a stateid or a clientid of another epoch is one that no server gives: of zeros or ones alone."""
    facts = reason.facts
    if not isinstance(facts, EpochFacts):
        return False
    if facts.stateid is None:
        return (facts.given, facts.client) == (0, 0)
    stateid: Stateid = facts.stateid
    return stateid[1:] in ((0, 0, 0), (LAST, LAST, LAST))


BY_KIND: dict[Kind, Callable[[Circumstances, int, Call, Reason], None]] = {
    Kind.SHARE_CONFLICT: Circumstances.note_own_deny,
    Kind.RECLAIM: Circumstances.note_reclaim,
    Kind.CLIENTID_OTHER_EPOCH: Circumstances.note_stale,
    Kind.STATEID_OTHER_EPOCH: Circumstances.note_stale,
}
