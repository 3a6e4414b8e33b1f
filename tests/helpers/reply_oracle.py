"""Replies beside the journal: a server that answers as the entries of a journal say, in the order of their receipts;
and RENEW, which has no entry, by one of the states that the journal leads through meanwhile. And the ends of leases
beside the calls and the RENEWs that came before them."""
from collections.abc import Iterable, Sequence, Set
from typing import Any, NamedTuple

from helpers.expecting_client import Wrong
from nfs4tools.journal.entries import Call, Expire, Forget, MOMENT_LIMIT, Revoke
from nfs4tools.journal.journal import Journal, states
from nfs4tools.model.server import Server
from nfs4tools.model.state_parts import Filehandles, Refusal, Result, slot_of
from nfs4tools.wire import CompoundCall, Opnum, Status, split_records, u32

STALE_RENEWAL = u32(Opnum.RENEW, Status.STALE_CLIENTID)

# The clients that are live in each state of a journal: before its first entry, and after each.
Lives = Sequence[Set[int]]


class Renewal(NamedTuple):
    """A RENEW that was answered OK: whose it was, and the first and the last moment at which it may have come."""

    client: int
    first: int
    last: int


class ServerByJournal(Server):
    """Answers each operation on the state by the entry of the next receipt, and RENEW as it was answered, if that is
    right."""

    def __init__(self, journal: Journal, lives: Lives, numbers: Sequence[int]) -> None:
        super().__init__(journal.tree, journal.lease, journal.epoch)
        self.journal, self.lives, self.numbers = journal.entries, lives, list(numbers)
        # Of the last call: the moments of its entries, and the clients whose RENEW was answered OK.
        self.is_stale = False
        self.moments: list[int] = []
        self.renewed: list[int] = []
        # Of each RENEW, whether it could be answered only so.
        self.renews: list[bool] = []
        # The earliest state in which the last answer may have been given.
        self.state = 0

    def apply(
        self, opnum: Opnum, arguments: Any, filehandle: Any, principal: tuple[int, int], is_refused: bool = False
    ) -> Result:
        if not self.numbers:
            raise Wrong(f"no receipt for an {opnum.name}")
        number = self.numbers.pop(0)
        entry = self.journal[number]
        if not isinstance(entry, Call):
            raise Wrong(f"a receipt for entry {number}, which is no call")
        asked = opnum, arguments, filehandle, principal
        if (entry.opnum, entry.arguments, entry.filehandle, entry.principal) != asked:
            raise Wrong(f"a receipt for entry {number}, which isn't the {opnum.name} that was sent")
        self.moments.append(entry.moment)
        self.state = number + 1
        return Result(Status(entry.answer.status), entry.answer.rest)

    def run_next(self, call: CompoundCall, handles: Filehandles, room: int, is_refused: bool) -> tuple[int, Result]:
        self.is_stale = is_refused
        return super().run_next(call, handles, room, False)

    def effect(self, opnum: Any, arguments: Any, subject: Any) -> Any:
        return self.renew(arguments) if opnum == Opnum.RENEW else super().effect(opnum, arguments, subject)

    def renew(self, arguments: Any) -> bytes:
        """By a state behind the entry of the last receipt, and not behind that of the next one. What comes after it is
        answered by no earlier state."""
        last = self.numbers[0] if self.numbers else len(self.journal)
        between = range(self.state, last + 1)
        fitting = [state for state in between if self.is_named(arguments, state) != self.is_stale]
        if not fitting:
            answered = "STALE_CLIENTID" if self.is_stale else "OK"
            raise Wrong(
                f"RENEW of client {arguments.client} is answered {answered}, which it isn't after {self.state} "
                f"to {last} entries"
            )
        self.renews.append(len(fitting) == len(between))
        self.state = fitting[0]
        if self.is_stale:
            raise Refusal(Status.STALE_CLIENTID)
        self.renewed.append(arguments.client)
        return b""

    def is_named(self, arguments: Any, state: int) -> bool:
        """Whether the clientid is that of a client that is live in this state."""
        return bool(arguments.epoch == self.epoch) and arguments.client in self.lives[state]

    def renew_by(self, _opnum: Opnum, _arguments: Any) -> None:
        """Leases are in no reply."""

    def expect_reply(self, record: bytes, reply: bytes) -> tuple[int | None, list[int]]:
        """The reply is the one of the next receipts' entries, which all came at one moment: this moment, if there is an
        entry, and whom a RENEW of the call renewed."""
        self.moments, self.renewed = [], []
        is_stale = reply.endswith(STALE_RENEWAL)
        stale = frozenset([int.from_bytes(reply[32:36], "big") - 1] if is_stale else [])
        if self.reply(record, stale) != reply:
            raise Wrong(f"the reply {reply.hex()} isn't that of the receipts' entries")
        if len(set(self.moments)) > 1:
            raise Wrong("two moments in one call")
        return self.moments[0] if self.moments else None, self.renewed


def renewals_of(calls: Sequence[tuple[int | None, Iterable[int]]]) -> list[Renewal]:
    """The renewals among a link's calls, each of which is a moment, or None, and whom it renewed by RENEW. A moment
    that isn't known lies between those that are."""
    found: list[Renewal] = []
    first = 0
    for place, (moment, clients) in enumerate(calls):
        first = first if moment is None else moment
        last = next((later for later, _ in calls[place:] if later is not None), MOMENT_LIMIT)
        found += [Renewal(client, first, last) for client in clients]
    return found


def live_clients(journal: Journal) -> Lives:
    """Who is live before the first entry, and after each. States that are alike have one set."""
    found: list[Set[int]] = [frozenset()]
    for server in states(journal):
        live = server.renewals.keys()
        found.append(found[-1] if found[-1] == live else frozenset(live))
    return found[1:]


class Judge:
    """Judges what links got beside the journal of their server, which is lawful; and at last how leases ended."""

    def __init__(self, journal: Journal) -> None:
        self.journal = journal
        self.lives = live_clients(journal)
        # Of each RENEW, whether it could be answered only as it was; and those that were OK.
        self.renews: list[bool] = []
        self.renewals: list[Renewal] = []
        # Of each entry of a link, the earliest state in which its call may have renewed: behind the link's entry before
        # it.
        self.firsts: dict[int, int] = {}

    def expect_link(self, sent: bytes, replies: bytes, numbers: Sequence[int]) -> None:
        """The replies to what a link sent are those of its receipts' entries, which have these numbers."""
        if any(a >= b for a, b in zip(numbers, numbers[1:])):
            raise Wrong("the numbers of its receipts don't rise")
        if numbers and numbers[-1] >= len(self.journal.entries):
            raise Wrong(f"a receipt for entry {numbers[-1]}, which isn't there")
        self.firsts.update((number, before + 1) for before, number in zip([-1, *numbers], numbers))
        asked, answered = split_records(sent)[0], split_records(replies)
        if answered[1] or len(answered[0]) != len(asked):
            raise Wrong(f"{len(answered[0])} replies to {len(asked)} calls")
        server = ServerByJournal(self.journal, self.lives, numbers)
        calls = [server.expect_reply(record, reply) for record, reply in zip(asked, answered[0])]
        moments = [moment for moment, _ in calls if moment is not None]
        if server.numbers:
            raise Wrong(f"{len(server.numbers)} receipts for nothing that it sent")
        if moments != sorted(moments):
            raise Wrong("a later call came at an earlier moment")
        self.renews, self.renewals = self.renews + server.renews, self.renewals + renewals_of(calls)

    def expect_ends(self) -> None:
        """Each client whose lease ended was heard of last when its entry says, where these are all links, and none of
        their calls was refused for want of memory, which renews without an entry. What a sweep ends comes in its
        order. (That the leases were over, and the delegations and owners due, is a part of what an audit says; so is
        the order of the owners.)"""
        server, begun = Server(epoch=self.journal.epoch), dict[int, int]()
        calls: dict[int | None, list[int]] = {}
        for number, entry in enumerate(self.journal.entries):
            if isinstance(entry, Call):
                # Besides, a confirmation begins the lease of who is live by it.
                begun.update((client, entry.moment) for client in self.lives[number + 1] - self.lives[number])
                calls.setdefault(server.renewed_by(entry.opnum, entry.arguments), []).append(number)
        for number, entry in enumerate(self.journal.entries):
            if isinstance(entry, Expire):
                self.expect_end(number, begun[entry.client], calls.get(entry.client, []))
        self.expect_order()

    def expect_numbers(self) -> None:
        """No client is given a number that one had before it, and no two that are live have one slot."""
        numbers: set[int] = set()
        for entry, before, after in zip(self.journal.entries, self.lives, self.lives[1:]):
            if len({slot_of(number) for number in after}) < len(after):
                raise Wrong(f"two clients have one slot after {entry}")
            if not isinstance(entry, Call) or (entry.opnum, entry.answer.status) != (Opnum.SETCLIENTID, Status.OK):
                continue
            number = int.from_bytes(entry.answer.rest[4:8], "big")
            if number in numbers - before:
                raise Wrong(f"client {number} is given again by {entry}")
            numbers.add(number)

    def expect_end(self, number: int, begun: int, calls: Iterable[int]) -> None:
        """The client of this end was heard of at the moment that it was seen last, by one of these calls or by RENEW,
        and at none that is later. A call renews before it waits for the lock, behind the link's entry before it: so
        perhaps before the client was live, and so, too, while it was, though the call's own entry stands behind its
        end."""
        end, sure, perhaps = self.journal.entries[number], [begun], []
        for call in calls:
            first, moment = self.firsts.get(call, 0), self.journal.entries[call].moment
            if call > number:
                perhaps += [moment] if first <= number else []
            elif end.client in self.lives[call]:
                (sure if end.client in self.lives[first] else perhaps).append(moment)
        own = [renewal for renewal in self.renewals if renewal.client == end.client]
        least = max(sure + [renewal.first for renewal in own])
        if end.seen < least:
            raise Wrong(f"client {end.client} ends, seen last at {end.seen}, but it was heard of at {least}")
        if end.seen not in sure + perhaps and not any(renewal.first <= end.seen <= renewal.last for renewal in own):
            raise Wrong(f"client {end.client} ends, seen last at {end.seen}, when it wasn't heard of")

    def expect_order(self) -> None:
        """The ends of one sweep, which stand together, have one moment: first those of clients, by their numbers, then
        those of delegations, by theirs, and then those of owners; and no moment goes back."""
        ends = [(number, end) for number, end in enumerate(self.journal.entries) if isinstance(end, ENDS)]
        for (place, one), (other_place, other) in zip(ends, ends[1:]):
            is_one_sweep = other_place == place + 1 and other.now == one.now
            if other.now < one.now or is_one_sweep and rank(other, other_place) <= rank(one, place):
                raise Wrong(f"{other} comes after {one}")


# What a sweep ends, in its order.
ENDS = Expire, Revoke, Forget


def rank(end: Any, place: int) -> tuple[int, Any]:
    return ENDS.index(type(end)), place if isinstance(end, Forget) else end
