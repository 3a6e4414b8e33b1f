"""Replies beside the journal, by the time at which each call was sent and answered: whether a RENEW is answered as its
client is live, on whatever connection that was shown before, and whether a lease ended that had been renewed in time.

A server's moments are whole seconds since it began, which it reads between a call and its reply. When it began is told
by all calls together, as closely as they come to the seconds' edges."""
from bisect import bisect_left, bisect_right
from collections import defaultdict
from collections.abc import Iterable
from itertools import accumulate
from math import inf
from typing import Any, NamedTuple

from helpers.expecting_client import Wrong
from helpers.reply_oracle import Judge, ServerByJournal
from nfs4tools.journal.entries import Expire
from nfs4tools.journal.journal import Journal
from nfs4tools.model.state_parts import Refusal
from nfs4tools.wire import Opnum, Status


SECOND = 10**9


class Exchange(NamedTuple):
    """A call as its connection saw it: the record that was sent and the reply's, and by one clock, in nanoseconds, a
    time before the one was sent, and one after the other came."""

    record: bytes
    reply: bytes
    sent: int
    answered: int


class RenewingOperation(NamedTuple):
    """An operation that renews the lease of the client that it names: the times of its call; the number of its entry,
    or None for RENEW; whether it is a RENEW that was answered OK; and the first and the last state between the entries
    of its connection, in which it was asked."""

    client: int
    sent: int
    answered: int
    number: int | None
    is_ok: bool
    first: int
    last: int


def numbers_of(journal: Journal, uid: int) -> list[int]:
    """The numbers of this user's calls."""
    calls = enumerate(journal.entries)
    return [number for number, entry in calls if getattr(entry, "principal", None) == (1, uid)]


class TimedServerByJournal(ServerByJournal):
    """Answers by the entries of a connection's calls, and RENEW as it was answered. `heard` has each operation that
    renews a lease."""

    def __init__(self, *told: Any) -> None:
        super().__init__(*told)
        self.exchange: Any = None
        self.heard: list[RenewingOperation] = []

    def renew_by(self, opnum: Opnum, arguments: Any) -> None:
        client = self.renewed_by(opnum, arguments)
        if client is not None:
            is_renew, last = opnum == Opnum.RENEW, self.numbers[0] if self.numbers else len(self.journal)
            times = self.exchange.sent, self.exchange.answered
            number, is_ok = None if is_renew else last, is_renew and not self.is_stale
            self.heard.append(RenewingOperation(client, *times, number, is_ok, self.state, last))

    def renew(self, _arguments: Any) -> bytes:
        if self.is_stale:
            raise Refusal(Status.STALE_CLIENTID)
        return b""


class EnteredCall(NamedTuple):
    """A call that has entries: how it went, and the numbers of the first and the last of them."""

    exchange: Exchange
    first: int
    last: int


def beginnings(entries: list[Any], calls: list[EnteredCall], ends: list[tuple[int, Expire]]) -> tuple[int, int]:
    """Between which times the clock began by which the entries have their moments. It was read within each call; and by
    a sweep before each call was answered whose entry stands behind an end that it made."""
    calls = sorted(calls, key=lambda call: call.last)
    numbers, first_answers = [call.last for call in calls], [call.exchange.answered for call in calls]
    first_answers = list(accumulate(first_answers[::-1], less))[::-1]
    first = max(call.exchange.sent - (entries[call.last].moment + 1) * SECOND for call in calls)
    last = min(call.exchange.answered - entries[call.last].moment * SECOND for call in calls)
    for number, end in ends:
        place = bisect_right(numbers, number)
        if place < len(calls):
            last = min(last, first_answers[place] - end.now * SECOND)
    if first >= last:
        raise Wrong("the moments of the entries are those of no clock that began once")
    return first, last


def less(one: int, other: int) -> int:
    return min(one, other)


def greater(one: int, other: int) -> int:
    return max(one, other)


class Times:
    """What the times of calls say of the order of entries, and of the server's clock."""

    def __init__(self, entries: list[Any], calls: list[EnteredCall]) -> None:
        self.ends = [(number, end) for number, end in enumerate(entries) if isinstance(end, Expire)]
        self.begun_first, self.begun_last = beginnings(entries, calls, self.ends)
        # When calls were answered, and the state that is there once the first of these were.
        answered = sorted((call.exchange.answered, call.last + 1) for call in calls)
        self.answered = [time for time, _ in answered]
        self.there: list[int] = [0, *accumulate((state for _, state in answered), greater)]
        # When calls were sent, and sweeps read the clock at the earliest; and the state that is left while all but the
        # first of these are to come.
        sent = sorted(
            [(call.exchange.sent, call.first) for call in calls]
            + [(self.begun_first + end.now * SECOND, number) for number, end in self.ends]
        )
        self.sent = [time for time, _ in sent]
        left = accumulate((state for _, state in sent[::-1]), less, initial=len(entries))
        self.left: list[int] = [*left][::-1]

    def first_state(self, time: int) -> int:
        """Not an earlier one at this time: a reply that came before is of it."""
        return self.there[bisect_left(self.answered, time)]

    def last_state(self, time: int) -> int:
        """Not a later one at this time: a call that was sent after it, or a later sweep, has the next entry."""
        return self.left[bisect_right(self.sent, time)]

    def seconds(self, sent: int, answered: int) -> tuple[int, int]:
        """The first and the last moment that the server's clock may have shown between these times."""
        return max(0, (sent - self.begun_last) // SECOND), (answered - self.begun_first) // SECOND


class TimedJudge(Judge):
    """Judges what links got by the journal and by the times of their calls."""

    def __init__(self, journal: Journal) -> None:
        super().__init__(journal)
        self.times: Times
        self.calls: list[EnteredCall] = []
        self.heard: list[RenewingOperation] = []
        # By clients: the number of the entry by which each came, and of the one by which it went.
        self.came: dict[int, int] = {}
        self.went: dict[int, int] = {}
        for number, (before, after) in enumerate(zip(self.lives, self.lives[1:])):
            if before is not after:
                self.came.update((client, number) for client in after - before)
                self.went.update((client, number) for client in before - after)

    def expect_exchanges(self, exchanges: Iterable[Exchange], numbers: list[int]) -> None:
        """The replies that a link got are those of the entries of its calls, which have these numbers."""
        server = TimedServerByJournal(self.journal, self.lives, numbers)
        for exchange in exchanges:
            server.exchange, before = exchange, server.numbers[:]
            server.expect_reply(exchange.record[4:], exchange.reply[4:])
            if taken := before[: len(before) - len(server.numbers)]:
                self.calls.append(EnteredCall(exchange, taken[0], taken[-1]))
        if server.numbers:
            raise Wrong(f"{len(server.numbers)} entries of nothing that it sent")
        self.heard += server.heard

    def expect_times(self) -> None:
        """What has to be once all links were looked at."""
        self.times = Times(self.journal.entries, self.calls)
        by_client: dict[int, list[RenewingOperation]] = defaultdict(list)
        for one in self.heard:
            by_client[one.client].append(one)
        for client, heard in by_client.items():
            self.expect_renews(client, [one for one in heard if one.number is None])
        for number, end in self.times.ends:
            self.expect_timely_end(number, end, by_client[end.client])
        # The last end at each moment is the last of its sweep.
        for now, number in {end.now: number for number, end in self.times.ends}.items():
            self.expect_kept(number, now, by_client)
        self.expect_order()
        self.expect_numbers()

    # RENEW.

    def first_state(self, one: RenewingOperation) -> int:
        """The earliest state in which it may have been asked."""
        return max(one.first, self.times.first_state(one.sent))

    def expect_renews(self, client: int, renews: list[RenewingOperation]) -> None:
        """Each is answered as the client is live, or isn't, in a state that may have been meanwhile; and none OK that
        was sent behind one that showed the client's end. Of two clients of which one takes the other's place both may
        be answered so while the call is under way that does it: this isn't told by the order of the two."""
        came, went = self.came.get(client, inf), self.went.get(client, len(self.journal.entries))
        shown = inf
        for one in renews:
            first, last = self.first_state(one), min(one.last, self.times.last_state(one.answered))
            may_live, may_not = max(first, came + 1) <= min(last, went), first <= came or last > went
            if not (may_live if one.is_ok else may_not):
                answer = "OK" if one.is_ok else "STALE_CLIENTID"
                raise Wrong(
                    f"RENEW of client {client} is answered {answer} after {first} to {last} entries, and it is "
                    f"live after {came + 1} to {went}"
                )
            self.renews.append(may_live != may_not)
            if not one.is_ok and first > came:
                shown = min(shown, one.answered)
        if any(one.is_ok and one.sent > shown for one in renews):
            raise Wrong(f"RENEW of client {client} is answered OK, and was sent behind one that showed its end")

    # Ends.

    def moments(self, one: RenewingOperation) -> tuple[int, int]:
        """The first and the last moment to which it may have renewed."""
        if one.number is None:
            return self.times.seconds(one.sent, one.answered)
        moment: int = self.journal.entries[one.number].moment
        return moment, moment

    def expect_timely_end(self, number: int, end: Expire, heard: list[RenewingOperation]) -> None:
        """No renewal that was answered is within a lease of the end, or later than what that saw; and something renewed
        the lease at the moment that it saw. A RENEW that was answered OK came before; so did a call whose entry does.
        One whose entry stands behind it may have, since a call renews before it waits for the lock."""
        came = self.came[end.client]
        least = self.journal.entries[came].moment
        seen = [(least, least)]
        for one in heard:
            first, last = self.moments(one)
            if one.is_ok or one.number is not None and came < self.first_state(one) <= one.number < number:
                if first + self.journal.lease >= end.now:
                    raise Wrong(
                        f"client {end.client} ends at {end.now} by entry {number}, within a lease of its "
                        f"renewal at {first}, which was answered"
                    )
                least = max(least, first)
            if one.is_ok or one.number is not None and self.first_state(one) <= number:
                seen.append((first, last))
        if end.seen < least:
            raise Wrong(f"client {end.client} ends, seen last at {end.seen}, but it was heard of at {least}")
        if not any(first <= end.seen <= last for first, last in seen):
            raise Wrong(f"client {end.client} ends, seen last at {end.seen}, when it wasn't heard of")

    def expect_kept(self, number: int, now: int, by_client: dict[int, list[RenewingOperation]]) -> None:
        """The sweep whose last entry is this one leaves none whose lease is over, whatever was renewed meanwhile."""
        over = min((call.exchange.answered for call in self.calls if call.first > number), default=inf)
        for client in self.lives[number + 1]:
            heard = [
                self.moments(one)[1]
                for one in by_client[client]
                if one.sent < over and (one.is_ok or one.number is not None)
            ]
            latest = max([self.journal.entries[self.came[client]].moment, *heard])
            if latest + self.journal.lease < now:
                raise Wrong(
                    f"client {client} is live behind the sweep at {now} and entry {number}, and was heard of "
                    f"last at {latest}"
                )
