"""Histories on which `TimedJudge` is tried. The model serves a few calls and sweeps; in the wrong histories
something else is done or answered than it says."""
from contextlib import nullcontext
from typing import Any

import pytest

from helpers.expecting_client import Wrong
from helpers.reply_times import Exchange, SECOND, TimedJudge, numbers_of
from nfs4tools.journal.journal import Journal, Recorder
from nfs4tools.messages import (
    GETATTR,
    NFS4ERR_STALE_CLIENTID,
    NFS4_OK,
    PUTFH,
    PUTROOTFH,
    READ,
    RENEW,
    compound,
    confirmation,
    handle,
    results,
    setclientid,
    words,
)
from nfs4tools.wire import record, u64

pytestmark = pytest.mark.quick

EPOCH, LEASE = 7, 1
# The replies of RENEW that are told in place of the model's.
OK, STALE = NFS4_OK, NFS4ERR_STALE_CLIENTID


class Story:
    """What happens at a server that began at 0, with times in seconds, in the order of its entries."""

    def __init__(self):
        self.server = Recorder(lease=LEASE, epoch=EPOCH)
        self.links = {1: [], 2: []}

    def ask(self, link, sent, *calls, took=0.01, moment=None, told=None):
        """Calls in one write, and the last one's reply. With `told` each is a RENEW, which is answered so and not as
        the model does."""
        self.server.moment = int(sent) if moment is None else moment
        for operations in calls:
            xid = len(self.links[link]) + 1
            asked = compound(xid, *operations, uid=link)
            answer = record(self.server.reply(asked[4:]))
            if told is not None:
                answer = results(xid, told, words(RENEW, told))
            self.links[link].append(Exchange(asked, answer, int(sent * SECOND), int((sent + took) * SECOND)))
        return answer

    def introduce(self, link, sent, name, visit=1):
        """The words by which a client that comes, or comes again, confirms its number, and the number."""
        found = self.ask(link, sent, [setclientid(u64(visit), name)])
        number, confirm = (int.from_bytes(found[4 * place : 4 * place + 4], "big") for place in (13, 15))
        return [confirmation(EPOCH, number, confirm)], number

    def come(self, link, sent, name, visit=1):
        """The number of a client that comes, or comes again."""
        confirm, number = self.introduce(link, sent, name, visit)
        self.ask(link, sent + 0.02, confirm)
        return number

    def judge(self):
        judge = TimedJudge(Journal(EPOCH, LEASE, self.server.tree, self.server.recorded))
        for uid, exchanges in self.links.items():
            judge.expect_exchanges(exchanges, numbers_of(judge.journal, uid))
        judge.expect_times()


def renew(number):
    return [words(RENEW, EPOCH, number)]


def read(number):
    """By a stateid that the client hasn't got, which renews its lease and is refused."""
    return [words(PUTFH) + handle(1), words(READ, 1, EPOCH, number, 99) + u64(0) + words(1)]


def look(story, sent):
    """A call that names no client, about an edge, and so tells of the clock."""
    story.ask(1, sent, [words(PUTROOTFH), words(GETATTR, 0)])


def begin():
    """Two clients, one of which goes on, and the other ends: a sweep at 2 finds that it came at 0."""
    story = Story()
    one, other = story.come(1, 0.1, b"one"), story.come(2, 0.2, b"other")
    look(story, 0.98)
    look(story, 1)
    story.ask(1, 1.9, renew(one))
    return story, one, other


def go_on(story, one):
    """The journal goes on behind what came before."""
    story.ask(1, 2.5, read(one))


# The right ones.


def ends_and_comes_again():
    story, one, other = begin()
    story.server.sweep(2)
    story.ask(2, 2.1, renew(other))
    again = story.come(2, 2.2, b"other", visit=2)
    story.ask(2, 2.3, renew(other))
    story.ask(2, 2.3, renew(again), renew(one))
    go_on(story, one)
    story.server.sweep(4)
    story.ask(1, 4.1, renew(one), renew(again))
    return story


def renews_at_the_edge():
    """It isn't known whether the moment was the one before the edge, which the sweep saw, or the next."""
    story, one, other = begin()
    story.server.sweep(2)
    story.ask(1, 2.995, renew(one), took=0.1)
    story.server.expire(one, 2, 4)
    story.ask(2, 4.1, read(one))
    return story


def waits_behind_its_end():
    """A call renews, and waits for the lock until a sweep has ended the client by then."""
    story, one, other = begin()
    story.server.sweep(2)
    story.server.expire(one, 2, 4)
    story.ask(2, 2.9, read(one), took=1.3, moment=2)
    return story


def takes_a_place():
    """While the call is under way by which a client takes another's place, RENEW of both may be answered OK."""
    story, one, other = begin()
    story.server.sweep(2)
    confirm, again = story.introduce(1, 2.2, b"one", visit=2)
    story.ask(1, 2.25, confirm, took=0.1)
    story.ask(2, 2.3, renew(again))
    story.ask(2, 2.3, renew(one), told=OK)
    story.ask(2, 2.4, renew(one))
    return story


def is_named_before_it_came():
    """A call renews nothing where it finds no client yet, and then waits for the lock until there is one."""
    story, one, other = begin()
    story.server.sweep(2)
    confirm, again = story.introduce(1, 2.9, b"one", visit=2)
    story.ask(1, 2.95, confirm, took=0.3)
    story.ask(2, 3.05, read(again), took=0.2)
    story.server.expire(again, 2, 4)
    story.ask(1, 4.1, read(again))
    return story


# The wrong ones.


def ends_though_renewed():
    story, one, other = begin()
    story.server.expire(one, 0, 2)
    story.server.expire(other, 0, 2)
    go_on(story, one)
    return story


def ends_though_renewed_in_a_batch():
    story = Story()
    one = story.come(1, 0.1, b"one")
    story.ask(1, 1.9, [words(PUTFH) + handle(1)], read(one), renew(one + 1))
    story.server.expire(one, 0, 2)
    go_on(story, one)
    return story


def ends_though_a_batch_has_renew():
    story = Story()
    one = story.come(1, 0.1, b"one")
    look(story, 0.98)
    look(story, 1)
    story.ask(1, 1.9, read(one + 1), renew(one), read(one + 1))
    story.server.expire(one, 0, 2)
    go_on(story, one)
    return story


def ends_by_an_earlier_renewal():
    """It may end, but the sweep saw another moment than that of the last renewal."""
    story, one, other = begin()
    story.server.sweep(2)
    go_on(story, one)
    story.server.expire(one, 1, 4)
    story.ask(1, 4.1, read(one))
    return story


def is_seen_by_a_refused_renew():
    """RENEW that was refused is none."""
    story, one, other = begin()
    story.server.sweep(2)
    story.server.expire(one, 3, 5)
    story.ask(2, 3.5, renew(one), took=1.6)
    story.ask(1, 5.1, read(one))
    return story


def is_live_behind_its_end():
    story, one, other = begin()
    story.server.sweep(2)
    go_on(story, one)
    story.ask(2, 2.6, renew(other), told=OK)
    return story


def is_live_in_the_same_write():
    """It comes behind a call whose entry stands behind the end."""
    story, one, other = begin()
    story.server.sweep(2)
    go_on(story, one)
    story.ask(1, 2.5, renew(other), told=OK)
    return story


def is_live_in_a_later_write():
    """Only RENEW shows that it has ended."""
    story, one, other = begin()
    story.server.sweep(2)
    story.ask(1, 2.1, renew(other))
    story.ask(2, 2.2, renew(other), told=OK)
    return story


def is_live_with_an_earlier_number():
    story, one, other = begin()
    story.server.sweep(2)
    story.come(2, 2.2, b"third")
    story.ask(1, 2.3, renew(other), told=OK)
    return story


def is_live_when_its_place_is_taken():
    story, one, other = begin()
    story.server.sweep(2)
    story.come(1, 2.2, b"one", visit=2)
    story.ask(2, 2.3, renew(one), told=OK)
    return story


def is_live_before_it_came():
    story, one, other = begin()
    story.server.sweep(2)
    confirm, again = story.introduce(2, 2.2, b"other", visit=2)
    story.ask(2, 2.3, renew(again), told=OK)
    story.ask(2, 2.4, confirm)
    return story


def is_refused_while_it_is_live():
    story, one, other = begin()
    story.server.sweep(2)
    story.ask(2, 2.1, renew(one), told=STALE)
    go_on(story, one)
    return story


def is_refused_before_the_sweep():
    """It does end, but no sweep has come to the moment that ends it."""
    story, one, other = begin()
    story.ask(2, 1.95, renew(other), told=STALE)
    story.server.expire(other, 0, 2)
    go_on(story, one)
    return story


def is_refused_in_the_same_write():
    """It comes before a call whose entry stands before the end."""
    story, one, other = begin()
    story.ask(2, 1.95, renew(other), told=STALE, took=0.1)
    story.ask(2, 1.95, read(one), took=0.1)
    story.server.expire(other, 0, 2)
    go_on(story, one)
    return story


def is_refused_before_its_place_is_taken():
    story, one, other = begin()
    story.server.sweep(2)
    story.ask(2, 2.1, renew(one), told=STALE)
    story.come(1, 2.2, b"one", visit=2)
    return story


def is_renewed_by_an_earlier_number():
    """A sweep saw the client at a moment at which another one of its slot was named, and not it."""
    story, one, other = begin()
    story.server.sweep(2)
    again = story.come(2, 2.2, b"other", visit=2)
    story.ask(1, 3.2, renew(one), renew(other))
    story.server.expire(again, 3, 5)
    story.ask(1, 5.1, read(one))
    return story


def stays():
    """A sweep that ends one client leaves another one whose lease is over."""
    story, one, other = begin()
    third = story.come(1, 1.95, b"third")
    story.server.expire(third, 1, 3)
    story.ask(1, 3.2, read(one))
    return story


def has_another_clock():
    story, one, other = begin()
    story.server.sweep(2)
    story.ask(1, 2.5, read(one), moment=4)
    return story


def is_swept_ahead():
    """A sweep comes at a moment that isn't there yet."""
    story, one, other = begin()
    story.server.expire(other, 0, 4)
    go_on(story, one)
    return story


# Each with what is said of it.
WITHIN, LIVE, REFUSED = "within a lease of its renewal", "is answered OK after", "is answered STALE_CLIENTID after"
CASES = {
    ends_and_comes_again: None,
    renews_at_the_edge: None,
    waits_behind_its_end: None,
    takes_a_place: None,
    is_named_before_it_came: None,
    ends_though_renewed: WITHIN,
    ends_though_renewed_in_a_batch: WITHIN,
    ends_though_a_batch_has_renew: WITHIN,
    ends_by_an_earlier_renewal: "but it was heard of at",
    is_seen_by_a_refused_renew: "when it wasn't heard of",
    is_live_behind_its_end: LIVE,
    is_live_in_the_same_write: LIVE,
    is_live_in_a_later_write: "behind one that showed its end",
    is_live_with_an_earlier_number: LIVE,
    is_live_when_its_place_is_taken: LIVE,
    is_live_before_it_came: LIVE,
    is_refused_while_it_is_live: REFUSED,
    is_refused_before_the_sweep: REFUSED,
    is_refused_in_the_same_write: REFUSED,
    is_refused_before_its_place_is_taken: REFUSED,
    is_renewed_by_an_earlier_number: "when it wasn't heard of",
    stays: "is live behind the sweep",
    has_another_clock: "no clock",
    is_swept_ahead: "no clock",
}


@pytest.mark.parametrize("case", CASES, ids=lambda it: it.__name__)
def test_judge(case):
    """What is said of the history."""
    expected: Any = pytest.raises(Wrong, match=CASES[case]) if CASES[case] else nullcontext()
    with expected:
        case().judge()
