"""The queue by which a state that threads share hands its recalls over, at the limit of its room, by the program of
rows.

41 clients have READ delegations of each of 25 files, and another client opens the files for writing: each OPEN is
answered DELAY and calls 41 delegations back. Nothing is taken meanwhile, so that 1,024 recalls are in the queue, and
one waits. When one was taken, the next hold of the lock leaves none waiting. What is taken are the recalls of the
journal's entries in their order, those of an entry by rising numbers of the delegations, each once, as the records that
the model makes of them; then nothing is left to be taken. So it is where all calls come on one connection, where each
OPEN comes on its own at once with the others, and where no lock is held while the queue is emptied. With a few files
more, of which more recalls wait, some are taken after each OPEN, and in between the lock is held for each purpose that
there is. All replies and outcomes are the model's, and so is the journal.

Each allocation of memory is refused in turn, from the first of these OPENs on, each of which comes on a connection of
its own, up to the first recall that is taken. The OPEN is answered NFS4ERR_RESOURCE then, or its call SYSTEM_ERR, or
its connection ends for want of memory; the queue has the recalls that it had before, and as many wait; and sent again
it gets its reply. At the end the same recalls are taken in the same order, and the journal is the same. Or the program
of rows says that it has no memory for itself."""
import copy
import os
from itertools import count
from typing import Any, NamedTuple

import pytest

from helpers.expecting_client import Wrong
from nfs4tools.callbacks.messages import recall_call
from nfs4tools.journal.entries import Call
from nfs4tools.journal.journal import journal_bytes, read_journal
from nfs4tools.messages import (
    DELEGRETURN,
    GETATTR,
    NFS4ERR_RESOURCE,
    NFS4_OK,
    OPEN,
    OPEN_CONFIRM,
    PUTFH,
    PUTROOTFH,
    RENEW,
    TYPE_SIZE_FILEID,
    compound,
    confirmation,
    handle,
    results,
    setclientid,
    words,
)
from nfs4tools.model.recall_queue import Queuing, ROOM
from nfs4tools.model.tree import Tree
from nfs4tools.rows.by_model import is_marked
from nfs4tools.rows.driver import Driver, Failed, MEMORY, Marked, NOT_LIVE, NoMemory, SHARED, Swept, TAKE
from nfs4tools.wire import Opnum, Status, opaque, record

pytestmark = pytest.mark.needs("rows")
READ, WRITE, NONE = 1, 2, 0
LEASE = 90
HOLDERS = 41
# The client that opens what the others hold.
OPENER = HOLDERS + 1
# So many files that one recall has no room, and as many as a holder can open in one call.
FILES, MORE_FILES = 25, 29
# Where clients are called back: a copy of a long address takes memory, that of a short one doesn't.
SHORT_ADDRESS, LONG_ADDRESS = b"127.0.0.1.3.232", b"127.100.100.100.3.232"
# A read of the server gives a whole order.
WHOLE = 1 << 20
# How many tests share the allocations between them: each refuses one of so many.
PARTS = 8


def expect(what, got, wanted):
    if got != wanted:
        raise Wrong(f"{what}: {shown(got)}, wanted {shown(wanted)}")


def shown(value):
    """The value, shortened where it is long."""
    text = repr(value)
    return text if len(text) <= 400 else f"{text[:300]} .. {text[-80:]}"


# The calls.


def document_of(files):
    lines = [f'[[file]]\npath = "f{number}"\n' for number in range(files)]
    return 'policy.callbacks = "assume"\npolicy.delegations = "all"\n' + "".join(lines)


def opening(client, owner, seqid, access, file):
    """The operations of an OPEN."""
    how = opaque(b"owner %d" % owner) + words(0, 0)
    return words(PUTROOTFH), words(OPEN, seqid, access, NONE, 1, client) + how + opaque(b"f%d" % file)


def confirming(client, number, seqid):
    return words(OPEN_CONFIRM, 1, 1, client, number, seqid)


def introduction(client):
    """The operations by which the client introduces itself that gets this number, as the next one."""
    address = SHORT_ADDRESS if client % 4 else LONG_ADDRESS
    return setclientid(b"verifier", b"client %d" % client, address, ident=client), confirmation(1, client, client)


def borrowing(client, number, files):
    """A call by which a client gets a delegation of each file: of the first, whose open has this number, when it opens
    it a second time, since its owner is confirmed by then."""
    opens = [opening(client, 1, 3 + file, READ, file) for file in range(files)]
    return compound(
        client, *introduction(client), *opening(client, 1, 1, READ, 0), confirming(client, number, 2), *sum(opens, ())
    )


def beginning(number, owner):
    """A call by which an owner of the opener comes to be confirmed: it reads its file, which nobody has for writing."""
    return compound(owner, *opening(OPENER, owner, 1, READ, owner), confirming(OPENER, number, 2))


def writing(owner, seqid=3):
    """A call by which an owner of the opener opens its file for writing."""
    return compound(owner, *opening(OPENER, owner, seqid, WRITE, owner))


class Lending:
    """A server of which so many files are lent to all holders: what was sent up to then on one connection, and the
    model after it."""

    def __init__(self, files):
        self.files, self.document = files, document_of(files)
        self.model, self.sent, self.replies = Queuing(Tree(self.document), LEASE), b"", b""
        for client in range(1, HOLDERS + 1):
            self.send(borrowing(client, self.next_number(), files))
        self.send(compound(OPENER, *introduction(OPENER)))
        for owner in range(files):
            self.send(beginning(self.next_number(), owner))
        expect("delegations", len(self.model.delegations), HOLDERS * files)
        # The last file is opened first, so that the order of the entries isn't that of the delegations.
        self.opens = [writing(owner) for owner in reversed(range(files))]

    def next_number(self):
        return self.model.last_state + 1

    def numbers_of(self, name):
        """The numbers of a file's delegations, which rise."""
        return sorted(it.number for it in self.model.delegations if it.file == self.model.tree.child(0, name))

    def send(self, message):
        self.sent, self.replies = self.sent + message, self.replies + reply_of(self.model, message)


def reply_of(model, message):
    return record(model.reply(message[4:]))


def is_delay(entry):
    return isinstance(entry, Call) and (entry.opnum, entry.answer.status) == (Opnum.OPEN, Status.DELAY)


# The program beside the model.


class Both:
    """The program and the model, which are told the same and have to answer the same. The first connection has these
    calls behind those of the lending."""

    def __init__(self, driver, lending, calls=(), seats=1):
        self.driver, self.lending, self.model = driver, lending, copy.deepcopy(lending.model)
        self.taken, self.xids = [], count(1)
        expect("the tree", driver.begin(SHARED, lease=LEASE, seats=seats, document=lending.document), 0)
        ended = driver.serve([lending.sent + b"".join(calls)], 0, WHOLE).ended[0]
        wanted = lending.replies + b"".join(reply_of(self.model, each) for each in calls)
        expect("the first connection", (ended.fault, ended.replies), (None, wanted))

    def serve(self, *calls):
        """Sends each call on a connection of its own, at once. The model is sent them in the order of their entries."""
        served = self.driver.serve(calls, 0, WHOLE).ended
        for place in sorted(range(len(calls)), key=lambda place: served[place].receipts):
            wanted = reply_of(self.model, calls[place])
            expect("a call", (served[place].fault, served[place].replies), (None, wanted))

    def sweep(self, now):
        swept = self.model.sweep(now)
        ended = swept.revoked, swept.forgotten, swept.is_stopped
        wanted = Swept(swept.expired, swept.kept, 0, swept.refused, *ended)
        expect("a sweep", self.driver.sweep(now), wanted)

    def mark(self, client):
        """Says that the client can be called back."""
        wanted = Marked(0 if is_marked(self.model, client, True) else NOT_LIVE)
        expect("a mark", self.driver.mark(client, True), wanted)

    def probe(self):
        expect("whose path isn't known", self.driver.probe(0), self.model.probe(0) or 0)

    def take(self, times):
        """Takes so many recalls, all of which are there."""
        for xid in (next(self.xids) for _ in range(times)):
            recall = self.model.take_recall()
            self.taken.append((self.model.tree.nodes[recall.file].name, recall.stateid.number))
            expect(f"recall {xid}", self.driver.take_recall(xid), recall_call(xid, recall))

    def expect_none(self):
        """Nothing is to be taken."""
        expect("the model's recall behind the last one", self.model.take_recall(), None)
        expect("a recall behind the last one", self.driver.take_recall(0), b"")

    def waiting(self):
        """How many recalls wait for room."""
        found = self.model.waiting()
        expect("how many recalls wait", self.driver.pending(), found)
        return found

    def end(self):
        """All recalls were taken: those of each entry in the order of the delegations."""
        self.expect_none()
        expect("waiting at the end", self.waiting(), 0)
        self.expect_none()
        journal = self.driver.end()
        expect("whether the journal is the model's", journal == journal_bytes(self.model.journal()), True)
        files = dict.fromkeys(entry.arguments.claim.name for entry in read_journal(journal).entries if is_delay(entry))
        lent = {name: self.lending.numbers_of(name) for name in files}
        expect("what was taken", self.taken, [(name, number) for name in files for number in lent[name]])


@pytest.fixture(scope="module")
def lending():
    return Lending(FILES)


@pytest.fixture
def driver():
    """A program of rows, which is gone at the end."""
    with Driver() as program:
        yield program


def test_one_seat(driver, lending):
    """All calls come on one connection, and a sweep leaves none waiting."""
    both = Both(driver, lending, lending.opens)
    expect("waiting", (both.waiting(), both.waiting()), (1, 1))
    both.take(1)
    both.sweep(0)
    expect("waiting after a sweep", both.waiting(), 0)
    both.take(ROOM)
    both.end()


def test_seats(driver, lending):
    """Each OPEN comes on its own connection, at once with the others. A mark leaves none waiting."""
    both = Both(driver, lending, seats=1 + len(lending.opens))
    both.serve(*lending.opens)
    expect("waiting", both.waiting(), 1)
    both.take(1)
    both.mark(1)
    expect("waiting after a mark", both.waiting(), 0)
    both.take(ROOM)
    both.end()


def test_no_hold(driver, lending):
    """Where the lock isn't held while the queue is emptied, what waits isn't taken."""
    both = Both(driver, lending, lending.opens)
    both.take(ROOM)
    both.expect_none()
    expect("waiting beside an empty queue", both.waiting(), 1)
    both.take(1)
    both.end()


def holds_of(both):
    """For what the lock may be held, and the last one ends all leases: with how each is done."""
    returned = next(it for it in reversed(both.model.delegations) if it.file == 1)
    stateid = words(DELEGRETURN, returned.seqid, 1, returned.client, returned.number)
    return {
        "a sweep that ends nobody": lambda: both.sweep(0),
        "a mark": lambda: both.mark(1),
        "a mark of nobody": lambda: both.mark(OPENER + 1),
        "a look whose path isn't known": both.probe,
        "a GETATTR": lambda: both.serve(compound(1, words(PUTROOTFH), words(GETATTR, 1, TYPE_SIZE_FILEID))),
        "an OPEN that calls nothing back": lambda: both.serve(writing(0, seqid=4)),
        "a DELEGRETURN": lambda: both.serve(compound(3, words(PUTFH) + handle(1), stateid)),
        "a sweep that ends all": lambda: both.sweep(LEASE + 1),
    }


def test_holds(driver):
    """More recalls wait than one, and some are taken after each OPEN. After each hold so many wait less as were taken
    before it; after a call that takes no lock, as many as before: one that asks nothing of the state, and a RENEW."""
    lending = Lending(MORE_FILES)
    both = Both(driver, lending, seats=40)
    for place, call in enumerate(lending.opens):
        both.serve(call)
        both.take(place % 5)
    both.waiting()
    for times, (name, hold) in enumerate(holds_of(both).items(), 1):
        waiting = both.waiting()
        both.take(times)
        hold()
        expect(f"waiting after {name}", both.waiting(), waiting - times)
    waiting = both.waiting()
    both.take(1)
    both.serve(compound(2, words(RENEW, 1, 1)))
    both.serve(compound(4, words(PUTROOTFH)))
    expect("waiting after no hold, and then after one", (both.waiting(), both.waiting()), (waiting, waiting - 1))
    both.take(ROOM)
    both.expect_none()
    both.take(both.waiting())
    both.end()


# Memory that is refused.


class Step(NamedTuple):
    """A call with its reply, and how many recalls there were by then."""

    call: Any
    reply: Any
    called: Any


class Wanted:
    """What is to come of the OPENs, one after another, and of the first of them again, which calls nothing back; all
    recalls; and the journal, with a mark at its end."""

    def __init__(self, lending):
        model = copy.deepcopy(lending.model)
        self.steps = [
            Step(call, reply_of(model, call), len(model.recalls))
            for call in (*lending.opens, writing(lending.files - 1, seqid=4))
        ]
        model.mark_path(1, True)
        self.recalls = [recall_call(0, recall) for recall in model.recalls]
        self.journal = journal_bytes(model.journal())


def may_be_refused(ended, call):
    """Whether this may come of the call of an OPEN to which memory was refused."""
    xid = int.from_bytes(call[4:8], "big")
    is_resource = results(xid, NFS4ERR_RESOURCE, words(PUTROOTFH, NFS4_OK), words(OPEN, NFS4ERR_RESOURCE))
    system_error = record(words(xid, 1, 0, 0, 0, 5))
    return (ended.fault, ended.replies) in ((None, is_resource), (None, system_error), ("no memory", b""))


class Run:
    """A run of what is wanted, where memory may be refused once."""

    def __init__(self, driver, lending, wanted):
        self.driver, self.lending, self.wanted = driver, lending, wanted
        # How many recalls there were so far, and how many of them were taken.
        self.called = self.taken = 0
        # How many bytes the program had read before the first OPEN, and up to the end of the mark.
        self.first = self.last = 0

    def go(self):
        driver, lending, seats = self.driver, self.lending, len(self.wanted.steps) + 2
        expect("the tree", driver.begin(SHARED, lease=LEASE, seats=seats, document=lending.document), 0)
        expect("whether all is lent", driver.serve([lending.sent], 0, WHOLE).ended[0].replies == lending.replies, True)
        self.first = len(driver.orders)
        for step in self.wanted.steps:
            self.serve(step)
        self.mark()
        self.last = len(driver.orders)
        self.take_all()
        expect("whether the journal is the same", driver.end() == self.wanted.journal, True)

    def serve(self, step):
        """Sends the call, of whose reply nothing is lost, since there is room for it."""
        order = [step.call], 0, WHOLE, 0, False, [len(step.reply)]
        ended = self.driver.serve(*order).ended[0]
        if ended.replies != step.reply:
            expect("whether a call was refused", may_be_refused(ended, step.call), True)
            self.expect_waiting("after a call that was refused")
            # Later ones tell by how many wait that nothing came into the queue.
            if step.called <= ROOM:
                self.take(self.called - self.taken)
                self.expect_none()
            ended = self.driver.serve(*order).ended[0]
        expect("a call", (ended.fault, ended.replies), (None, step.reply))
        self.called = step.called
        self.expect_waiting("after a call")

    def mark(self):
        marked = self.driver.mark(1, True)
        if marked == Marked(MEMORY):
            self.expect_waiting("after a mark that was refused")
            marked = self.driver.mark(1, True)
        expect("a mark", marked, Marked(0))

    def take_all(self):
        """Takes the recalls, of which the last may wait until another one was taken and the lock held."""
        if self.waiting():
            self.take(1)
            expect("waiting before the lock was held", self.driver.pending(), 1)
        self.expect_waiting("at the end")
        self.take(self.called - self.taken)
        self.expect_none()

    def waiting(self):
        """How many recalls wait, where the lock was held since the last of them was taken."""
        return max(0, self.called - self.taken - ROOM)

    def expect_waiting(self, when):
        expect(f"waiting {when}", self.driver.pending(), self.waiting())

    def take(self, times):
        """Takes the next recalls, so many."""
        self.driver.send(words(TAKE, 0) * times)
        taken = [self.driver.part() for _ in range(times)]
        expect("whether they are the next ones", taken == self.wanted.recalls[self.taken : self.taken + times], True)
        self.taken += times

    def expect_none(self):
        expect("a recall behind the last one", self.driver.take_recall(0), b"")


def is_refused(lending, wanted, environment, allocation):
    """Whether this allocation was refused; and whether the program had memory for itself."""
    mark, has_memory = f'{environment["REFUSED_MARK"]}.{allocation}', True
    with Driver(environment={**environment, "REFUSED_MARK": mark, "REFUSED_ALLOCATION": str(allocation)}) as driver:
        try:
            Run(driver, lending, wanted).go()
        except NoMemory:
            has_memory = False
        except (Wrong, Failed) as wrong:
            raise Wrong(f"where allocation {allocation} is refused: {wrong}") from None
    was_refused = os.path.exists(mark)
    expect("whether there was memory, or an allocation was refused", has_memory or was_refused, True)
    return was_refused, has_memory


@pytest.mark.parametrize("part", range(PARTS))
def test_refused(part, driver, lending, path_of, preloaded, tell):
    """Each allocation of a part of them is refused in turn."""
    wanted = Wanted(lending)
    undisturbed = Run(driver, lending, wanted)
    undisturbed.go()
    environment = preloaded(
        "refuse_allocation.c",
        REFUSED_AFTER=str(undisturbed.first),
        REFUSED_UNTIL=str(undisturbed.last),
        REFUSED_MARK=path_of("mark"),
    )
    answered = []
    for allocation in count(1 + part, PARTS):
        was_refused, has_memory = is_refused(lending, wanted, environment, allocation)
        if not was_refused:
            break
        answered.append(has_memory)
    assert any(answered)
    tell(f"{sum(answered)} allocations are refused to calls, {len(answered) - sum(answered)} to the program for itself")
