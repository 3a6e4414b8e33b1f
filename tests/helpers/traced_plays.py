"""Clients that do right and wrong about RENEW, at the model in memory, where time passes at once: a trace is written as
`tools/between` and the model write one, and each case says what is found in it. Sections are those of RFC 7530."""
import os
from collections.abc import Callable
from typing import NamedTuple

from nfs4tools.client import operations as op
from nfs4tools.client.client import Client
from nfs4tools.client.operations import Clientid, Name, Request
from nfs4tools.client.replies import NoReply, Reply
from nfs4tools.journal.journal import Recorder, journal_bytes
from nfs4tools.model.tree import DEFAULT, Tree
from nfs4tools.trace.watching import Place
from nfs4tools.trace.writer import Clock, TraceWriter
from nfs4tools.wire import READ, split_records

# The lease of a server, if a case names no other one; and when its trace begins, in microseconds.
LEASE, BEGUN = 90, 1_700_000_000_000_000
ANOTHER, UNCONFIRMED, LATE = "renews-another-clientid", "renews-before-confirm", "renewed-late"


class FixedClock(Clock):
    """Says what time it is told to be."""

    def __init__(self) -> None:
        self.time = BEGUN

    def now(self) -> int:
        self.time += 100
        return self.time


class Play:
    """A server in memory, and the trace of what is sent to it."""

    def __init__(self, path: str, lease: int = LEASE, told: int | None = None) -> None:
        self.lease, self.clock = lease, FixedClock()
        self.server = Recorder(Tree(DEFAULT), lease, 1)
        self.writer = TraceWriter(path, "a test", told or lease, self.clock)
        self.places = 0
        # What becomes of the next call and of the next reply; and what is done between these two.
        self.call_fate = self.reply_fate = ""
        self.meanwhile: Callable[[], object] = lambda: None
        self.is_watched = True

    def guest(self, name: Name) -> "Guest":
        """A client on a connection of its own, which hasn't begun."""
        return Guest(self, name)

    def wait(self, seconds: float) -> None:
        self.clock.time += int(seconds * 1_000_000)
        self.server.moment = (self.clock.time - BEGUN) // 1_000_000
        self.server.sweep(self.server.moment)

    def restart(self) -> None:
        """The server begins anew, by another epoch."""
        moment = self.server.moment
        self.server = Recorder(Tree(DEFAULT), self.lease, self.server.epoch + 1)
        self.server.moment = moment

    def answer(self, place: int, record: bytes) -> bytes | None:
        """The reply to a call, or None if it is lost."""
        at = Place(place, False)
        call_fate, reply_fate, self.call_fate, self.reply_fate = self.call_fate, self.reply_fate, "", ""
        if self.is_watched:
            self.writer.see(at, False, record, call_fate)
        if call_fate:
            return None
        reply = self.server.reply(record) or b""
        meanwhile, self.meanwhile = self.meanwhile, lambda: None
        meanwhile()
        if self.is_watched:
            self.writer.see(at, True, reply, reply_fate)
        return None if reply_fate else reply

    def journal(self) -> bytes:
        return journal_bytes(self.server.journal())


class Guest(Client):
    """A client of a play."""

    def __init__(self, play: Play, name: Name) -> None:
        super().__init__("", 0, name)
        self.play, self.answers = play, list[bytes | None]()
        self.connect()

    def connect(self) -> None:
        """Goes on by another connection."""
        self.play.places += 1
        self.place = self.play.places

    def send(self, data: bytes, xid: int | None = None) -> None:
        self.answers.append(self.play.answer(self.place, split_records(data)[0][0]))

    def next_record(self) -> bytes:
        answer = self.answers.pop(0)
        if answer is None:
            raise NoReply("it is lost")
        return answer

    def introduce(self) -> tuple[Clientid, int]:
        """SETCLIENTID alone, by another verifier: the clientid and the confirm verifier."""
        self.verifier = os.urandom(8)
        given = self.raw([op.setclientid(self.verifier, self.id, self.callback)]).check().results[0].value
        return Clientid(given.epoch, given.client), given.confirm

    def renew_by(self, clientid: tuple[int, int], *others: Request) -> Reply | None:
        """RENEW by any clientid, behind other operations; None if the reply is lost."""
        try:
            return self.raw([*others, op.renew(Clientid(*clientid))])
        except NoReply:
            return None

    def lose(self, *requests: Request) -> None:
        """Sends operations whose reply it doesn't get."""
        try:
            self.raw(requests)
        except NoReply:
            pass


class PlayCase(NamedTuple):
    """What clients do, and what is found, with the names of the clients; the server's lease, and what the head of the
    trace says of it, if that is another one."""

    play: Callable[[Play], object]
    found: list[tuple[str | None, str]]
    lease: int
    told: int | None


CASES: list[PlayCase] = []


def case(
    *found: tuple[str | None, str], lease: int = LEASE, told: int | None = None
) -> Callable[[Callable[[Play], object]], Callable[[Play], object]]:
    def note(play: Callable[[Play], object]) -> Callable[[Play], object]:
        CASES.append(PlayCase(play, list(found), lease, told))
        return play

    return note


def begun(play: Play, name: str = "right") -> Guest:
    guest = play.guest(name)
    guest.begin()
    return guest


# Right clients.


@case()
def renews(play: Play) -> None:
    guest = begun(play)
    file = guest.open("a")
    for _ in range(3):
        play.wait(50)
        guest.renew()
    guest.close(file)


@case()
def renews_by_use(play: Play) -> None:
    """Each use of a stateid renews the lease (9.5)."""
    guest = begun(play)
    file = guest.open("a")
    for _ in range(3):
        play.wait(50)
        guest.read(file)
    play.wait(50)
    guest.close(file)


@case()
def restarts(play: Play) -> None:
    guest = begun(play)
    guest.renew()
    guest.restart()
    guest.renew()


@case()
def renews_until_confirmed(play: Play) -> None:
    """The clientid of before stays the client's until the new one is confirmed (16.33)."""
    guest = begun(play)
    clientid, confirm = guest.introduce()
    guest.renew()
    guest.raw([op.setclientid_confirm(clientid, confirm)])
    guest.renew_by(clientid)


@case()
def renews_while_it_is_confirmed(play: Play) -> None:
    """A RENEW may be under way when the answer to the confirmation comes."""
    guest = begun(play)
    clientid, confirm = guest.introduce()
    other = Guest(play, "right")
    play.meanwhile = lambda: other.renew_by(guest.clientid)
    guest.raw([op.setclientid_confirm(clientid, confirm)])


@case()
def reconnects(play: Play) -> None:
    guest = begun(play)
    guest.connect()
    guest.renew()


@case()
def two_by_one_connection(play: Play) -> None:
    one, two = begun(play, "one"), play.guest("two")
    two.place = one.place
    two.begin()
    one.renew()
    two.renew()
    one.renew()


@case()
def replaces_its_callback(play: Play) -> None:
    """The same clientid is given again, and it is confirmed already (16.33, the first case)."""
    guest = begun(play)
    guest.raw([op.setclientid(guest.verifier, guest.id, guest.callback)])
    guest.renew()


@case()
def loses_the_confirmation(play: Play) -> None:
    """The client can't know whether the server has had it."""
    guest = play.guest("right")
    clientid, confirm = guest.introduce()
    play.reply_fate = "lost"
    guest.lose(op.setclientid_confirm(clientid, confirm))
    guest.renew_by(clientid)


@case()
def loses_the_answer_to_its_open(play: Play) -> None:
    """It knows of no open, for which it would need a lease."""
    guest = begun(play)
    owner = guest.open_owner()
    play.reply_fate = "lost"
    guest.lose(op.putrootfh(), op.open(guest.next_seqid(owner), owner, "a", READ))
    play.wait(70)
    guest.renew()


@case()
def confirms_and_renews_at_once(play: Play) -> None:
    guest = play.guest("right")
    clientid, confirm = guest.introduce()
    guest.renew_by(clientid, op.setclientid_confirm(clientid, confirm))


@case()
def meets_a_restarted_server(play: Play) -> None:
    guest = begun(play)
    guest.open("a")
    play.restart()
    guest.renew_by(guest.clientid)
    guest.restart()
    guest.open("a")
    guest.renew()


@case()
def was_there_before_the_trace(play: Play) -> None:
    play.is_watched = False
    guest, other = begun(play), begun(play, "other")
    file = guest.open("a")
    play.is_watched = True
    guest.renew()
    guest.read(file)
    other.renew()
    guest.open("b")
    play.restart()
    guest.renew_by(guest.clientid)
    guest.restart()
    guest.renew()


@case()
def is_idle_without_state(play: Play) -> None:
    """Without an open or a delegation there is no lease to lose."""
    guest = begun(play)
    file = guest.open("a")
    guest.close(file)
    play.wait(80)
    guest.renew()


@case()
def loses_its_lease(play: Play) -> None:
    """After EXPIRED nothing is left that could be renewed late."""
    guest = begun(play)
    guest.open("a")
    play.restart()
    guest.renew_by(guest.clientid)
    play.wait(80)
    guest.restart()
    guest.renew()


@case()
def meets_lost_calls(play: Play) -> None:
    """It sends in time; that the call is lost is nobody's fault."""
    guest = begun(play)
    guest.open("a")
    play.wait(50)
    play.call_fate = "lost"
    guest.renew_by(guest.clientid)
    play.wait(30)
    guest.renew()


@case(lease=90, told=9)
def asks_for_the_lease(play: Play) -> None:
    """The server's own answer says how long a lease is, whatever the head of the trace has."""
    guest = begun(play)
    guest.attributes("a", "lease_time")
    guest.open("a")
    play.wait(50)
    guest.renew()


# Another clientid.


@case(("wrong", ANOTHER))
def renews_that_of_another_client(play: Play) -> None:
    """The server says OK: it is a clientid that it gave."""
    other, guest = begun(play, "other"), begun(play, "wrong")
    guest.open("a")
    reply = guest.renew_by(other.clientid)
    assert reply is not None
    reply.check()
    guest.renew_by(other.clientid)


@case(("wrong", ANOTHER))
def renews_that_of_another_client_first(play: Play) -> None:
    """On a new connection, before anything says whose that is."""
    other, guest = begun(play, "other"), begun(play, "wrong")
    guest.connect()
    guest.renew_by(other.clientid)
    guest.open("a")


@case(("wrong", ANOTHER))
def renews_that_of_before_its_restart(play: Play) -> None:
    guest = begun(play, "wrong")
    first = guest.clientid
    guest.restart()
    guest.renew_by(first)


@case(("wrong", ANOTHER))
def renews_that_of_before_the_servers_restart(play: Play) -> None:
    guest = begun(play, "wrong")
    first = guest.clientid
    play.restart()
    guest.restart()
    guest.connect()
    guest.renew_by(first)


@case(("wrong", ANOTHER))
def renews_that_of_nobody(play: Play) -> None:
    guest = begun(play, "wrong")
    guest.renew_by((7, 7))


@case(("wrong", ANOTHER))
def swaps_the_halves(play: Play) -> None:
    begun(play, "other")
    guest = begun(play, "wrong")
    guest.renew_by(guest.clientid[::-1])


# Before the confirmation.


@case(("wrong", UNCONFIRMED))
def renews_before_it_confirms(play: Play) -> None:
    guest = play.guest("wrong")
    clientid, confirm = guest.introduce()
    guest.renew_by(clientid)
    guest.raw([op.setclientid_confirm(clientid, confirm)])
    guest.renew_by(clientid)


@case(("wrong", UNCONFIRMED))
def never_confirms(play: Play) -> None:
    guest = play.guest("wrong")
    clientid, _ = guest.introduce()
    guest.connect()
    guest.renew_by(clientid)


@case(("wrong", UNCONFIRMED))
def confirms_by_another_verifier(play: Play) -> None:
    """A confirmation that is refused confirms nothing."""
    guest = play.guest("wrong")
    clientid, confirm = guest.introduce()
    guest.raw([op.setclientid_confirm(clientid, confirm + 7)])
    guest.renew_by(clientid)


@case(("wrong", UNCONFIRMED))
def renews_the_new_one_too_early(play: Play) -> None:
    """It has a confirmed one, too."""
    guest = begun(play, "wrong")
    clientid, confirm = guest.introduce()
    guest.renew_by(clientid)
    guest.raw([op.setclientid_confirm(clientid, confirm)])


@case(("wrong", UNCONFIRMED))
def renews_before_the_confirmation_in_one_call(play: Play) -> None:
    guest = play.guest("wrong")
    clientid, confirm = guest.introduce()
    guest.lose(op.renew(clientid), op.setclientid_confirm(clientid, confirm))


# Late.


@case(("wrong", LATE))
def renews_late(play: Play) -> None:
    guest = begun(play, "wrong")
    guest.open("a")
    play.wait(61)
    guest.renew()
    play.wait(59)
    guest.renew()
    play.wait(70)
    guest.renew()


@case(("wrong", LATE))
def reads_late(play: Play) -> None:
    guest, other = begun(play, "wrong"), begun(play)
    file = guest.open("a")
    other.open("b")
    play.wait(40)
    other.renew()
    play.wait(40)
    other.renew()
    guest.read(file)


@case(("wrong", LATE))
def loses_the_answer_to_its_close(play: Play) -> None:
    """It doesn't know that it has no open any more."""
    guest = begun(play, "wrong")
    file = guest.open("a")
    play.reply_fate = "lost"
    guest.lose(op.putfh(file.filehandle), op.close(guest.next_seqid(file.owner), file.stateid))
    play.wait(70)
    guest.renew()


@case(("wrong", LATE))
def renews_too_late(play: Play) -> None:
    """The lease is over."""
    guest = begun(play, "wrong")
    guest.open("a")
    play.wait(200)
    guest.renew_by(guest.clientid)
    guest.restart()
    guest.renew()


@case(("wrong", LATE))
def asks_by_a_call_that_renews_nothing(play: Play) -> None:
    """GETATTR names no client, and an operation that isn't run renews nothing."""
    guest = begun(play, "wrong")
    file = guest.open("a")
    play.wait(40)
    guest.attributes("a", "size")
    guest.raw([op.lookup("a"), op.read(file.stateid)])
    play.wait(40)
    guest.renew()


@case(("wrong", LATE), lease=9, told=90)
def knows_the_lease(play: Play) -> None:
    """The server's answer says that it is shorter than the head of the trace has."""
    guest = begun(play, "wrong")
    guest.attributes("a", "lease_time")
    guest.open("a")
    play.wait(7)
    guest.renew()


@case(("wrong", LATE), ("wrong", ANOTHER))
def does_both(play: Play) -> None:
    other, guest = begun(play, "other"), begun(play, "wrong")
    guest.open("a")
    play.wait(70)
    guest.renew_by(other.clientid)
    guest.renew()
