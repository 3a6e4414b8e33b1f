"""What `stress` sends: random COMPOUNDs for 64 connections that come at once, and for one that comes alone before them.

Nobody knows in which order the connections are served, so the calls can't be made from replies. But numbers are given
in order: the connection that comes alone makes clients, opens and lock states, whose numbers are therefore known. Each
of the others has open owners and lock owners of its own, and guesses what comes of its calls: in ranges that nobody
else locks, nearly all of them succeed. Other calls meet each other. Files that are lent have other owners, whose calls
go by no state: some give delegations, some call them back, and some come by them or give them back. Other owners have
no open and are forgotten after a while: their last CLOSE comes again, and so do they. One of the connections has a
client come and end and come again, whose number is of one of few slots."""
import random

from helpers.stress_calls import (
    numbers_of,
    BOTH,
    CLIENTS,
    CLOSE_LOCKS,
    COMMON,
    Chunk,
    DOCUMENT,
    Delegation,
    EPOCH,
    FILES,
    LENT,
    LENT_FOR_READING,
    LINKS,
    Lender,
    Lock,
    MADE,
    Open,
    PACE,
    READ,
    SMALL,
    VERIFIER,
    VISITS,
    WRITE,
    compounds,
    confirm,
    first_lock,
    last_close,
    open_lent,
    open_of,
    putfh,
    stateid,
    way_to,
)
from helpers.stress_links import Link
from nfs4tools.messages import setclientid, split
from nfs4tools.wire import Opnum, u32, u64


class First:
    """The connection that comes alone: it makes the clients, and for each link two opens, one with a lock, and an owner
    that has closed its open; and opens the files that are lent, of which each client gets delegations."""

    def __init__(self, chance: random.Random) -> None:
        self.chance, self.states = chance, 0
        self.chunks: list[Chunk] = []
        for number in range(1, MADE + 1):
            self.chunks.append(([setclientid(VERIFIER, b"client %d" % number), confirm(number, number)], True))
        self.opens = [self.make_open(link, turn) for turn in (0, 1) for link in range(LINKS)]
        for one in self.opens[:LINKS]:
            self.make_lock(one)
        self.idle = [self.make_idle(link) for link in range(LINKS)]
        self.lent: list[Delegation] = []
        self.lenders = [self.make_lender(link) for link in range(LINKS)]
        self.bytes = compounds(self.chunks, chance)

    def make_open(self, link: int, turn: int) -> Open:
        self.states += 1
        one = Open(
            1 + link % CLIENTS,
            b"owner %d.%d" % (link, turn),
            self.chance.choice(list(FILES)),
            self.states,
            [(3, 0)],
            base=COMMON * (1 + link),
        )
        words = u32(Opnum.OPEN_CONFIRM) + stateid(1, one.client, one.number) + u32(2)
        self.chunks.append((way_to(one.file) + [open_of(one, 1, 3, 0), words], False))
        return one

    def make_lock(self, one: Open) -> None:
        self.states += 1
        one.lock = Lock(b"locker %s" % one.owner, self.states, [1])
        self.chunks.append(([putfh(one.file), first_lock(one, one.lock.owner, WRITE, one.base, 10)], False))
        one.last += 1

    def make_idle(self, link: int) -> Open:
        self.states += 1
        one = Open(1 + link % CLIENTS, b"idle %d" % link, 1, self.states, [(READ, 0)])
        words = u32(Opnum.OPEN_CONFIRM) + stateid(1, one.client, one.number) + u32(2)
        self.chunks.append((way_to(one.file) + [open_of(one, 1, READ, 0), words, last_close(one)], False))
        return one

    def make_lender(self, link: int) -> Lender:
        """It is confirmed by its first OPEN. The second one is lent what it opens, if its client hasn't got that; and
        so is the third."""
        one = Lender(1 + link % CLIENTS, b"lender %d" % link)
        read, written = 5 + link // CLIENTS % len(LENT_FOR_READING), 8 + one.client
        self.states += 1
        words = u32(Opnum.OPEN_CONFIRM) + stateid(1, one.client, self.states) + u32(2)
        self.chunks.append((open_lent(one, READ, LENT[read]) + [words], False))
        one.last += 1
        self.chunks.append((open_lent(one, READ, LENT[read]), False))
        self.lend(one.client, read)
        self.states += 1
        self.chunks.append((open_lent(one, BOTH, LENT[written]), False))
        self.lend(one.client, written)
        return one

    def lend(self, client: int, file: int) -> None:
        if (client, file) not in [delegation[:2] for delegation in self.lent]:
            self.states += 1
            self.lent.append(Delegation(client, file, self.states))


class Visitor:
    """The connection by which a client comes again and again, each time with another verifier, so that it takes its own
    place; and by which others have their callbacks confirmed anew. Nobody else sends SETCLIENTID."""

    def __init__(self, chance: random.Random) -> None:
        chunks: list[Chunk] = []
        value = MADE
        for visit in range(1, VISITS + 1):
            value, numbers = value + 1, numbers_of(visit)
            chunks.append(([setclientid(u64(visit), b"visitor")], True))
            chunks += [([confirm(number, value)], True) for number in numbers]
            # The one that it has, and those that have ended.
            chunks += [([u32(Opnum.RENEW, EPOCH, number)], True) for number in chance.sample(numbers, 2)]
            value, known = value + 1, chance.randint(1, CLIENTS)
            chunks.append(([setclientid(VERIFIER, b"client %d" % known), confirm(known, value)], True))
        self.bytes = compounds(chunks, chance)


class Plan:
    """The input of the connection that comes alone, and those of the others, all by a seed; and how many bytes a read
    brings."""

    def __init__(self, seed: int, piece: int = SMALL) -> None:
        chance, self.seed, self.piece = random.Random(seed), seed, piece
        self.document = DOCUMENT.format(CLOSE_LOCKS[piece])
        first = First(chance)
        self.first = first.bytes
        # After so many calls of the one that comes alone the others begin at this moment.
        self.moment = len(split(self.first)[0]) // PACE
        self.others = [self.link(place, first, chance).bytes for place in range(LINKS)]
        # The first takes the place of a link, which counts for the chance of those behind it.
        self.others[0] = Visitor(chance).bytes
        # The last two send the same.
        self.others[-1] = self.others[-2]

    def link(self, place: int, first: First, chance: random.Random) -> Link:
        count = chance.choice([10, 60, 80, 100])
        own = first.opens[place::LINKS], first.idle[place], first.lenders[place]
        return Link(place, *own, first.lent, first.states, chance, count)
