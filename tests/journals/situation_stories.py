"""Stories of clients that do right, for test_situations.py: each brings about some situations of `tools/judge`."""
from helpers.right_client import Direct, LAST, NOWHERE, RightClient, Span, ZEROS, read_span, write_span
from nfs4tools.journal.journal import Recorder
from nfs4tools.model.ranges import ALL_ONES
from nfs4tools.model.tree import DEFAULT, Tree
from nfs4tools.wire import (
    CLAIM_PREVIOUS,
    Claim,
    Close,
    Nothing,
    OPEN_DELEGATE_NONE,
    Opnum,
    Putfh,
    Read,
    Setclientid,
    Stateid,
    Status,
    WRITEW_LT,
)

FILE, LENT = (b"a",), '[policy]\ndelegations = "all"\ncallbacks = "assume"\n'


class Story:
    """A server in memory, and clients that do right."""

    def __init__(self, document=DEFAULT):
        self.server = Recorder(Tree(document))

    def client(self, name=b"c1", uid=None):
        """A client that has introduced itself."""
        found = RightClient(Direct(self.server), name, uid, NOWHERE)
        assert found.do(found.introducing()) == Status.OK
        return found

    def open(self, client, owner=b"A", share=(3, 0), wanted=Status.OK):
        """An owner opens `a`: the open, if it is there now."""
        assert client.do(client.opening(client.owner(owner), FILE, share)) == wanted
        return next((it for it in client.opens if it.owner.name == owner), None)

    def lock(self, client, opened, span=write_span(), owner=b"x", wanted=Status.OK):
        """A lock owner locks bytes: its lock state, if it has one now."""
        assert client.do(client.locking(client.locker(owner), opened, span)) == wanted
        return client.lock_for(client.locker(owner), opened)

    def reopen(self, client, opened, share=(3, 0)):
        """Its owner opens `a` once more."""
        assert client.do(client.opening(opened.owner, FILE, share)) == Status.OK

    def expire(self, client):
        """Its lease ends."""
        self.server.expire(client.clientid[1], self.server.moment, self.server.moment + 91)


def done(client, steps, wanted=Status.OK):
    assert client.do(steps) == wanted


def plain(story):
    """It opens, locks, unlocks and closes."""
    client = story.client()
    opened = story.open(client)
    held = story.lock(client, opened)
    done(client, client.unlocking(held))
    done(client, client.closing(opened))
    return {b"c1": {"open-confirmed": 1}}


def lost_replies(story):
    """Each call comes twice."""
    client = RightClient(Direct(story.server), b"c1")
    client.lost = lambda operations: 1
    done(client, client.introducing())
    opened = story.open(client)
    story.reopen(client, opened, (1, 0))
    held = story.lock(client, opened)
    story.lock(client, opened, read_span(20))
    done(client, client.unlocking(held))
    done(client, client.downgrading(opened, (1, 0)))
    done(client, client.closing(opened))
    retransmitted = {
        f"retransmission-of-{name}": 1
        for name in (
            "setclientid-confirm",
            "open-confirm",
            "open-downgrade",
            "close",
            "lock-of-new-owner",
            "lock-of-known-owner",
            "locku",
        )
    }
    return {
        b"c1": {
            "open-confirmed": 1,
            "open-downgraded": 1,
            "setclientid-repeated": 1,
            "retransmission-of-open": 2,
            **retransmitted,
        }
    }


def lost_refusals(story):
    """What is refused by an answer that counts gets this again; any other answer isn't kept."""
    client = story.client()
    first, second = story.open(client, share=(3, 1)), client.owner(b"B")
    done(client, client.opening(second, FILE), Status.SHARE_DENIED)
    client.again()
    done(client, client.downgrading(first, (2, 2)), Status.INVAL)
    client.again()
    first.stateid = first.stateid._replace(seqid=9)
    done(client, client.closing(first), Status.BAD_STATEID)
    client.again()
    return {
        b"c1": {
            "open-confirmed": 1,
            "share-denied": 2,
            "counted-refusal-of-open-downgrade": 1,
            "retransmission-of-open-downgrade": 1,
            "retransmission-of-refusal": 1,
            "uncounted-bad-stateid": 2,
        }
    }


def refusals(story):
    """Each that counts moves its owner's sequence id on: else the next request would be BAD_SEQID. The anonymous
    stateid names no owner, and no client."""
    client = story.client()
    story.open(client, b"B", (1, 1))
    done(client, client.opening(client.owner(b"A"), (b"b",)))
    opened = next(it for it in client.opens if it.owner.name == b"A")
    done(client, client.opening(opened.owner, FILE), Status.SHARE_DENIED)
    held = story.lock(client, opened)
    story.lock(client, opened, Span(WRITEW_LT, 5, 5), b"y", Status.DENIED)
    done(client, client.unlocking(held, 0, 0), Status.INVAL)
    done(client, client.unlocking(held))
    opened.stateid = opened.stateid._replace(seqid=1)
    done(client, client.confirming(opened), Status.OLD_STATEID)
    done(client, client.closing(opened), Status.OLD_STATEID)
    client.call((Opnum.CLOSE, Close(8, opened.stateid)))
    opened.stateid = ZEROS
    done(client, client.closing(opened), Status.BAD_STATEID)
    return {
        b"c1": {
            "open-confirmed": 2,
            "share-denied": 1,
            "lock-denied": 1,
            "blocking-lock-denied": 1,
            "uncounted-nofilehandle": 1,
            **{f"counted-refusal-of-{name}": 1 for name in ("open", "lock", "locku", "open-confirm", "close")},
        },
        None: {"uncounted-bad-stateid": 1},
    }


def unconfirmed(story):
    """An owner opens again before it is confirmed; what it reclaims is refused, and then it is unknown."""
    client = story.client()
    client.has_to_confirm = lambda flags: False
    story.open(client)
    story.open(client)
    claim = Claim(CLAIM_PREVIOUS, None, OPEN_DELEGATE_NONE)
    client.call((Opnum.PUTROOTFH, Nothing()), (Opnum.OPEN, client.open_words(client.owner(b"A"), (3, 0), claim)))
    client.owners.clear()
    story.open(client)
    return {b"c1": {"owner-begun-anew": 1, "reclaim-refused": 1}}


def shares(story):
    """A share that adds nothing is no upgrade, nor one that takes nothing a downgrade."""
    client = story.client()
    opened = story.open(client, share=(3, 0))
    story.reopen(client, opened, (3, 0))
    story.reopen(client, opened, (1, 0))
    done(client, client.downgrading(opened, (3, 0)))
    story.reopen(client, opened, (1, 2))
    done(client, client.closing(opened))
    story.open(client, b"B")
    story.open(client, b"C")
    return {b"c1": {"open-confirmed": 3, "open-upgraded": 1, "two-open-owners": 1}}


def locks_that_change(story):
    """Bytes 0 to 9 are written, of which the middle is read, and then all."""
    client = story.client()
    opened = story.open(client)
    for span in (write_span(), write_span(2, 3), read_span(4, 2), write_span(4, 2), read_span()):
        held = story.lock(client, opened, span)
    done(client, client.unlocking(held, 0, 3))
    done(client, client.unlocking(held, 5, 2))
    done(client, client.unlocking(held, 9, 1))
    return {b"c1": {"open-confirmed": 1, "lock-downgraded": 2, "lock-upgraded": 1, "lock-merged": 1, "lock-split": 2}}


def locks_that_meet(story):
    """Only bytes of one mode are joined, if one of them isn't held yet."""
    client = story.client()
    opened = story.open(client)
    for span in (
        write_span(0, 5),
        read_span(5, 5),
        read_span(20, 5),
        read_span(10, 10),
        read_span(6, 12),
        write_span(40, 5),
        read_span(40, 10),
    ):
        story.lock(client, opened, span)
    return {b"c1": {"open-confirmed": 1, "lock-merged": 1, "lock-downgraded": 1}}


def far_locks(story):
    """Byte 2^63 - 1 is the last of the lower half."""
    client = story.client()
    opened = story.open(client)
    half = 2**63
    for span in (write_span(half - 10), write_span(half), write_span(half + 100, ALL_ONES - half - 100)):
        held = story.lock(client, opened, span)
    done(client, client.unlocking(held))
    story.lock(client, opened, write_span(7, ALL_ONES))
    return {b"c1": {"open-confirmed": 1, "lock-merged": 1, "lock-past-signed-offsets": 2, "lock-to-end-of-file": 1}}


def denied(story):
    """Another client polls for bytes, asks for others in between, and tests. Its lock owner y gets others than it was
    denied."""
    first, second = story.client(), story.client(b"c2")
    held = story.lock(first, story.open(first))
    opened = story.open(second)
    story.lock(second, opened, wanted=Status.DENIED)
    story.lock(second, opened, write_span(5), wanted=Status.DENIED)
    story.lock(second, opened, write_span(10))
    done(second, second.testing(second.locker(b"x"), opened.handle, read_span()), Status.DENIED)
    story.lock(second, opened, owner=b"y", wanted=Status.DENIED)
    story.lock(second, opened, write_span(30), b"y")
    done(first, first.unlocking(held))
    story.lock(second, opened)
    done(second, second.testing(second.locker(b"x"), opened.handle, read_span()))
    story.lock(second, opened)
    return {
        b"c1": {"open-confirmed": 1},
        b"c2": {
            "open-confirmed": 1,
            "counted-refusal-of-lock": 3,
            "lock-denied": 3,
            "lock-denied-then-given": 1,
            "lock-merged": 1,
            "lock-test-denied": 1,
            "two-lock-owners": 1,
        },
    }


def lock_owners(story):
    """A lock owner locks the file once more after CLOSE, which frees what it holds; one that is unknown is released."""
    client = story.client()
    opened = story.open(client)
    held = story.lock(client, opened)
    story.lock(client, opened, write_span(20), b"y")
    done(client, client.unlocking(held))
    done(client, client.closing(opened))
    opened = story.open(client)
    held = story.lock(client, opened)
    done(client, client.unlocking(held))
    done(client, client.closing(opened))
    done(client, client.releasing(client.locker(b"z")))
    done(client, client.releasing(client.locker(b"x")))
    return {
        b"c1": {
            "open-confirmed": 1,
            "two-lock-owners": 1,
            "close-frees-locks": 1,
            "known-lock-owner-as-new": 1,
            "lock-owner-released": 1,
        }
    }


def restarts(story):
    """A client updates its callback, begins anew, and is back after its lease has ended, and with it what wasn't
    confirmed."""
    client = story.client()
    done(client, client.introducing())
    client.verifier = b"another!"
    done(client, client.introducing())
    client.call((Opnum.SETCLIENTID, Setclientid(client.verifier, client.name, NOWHERE)))
    story.expire(client)
    done(client, client.introducing())
    done(client, client.introducing())
    return {b"c1": {"callback-updated": 2, "client-restarted": 1, "lease-ended": 1, "lease-ended-and-back": 1}}


def principals(story):
    """Another principal takes an id whose client has nothing; the first one can't take it back from an open, and then
    gets it when nobody has it."""
    story.client(uid=1)
    other = story.client(uid=2)
    story.open(other)
    first = RightClient(Direct(story.server), b"c1", 1)
    done(first, first.introducing(), Status.CLID_INUSE)
    story.expire(other)
    done(first, first.introducing())
    return {
        b"c1": {
            "two-principals": 2,
            "client-restarted": 1,
            "open-confirmed": 1,
            "lease-ended": 1,
            "lease-ended-and-back": 1,
        }
    }


def another_run(story):
    """A clientid, and a stateid, of another epoch name no client."""
    client = story.client()
    opened = story.open(client)
    client.clientid = 7, 1
    done(client, client.opening(client.owner(b"A"), FILE), Status.STALE_CLIENTID)
    opened.stateid = opened.stateid._replace(epoch=7)
    done(client, client.closing(opened), Status.STALE_STATEID)
    done(client, client.reading(opened), Status.STALE_STATEID)
    return {
        b"c1": {"open-confirmed": 1},
        None: {"uncounted-stale-clientid": 1, "uncounted-stale-stateid": 1, "server-restarted": 3},
    }


def wrapped(story):
    """Open owner A and lock owners A and B begin with 2^32 - 1, and each goes on with 0, B on another file. Open owner
    C begins with 0; D begins with 2^32 - 1, and anew with 5."""
    client = story.client()
    for owner in (client.owner(b"A"), client.locker(b"A"), client.locker(b"B"), client.owner(b"D")):
        owner.seqid = LAST - 1
    opened = story.open(client)
    held = story.lock(client, opened, owner=b"A")
    done(client, client.unlocking(held))
    story.lock(client, opened, owner=b"B")
    done(client, client.opening(opened.owner, (b"b",)))
    story.lock(client, client.opens[-1], owner=b"B")
    client.owner(b"C").seqid = LAST
    client.has_to_confirm = lambda flags: False
    story.open(client, b"C")
    story.open(client, b"D")
    client.owner(b"D").seqid = 4
    story.open(client, b"D")
    return {
        b"c1": {
            "open-confirmed": 1,
            "sequence-id-wrapped": 3,
            "two-lock-owners": 1,
            "known-lock-owner-as-new": 1,
            "two-open-owners": 3,
            "owner-begun-anew": 1,
        }
    }


def forgotten(story):
    """An owner that has closed is forgotten, comes back, and stays."""
    client = story.client()
    done(client, client.closing(story.open(client)))
    story.server.forget(story.server.moment + 91)
    done(client, client.closing(story.open(client)))
    story.open(client)
    return {b"c1": {"open-confirmed": 2, "owner-forgotten-and-back": 1}}


def special(story):
    """READ by the anonymous stateid names no client; by an open's or a lock's it does. With seqid 1 it is no special
    stateid, and none that another run gave."""
    client = story.client()
    opened = story.open(client)
    held = story.lock(client, opened)
    client.call((Opnum.PUTFH, Putfh(opened.handle)), (Opnum.READ, Read(ZEROS, 0, 5)))
    client.call((Opnum.PUTFH, Putfh(opened.handle)), (Opnum.READ, Read(Stateid(1, 0, 0, 0), 0, 5)))
    done(client, client.reading(opened))
    done(client, client.writing(held))
    return {b"c1": {"open-confirmed": 1, "read-or-write-by-lock": 1}, None: {"special-stateid": 1}}


STORIES = [
    plain,
    lost_replies,
    lost_refusals,
    refusals,
    unconfirmed,
    shares,
    locks_that_change,
    locks_that_meet,
    far_locks,
    denied,
    lock_owners,
    restarts,
    principals,
    another_run,
    wrapped,
    forgotten,
    special,
]


def recalled(story):
    """A client uses its delegation, and returns it when another one has asked twice, who gets it at the third time."""
    first, second = story.client(), story.client(b"c2")
    story.open(first)
    story.reopen(first, first.opens[0])
    story.open(second, wanted=Status.DELAY)
    story.open(second, wanted=Status.DELAY)
    done(first, first.reading(first.lent[0]))
    done(first, first.writing(first.lent[0]))
    done(first, first.opening(first.opens[0].owner, FILE, (1, 0), first.lent[0]))
    done(first, first.giving_back(first.lent[0]))
    story.open(second)
    story.open(second)
    return {
        b"c1": {
            "open-confirmed": 1,
            "delegation-for-writing": 1,
            "read-by-delegation": 1,
            "write-by-delegation": 1,
            "open-by-delegation": 1,
            "recall-returned-in-time": 1,
        },
        b"c2": {"open-confirmed": 1, "delay-and-retry": 1},
    }


def revoked(story):
    """A client returns one delegation by itself, and loses the next, since no callback reaches it."""
    first, second = story.client(), story.client(b"c2")
    story.open(first, share=(1, 0))
    story.reopen(first, first.opens[0], (1, 0))
    done(first, first.giving_back(first.lent[0]))
    story.reopen(first, first.opens[0], (1, 0))
    story.open(second, wanted=Status.DELAY)
    story.server.mark_path(first.clientid[1], 0)
    story.server.mark_path(second.clientid[1], 1)
    story.server.revoke(story.server.moment + 91)
    done(first, first.reading(first.lent[0]), Status.BAD_STATEID)
    return {
        b"c1": {
            "open-confirmed": 1,
            "delegation-for-reading": 2,
            "delegation-returned-unasked": 1,
            "callback-path-down": 1,
            "delegation-revoked": 1,
        }
    }


def delayed_then_denied(story):
    """A client has a delegation for reading, and denies WRITE by an open before it returns it."""
    first, second = story.client(), story.client(b"c2")
    story.open(first, share=(1, 0))
    story.reopen(first, first.opens[0], (1, 0))
    story.open(second, wanted=Status.DELAY)
    story.reopen(first, first.opens[0], (1, 2))
    done(first, first.giving_back(first.lent[0]))
    story.open(second, wanted=Status.SHARE_DENIED)
    return {
        b"c1": {"open-confirmed": 1, "delegation-for-reading": 1, "open-upgraded": 1, "recall-returned-in-time": 1},
        b"c2": {"share-denied": 1},
    }


STORIES_OF_DELEGATIONS = [recalled, revoked, delayed_then_denied]
