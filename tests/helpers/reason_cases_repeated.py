"""More stories for test_reasons.py: requests that come again, sequence ids that move on though a refusal doesn't count,
recalls that don't arrive, and refusals that are equal."""
from collections.abc import Callable

from helpers.reason_cases_delegations import A_DELEGATION, lent
from helpers.reason_stories import (
    DELEGATIONS,
    LOCK_X,
    NO_FILE,
    OPEN_A,
    OTHER_FILE,
    OWNERS,
    STATEIDS,
    Story,
    begun,
    state,
)
from nfs4tools.wire import LockOwner, OpenConfirm, Opnum, ReleaseLockowner

LENT = f"state 2, {A_DELEGATION} to client 1 since entry 4 (OPEN), conflicts with every open of another client, and "
# Where the words are no matter.
ANY = "", ""
OPEN_BY_B = 'OPEN by open owner "B" of client 2'


def refusals_that_do_not_count() -> Story:
    """After them the same sequence id is still the next."""
    story = begun()
    due = '{} is the next sequence id of open owner "A" of client 1, after entry {}, but {} came'
    # Entries 4 and 5: a stateid that leads to no owner.
    story.close(3, state(7, 2), ("state 7 was never given", OWNERS))
    none = "; entry 4 (CLOSE) had 3, and NFS4ERR_BAD_STATEID doesn't count"
    story.close(4, state(1, 2), (due.format(3, "3 (OPEN_CONFIRM)", 4) + none, OWNERS))
    # Entries 6 to 8: the owner's own, of which the first had the next id.
    place = f'the stateid is that of state 1, an {OPEN_A}, but the current filehandle is that of file "/b"'
    story.close(3, state(1, 2), (place, STATEIDS), OTHER_FILE)
    own = "; entry 6 (CLOSE) had 3, and NFS4ERR_BAD_STATEID doesn't count"
    story.close(5, state(1, 2), (due.format(3, "3 (OPEN_CONFIRM)", 5) + own, OWNERS))
    story.close(4, state(1, 2), (due.format(3, "3 (OPEN_CONFIRM)", 4) + own, OWNERS))
    # Entries 9 to 11: one that counts makes an end of it.
    story.open(3, NO_FILE, name=b"e")
    story.close(6, state(1, 2), (due.format(4, "9 (OPEN)", 6), OWNERS))
    # Entries 11 to 15: a LOCK is a request of the lock owner, too, which didn't count where the stateid was wrong.
    story.lock_first(4, state(1, 2), 1)
    story.unlock(2, state(2))
    story.open(5, name=b"b")
    other = f'the stateid is that of state 3, an {OPEN_A.replace("/a", "/b")}, but the current filehandle is that of '
    story.lock_first(6, state(3), 3, (other + 'file "/a"', STATEIDS))
    due = '3 is the next sequence id of lock owner "x" of client 1, after entry 12 (LOCKU), but '
    had = "the lock_seqid is 4; entry 14 (LOCK) had 3, and NFS4ERR_BAD_STATEID doesn't count"
    story.lock_first(6, state(3), 4, (due + had, "LOCK"), filehandle=OTHER_FILE)
    return story


def stateids_of_other_kinds() -> Story:
    """They lead to another owner, which has other sequence ids."""
    story = begun()
    story.lock_first(3, state(1, 2), 7)
    kind = f"the stateid is that of state 1, an {OPEN_A}; a lock state is wanted here, such as state 2; "
    due = '4 is the next sequence id of open owner "A" of client 1, after entry 4 (LOCK), but 8 came'
    story.unlock(8, state(1, 2), (kind + due, OWNERS))
    kind = f"the stateid is that of state 2, a {LOCK_X}; an open is wanted here, such as state 1; "
    due = '8 is the next sequence id of lock owner "x" of client 1, after entry 4 (LOCK), but 4 came'
    story.close(4, state(2), (kind + due, OWNERS))
    # Two lock states of the open: either may be meant.
    story.lock_first(4, state(1, 2), 1, owner=LockOwner(1, 1, b"y"), offset=20)
    kind = f"the stateid is that of state 1, an {OPEN_A}; a lock state is wanted here"
    story.unlock(5, state(1, 2), (kind, STATEIDS))
    return story


def recalls_that_fail() -> Story:
    """The first mark behind a recall says whether it arrived."""
    story = lent()
    story.open(1, (LENT + "is recalled now", DELEGATIONS), b"B", 1, client=2)
    story.open(1, (LENT + "was recalled by entry 7 (OPEN)", DELEGATIONS), b"B", 1, client=2)
    story.tell("the callback path of client 1 was up since entry 1 (SETCLIENTID_CONFIRM)")
    story.server.mark_path(1, False)
    failed = LENT + "was recalled by entry 7 (OPEN), but the recall could not be delivered (entry 9)"
    story.open(1, (failed, DELEGATIONS), b"B", 1, client=2)
    # A later mark, of another call, changes nothing about it.
    story.tell("the callback path of client 1 was down since entry 9")
    story.server.mark_path(1, True)
    story.open(1, (failed, DELEGATIONS), b"B", 1, client=2)
    story.tell(
        f"client 1 loses state 2, {A_DELEGATION}, because it is revoked; it was recalled by entry 7 (OPEN), "
        "at 0, "
        "but the recall could not be delivered (entry 9)"
    )
    story.server.revoke(91)
    return story


def recalls_that_arrive() -> Story:
    story = lent()
    story.open(1, (LENT + "is recalled now", DELEGATIONS), b"B", 1, client=2)
    story.tell("the callback path of client 1 was up since entry 1 (SETCLIENTID_CONFIRM)")
    story.server.mark_path(1, True)
    story.tell("the callback path of client 1 was up since entry 8")
    story.server.mark_path(1, False)
    story.open(1, (LENT + "was recalled by entry 7 (OPEN)", DELEGATIONS), b"B", 1, client=2)
    return story


def kept_delays() -> Story:
    """The same request gets DELAY for good, also when the delegation is gone."""
    story = lent()
    story.open(1, None, b"B", 1, client=2, name=b"b")
    story.call(Opnum.OPEN_CONFIRM, OpenConfirm(state(3, client=2), 2), None, OTHER_FILE)
    story.open(3, (LENT + "is recalled now", DELEGATIONS), b"B", 1, client=2)
    again = "it is a replay of entry 9 (OPEN), and gets the stored reply; delegation 2 conflicted then"
    due = "; the owner's next sequence id is 4"
    story.repeat(9, OPEN_BY_B, (again + due, OWNERS))
    story.tell(f"client 1 returns state 2, {A_DELEGATION}; it was recalled by entry 9 (OPEN), at 0")
    story.give_back(state(2))
    story.repeat(9, OPEN_BY_B, (again + ", and is gone since entry 11 (DELEGRETURN)" + due, OWNERS))
    story.open(4, None, b"B", 1, client=2)
    return story


def requests_with_the_last_id() -> Story:
    """Other ones than that of the entry, and what tells them from it."""
    story = begun()
    story.open(3, access=1)
    last = (
        '4 is the next sequence id of open owner "A" of client 1, after entry 4 (OPEN), but 3 came: that of the '
        "entry itself, with another "
    )
    story.open(3, (last + "access", OWNERS))
    story.open(3, (last + "access, deny and name", OWNERS), deny=1, name=b"b")
    story.open(3, (last + "current filehandle", OWNERS), access=1, directory=3)
    story.close(3, state(1, 3), (last + "operation", OWNERS))
    # Of a new lock owner, which is known.
    story.lock_first(4, state(1, 3), 7)
    story.open(5, name=b"b")
    last = (
        '8 is the next sequence id of lock owner "x" of client 1, after entry 9 (LOCK), but the lock_seqid is 7: '
        "that of the entry itself, with another current filehandle, open_seqid and open_stateid"
    )
    story.lock_first(6, state(3), 7, (last, "LOCK"), filehandle=OTHER_FILE)
    return story


def owners_of_one_name() -> Story:
    """An open owner and a lock owner, each with its own sequence ids, refusals and states."""
    story, lock_owner = begun(), LockOwner(1, 1, b"A")
    story.lock_first(3, state(1, 2), 5, owner=lock_owner)
    later = "state 2 has seqid 1 since entry 4 (LOCK), but the stateid has the later 2"
    story.unlock(6, state(2, 2), (later, STATEIDS))
    # The refusal was the lock owner's.
    due = '4 is the next sequence id of open owner "A" of client 1, after entry 4 (LOCK), but 6 came'
    story.close(6, state(1, 2), (due, OWNERS))
    due = '6 is the next sequence id of lock owner "A" of client 1, after entry 4 (LOCK), but 7 came'
    story.unlock(7, state(2), (due + "; entry 5 (LOCKU) had 6, and NFS4ERR_BAD_STATEID doesn't count", OWNERS))
    story.unlock(6, state(2))
    story.call(Opnum.RELEASE_LOCKOWNER, ReleaseLockowner(lock_owner), None, None)
    # The open is still there, and the lock state isn't.
    ended = 'state 2, a lock state of file "/a" by lock owner "A" of client 1, was ended by entry 9 (RELEASE_LOCKOWNER)'
    story.read(state(2, 2), (ended, STATEIDS))
    story.read(state(1, 2))
    story.close(4, state(1, 2))
    return story


def owners_with_other_bytes() -> Story:
    """A name that is no text is shown with escapes."""
    story = begun()
    story.open(1, None, b"open id:\x00\x00\x00\x17\xff", 1, 2, name=b"b")
    denied = (
        r'open owner "open id:\x00\x00\x00\x17\xff" of client 1 denies WRITE of file "/b" since entry 4 (it '
        "isn't confirmed, which makes no difference here)"
    )
    story.open(3, (denied, "Share reservations"), access=2, name=b"b")
    return story


STORIES_OF_REQUESTS = (
    refusals_that_do_not_count,
    stateids_of_other_kinds,
    recalls_that_fail,
    recalls_that_arrive,
    kept_delays,
    requests_with_the_last_id,
    owners_of_one_name,
    owners_with_other_bytes,
)


# Equal refusals.


def delays_that_are_equal() -> Story:
    """By an owner that isn't known yet, whose OPEN with any sequence id is judged anew; and by kept answers."""
    story = kept_delays()
    # Entries 15 and 16: client 1 has the file again for writing, and the same OPEN gets DELAY for another delegation.
    story.close(5, state(4, client=2))
    story.open(4)
    for seqid in (1, 2, 3, 3):
        story.open(seqid, ANY, b"C", 1, client=2)
    story.server.mark_path(1, False)
    story.open(4, ANY, b"C", 1, client=2)
    # Another owner, and another share, are other requests.
    story.open(4, ANY, b"D", 1, client=2)
    story.open(4, ANY, b"C", 2, client=2)
    return story


def denials_that_are_equal() -> Story:
    """As long as the range stays as it is."""
    story = begun()
    story.lock_first(3, state(1, 2), 1)
    for seqid in (4, 5, 6):
        story.lock_first(seqid, state(1, 2), 1, ANY, LockOwner(1, 1, b"y"), 1)
    # Entries 8 to 11: the lock state of `x` moves on, at first with the same range.
    story.lock_next(2, state(2))
    story.lock_first(7, state(1, 2), 1, ANY, LockOwner(1, 1, b"y"), 1)
    story.unlock(3, state(2, 2), length=4)
    story.lock_first(8, state(1, 2), 1, ANY, LockOwner(1, 1, b"y"), 1)
    # Another range is another request.
    story.lock_first(9, state(1, 2), 1, ANY, LockOwner(1, 1, b"y"), 1, length=5)
    story.repeat(12, None, ANY)
    story.repeat(12, None, ANY)
    return story


# By the first entry of each paragraph, what is said behind the reason.
FOLDED: tuple[tuple[Callable[[], Story], dict[int, list[str]]], ...] = (
    (kept_delays, {9: [], 10: [], 12: []}),
    (
        delays_that_are_equal,
        {
            9: [],
            10: [],
            12: [],
            16: [
                "entries 16 to 21: 5 times NFS4ERR_DELAY, delegation 5 not returned, because the recall could not be delivered "
                "(entry 20)"
            ],
            # The path that is marked down.
            20: [],
            22: [],
            23: [],
        },
    ),
    (
        denials_that_are_equal,
        {
            5: ["entries 5 to 9: 4 times NFS4ERR_DENIED"],
            11: [],
            12: [],
            13: ["entries 13 to 14: 2 times NFS4ERR_DENIED, the stored reply of entry 12"],
        },
    ),
)
