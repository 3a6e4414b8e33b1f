"""The same as finding_cases.py, of the sequence ids of owners (RFC 7530, sections 9.1.7 and 9.1.8)."""
from helpers.journal_cases import LAST
from helpers.reason_stories import OTHER_FILE, state
from helpers.finding_cases import StoryMaker, FindingStory, Y, begun, locked
from nfs4tools.wire import KnownLocker, Lock, LockOwner, Opnum

MOVED, KEPT, OTHER = (
    "sequence-id-moved-after-uncounted-refusal",
    "sequence-id-kept-after-counted-refusal",
    "other-request-with-last-id",
)
SKIPPED, REUSED = "sequence-id-skipped", "sequence-id-reused"


def moved_on() -> FindingStory:
    """Behind BAD_STATEID, of a stateid that names no owner, and of one that does; and behind NOFILEHANDLE."""
    story = begun()
    story.error("stateid-unknown").close(3, state(7))
    story.error(MOVED).close(4, state(1, 2))
    # BAD_SEQID doesn't count either.
    story.error(MOVED).close(5, state(1, 2))
    story.open(3, access=1)
    story.error("stateid-of-other-file").close(4, state(1, 3), filehandle=OTHER_FILE)
    story.error(MOVED).close(5, state(1, 3))
    story.open(4, access=2)
    story.error("no-filehandle").close(5, state(1, 4), filehandle=None)
    story.error(MOVED).close(6, state(1, 4))
    story.close(5, state(1, 4))
    return story


def moved_on_by_a_stateid_of_another_kind() -> FindingStory:
    """A LOCKU by the open's stateid leads to the open owner; the next one is again of the lock owner."""
    story = locked()
    story.error("stateid-of-other-kind").unlock(2, state(1, 2))
    story.error(MOVED).unlock(3, state(2))
    story.unlock(2, state(2))
    return story


def owners_of_one_name() -> FindingStory:
    """An open owner and a lock owner: a refusal of the one is none of the other."""
    story = begun()
    story.lock_first(3, state(1, 2), 3, owner=LockOwner(1, 1, b"A"))
    story.error("stateid-of-other-file").close(4, state(1, 2), filehandle=OTHER_FILE)
    story.error(SKIPPED).unlock(5, state(2))
    story.unlock(4, state(2))
    story.release(LockOwner(1, 1, b"A"))
    story.close(4, state(1, 2))
    return story


def not_moved_on() -> FindingStory:
    """Other refusals don't count, and the id is another one than the next but one."""
    story = begun()
    story.error("stateid-unknown").close(9, state(7))
    story.error(SKIPPED).close(4, state(1, 2))
    # Between the two comes a request that counts.
    story.error("stateid-unknown").close(3, state(7))
    story.open(3, access=1)
    story.error(SKIPPED).close(5, state(1, 3))
    # The refusal is one of another owner.
    story.open(1, owner=b"B", name=b"b")
    story.error("owner-not-confirmed").close(2, state(2), filehandle=OTHER_FILE)
    story.confirm(2, state(2), filehandle=OTHER_FILE)
    story.error("stateid-of-other-file").close(4, state(2, 2))
    story.error(SKIPPED).close(5, state(1, 3))
    # Right is the same id again.
    story.error("stateid-unknown").close(4, state(7))
    story.close(4, state(1, 3))
    return story


def kept() -> FindingStory:
    """Behind NOENT, and behind DENIED of a lock owner."""
    story = locked()
    story.spared().open(4, name=b"e")
    story.error(KEPT).open(4, name=b"f")
    story.error(KEPT).close(4, state(1, 2))
    story.open(5, name=b"b")
    story.lock_first(6, state(1, 2), 1, owner=Y, offset=20)
    # Y's first LOCK of `b`, beside what X has of it.
    story.lock_first(7, state(3), 2, filehandle=OTHER_FILE)
    story.spared().lock_first(8, state(3), 2, owner=Y, filehandle=OTHER_FILE)
    story.error(KEPT).call(Opnum.LOCK, Lock(2, 0, 30, 5, KnownLocker(state(4), 2)))
    story.call(Opnum.LOCK, Lock(2, 0, 30, 5, KnownLocker(state(4), 3)))
    return story


def kept_answers() -> FindingStory:
    """A refusal that counts comes again: twice as replies may be lost, and the third time is one too many. An answer
    that is OK may come as often as it likes."""
    story = begun()
    story.spared().open(3, name=b"e")
    story.spared().repeat(4)
    story.spared().repeat(4)
    story.error(KEPT).repeat(4)
    story.error(KEPT).repeat(4)
    story.open(4, access=1)
    for _ in range(4):
        story.repeat(9)
    return story


def other_request() -> FindingStory:
    """The id of the last request that counted, with another operation, filehandle or arguments."""
    story = locked()
    story.error(OTHER).close(3, state(1, 2))
    story.error(OTHER).open(3, access=1)
    story.error(OTHER).lock_next(1, state(2))
    story.repeat(4)
    # Another one by a stateid with which something is wrong is that fault.
    story.error("stateid-of-other-file").lock_first(3, state(1, 2), 1, filehandle=OTHER_FILE)
    return story


def new_lock_owners() -> FindingStory:
    """A lock owner that comes as a new one, and has a lock state of the file; or is known by another file."""
    story = locked()
    story.error("new-lock-owner-again").lock_first(4, state(1, 2), 2, offset=20)
    story.error(OTHER).lock_first(4, state(1, 2), 1, offset=20)
    story.error(SKIPPED).lock_first(4, state(1, 2), 9, offset=20)
    story.open(4, name=b"b")
    story.error(OTHER).lock_first(5, state(3), 1, filehandle=OTHER_FILE)
    story.error(SKIPPED).lock_first(5, state(3), 7, filehandle=OTHER_FILE)
    story.lock_first(5, state(3), 2, filehandle=OTHER_FILE)
    # By another open of the file it may have another lock state (section 9.1.4.1), which it hasn't at this server.
    story.open(1, owner=b"B")
    story.confirm(2, state(5))
    story.warning("new-lock-owner-again").lock_first(3, state(5, 2), 3, offset=20)
    return story


def skipped_and_reused() -> FindingStory:
    story = locked()
    story.error(SKIPPED).close(5, state(1, 2))
    story.error(SKIPPED).close(2**31, state(1, 2))
    story.error(REUSED).close(1, state(1, 2))
    story.error(REUSED).close(LAST, state(1, 2))
    story.close(4, state(1, 2))
    # Begun again at 1: the request as a whole has come before.
    story.error(REUSED).repeat(2)
    return story


def late_copies() -> FindingStory:
    """The last request but one comes again: once that may be its copy on another connection."""
    story = locked()
    story.unlock(2, state(2))
    story.lock_next(3, state(2, 2))
    story.at(30).warning(REUSED).repeat(5)
    story.error(REUSED).repeat(5)
    story.unlock(4, state(2, 3))
    story.warning(REUSED).repeat(6)
    return story


def wraps() -> FindingStory:
    """The id behind 2^32 - 1 is 1 by section 9.1.3, and 0 at this server."""
    story = FindingStory()
    story.introduce()
    story.confirm_client(1, 1)
    story.open(LAST - 1)
    story.confirm(LAST, state(1))
    story.spared().close(1, state(1, 2))
    story.error(SKIPPED).close(2, state(1, 2))
    story.error(OTHER).close(LAST, state(1, 2))
    story.close(0, state(1, 2))
    return story


def other_faults_first() -> FindingStory:
    """A wrong id with a stateid that is old: that is the error once the client has to know better."""
    story = begun()
    story.at(10).open(3, access=1)
    story.at(11).error(SKIPPED).close(5, state(1, 2))
    story.at(12).error("stateid-old").close(5, state(1, 2))
    story.error("stateid-unknown").close(5, state(1, 9))
    return story


SEQUENCE_IDS: list[StoryMaker] = [
    moved_on,
    moved_on_by_a_stateid_of_another_kind,
    owners_of_one_name,
    not_moved_on,
    kept,
    kept_answers,
    other_request,
    new_lock_owners,
    skipped_and_reused,
    late_copies,
    wraps,
    other_faults_first,
]
