"""Stories of clients, owners, opens and locks: refusals, each with the reason that has to be given for it, for
test_reasons.py. The reasons were worked out from docs/RULES.md: what conflicts or is wrong, since which entry, and
under which heading that is."""
from typing import Any

from helpers.journal_cases import LAST, SOMEBODY
from helpers.reason_stories import (
    ALL,
    CLIENT_IDS,
    DIRECTORY,
    FILE,
    LOCK_X,
    NO_FILE,
    NO_HANDLE,
    OLD,
    OPEN_A,
    OPEN_BY_A,
    OTHER_FILE,
    OWNERS,
    RANGES,
    STATEIDS,
    Story,
    begun,
    state,
)
from nfs4tools.wire import (
    Claim,
    Getattr,
    KnownLocker,
    Lock,
    LockOwner,
    Lockt,
    OpenDowngrade,
    Openhow,
    Opnum,
    ReleaseLockowner,
    Stateid,
)


def stateids() -> Story:
    """Each cause of BAD_STATEID, and the other verdicts."""
    story = begun()
    story.lock_first(3, state(1, 2), 1)
    story.close(4, Stateid(0, 0, 0, 0), ("all bits of the stateid are zero, so it names no state", STATEIDS))
    story.close(4, Stateid(*[LAST] * 4), ("all bits of the stateid are one, so it names no state", STATEIDS))
    story.close(4, state(1, 2, epoch=2), ("the stateid has epoch 2, but this server has epoch 1", STATEIDS))
    story.close(4, state(1, 2, client=5), ("the stateid is one of client 5, which was never given", STATEIDS))
    story.close(4, state(7, 2), ("state 7 was never given", OWNERS))
    kind = f"the stateid is that of state 1, an {OPEN_A}; a lock state is wanted here, such as state 2"
    story.unlock(4, state(1, 2), (kind, STATEIDS))
    kind = f"the stateid is that of state 2, a {LOCK_X}; an open is wanted here, such as state 1"
    story.close(2, state(2), (kind, STATEIDS))
    place = f'the stateid is that of state 1, an {OPEN_A}, but the current filehandle is that of file "/b"'
    story.close(4, state(1, 2), (place, STATEIDS), OTHER_FILE)
    later = "state 1 has seqid 2 since entry 3 (OPEN_CONFIRM), but the stateid has the later 3"
    story.close(4, state(1, 3), (later, STATEIDS))
    story.close(4, state(1), OLD)
    story.confirm(5, state(1, 2), ('open owner "A" of client 1 is confirmed since entry 3', "OPEN_CONFIRM"))
    return story


def ends() -> Story:
    """States that have ended, each in its way, and one of another client."""
    story = begun()
    story.lock_first(3, state(1, 2), 1)
    story.close(4, state(1, 2))
    story.close(5, state(1, 2), (f"state 1, an {OPEN_A}, was ended by entry 5 (CLOSE)", STATEIDS))
    story.unlock(2, state(2), (f"state 2, a {LOCK_X}, was ended by entry 5 (CLOSE)", OWNERS))
    story.open(1, owner=b"B")
    unconfirmed = (
        'open owner "B" of client 1 isn\'t confirmed: it has opened the file in entry 8, but no '
        "OPEN_CONFIRM has followed"
    )
    story.close(2, state(3), (unconfirmed, STATEIDS))
    story.open(9, owner=b"B", name=b"b")
    anew = (
        'state 3, an open of file "/a" by open owner "B" of client 1, was ended by entry 10 (OPEN), which '
        "restarted its owner"
    )
    story.confirm(10, state(3), (anew, OWNERS))
    story.introduce(b"c2")
    story.confirm_client(2, 2)
    story.close(1, state(4, client=2), ("state 4 was given to client 1, but the stateid names client 2", OWNERS))
    return story


def clients() -> Story:
    story = begun()
    story.introduce(b"c2")
    never = ("client 2, which entry 4 (SETCLIENTID) gave, was never confirmed", CLIENT_IDS)
    story.open(1, never, client=2)
    story.introduce(b"c2")
    again = (
        "client 2, which entry 4 (SETCLIENTID) gave, was never confirmed, and entry 6 (SETCLIENTID) gave its id "
        "client 258 (slot 2, second)"
    )
    story.open(1, (again, CLIENT_IDS), client=2)
    story.close(1, state(1, client=2), (again, STATEIDS))
    story.open(1, ("client 4 was never given", CLIENT_IDS), client=4)
    story.open(1, ("client 514 (slot 2, third) was never given", CLIENT_IDS), client=514)
    story.close(1, state(1, client=512), ("the stateid is one of client 512, which was never given", STATEIDS))
    story.open(1, ("the clientid has epoch 2, but this server has epoch 1", CLIENT_IDS), epoch=2)
    replaced = (
        'confirm verifier 2 is that of entry 4 (SETCLIENTID), but entry 6 gave the id "c2" confirm verifier 3',
        "SETCLIENTID_CONFIRM",
    )
    story.confirm_client(2, 2, replaced)
    story.confirm_client(258, 9, ("confirm verifier 9 was never given", "SETCLIENTID_CONFIRM"))
    story.confirm_client(258, 1, ("entry 0 (SETCLIENTID) gave confirm verifier 1 to client 1", "SETCLIENTID_CONFIRM"))
    other = "entry 6 (SETCLIENTID) came from AUTH_NONE, but its confirmation from AUTH_SYS 500"
    story.confirm_client(258, 3, (other, "SETCLIENTID_CONFIRM"), SOMEBODY)
    used = (
        f'the id "c1" is that of client 1, by AUTH_NONE, which has state: state 1, an {OPEN_A}, since entry 2 ' "(OPEN)"
    )
    story.introduce(verifier=2, because=(used, "SETCLIENTID"), principal=SOMEBODY)
    story.introduce(verifier=2)
    story.confirm_client(3, 4)
    gone = "client 1 was removed by entry 19 (SETCLIENTID_CONFIRM), because client 3 took its place"
    story.open(3, (gone, CLIENT_IDS))
    story.close(3, state(1, 2), (gone, STATEIDS))
    story.confirm_client(1, 1, (gone, "SETCLIENTID_CONFIRM"))
    story.introduce(verifier=3)
    story.confirm_client(257, 5)
    gone = "client 3 was removed by entry 24 (SETCLIENTID_CONFIRM), because client 257 (slot 1, second) took its place"
    story.open(3, (gone, CLIENT_IDS), client=3)
    story.expire(257)
    over = "client 257 (slot 1, second) was removed by entry 26, because its lease had expired"
    story.close(3, state(1, 2, client=257), (over, STATEIDS))
    released = ReleaseLockowner(LockOwner(1, 257, b"x"))
    story.call(Opnum.RELEASE_LOCKOWNER, released, (over, CLIENT_IDS), None)
    return story


def records_that_give_way() -> Story:
    """Client 1, which asks for another callback, and 254 ids whose records wait: entries 3 to 256. Where another id
    comes the first of these gives way, and not the record of client 1, though that came before."""
    story = Story()
    story.introduce()
    story.confirm_client(1, 1)
    story.introduce()
    for number in range(2, 256):
        story.introduce(b"c%d" % number)
    story.introduce(b"late")
    yielded = "the record of entry 3 (SETCLIENTID) was dropped for the client of entry 257"
    story.confirm_client(2, 3, (yielded, "SETCLIENTID_CONFIRM"))
    never = (
        "client 2, which entry 3 (SETCLIENTID) gave, was never confirmed, and was dropped for the client of entry "
        "257",
        CLIENT_IDS,
    )
    story.open(1, never, client=2)
    # Who gave way comes again, and takes the place of the next one.
    story.introduce(b"c2")
    story.open(1, never, client=2)
    story.confirm_client(3, 4, (yielded.replace("entry 3", "entry 4").replace("257", "260"), "SETCLIENTID_CONFIRM"))
    # Entries 263 to 265: the two are live, and one has a file open.
    story.confirm_client(258, 257)
    story.confirm_client(259, 258)
    story.open(1, access=1, deny=2, client=259)
    denied = (
        'open owner "A" of client 259 (slot 3, second) denies WRITE of file "/a" since entry 265 (it isn\'t '
        "confirmed, which makes no difference here)",
        "Share reservations",
    )
    story.open(1, denied, access=2, client=258)
    story.confirm_client(1, 2)
    return story


def sequence_ids() -> Story:
    """Also requests that come again, whose answers are given again."""
    story = begun()
    due = '3 is the next sequence id of open owner "A" of client 1, after entry 3 (OPEN_CONFIRM), but '
    story.close(4, state(1, 2), (due + "4 came", OWNERS))
    story.close(2, state(1), (due + "2 came: that of the entry itself, with another operation", OWNERS))
    itself = due + "2 came: that of the entry itself, with "
    story.confirm(2, state(1, 2), (itself + "another stateid", OWNERS))
    story.confirm(2, state(1), (itself + "another current filehandle", OWNERS), OTHER_FILE)
    story.open(3, NO_FILE, name=b"e")
    again = "it is a replay of entry 8 (OPEN), and gets the stored reply; the cause then: "
    story.repeat(8, OPEN_BY_A, (again + NO_FILE[0], OWNERS))
    story.lock_first(4, state(1, 2), 7)
    due = '8 is the next sequence id of lock owner "x" of client 1, after entry 10 (LOCK), but '
    story.unlock(7, state(2), (due + "7 came: that of the entry itself, with another operation", OWNERS))
    has_state = (
        'it names a new lock owner, but lock owner "x" of client 1 has state 2 on the file since entry ' "10 (LOCK)"
    )
    story.lock_first(5, state(1, 2), 8, (has_state, "LOCK"))
    story.open(5, name=b"b")
    uncounted = "the lock_seqid is 5; entry 12 (LOCK) had 8, and NFS4ERR_BAD_SEQID doesn't count"
    story.lock_first(6, state(3), 5, (due + uncounted, "LOCK"), filehandle=OTHER_FILE)
    other = "the lock owner has the clientid 1 2, but the open is one of client 1"
    story.lock_first(6, state(3), 5, (other, "LOCK"), LockOwner(1, 2, b"x"), filehandle=OTHER_FILE)
    return story


def kept_answers() -> Story:
    """A request of each operation that an owner has, which comes again; also a refusal, and one that comes twice."""
    story = Story()
    story.introduce()
    story.confirm_client(1, 1)
    # Entries 2 to 5: state 1 is the open of `a` by A.
    story.open(1)
    story.repeat(2, OPEN_BY_A)
    story.confirm(2, state(1))
    story.repeat(4, 'OPEN_CONFIRM by open owner "A" of client 1')
    # Entries 6 to 9.
    story.open(3, access=1)
    story.call(Opnum.OPEN_DOWNGRADE, OpenDowngrade(state(1, 3), 4, 3, 0))
    story.repeat(7, 'OPEN_DOWNGRADE by open owner "A" of client 1')
    story.repeat(7, 'OPEN_DOWNGRADE by open owner "A" of client 1')
    # Entries 10 to 15: the LOCK of a new lock owner is a request of the open owner.
    story.lock_first(5, state(1, 4), 1)
    story.repeat(10, 'LOCK by open owner "A" of client 1')
    story.lock_next(2, state(2))
    story.repeat(12, 'LOCK by lock owner "x" of client 1')
    story.unlock(3, state(2, 2))
    story.repeat(14, 'LOCKU by lock owner "x" of client 1')
    # Entries 16 to 19: a refusal is kept as well, and a CLOSE though the open is gone.
    story.open(6, NO_FILE, name=b"e")
    again = "it is a replay of entry 16 (OPEN), and gets the stored reply; the cause then: "
    story.repeat(16, OPEN_BY_A, (again + NO_FILE[0], OWNERS))
    story.close(7, state(1, 4))
    story.repeat(18, 'CLOSE by open owner "A" of client 1')
    return story


def no_kept_answers() -> Story:
    """Calls that come again, and mostly get the same answer, but no kept one, except the last."""
    story = begun()
    # Of no owner, and of one that has gone on since: entries 4 to 8.
    story.repeat(1)
    story.read(state(1, 2))
    story.repeat(5)
    story.open(3, access=1)
    due = '4 is the next sequence id of open owner "A" of client 1, after entry 7 (OPEN), but 2 came'
    story.repeat(3, None, (due, OWNERS))
    # A refusal that doesn't count: 9 and 10.
    story.repeat(8, None, (due, OWNERS))
    story.repeat(8, None, (due, OWNERS))
    # A refusal behind which the owner is still unknown: 11 and 12.
    story.open(1, NO_FILE, owner=b"C", name=b"e")
    story.repeat(11, None, NO_FILE)
    # A lock state that has ended: 13 to 16.
    story.lock_first(4, state(1, 3), 1)
    story.unlock(2, state(2))
    story.call(Opnum.RELEASE_LOCKOWNER, ReleaseLockowner(LockOwner(1, 1, b"x")), None, None)
    story.repeat(14, None, (f"state 2, a {LOCK_X}, was ended by entry 15 (RELEASE_LOCKOWNER)", OWNERS))
    # An owner that starts anew by the OPEN with which it began, and then the same: 17 to 20.
    story.open(1, owner=b"B", access=1)
    story.open(9, owner=b"B", access=1, name=b"b")
    story.repeat(17)
    story.repeat(19, 'OPEN by open owner "B" of client 1')
    return story


def opens() -> Story:
    """What an OPEN is refused for."""
    story = begun()
    refused: tuple[tuple[str, dict[str, Any]], ...] = (
        (NO_HANDLE[0], {"directory": None}),
        ("it reclaims (CLAIM_PREVIOUS), but no state outlives a run of the server", {"claim": Claim(1, None, 0)}),
        ("CLAIM_DELEGATE_PREV isn't supported", {"claim": Claim(3, b"a", None)}),
        ("the access is 0, but has to be 1 to 3", {"access": 0}),
        ("the deny is 4, but has to be 0 to 3", {"deny": 4}),
        ('the current filehandle is that of file "/a", which is no directory', {"directory": FILE}),
        ("the name is empty", {"name": b""}),
        ("the name has 256 bytes, but at most 255 are allowed", {"name": b"n" * 256}),
        ('directory "/d" has no "a"', {"directory": DIRECTORY}),
        ('directory "/" has no "e", and this server creates no files', {"name": b"e", "how": Openhow(1, 0, ((), b""))}),
        ('the name is that of directory "/d"', {"name": b"d"}),
        ('file "/a" exists already, but GUARDED4 creates a new file', {"how": Openhow(1, 1, ((), b""))}),
        ('file "/a" exists already, but EXCLUSIVE4 creates a new file', {"how": Openhow(1, 2, bytes(8))}),
    )
    seqid = 3
    for text, asked in refused:
        story.open(seqid, NO_HANDLE if text in NO_HANDLE else (text, "OPEN"), **asked)
        seqid += text not in NO_HANDLE
    other = "of the delegation's stateid: the stateid has epoch 3, but this server has epoch 1"
    story.open(seqid, (other, STATEIDS), claim=Claim(2, b"a", state(1, epoch=3)))
    other = f"of the delegation's stateid: the stateid is that of state 1, an {OPEN_A}; a delegation is wanted here"
    story.open(seqid, (other, STATEIDS), claim=Claim(2, b"a", state(1)))
    story.call(Opnum.GETATTR, Getattr((2,)), (refused[0][0], "COMPOUND"), None)
    return story


def shares() -> Story:
    story = begun()
    share = "Share reservations"
    held = 'open owner "A" of client 1 has file "/a" open for WRITE, which this OPEN denies, since entry 2'
    story.open(1, (held, share), b"B", 1, 2)
    story.open(3, None, access=1, deny=1)
    story.open(4, None, access=1, deny=2)
    story.open(1, ('open owner "A" of client 1 denies READ of file "/a" since entry 5', share), b"B", 1)
    both = (
        'open owner "A" of client 1 denies READ and WRITE of file "/a" since entry 6 and has file "/a" open for '
        "READ, which this OPEN denies, since entry 2"
    )
    story.open(1, (both, share), b"B", 3, 1)
    downgrade = OpenDowngrade(state(1, 4), 5, 1, 0)
    pairs = "access 1 and deny 0 are no union of pairs with which the open was opened: 1 and 1, 1 and 2, 3 and 0"
    story.call(Opnum.OPEN_DOWNGRADE, downgrade, (pairs, "OPEN_DOWNGRADE"))
    story.open(1, owner=b"C", name=b"b", access=2, deny=1)
    unconfirmed = (
        'open owner "C" of client 1 denies READ of file "/b" since entry 10 (it isn\'t confirmed, which '
        "makes no difference here)"
    )
    story.open(1, (unconfirmed, share), b"B", 1, name=b"b")
    return story


def many_shares() -> Story:
    """Of many that conflict some are named."""
    story = begun()
    named = ['open owner "A" of client 1 has file "/a" open for READ, which this OPEN denies, since entry 2']
    for number, name in enumerate((b"B", b"C", b"D", b"E"), 4):
        story.open(1, None, name, 1)
        named.append(
            f'open owner "{name.decode()}" of client 1 has file "/a" open for READ, which this OPEN denies, '
            f"since entry {number} (it isn't confirmed, which makes no difference here)"
        )
    story.open(1, ("; ".join(named[:3]) + "; and 2 more", "Share reservations"), b"F", 2, 1)
    return story


def locks() -> Story:
    story = begun()
    reclaims = "it reclaims, but no lock outlives a run of the server"
    story.lock_first(3, state(1, 2), 1, (reclaims, "LOCK"), reclaim=1)
    story.lock_first(4, state(1, 2), 1, ("a length of 0 names no bytes", RANGES), length=0)
    far = f"offset 2 and length {ALL - 1} add up to more than 2^64 - 1"
    story.lock_first(5, state(1, 2), 1, (far, RANGES), offset=2, length=ALL - 1)
    story.lock_first(6, state(1, 2), 1)
    held = (
        'lock owner "x" of client 1 holds bytes 0 to 9 of file "/a" for writing, in state 2, which was changed '
        "last by entry 7 (LOCK)"
    )
    story.lock_first(7, state(1, 2), 1, (held, RANGES), LockOwner(1, 1, b"y"), 1)
    story.call(Opnum.LOCKT, Lockt(1, 9, 1, LockOwner(1, 1, b"y")), (held, RANGES))
    later = "state 2 has seqid 1 since entry 7 (LOCK), but the stateid has the later 2"
    story.lock_next(2, state(2, 2), (later, STATEIDS))
    held = 'lock owner "x" of client 1 holds bytes of file "/a" (state 2)'
    released = ReleaseLockowner(LockOwner(1, 1, b"x"))
    story.call(Opnum.RELEASE_LOCKOWNER, released, (held, "RELEASE_LOCKOWNER"), None)
    story.unlock(2, state(2))
    story.unlock(3, state(2, 2), ("a length of 0 names no bytes", RANGES), 0)
    story.call(Opnum.LOCK, Lock(1, 0, 5, ALL, KnownLocker(state(2, 2), 4)))
    held = (
        'lock owner "x" of client 1 holds the bytes from 5 on of file "/a" for reading, in state 2, which was '
        "changed last by entry 14 (LOCK)"
    )
    story.call(Opnum.LOCKT, Lockt(2, 0, ALL, LockOwner(1, 1, b"y")), (held, RANGES))
    place = 'the current filehandle is that of directory "/d", which is no file'
    story.call(Opnum.LOCKT, Lockt(1, 0, 1, LockOwner(1, 1, b"y")), (place, "LOCKT"), DIRECTORY)
    story.open(8, owner=b"A", access=1, name=b"b")
    mode = (
        'the lock needs access to WRITE, but state 3, an open of file "/b" by open owner "A" of client 1, has '
        "access only to READ"
    )
    story.lock_first(9, state(3), 5, (mode, "LOCK"), filehandle=OTHER_FILE)
    return story


def owners_that_are_forgotten() -> Story:
    """The number of a closed open leads nowhere then; nor did it where the CLOSE wasn't the kept request any longer."""
    story = begun()
    story.close(3, state(1, 2))
    story.server.forget(91)
    closed = f"state 1, an {OPEN_A}, was ended by entry 4 (CLOSE)"
    ended = (f"{closed}, and its owner was forgotten by entry 5", "Idle owners")
    story.close(3, state(1, 2), ended)
    story.confirm(4, state(1, 3), ended)
    # Entries 8 to 11: where no owner is asked for it is no matter; and the stateid of another client.
    story.read(state(1, 2), (closed, STATEIDS))
    story.introduce(b"c2")
    story.confirm_client(2, 2)
    story.close(3, state(1, 2, client=2), ("state 1 was given to client 1, but the stateid names client 2", OWNERS))
    # Entries 12 to 16: it comes again, by another open.
    story.open(7)
    unconfirmed = (
        'open owner "A" of client 1 isn\'t confirmed: it has opened the file in entry 12, but no '
        "OPEN_CONFIRM has followed"
    )
    story.close(8, state(2), (unconfirmed, STATEIDS))
    story.close(3, state(1, 2), ended)
    story.confirm(8, state(2))
    story.close(9, state(2, 2))
    story.open(10, NO_FILE, name=b"e")
    story.server.forget(91)
    story.close(9, state(2, 2), (f"state 2, an {OPEN_A}, was ended by entry 16 (CLOSE)", OWNERS))
    return story


STORIES = (
    stateids,
    ends,
    clients,
    records_that_give_way,
    sequence_ids,
    kept_answers,
    no_kept_answers,
    opens,
    shares,
    many_shares,
    locks,
    owners_that_are_forgotten,
)
