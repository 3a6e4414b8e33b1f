"""Stories about the bytes and attributes of files, and listings, for test_reasons.py, as `reason_cases.py` has them of
opens and locks."""
from collections.abc import Callable, Sequence

from helpers.journal_cases import FOR_CLIENTS
from helpers.reason_stories import (
    ALL,
    DIRECTORY,
    FILE,
    Handle,
    NO_HANDLE,
    OLD,
    ONES,
    OPEN_A,
    OTHER_FILE,
    OWNERS,
    STATEIDS,
    Story,
    ZEROS,
    begun,
    state,
)
from nfs4tools.model.tree import DEFAULT
from nfs4tools.wire import LockOwner, Locku, Opnum, Stateid


def bytes_of_files() -> Story:
    """READ and WRITE by special stateids, and by those of opens and lock states."""
    story, second = begun(), state(1, 2)
    directory = 'the current filehandle is that of directory "/d", which is no file'
    asks: list[tuple[Callable[..., None], str]] = [(story.read, "READ"), (story.write, "WRITE")]
    for ask, heading in asks:
        for stateid in (ZEROS, second):
            ask(stateid, NO_HANDLE, None)
            ask(stateid, (directory, heading), DIRECTORY)
        ask(ZEROS)
        ask(second)
        ask(second._replace(epoch=2), ("the stateid has epoch 2, but this server has epoch 1", STATEIDS))
        ask(second._replace(client=5), ("the stateid is one of client 5, which was never given", STATEIDS))
        ask(state(7), ("state 7 was never given", STATEIDS))
        place = f'the stateid is that of state 1, an {OPEN_A}, but the current filehandle is that of file "/b"'
        ask(second, (place, STATEIDS), OTHER_FILE)
        stands = "state 1 has seqid 2 since entry 3 (OPEN_CONFIRM), but the stateid has the "
        ask(state(1), (stands + "earlier 1", STATEIDS))
        ask(state(1, 3), (stands + "later 3", STATEIDS))
    story.write(
        second, ("offset 65532 and 5 bytes add up to 65537, but a file has at most 65536 bytes", "WRITE"), offset=65532
    )
    story.write(second, offset=65531)
    # Entries 30 to 33: state 2 is B's open of `b`, which writes and denies READ; and then state 3, a lock of it.
    entry = story.server.entries
    story.open(1, owner=b"B", access=2, deny=1, name=b"b")
    unconfirmed = (
        f'open owner "B" of client 1 isn\'t confirmed: it has opened the file in entry {entry}, but no '
        "OPEN_CONFIRM has followed"
    )
    story.read(state(2), (unconfirmed, STATEIDS), OTHER_FILE)
    denies = f'open owner "B" of client 1 denies READ of file "/b" since entry {entry}'
    story.read(ZEROS, (denies + " (it isn't confirmed, which makes no difference here)", "READ"), OTHER_FILE)
    story.write(ONES, filehandle=OTHER_FILE)
    story.confirm(2, state(2), filehandle=OTHER_FILE)
    story.read(ONES, (denies, "READ"), OTHER_FILE)
    access = (
        'READ needs access to READ, but state 2, an open of file "/b" by open owner "B" of client 1, has access ' "only"
    )
    story.read(state(2, 2), (f"{access} to WRITE", "READ"), OTHER_FILE)
    story.lock_first(3, state(2, 2), 1, filehandle=OTHER_FILE)
    story.read(state(3), (f"{access} to WRITE", "READ"), OTHER_FILE)
    story.write(state(3), filehandle=OTHER_FILE)
    story.expire(1)
    gone = f"client 1 was removed by entry {story.server.entries - 1}, because its lease had expired"
    story.read(state(3), (gone, STATEIDS), OTHER_FILE)
    story.write(second, (gone, STATEIDS))
    return story


def listings() -> Story:
    """READDIR, and GETATTR of what can only be set, under the profile "clients"."""
    story = Story(FOR_CLIENTS)
    story.list(NO_HANDLE, filehandle=None)
    story.list(('the current filehandle is that of file "/a", which is no directory', "READDIR"), filehandle=FILE)
    story.list()
    story.list(("attribute 54 (time_modify_set) can only be set", "READDIR"), mask=(0, 1 << 22), cookie=1)
    for cookie in (1, 2, 6, 7, 2**64 - 1):
        story.list(
            (f'cookie {cookie} is neither 0 nor that of a child of directory "/"', "READDIR"),
            cookie=cookie,
            verifier=b"verifier",
            maxcount=0,
        )
    story.list(('cookie 3 is neither 0 nor that of a child of directory "/d"', "READDIR"), DIRECTORY, cookie=3)
    story.list(
        ("the verifier is 7665726966696572, but the verifier of every listing is zero", "READDIR"),
        cookie=3,
        verifier=b"verifier",
        maxcount=0,
    )
    story.list(verifier=b"verifier")
    story.list(('a listing with only "a" has 56 bytes, but here at most 55 are allowed', "READDIR"), maxcount=55)
    story.list(
        ('a listing with only "b" has 56 bytes, but here at most 0 are allowed', "READDIR"), cookie=3, maxcount=0
    )
    story.list(
        ("a listing without an entry has 16 bytes, but here at most 15 are allowed", "READDIR"), cookie=5, maxcount=15
    )
    story.list(maxcount=56)
    story.list(cookie=5, maxcount=16)
    story.ask_for((0, 1 << 16), NO_HANDLE, None)
    story.ask_for((0, 1 << 16), ("attribute 48 (time_access_set) can only be set", "GETATTR"))
    story.ask_for(
        (2**32 - 1, 2**32 - 1), ("attribute 48 (time_access_set); 54 (time_modify_set) can only be set", "GETATTR")
    )
    story.ask_for((0, 1 << 21))
    return story


def sizes() -> Story:
    """SETATTR under the profile "clients"."""
    story = Story(FOR_CLIENTS)
    story.introduce()
    story.confirm_client(1, 1)
    story.open(1, access=1, deny=2)
    story.confirm(2, state(1))
    size, server_time = (2).to_bytes(8, "big"), bytes(4)

    def refuse(
        mask: Sequence[int],
        values: bytes,
        text: str,
        heading: str = "SETATTR",
        filehandle: Handle = OTHER_FILE,
        stateid: Stateid = ZEROS,
    ) -> None:
        story.set(mask, values, (text, heading), filehandle, stateid)

    refuse((16,), size, *NO_HANDLE, None)
    refuse((24, 1 << 16), b"", "attribute 48 (time_access_set) isn't supported")
    refuse((0, 0, 1), b"", "attribute 64 isn't supported")
    refuse((2**32 - 1,), b"", "attribute 12; 13; 14; and 8 more isn't supported")
    refuse((24, 2), b"", "attribute 3 (change) can only be read")
    refuse((16, 2), b"", "attribute 33 (mode) never changes")
    refuse((0, 0x30), b"", "attribute 36 (owner); 37 (owner_group) never changes")
    refuse((16,), size + server_time, "the 12 bytes of values are no values of attribute 4 (size)")
    refuse((), server_time, "the 4 bytes of values are no values of no attribute")
    own_time = "the client gives a time of its own, but the server only sets its own time"
    refuse((0, 1 << 22), bytes((0, 0, 0, 1)) + bytes(12), own_time)
    story.set((16,), size, filehandle=OTHER_FILE)
    story.set((16, 1 << 22), size + server_time, filehandle=OTHER_FILE)
    story.set((), b"", filehandle=DIRECTORY, stateid=state(9))
    refuse((16,), size, 'the current filehandle is that of directory "/d", which is no file', filehandle=DIRECTORY)
    refuse((16,), size, 'open owner "A" of client 1 denies WRITE of file "/a" since entry 2', filehandle=FILE)
    refuse((16,), size, *OLD, FILE, state(1))
    access = f"SETATTR needs access to WRITE, but state 1, an {OPEN_A}, has access only to READ"
    refuse((16,), size, access, filehandle=FILE, stateid=state(1, 2))
    refuse(
        (0, 1 << 22),
        server_time,
        "the stateid has epoch 2, but this server has epoch 1",
        STATEIDS,
        FILE,
        state(1, 2, epoch=2),
    )
    refuse((16,), (65537).to_bytes(8, "big"), "the size is 65537, but a file has at most 65536 bytes")
    story.set((16,), (65536).to_bytes(8, "big"), filehandle=OTHER_FILE)
    return story


def closes_beside_locks() -> Story:
    """Refused as long as a byte is held; and what comes before that."""
    story = Story('policy.close_locks = "refuse"\n' + DEFAULT)
    story.introduce()
    story.confirm_client(1, 1)
    story.open(1)
    story.confirm(2, state(1))
    story.lock_first(3, state(1, 2), 1)
    by_x = (
        'lock owner "x" of client 1 holds bytes 0 to {} of file "/a" for writing{}, in state 2, which was changed '
        "last by "
    )
    held = by_x.format(9, "") + "entry 4 (LOCK)"
    story.close(4, state(1, 2), (held, "CLOSE"))
    again = f"it is a replay of entry 5 (CLOSE), and gets the stored reply; the cause then: {held}"
    story.repeat(5, 'CLOSE by open owner "A" of client 1', (again, OWNERS))
    # Entries 7 to 9: another lock owner, and two ranges of the first.
    story.lock_first(5, state(1, 2), 1, owner=LockOwner(1, 1, b"y"), locktype=1, offset=20, length=ALL)
    story.call(Opnum.LOCKU, Locku(2, 2, state(2), 4, 1))
    by_y = (
        'lock owner "y" of client 1 holds the bytes from 20 on of file "/a" for reading, in state 3, which was '
        "changed last by entry 7 (LOCK)"
    )
    both = by_x.format(3, ", the first of 2 ranges") + f"entry 8 (LOCKU); {by_y}"
    story.close(6, state(1, 2), (both, "CLOSE"))
    story.close(7, state(1), OLD)
    story.unlock(3, state(2, 2), length=ALL)
    story.close(8, state(1, 2), (by_y, "CLOSE"))
    story.unlock(2, state(3), length=ALL)
    story.close(9, state(1, 2))
    return story


STORIES_OF_FILES = (bytes_of_files, listings, sizes, closes_beside_locks)
