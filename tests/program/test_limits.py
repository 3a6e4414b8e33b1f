"""The built program at its limits of 16,384 owners, also of both kinds together, of 65,536 opens, of as many opens and
delegations or opens and lock states together, of 1,024 runs of a lock state, of 65,536 bytes of a file, and of a
journal of 1,000,000 entries, each met and passed by one. The bytes are written and read at once, and one by one. The
journal is that of a client which begins anew again and again, and so gets 500,000 numbers. The calls up to 1,024 runs
have to be answered within ten seconds.

What is wanted is written beside each call, since the model would take minutes for so many."""
import subprocess
import time

import pytest

from helpers.call_steps import (
    FILES,
    LENDING,
    READ,
    TREE,
    call,
    closing,
    coming,
    compounds,
    confirming,
    introduce,
    opening,
    reply,
    result,
)
from nfs4tools.model.pages import PAGE
from nfs4tools.model.ranges import ALL_ONES, RUNS_LIMIT
from nfs4tools.model.state import JOURNAL_LIMIT, OWNERS_LIMIT, STATES_LIMIT
from nfs4tools.model.state_parts import SLOTS, handle_of
from nfs4tools.model.tree import TEXT_LIMIT
from nfs4tools.processes import PROGRAM
from nfs4tools.wire import BOTH, FILE_SYNC4, Opnum, READ_LT, Status, WRITE_LT, opaque, u32, u64

pytestmark = [pytest.mark.needs("nfs4state"), pytest.mark.quick]


def owners_at_their_limit(limit=OWNERS_LIMIT):
    yield introduce(1, 1)
    for owner in range(limit):
        yield opening(owner, 1, 0, number=owner + 1, flags=6)
    yield opening(limit, 1, 0, status=Status.RESOURCE)
    # An OPEN of an owner that isn't confirmed starts the owner anew, in the place that it had.
    yield opening(0, 5, 0, number=limit + 1, flags=6) + confirming(6, limit + 1)
    yield opening(limit, 1, 0, status=Status.RESOURCE)
    # A closed owner is still known: `once` forgets nobody.
    yield closing(7, 2, limit + 1, 0)
    yield opening(limit, 1, 0, status=Status.RESOURCE)
    # An owner that isn't confirmed leaves its place by an OPEN that starts it anew and fails: there is no such file.
    yield opening(1, 9, FILES, status=Status.NOENT)
    yield opening(limit, 1, 0, number=limit + 2, flags=6)
    yield opening(1, 9, 0, status=Status.RESOURCE)
    # When a client has started again, its old owners are gone and their places are free.
    yield introduce(2, 2)
    yield opening(0, 1, 0, client=2, number=limit + 3, flags=6)


def opens_at_their_limit(owners=STATES_LIMIT // (FILES - 1), limit=STATES_LIMIT):
    yield introduce(1, 1)
    files = limit // owners
    for owner in range(owners):
        first = owner * files + 1
        yield opening(owner, 1, 0, number=first, flags=6) + confirming(2, first)
        for file in range(1, files):
            yield opening(owner, 2 + file, file, number=first + file)
    following = files + 2
    yield opening(0, following, files, status=Status.RESOURCE)
    # An OPEN of a file that its owner has open needs no place. It has the sequence id of the OPEN before, which was
    # RESOURCE and so didn't count.
    yield opening(0, following, 0, number=1, state_seqid=3)
    yield opening(0, following + 1, files, status=Status.RESOURCE)
    yield closing(following + 1, 3, 1, 0)
    yield opening(0, following + 2, files, number=limit + 1)
    yield opening(1, following, files, status=Status.RESOURCE)


def returning(number, file):
    """A DELEGRETURN of the state."""
    return [
        (u32(Opnum.PUTFH) + opaque(handle_of(file + 1)), result(Opnum.PUTFH)),
        (u32(Opnum.DELEGRETURN, 1, 1, 1, number), result(Opnum.DELEGRETURN)),
    ]


def delegations_at_their_limit(limit=STATES_LIMIT):
    """Each owner opens all files but the last one. The first one is confirmed when it opens the second file, and so
    brings the client's delegation of each but the first."""
    files = FILES - 1
    yield introduce(1, 1)
    yield opening(0, 1, 0, number=1, flags=6) + confirming(2, 1)
    for file in range(1, files):
        yield opening(0, 2 + file, file, number=2 * file, given=2 * file + 1)
    others = (limit - 2 * files) // files
    for owner in range(1, others + 1):
        first = 2 * files + (owner - 1) * files
        yield opening(owner, 1, 0, number=first, flags=6) + confirming(2, first)
        for file in range(1, files):
            yield opening(owner, 2 + file, file, number=first + file)
    # There is one place, and so none for an open and its delegation.
    last, seqid = limit - 1, files + 2
    yield opening(0, seqid, files, status=Status.RESOURCE)
    # A delegation alone, by an OPEN that joins an open, has the place.
    yield opening(0, seqid, 0, number=1, state_seqid=3, given=last + 1)
    yield opening(0, seqid + 1, files, status=Status.RESOURCE)
    yield opening(0, seqid + 1, files, status=Status.RESOURCE, deny=READ)
    # What is given back leaves its place, and an OPEN that brings none needs none for it.
    yield returning(3, 1)
    yield opening(0, seqid + 1, files, status=Status.RESOURCE)
    yield opening(0, seqid + 1, files, number=last + 2, deny=READ)
    yield opening(0, seqid + 2, 1, status=Status.RESOURCE)
    yield opening(0, seqid + 2, 2, number=4, state_seqid=2)
    yield returning(5, 2)
    yield opening(0, seqid + 3, 1, number=2, state_seqid=2, given=last + 3)
    yield opening(0, seqid + 4, 2, status=Status.RESOURCE)
    # By CLOSE, too; a delegation stays when its open goes.
    yield closing(seqid + 4, 2, 4, 2)
    yield opening(0, seqid + 5, 2, status=Status.RESOURCE)
    yield closing(seqid + 5, 1, 6, 3)
    yield opening(0, seqid + 6, 2, number=last + 4, given=last + 5)
    yield opening(0, seqid + 7, 3, status=Status.RESOURCE)
    # When a client has started again, its delegations are gone and their places are free.
    yield introduce(2, 2)
    yield opening(0, 1, files, client=2, number=last + 6, flags=6)


def writing(offset, data, status=Status.OK):
    """By the special stateid of zeros, as the READs."""
    rest = u32(len(data), FILE_SYNC4, 1, 0) if status == Status.OK else b""
    words = u32(Opnum.WRITE, 0, 0, 0, 0) + u64(offset) + u32(FILE_SYNC4) + opaque(data)
    return words, result(Opnum.WRITE, status, rest)


def reading(text, offset, count):
    """So many bytes of a file that has this text."""
    data = bytes(text[offset : offset + count])
    return (
        u32(Opnum.READ, 0, 0, 0, 0) + u64(offset) + u32(count),
        result(Opnum.READ, rest=u32(offset + count >= len(text)) + opaque(data)),
    )


def on_a_file(pairs):
    """Steps of so many operations as there may be in a COMPOUND beside the PUTFH."""
    put = u32(Opnum.PUTFH) + opaque(handle_of(1)), result(Opnum.PUTFH)
    return [[put, *pairs[first : first + 63]] for first in range(0, len(pairs), 63)]


def bytes_at_their_limit(limit=TEXT_LIMIT):
    """They come one by one, and are read; then others at once; and then the first ones again, from the last to the
    first, where now and then the page of the last one that was written is read."""
    first, others = (bytes(place % prime for place in range(limit)) for prime in (251, 241))
    one_by_one = [writing(at, first[at : at + 1]) for at in range(limit)]
    yield from on_a_file(one_by_one + [reading(first, 0, limit)])
    yield from on_a_file([reading(first, at, 1) for at in range(limit)])
    yield from on_a_file([writing(0, others), reading(others, 0, limit)])
    text, pairs = bytearray(others), []
    for at in reversed(range(limit)):
        text[at] = first[at]
        pairs += [one_by_one[at]] + [reading(text, at - at % PAGE, PAGE)] * (at % 61 == 0)
    yield from on_a_file(pairs + [reading(first, 0, limit)])
    yield from on_a_file([writing(limit, b"x", Status.FBIG)])


def journal_at_its_limit(limit=JOURNAL_LIMIT):
    """The client gets the next number of that of the slots 1 and 2 which it hasn't."""
    for turn in range(limit // 2):
        yield introduce(turn + 1, 1 + turn % 2 + SLOTS * (turn // 2))
    yield [coming(0, Status.RESOURCE)]


# With byte-range locks.

OPENED = FILES - 1


def under(file, opnum, words, status=Status.OK, rest=b""):
    """A step: an operation on a file, and its result."""
    put = u32(Opnum.PUTFH) + opaque(handle_of(file + 1))
    return [(put, result(Opnum.PUTFH)), (u32(opnum) + words, result(opnum, status, rest))]


def stateid(seqid, number, client=1):
    return u32(seqid, 1, client, number)


def spelled(owner, client=1):
    return u32(1, client) + opaque(b"lock owner %d" % owner)


class Locker:
    """The open owner of a client, whose first open is on file 0 and confirmed, with the numbers that come next."""

    def __init__(self, seqid, number, client=1):
        self.seqid, self.number, self.client = seqid, number, client

    def first_lock(self, owner, file, lock_seqid=1, offset=None, status=Status.OK, open_number=None, open_seqid=None):
        """A LOCK of a byte by a new lock owner, each at a byte of its own. The open on the file has the number of the
        file plus 1."""
        opened = stateid(open_seqid or (2 if file == 0 else 1), open_number or file + 1, self.client)
        byte = owner if offset is None else offset
        words = u32(READ_LT, 0) + u64(byte) + u64(1) + u32(1, self.seqid) + opened + u32(lock_seqid)
        rest = b""
        if status == Status.OK:
            rest = stateid(1, self.number, self.client)
            self.number, self.seqid = self.number + 1, self.seqid + 1
        return under(file, Opnum.LOCK, words + spelled(owner, self.client), status, rest)

    def open(self, file, status=Status.OK):
        """An OPEN of a file that isn't open yet, by the open owner."""
        step = opening(0, self.seqid, file, number=self.number, status=status)
        if status == Status.OK:
            self.number, self.seqid = self.number + 1, self.seqid + 1
        return step


def next_lock(seqid, number, file, offset, state_seqid, status=Status.OK, locktype=READ_LT):
    """A LOCK of a byte by the lock state."""
    words = u32(locktype, 0) + u64(offset) + u64(1) + u32(0) + stateid(state_seqid, number) + u32(seqid)
    rest = stateid(state_seqid + 1, number) if status == Status.OK else b""
    return under(file, Opnum.LOCK, words, status, rest)


def unlock(seqid, number, file, offset=0, length=ALL_ONES, state_seqid=1, status=Status.OK):
    """A LOCKU, of all bytes if nothing else is said."""
    words = u32(WRITE_LT, seqid) + stateid(state_seqid, number) + u64(offset) + u64(length)
    rest = stateid(state_seqid + 1, number) if status == Status.OK else b""
    return under(file, Opnum.LOCKU, words, status, rest)


def release(owner, status=Status.OK):
    return [(u32(Opnum.RELEASE_LOCKOWNER) + spelled(owner), result(Opnum.RELEASE_LOCKOWNER, status))]


def open_files(locker, count, access=READ):
    """The client, and the open owner with its first files opened, file 0 for this access."""
    yield introduce(1, 1)
    yield opening(0, 1, 0, number=1, flags=6, access=access) + confirming(2, 1)
    for file in range(1, count):
        yield locker.open(file)


def owners_of_both_kinds(limit=OWNERS_LIMIT):
    locker = Locker(3, 2)
    yield from open_files(locker, OPENED)
    # One open owner, and lock owners from 1 on: the first one's state has the number after those of the opens.
    first = locker.number
    for owner in range(1, limit):
        yield locker.first_lock(owner, owner % OPENED)
    yield locker.first_lock(limit, 0, status=Status.RESOURCE)
    yield opening(1, 1, 0, status=Status.RESOURCE)
    # A known lock owner needs no place for itself on another file, and the open owner none for another open.
    yield locker.first_lock(1, 2, lock_seqid=2)
    yield locker.open(OPENED)
    yield locker.first_lock(limit, 0, status=Status.RESOURCE)
    # An owner that holds nothing is still known, until it is released.
    yield unlock(2, first + 1, 2)
    yield locker.first_lock(limit, 0, status=Status.RESOURCE)
    yield release(2)
    yield locker.first_lock(limit, 0)
    yield locker.first_lock(2, 2, status=Status.RESOURCE)
    yield release(3, Status.LOCKS_HELD)
    # CLOSE frees lock states, and their owners stay known; released ones leave places for open owners, too.
    yield closing(locker.seqid, 1, 4, 3)
    locker.seqid += 1
    yield opening(1, 1, 0, status=Status.RESOURCE)
    yield release(3)
    yield opening(1, 1, 0, number=locker.number, flags=6)
    locker.number += 1
    yield locker.first_lock(3, 0, status=Status.RESOURCE)
    # When a client has started again, its old owners are gone and their places are free.
    yield introduce(2, 2)
    yield opening(0, 1, 0, client=2, number=locker.number, flags=6)


def states_at_their_limit(limit=STATES_LIMIT):
    locker = Locker(3, 2)
    yield from open_files(locker, OPENED)
    # Each lock owner has a lock state on each open file.
    owners = limit // OPENED - 1
    first = locker.number
    for owner in range(1, owners + 1):
        for file in range(OPENED):
            yield locker.first_lock(owner, file, lock_seqid=1 + file)
    yield locker.first_lock(owners + 1, 0, status=Status.RESOURCE)
    yield locker.open(OPENED, status=Status.RESOURCE)
    # A LOCK by a lock state, and an OPEN of an open file, need no place.
    yield next_lock(OPENED + 1, first, 0, 70000, 1)
    yield opening(0, locker.seqid, 1, number=2, state_seqid=2)
    locker.seqid += 1
    # LOCKU leaves the lock states, RELEASE_LOCKOWNER makes places for all of them.
    for file in range(OPENED):
        yield unlock(OPENED + 1 + file, first + OPENED + file, file)
    yield locker.open(OPENED, status=Status.RESOURCE)
    yield release(2)
    yield locker.open(OPENED)
    opened = locker.number - 1
    for owner in range(1, OPENED):
        yield locker.first_lock(owners + owner, OPENED, open_number=opened)
    yield locker.first_lock(2, 2, status=Status.RESOURCE)
    # CLOSE makes places for the open and all lock states that were made by it.
    yield closing(locker.seqid, 1, opened, OPENED)
    locker.seqid += 1
    for owner in range(1, OPENED + 1):
        yield locker.first_lock(owners + owner, 3, lock_seqid=2 if owner < OPENED else 1)
    yield locker.first_lock(2, 2, status=Status.RESOURCE)


def runs_at_their_limit(limit=RUNS_LIMIT):
    """Only up to the limit: this part is timed."""
    locker = Locker(3, 2)
    yield from open_files(locker, 1, BOTH)
    yield locker.first_lock(1, 0, offset=0)
    for run in range(1, limit):
        yield next_lock(1 + run, 2, 0, 2 * run, run)


def runs_past_their_limit(limit=RUNS_LIMIT):
    yield from runs_at_their_limit(limit)
    yield next_lock(limit + 1, 2, 0, 2 * limit, limit, Status.RESOURCE)
    # A byte that joins two runs makes a place. A byte in the middle of a run, in another mode, would take two.
    yield next_lock(limit + 1, 2, 0, 1, limit)
    yield next_lock(limit + 2, 2, 0, 1, limit + 1, Status.RESOURCE, WRITE_LT)
    # One more run takes the place. Then no run may be divided, neither by LOCKU nor by another mode.
    yield next_lock(limit + 2, 2, 0, 2 * limit, limit + 1)
    yield unlock(limit + 3, 2, 0, 1, 1, limit + 2, Status.RESOURCE)
    yield next_lock(limit + 3, 2, 0, 1, limit + 2, Status.RESOURCE, WRITE_LT)
    yield next_lock(limit + 3, 2, 0, 2 * limit + 2, limit + 2, Status.RESOURCE)
    # A run that gets shorter or longer needs no place.
    yield unlock(limit + 3, 2, 0, 0, 1, limit + 2)
    yield next_lock(limit + 4, 2, 0, 0, limit + 3)
    # Another lock owner has runs of its own.
    yield Locker(4, 3).first_lock(2, 0, offset=2 * limit + 2)
    yield unlock(limit + 5, 2, 0, state_seqid=limit + 4)
    yield next_lock(limit + 6, 2, 0, 2 * limit + 2, limit + 5)


# All.

SIDES = {
    "owners": (owners_at_their_limit, TREE),
    "opens": (opens_at_their_limit, TREE),
    "opens and delegations": (delegations_at_their_limit, LENDING),
    "bytes of a file": (bytes_at_their_limit, TREE),
    "journal": (journal_at_its_limit, TREE),
    "owners of both kinds": (owners_of_both_kinds, TREE),
    "opens and lock states": (states_at_their_limit, TREE),
    "runs, and one more": (runs_past_their_limit, TREE),
    "runs": (runs_at_their_limit, TREE),
}
# The seconds in which all calls have to be answered.
PATIENCE = {"runs": 10}


@pytest.mark.parametrize("name", SIDES)
def test_limit(name, tmp_path, tell):
    """The program answers these steps as wanted."""
    steps, document = SIDES[name]
    (tmp_path / "tree.toml").write_text(document)
    found = list(enumerate(compounds(steps()), 1))
    sent, wanted = (b"".join(one(*pair) for pair in found) for one in (call, reply))
    refused = sum(int.from_bytes(reply(*pair)[28:32], "big") != Status.OK for pair in found)
    assert len(found) > 10 and (refused > 0) == (name not in PATIENCE), "the steps don't come to the limit"
    begun = time.monotonic()
    got = subprocess.run([PROGRAM, "once", "--tree", tmp_path / "tree.toml"], input=sent, stdout=subprocess.PIPE).stdout
    seconds = time.monotonic() - begun
    if got != wanted:
        same = next((at for at, (a, b) in enumerate(zip(got, wanted)) if a != b), min(len(got), len(wanted)))
        pytest.fail(f"other bytes from {same} on: {got[same - 40:same + 40].hex()}")
    assert seconds <= PATIENCE.get(name, seconds)
    tell(f"{len(found)} calls in {seconds:.1f} seconds")
