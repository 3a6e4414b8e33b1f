"""The calls that are counted beside what there is, each kind by a client that came after all others."""

from collections.abc import Callable
from typing import NamedTuple

from bench.scenes import STEP, be_known, lock_runs
from bench.clients import ALL, FILE, NAME, OTHERS, TO_READ, SceneClient
from helpers.expecting_client import BOTH, done, under, Wrong
from nfs4tools.messages import CLOSE, NFS4_OK, RELEASE_LOCKOWNER, words
from nfs4tools.wire import Status, u64

# A state's number that is never given; and a byte in the middle of 1,000 runs, that touches none.
NO_STATE, MIDDLE = 0xFFFFFFF0, STEP * 500 + STEP // 2


def nothing(client: SceneClient) -> None:
    pass


def open_and_close(client: SceneClient) -> None:
    client.open_file(FILE)
    client.close()


def arrive(client: SceneClient) -> None:
    client.arrive()


def be_lent_it(client: SceneClient) -> None:
    """From here on its OPENs to read bring nothing more."""
    be_known(client)
    client.borrow_and_close(NAME)
    client.access = TO_READ


def open_it(client: SceneClient) -> None:
    client.open_file(FILE)


def hold_runs(client: SceneClient) -> None:
    """The runs that whoever is measured is to hold."""
    client.open_file(FILE)
    if client.scene.own_runs:
        lock_runs(client, client.scene.own_runs)


def hold_a_lock_state(client: SceneClient) -> None:
    """With these runs, or none."""
    hold_runs(client)
    if not client.scene.own_runs:
        client.lock_as(client.locker, MIDDLE)
        client.unlock_byte(MIDDLE)


def lock_and_unlock(client: SceneClient) -> None:
    client.lock_byte(MIDDLE)
    client.unlock_byte(MIDDLE)


def test(client: SceneClient) -> None:
    client.test(u64(MIDDLE) + u64(1))


def test_all(client: SceneClient) -> None:
    client.test(ALL)


def close_once(client: SceneClient) -> None:
    client.open_file(FILE)
    client.closing = client.close_words(client.last + 1)
    client.close()


def close_again(client: SceneClient) -> None:
    client.want(*under(FILE, client.closing, done(CLOSE, client.open_stateid())))


def close_nothing(client: SceneClient) -> None:
    client.refuse(Status.BAD_STATEID, words(CLOSE, client.last + 1) + client.stateid(NO_STATE, 1))


def reopen_oldest(client: SceneClient) -> None:
    owner = client.scene.openers.popleft()
    owner.close()
    owner.open_it(NAME)
    client.scene.openers.append(owner)


def release_oldest(client: SceneClient) -> None:
    owner, locker = client.scene.idle.popleft()
    owner.locker = locker
    owner.want((owner.release_words(), done(RELEASE_LOCKOWNER)))


def open_for_writing(client: SceneClient) -> None:
    """Another file each time, of which all that is lent is called back."""
    status = client.open_by_name(OTHERS[client.turn], BOTH).status
    client.turn += 1
    if status != (Status.DELAY if client.scene.lenders else NFS4_OK):
        raise Wrong(f"an OPEN gets status {status}")


class Kind(NamedTuple):
    """In words; what is done once, and then again and again; how many calls that is; how often it is done,
    uncounted and counted; and what has to be there."""

    what: str
    begin: Callable[[SceneClient], None]
    again: Callable[[SceneClient], None]
    calls: int
    before: int
    times: int
    alone: str = ""


KINDS = {
    "OPEN+CLOSE": Kind("for reading and writing", open_and_close, open_and_close, 2, 50, 250),
    "OPEN+CLOSE-to-read": Kind(
        "for reading, by a client that is lent the file", be_lent_it, open_and_close, 2, 50, 250
    ),
    "LOCK+LOCKU": Kind(
        "of a byte, of which the lock state holds no neighbour", hold_a_lock_state, lock_and_unlock, 2, 50, 250
    ),
    "LOCKT": Kind("of a byte, for reading", hold_runs, test, 1, 50, 500),
    "LOCKT-of-all": Kind("of all bytes, for reading", open_it, test_all, 1, 2, 20),
    "READ": Kind("of 4 KiB, by an open's stateid", open_it, SceneClient.read, 1, 50, 500),
    "SETCLIENTID+CONFIRM": Kind("of one id, by the same verifier", nothing, arrive, 2, 50, 250),
    "CLOSE-again": Kind("one that was answered OK comes again", close_once, close_again, 1, 50, 500),
    "CLOSE-of-nothing": Kind("by the number of no state", close_once, close_nothing, 1, 50, 500),
    "oldest-CLOSE+OPEN": Kind(
        "each time by the owner of the oldest open of the file", nothing, reopen_oldest, 2, 50, 250, "opens=1"
    ),
    "oldest-RELEASE_LOCKOWNER": Kind(
        "each time of the oldest lock owner", nothing, release_oldest, 1, 10, 50, "idle=60"
    ),
    "OPEN-that-calls-back": Kind(
        "for writing, each time of another file, of which all that is lent is called back",
        open_and_close,
        open_for_writing,
        1,
        1,
        8,
    ),
}
