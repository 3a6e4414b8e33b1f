"""What a client does in the tests of bugs, beside a peer that does right: it opens, locks, is denied, has delegations
and pauses. It goes on whatever it is answered, as programs do."""
from collections.abc import Callable, Iterator, Sequence

from helpers.judge_servers import Room, wait_for
from helpers.right_client import ENDLESS, Opened, RightClient, Share, Steps, read_span, write_span
from nfs4tools.journal.entries import Path
from nfs4tools.wire import BOTH, READ, Status

A, B, C = (b"a",), (b"b",), (b"d", b"c")
TRIES = 6
Session = Callable[[Room, RightClient, RightClient], None]


def an_open(
    client: RightClient, path: tuple[bytes, ...], owner: bytes = b"A", share: Share = (BOTH, 0)
) -> Opened | None:
    """The open that the client has of a path, after it has asked for it as often as that is denied."""
    for _ in range(TRIES):
        if client.do(client.opening(client.owner(owner), path, share)) not in (Status.SHARE_DENIED, Status.DELAY):
            break
    return next((it for it in client.opens if (it.path, it.owner.name) == (path, owner)), None)


def with_files(room: Room, client: RightClient, peer: RightClient) -> None:
    """Two files by one owner: more access, less, and one of them again by another owner."""
    one, other = an_open(client, A), an_open(client, B)
    if one is None or other is None:
        return
    room.wait(2, client, peer)
    for opened in one, other:
        client.do(client.reading(opened))
        client.do(client.writing(opened))
    an_open(client, A, share=(READ, 0))
    room.wait(2, client, peer)
    client.do(client.reading(one))
    client.do(client.downgrading(one, (READ, 0)))
    room.wait(2, client, peer)
    client.do(client.reading(one))
    an_open(client, A, b"B")
    client.do(client.leaving())
    an_open(client, C)
    client.do(client.leaving())


def with_locks(room: Room, client: RightClient, peer: RightClient) -> None:
    """Locks of two files, of which a peer has one first, and then a share that the peer denies."""
    theirs = an_open(peer, B)
    mine, other = an_open(client, A), an_open(client, B)
    if theirs is None or mine is None or other is None:
        return
    peer.do(peer.locking(peer.locker(b"x"), theirs, write_span(0, 100)))
    for steps in lock_some(client, mine):
        client.do(steps)
    room.wait(2, client, peer)
    do_all(client, [client.unlocking(held, 22, 3) for held in mine.locks])
    deny_lock(client, peer, other, theirs)
    peer.do(peer.leaving())
    denying = an_open(peer, C, share=(READ, BOTH))
    deny_open(client, peer, denying)
    client.do(client.leaving())
    peer.do(peer.leaving())


def lock_some(client: RightClient, opened: Opened) -> Iterator[Steps[int]]:
    yield client.locking(client.locker(b"x"), opened, write_span())
    yield client.locking(client.locker(b"x"), opened, write_span(20))
    yield client.locking(client.locker(b"x"), opened, read_span(40, ENDLESS))


def do_all(client: RightClient, each: Sequence[Steps[int]]) -> None:
    for steps in each:
        client.do(steps)


def deny_lock(client: RightClient, peer: RightClient, opened: Opened, theirs: Opened) -> None:
    """The client asks until the peer unlocks, and then once more."""
    for place in range(TRIES):
        if client.do(client.locking(client.locker(b"y"), opened, write_span(5))) != Status.DENIED:
            break
        do_all(peer, [peer.unlocking(held) for held in theirs.locks if place == TRIES - 3])


def deny_open(client: RightClient, peer: RightClient, denying: Opened | None) -> None:
    for place in range(TRIES):
        if client.do(client.opening(client.owner(b"A"), C)) != Status.SHARE_DENIED:
            break
        if denying is not None and place == TRIES - 3:
            peer.do(peer.closing(denying))


def with_delegations(room: Room, client: RightClient, peer: RightClient) -> None:
    """The client's delegation is recalled, and then the peer's."""
    for holder, other, path in (client, peer, A), (peer, client, B):
        an_open(holder, C, share=(READ, 0))
        an_open(other, C, share=(READ, 0))
        an_open(holder, path)
        do_all(holder, [holder.reading(lent) for lent in holder.lent[:1]])
        recall(room, holder, other, path)
        room.wait(2, client, peer)
        ask_again(other, path)
        room.wait(2, client, peer)
        ask_again(other, path)
    client.do(client.leaving())
    peer.do(peer.leaving())


def recall(room: Room, holder: RightClient, other: RightClient, path: tuple[bytes, ...]) -> None:
    """Another client opens a file that the holder has a delegation of."""
    marks = sum(isinstance(entry, Path) for entry in room.entries())
    status = other.do(other.opening(other.owner(b"A"), path, (READ, 0)))
    for lent in [it for it in holder.lent if it.path == path and status == Status.DELAY]:
        wait_for(room, Path, marks + 1, holder, other)
        ask_again(other, path)
        holder.do(holder.giving_back(lent))
        ask_again(other, path)


def ask_again(client: RightClient, path: tuple[bytes, ...]) -> None:
    for _ in range(2):
        if client.do(client.opening(client.owner(b"A"), path, (READ, 0))) == Status.OK:
            break


def with_pauses(room: Room, client: RightClient, peer: RightClient) -> None:
    """The client has something for longer than a lease, begins anew, and has something for as long again."""
    have_for_long(room, client, peer)
    client.do(client.leaving())
    client.verifier = b"another!"
    client.do(client.introducing())
    have_for_long(room, client, peer)
    client.do(client.leaving())


def have_for_long(room: Room, client: RightClient, peer: RightClient) -> None:
    opened = an_open(client, A)
    room.wait(4, client, peer)
    for _ in range(2 if opened is not None else 0):
        client.do(client.reading(client.opens[0]))
        room.wait(2, client, peer)
        an_open(client, B)
