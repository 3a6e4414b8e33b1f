"""For each finding of `tools/judge` a run of two small clients: one makes just this mistake, and the other does right
beside it. What the findings are, and which answers they stand on, is as RFC 7530 has it, and not as the judge says."""
from collections.abc import Callable
from typing import NamedTuple

from helpers.expecting_client import Wrong
from helpers.judge_servers import Room, Setting
from helpers.right_client import Locked, Opened, RightClient, Share, Span, write_span
from nfs4tools.wire import (
    BOTH,
    Close,
    Delegreturn,
    Lock,
    LockOwner,
    Locku,
    NewLocker,
    Opnum,
    READ,
    Read,
    Setclientid,
    SetclientidConfirm,
    Status,
    WRITE_LT,
    Write,
)

Play = Callable[[Room, RightClient, RightClient], None]
ERROR, WARNING = "error", "warning"
LENDING = Setting(delegations="all")


class Case(NamedTuple):
    """What the client `wrong` does wrong, by the finding's name and severity; the other errors that it has, of the
    refusals that this one follows; and what the server is begun with. Neither client leaves anything behind, unless
    the case says so."""

    finding: str
    play: Play
    severity: str = ERROR
    also: tuple[str, ...] = ()
    setting: Setting = Setting()
    leaves: bool = True


CASES: list[Case] = []


def case(
    name: str, severity: str = ERROR, also: tuple[str, ...] = (), setting: Setting = Setting(), leaves: bool = True
) -> Callable[[Play], Play]:
    def keep(play: Play) -> Play:
        CASES.append(Case(name, play, severity, also, setting, leaves))
        return play

    return keep


# What clients do right.


def opened(client: RightClient, path: bytes = b"a", share: Share = (BOTH, 0), owner: bytes = b"A") -> Opened:
    want(client.do(client.opening(client.owner(owner), (path,), share)))
    return next(it for it in client.opens if (it.path, it.owner.name) == ((path,), owner))


def locked(client: RightClient, found: Opened, span: Span = write_span(), name: bytes = b"x") -> Locked:
    want(client.do(client.locking(client.locker(name), found, span)))
    return next(it for it in found.locks if it.owner.name == name)


def want(status: int, wanted: Status = Status.OK) -> None:
    if status != wanted:
        raise Wrong(f"{Status(status).name}, wanted {wanted.name}")


def next_id(found: Opened | Locked, more: int = 1) -> int:
    return found.owner.seqid + more


# Stateids.


@case("stateid-of-other-kind")
def unlock_by_open(_room: Room, wrong: RightClient, right: RightClient) -> None:
    held = locked(wrong, opened(wrong))
    words = Locku(WRITE_LT, next_id(held), held.opened.stateid, 0, 10)
    want(wrong.on(held.handle, Opnum.LOCKU, words)[-1].status, Status.BAD_SEQID)
    want(right.do(right.unlocking(locked(right, opened(right), write_span(100)))))


@case("stateid-of-other-kind")
def close_by_lock(_room: Room, wrong: RightClient, right: RightClient) -> None:
    held = locked(wrong, opened(wrong))
    want(wrong.do(wrong.unlocking(held)))
    words = Close(held.owner.seqid + 1, held.stateid)
    want(wrong.on(held.handle, Opnum.CLOSE, words)[-1].status, Status.BAD_STATEID)
    want(right.do(right.closing(opened(right))))


@case("stateid-of-other-kind", setting=LENDING)
def return_by_open(_room: Room, wrong: RightClient, right: RightClient) -> None:
    for client, path in (wrong, b"a"), (right, b"b"):
        opened(client, path)
        opened(client, path, (READ, 0))
    words = Delegreturn(wrong.opens[0].stateid)
    want(wrong.on(wrong.opens[0].handle, Opnum.DELEGRETURN, words)[-1].status, Status.BAD_STATEID)
    want(right.do(right.giving_back(right.lent[0])))


@case("stateid-of-other-file")
def write_to_other_file(_room: Room, wrong: RightClient, right: RightClient) -> None:
    one, other = opened(wrong), opened(wrong, b"b")
    want(wrong.on(other.handle, Opnum.WRITE, Write(one.stateid, 0, 2, b"x"))[-1].status, Status.BAD_STATEID)
    want(right.do(right.writing(opened(right))))


@case("stateid-unknown")
def made_up_number(_room: Room, wrong: RightClient, right: RightClient) -> None:
    found = opened(wrong)
    made_up = found.stateid._replace(number=0x01000000)
    want(wrong.on(found.handle, Opnum.READ, Read(made_up, 0, 5))[-1].status, Status.BAD_STATEID)
    want(right.do(right.reading(opened(right))))


@case("stateid-unknown")
def made_up_seqid(_room: Room, wrong: RightClient, right: RightClient) -> None:
    found = opened(wrong)
    ahead = found.stateid._replace(seqid=found.stateid.seqid + 1)
    want(wrong.on(found.handle, Opnum.READ, Read(ahead, 0, 5))[-1].status, Status.BAD_STATEID)
    want(right.do(right.reading(opened(right))))


@case("stateid-closed")
def read_after_close(_room: Room, wrong: RightClient, right: RightClient) -> None:
    """The other client reads the same bytes."""
    found = opened(wrong)
    want(wrong.do(wrong.closing(found)))
    want(wrong.do(wrong.reading(found)), Status.BAD_STATEID)
    want(right.do(right.reading(opened(right))))


@case("stateid-closed", WARNING)
def read_beside_close(_room: Room, wrong: RightClient, right: RightClient) -> None:
    """It may have been under way, on another connection: the client reads the same bytes by another open."""
    for client in wrong, right:
        found, other = opened(client), opened(client, owner=b"B")
        want(client.do(client.closing(found)))
        if client is wrong:
            want(client.do(client.reading(found)), Status.BAD_STATEID)
        want(client.do(client.reading(other)))


@case("stateid-closed")
def close_twice(_room: Room, wrong: RightClient, right: RightClient) -> None:
    """By the next sequence id, so it's no retransmission."""
    found = opened(wrong)
    want(wrong.do(wrong.closing(found)))
    want(wrong.do(wrong.closing(found)), Status.BAD_STATEID)
    want(right.do(right.closing(opened(right))))
    right.again()


@case("stateid-closed")
def lock_after_release(_room: Room, wrong: RightClient, right: RightClient) -> None:
    held = locked(wrong, opened(wrong))
    want(wrong.do(wrong.unlocking(held)))
    want(wrong.do(wrong.releasing(held.owner)))
    want(wrong.do(wrong.unlocking(held)), Status.BAD_STATEID)
    other = locked(right, opened(right), write_span(100))
    want(right.do(right.unlocking(other)))
    want(right.do(right.releasing(other.owner)))
    locked(right, other.opened, write_span(100))


@case("stateid-closed", WARNING)
def late_copy_of_close(_room: Room, wrong: RightClient, right: RightClient) -> None:
    found = opened(wrong)
    want(wrong.do(wrong.closing(found)))
    copy = wrong.last_call
    opened(wrong, b"b")
    want(wrong.call(*copy)[-1].status, Status.BAD_STATEID)
    want(right.do(right.closing(opened(right))))
    opened(right, b"b")


def borrow(client: RightClient, path: bytes, share: Share = (BOTH, 0)) -> Opened:
    """An open of a confirmed owner, with a delegation."""
    if not client.owner(b"A").is_confirmed:
        opened(client, path, (READ, 0))
    found = opened(client, path, share)
    if not client.lent:
        raise Wrong("there is no delegation")
    return found


@case("delegation-used-after-return", setting=LENDING)
def read_after_return(_room: Room, wrong: RightClient, right: RightClient) -> None:
    for client, path in (wrong, b"a"), (right, b"b"):
        borrow(client, path)
        lent = client.lent[0]
        want(client.do(client.reading(lent)))
        want(client.do(client.giving_back(lent)))
        if client is wrong:
            want(client.do(client.writing(lent)), Status.BAD_STATEID)


@case("delegation-used-after-return", WARNING, setting=LENDING)
def read_beside_return(_room: Room, wrong: RightClient, right: RightClient) -> None:
    """It may have been under way: the client reads the same bytes by its open."""
    for client, path in (wrong, b"a"), (right, b"b"):
        found = borrow(client, path)
        lent = client.lent[0]
        want(client.do(client.giving_back(lent)))
        if client is wrong:
            want(client.do(client.reading(lent)), Status.BAD_STATEID)
        want(client.do(client.reading(found)))


@case("delegation-used-after-return", WARNING, setting=LENDING)
def return_again(_room: Room, wrong: RightClient, right: RightClient) -> None:
    for client, path in (wrong, b"a"), (right, b"b"):
        borrow(client, path)
        want(client.do(client.giving_back(client.lent[0])))
    want(wrong.call(*wrong.last_call)[-1].status, Status.BAD_STATEID)


@case("confirm-of-nothing")
def confirm_owner_again(_room: Room, wrong: RightClient, right: RightClient) -> None:
    want(wrong.do(wrong.confirming(opened(wrong))), Status.BAD_STATEID)
    opened(right)


@case("confirm-of-nothing")
def confirm_by_other_value(_room: Room, wrong: RightClient, right: RightClient) -> None:
    """The wrong client confirms by its own verifier, and only then by the value that it was given."""
    introduction = Opnum.SETCLIENTID, Setclientid(wrong.verifier, wrong.name, wrong.callback)
    _, _, confirm = wrong.call(introduction)[-1].value
    for value, wanted in (int.from_bytes(wrong.verifier, "big"), Status.STALE_CLIENTID), (confirm, Status.OK):
        words = SetclientidConfirm(*wrong.clientid, value)
        want(wrong.call((Opnum.SETCLIENTID_CONFIRM, words))[-1].status, wanted)
    want(right.do(right.introducing()))


@case("confirm-of-nothing", WARNING)
def probe_of_another_server(_room: Room, wrong: RightClient, right: RightClient) -> None:
    """By a value that was never given, where nothing waits to be confirmed (RFC 7931, section 5.8)."""
    words = SetclientidConfirm(*wrong.clientid, 4711)
    want(wrong.call((Opnum.SETCLIENTID_CONFIRM, words))[-1].status, Status.STALE_CLIENTID)
    words = SetclientidConfirm(*right.clientid, right.confirm_value)
    want(right.call((Opnum.SETCLIENTID_CONFIRM, words))[-1].status)


def old_stateid(room: Room, wrong: RightClient, moments: int) -> None:
    found = opened(wrong)
    old = found.stateid
    opened(wrong, b"a", (READ, 0))
    room.wait(moments, wrong)
    want(wrong.on(found.handle, Opnum.READ, Read(old, 0, 5))[-1].status, Status.OLD_STATEID)


@case("stateid-old")
def read_by_old(room: Room, wrong: RightClient, right: RightClient) -> None:
    old_stateid(room, wrong, 2)
    found = opened(right)
    opened(right, b"a", (READ, 0))
    want(right.do(right.reading(found)))


@case("stateid-old", WARNING)
def read_under_way(room: Room, wrong: RightClient, right: RightClient) -> None:
    old_stateid(room, wrong, 0)
    want(right.do(right.reading(opened(right))))


@case("stateid-of-other-client")
def lock_for_other_client(_room: Room, wrong: RightClient, right: RightClient) -> None:
    """By the open of another client, and with this one's next sequence id."""
    opened(wrong), opened(wrong, b"b")
    found, theirs = wrong.opens[0], opened(right)
    words = Lock(WRITE_LT, 0, 0, 10, NewLocker(next_id(found), theirs.stateid, 1, LockOwner(*wrong.clientid, b"x")))
    want(wrong.on(found.handle, Opnum.LOCK, words)[-1].status, Status.BAD_SEQID)
    locked(right, theirs)


@case("stateid-of-other-client", setting=LENDING)
def claim_of_other_client(_room: Room, wrong: RightClient, right: RightClient) -> None:
    """The right client opens by its own delegation."""
    opened(wrong, b"b")
    borrow(right, b"a", (READ, 0))
    lent = right.lent[0]
    want(wrong.do(wrong.opening(wrong.owner(b"A"), (b"a",), (READ, 0), lent)), Status.BAD_STATEID)
    want(right.do(right.opening(right.owner(b"A"), (b"a",), (READ, 0), lent)))


# Confirmation.


def unconfirmed(client: RightClient, path: bytes = b"a", owner: bytes = b"U") -> Opened:
    """An open of an owner that isn't confirmed."""
    steps = client.opening(client.owner(owner), (path,), (BOTH, 0))
    operations = next(steps)
    results = client.call(*operations)
    want(results[-1].status)
    client.owners[owner].seqid += 1
    return Opened(client.owners[owner], (path,), results[-1].value, results[-2].value.stateid, [(BOTH, 0)])


@case("owner-not-confirmed")
def write_before_confirm(_room: Room, wrong: RightClient, right: RightClient) -> None:
    found = unconfirmed(wrong)
    want(wrong.do(wrong.writing(found)), Status.BAD_STATEID)
    wrong.opens.append(found)
    want(wrong.do(wrong.confirming(found)))
    want(right.do(right.writing(opened(right))))


@case("owner-not-confirmed")
def lost_by_second_open(_room: Room, wrong: RightClient, right: RightClient) -> None:
    first, second = unconfirmed(wrong), unconfirmed(wrong, b"b")
    want(wrong.do(wrong.confirming(first)), Status.BAD_STATEID)
    wrong.opens.append(second)
    want(wrong.do(wrong.confirming(second)))
    opened(right), opened(right, b"b")


# Sequence ids.


@case("sequence-id-moved-after-uncounted-refusal", also=("no-filehandle",))
def moved_after_no_filehandle(_room: Room, wrong: RightClient, right: RightClient) -> None:
    found = opened(wrong)
    words = Close(next_id(found), found.stateid)
    want(wrong.call((Opnum.CLOSE, words))[-1].status, Status.NOFILEHANDLE)
    want(wrong.on(found.handle, Opnum.CLOSE, Close(next_id(found, 2), found.stateid))[-1].status, Status.BAD_SEQID)
    want(right.do(right.closing(opened(right))))


@case("sequence-id-moved-after-uncounted-refusal", also=("confirm-of-nothing",))
def moved_after_bad_stateid(_room: Room, wrong: RightClient, right: RightClient) -> None:
    """The refusal is one of this owner."""
    found = opened(wrong)
    want(wrong.do(wrong.confirming(found)), Status.BAD_STATEID)
    found.owner.seqid += 1
    want(wrong.do(wrong.closing(found)), Status.BAD_SEQID)
    found.owner.seqid -= 1
    want(right.do(right.closing(opened(right))))


@case("sequence-id-moved-after-uncounted-refusal", also=("stateid-unknown",))
def moved_after_unknown(_room: Room, wrong: RightClient, right: RightClient) -> None:
    """The refusal names no owner."""
    found = opened(wrong)
    unknown = found.stateid._replace(number=4711)
    want(wrong.on(found.handle, Opnum.CLOSE, Close(next_id(found), unknown))[-1].status, Status.BAD_STATEID)
    found.owner.seqid += 1
    want(wrong.do(wrong.closing(found)), Status.BAD_SEQID)
    found.owner.seqid -= 1
    want(right.do(right.closing(opened(right))))


@case("sequence-id-kept-after-counted-refusal")
def kept_after_denied(_room: Room, wrong: RightClient, right: RightClient) -> None:
    """The id of a LOCK that was DENIED, for one of other bytes."""
    for client, at in (right, 0), (wrong, 100):
        locked(client, opened(client), write_span(at))
    held = wrong.opens[0].locks[0]
    want(wrong.do(wrong.locking(held.owner, held.opened, write_span(0))), Status.DENIED)
    held.owner.seqid -= 1
    want(wrong.do(wrong.locking(held.owner, held.opened, write_span(200))), Status.BAD_SEQID)
    held.owner.seqid += 1
    other = right.opens[0].locks[0]
    want(right.do(right.locking(other.owner, other.opened, write_span(100))), Status.DENIED)
    want(right.do(right.locking(other.owner, other.opened, write_span(300))))


@case("sequence-id-kept-after-counted-refusal")
def kept_answer_four_times(_room: Room, wrong: RightClient, right: RightClient) -> None:
    """The right client sends a refused request three times, as two replies may be lost."""
    for client, times in (wrong, 3), (right, 2):
        found = opened(client)
        want(client.do(client.opening(found.owner, (b"e",))), Status.NOENT)
        wanted = [Status.NOENT] * times
        if [client.again()[-1].status for _ in wanted] != wanted:
            raise Wrong("the kept answer doesn't come")


@case("other-request-with-last-id")
def id_of_lock_again(_room: Room, wrong: RightClient, right: RightClient) -> None:
    """The open's sequence id, which its first LOCK had."""
    for client, at in (wrong, 0), (right, 100):
        locked(client, opened(client), write_span(at))
        want(client.do(client.unlocking(client.opens[0].locks[0])))
    found = wrong.opens[0]
    found.owner.seqid -= 1
    want(wrong.do(wrong.closing(found)), Status.BAD_SEQID)
    found.owner.seqid += 1
    want(right.do(right.closing(right.opens[0])))


@case("sequence-id-skipped")
def skipped(_room: Room, wrong: RightClient, right: RightClient) -> None:
    found = opened(wrong)
    found.owner.seqid += 1
    want(wrong.do(wrong.closing(found)), Status.BAD_SEQID)
    found.owner.seqid -= 1
    want(right.do(right.closing(opened(right))))


@case("sequence-id-reused")
def begun_again(_room: Room, wrong: RightClient, right: RightClient) -> None:
    """The owner's sequence ids begin at 1 again behind a CLOSE."""
    for client in wrong, right:
        want(client.do(client.closing(opened(client))))
    before, wrong.owners[b"A"].seqid = wrong.owners[b"A"].seqid, 0
    want(wrong.do(wrong.opening(wrong.owners[b"A"], (b"b",))), Status.BAD_SEQID)
    wrong.owners[b"A"].seqid = before
    opened(right, b"b")


@case("new-lock-owner-again")
def new_lock_owner_again(_room: Room, wrong: RightClient, right: RightClient) -> None:
    for client, at in (wrong, 0), (right, 100):
        locked(client, opened(client), write_span(at))
    found, held = wrong.opens[0], wrong.opens[0].locks.pop()
    want(wrong.do(wrong.locking(held.owner, found, write_span(20))), Status.BAD_SEQID)
    found.locks.append(held)
    want(right.do(right.locking(right.lockers[b"x"], right.opens[0], write_span(120))))
