"""More cases of findings, as judge_cases.py has them: what needs time or callbacks, what an open or a delegation
allows, and what a client leaves behind."""
from helpers.judge_cases import (
    CASES as REQUESTS,
    Case,
    LENDING,
    WARNING,
    borrow,
    case,
    locked,
    opened,
    unconfirmed,
    want,
)
from helpers.judge_servers import ENDS, Room, SILENT, Setting, wait_for
from helpers.right_client import ENDLESS, NO_CREATE, RightClient, read_span, write_span
from nfs4tools.journal.entries import Expire, Path, Revoke
from nfs4tools.wire import (
    BOTH,
    CLAIM_PREVIOUS,
    Callback,
    Claim,
    LockOwner,
    Lockt,
    Open,
    OpenOwner,
    Opnum,
    READ,
    Read,
    Setclientid,
    Status,
    WRITE,
    WRITE_LT,
)

CASES: list[Case] = REQUESTS
# Long enough for a renewal in time, on however busy a machine.
SHORT, LENDING_SHORT = Setting(lease=5), Setting(lease=6, delegations="all")


# Leases.


def lapse(room: Room, wrong: RightClient, right: RightClient) -> None:
    """The wrong client has an open, and doesn't renew its lease, as the right one does."""
    opened(wrong), opened(right)
    wait_for(room, Expire, 1, right)


@case("lease-lapsed", setting=SHORT, leaves=False)
def no_renewal(room: Room, wrong: RightClient, right: RightClient) -> None:
    lapse(room, wrong, right)


@case("lease-lapsed", setting=SHORT, leaves=False)
def renewal_of_other_clientid(room: Room, wrong: RightClient, right: RightClient) -> None:
    """It goes on to renew the clientid that it had before it began anew."""
    before = wrong.clientid
    wrong.verifier = b"another!"
    want(wrong.do(wrong.introducing()))
    now, wrong.clientid = wrong.clientid, before
    want(wrong.do(wrong.renewing()), Status.STALE_CLIENTID)
    wrong.clientid = now
    lapse(room, wrong, right)


@case("continues-with-dead-clientid", setting=SHORT, leaves=False)
def goes_on_when_removed(room: Room, wrong: RightClient, right: RightClient) -> None:
    """Its lease ended when it had nothing. The right client introduces itself anew as soon as it is told."""
    want(wrong.do(wrong.closing(opened(wrong))))
    want(right.do(right.closing(opened(right))))
    wait_for(room, Expire, 2)
    want(wrong.do(wrong.opening(wrong.owners[b"A"], (b"a",))), Status.STALE_CLIENTID)
    want(right.do(right.opening(right.owners[b"A"], (b"a",))), Status.STALE_CLIENTID)
    right.forget_all()
    want(right.do(right.introducing()))
    right.do(right.leaving())
    room.wait(3, right)
    want(wrong.do(wrong.opening(wrong.owners[b"A"], (b"b",))), Status.STALE_CLIENTID)


@case("continues-with-dead-clientid", leaves=False)
def goes_on_when_replaced(_room: Room, wrong: RightClient, right: RightClient) -> None:
    """It has confirmed a newer clientid, and some of it goes on with the older one."""
    for client in wrong, right:
        want(client.do(client.closing(opened(client))))
        before = client.clientid
        client.forget_all()
        client.verifier = b"another!"
        want(client.do(client.introducing()))
        client.clientid = before if client is wrong else client.clientid
        want(
            client.do(client.opening(client.owner(b"A"), (b"b",))),
            Status.STALE_CLIENTID if client is wrong else Status.OK,
        )


# Delegations.


def recall(room: Room, holder: RightClient, other: RightClient) -> None:
    """The holder's delegation is recalled, since another client opens the file, and its path is marked."""
    borrow(holder, b"a")
    marks = sum(isinstance(entry, Path) for entry in room.entries())
    want(other.do(other.opening(other.owner(b"A"), (b"a",), (READ, 0))), Status.DELAY)
    wait_for(room, Path, marks + 1, holder, other)


@case("delegation-not-returned", setting=LENDING_SHORT)
def kept_until_revoked(room: Room, wrong: RightClient, right: RightClient) -> None:
    """The right client gives its delegation back, before."""
    opened(wrong, b"b"), opened(right, b"b")
    recall(room, right, wrong)
    want(right.do(right.giving_back(right.lent[0])))
    want(wrong.do(wrong.opening(wrong.owner(b"A"), (b"a",), (READ, 0))))
    for client in wrong, right:
        want(client.do(client.closing(client.opens[-1])))
    recall(room, wrong, right)
    wait_for(room, Revoke, 1, wrong, right)
    want(wrong.do(wrong.reading(wrong.lent[0])), Status.BAD_STATEID)
    want(right.do(right.opening(right.owner(b"A"), (b"a",), (READ, 0))))
    wrong.lent = []


@case("delegation-not-returned", setting=LENDING, leaves=False)
def kept_to_the_end(room: Room, wrong: RightClient, right: RightClient) -> None:
    opened(right, b"b")
    recall(room, wrong, right)
    for _ in range(2):
        room.wait(2)
        want(right.do(right.opening(right.owner(b"A"), (b"a",), (READ, 0))), Status.DELAY)


@case("write-beyond-delegation", setting=LENDING)
def write_by_delegation_for_reading(_room: Room, wrong: RightClient, right: RightClient) -> None:
    for client, wanted in (wrong, Status.OPENMODE), (right, Status.OK):
        borrow(client, b"a" if client is wrong else b"b", (READ, 0) if client is wrong else (BOTH, 0))
        want(client.do(client.writing(client.lent[0])), wanted)


# What an open allows.


@case("read-without-access")
def read_write_only(_room: Room, wrong: RightClient, right: RightClient) -> None:
    want(wrong.do(wrong.reading(opened(wrong, b"a", (WRITE, 0)))), Status.OPENMODE)
    want(right.do(right.writing(opened(right, b"a", (WRITE, 0)))))


@case("write-without-access")
def write_read_only(_room: Room, wrong: RightClient, right: RightClient) -> None:
    want(wrong.do(wrong.writing(opened(wrong, b"a", (READ, 0)))), Status.OPENMODE)
    want(right.do(right.reading(opened(right, b"a", (READ, 0)))))


@case("lock-without-access")
def lock_read_only(_room: Room, wrong: RightClient, right: RightClient) -> None:
    found = opened(wrong, b"a", (READ, 0))
    want(wrong.do(wrong.locking(wrong.locker(b"x"), found, write_span())), Status.OPENMODE)
    locked(right, opened(right, b"a", (READ, 0)), read_span())


@case("close-with-locks", setting=Setting(close_locks="refuse"))
def close_with_locks(_room: Room, wrong: RightClient, right: RightClient) -> None:
    for client, at in (wrong, 0), (right, 100):
        locked(client, opened(client), write_span(at))
    want(wrong.do(wrong.closing(wrong.opens[0])), Status.LOCKS_HELD)
    want(right.do(right.unlocking(right.opens[0].locks[0])))
    want(right.do(right.closing(right.opens[0])))


@case("release-of-held-lock-owner")
def release_while_held(_room: Room, wrong: RightClient, right: RightClient) -> None:
    for client, at in (wrong, 0), (right, 100):
        locked(client, opened(client), write_span(at))
    want(wrong.do(wrong.releasing(wrong.lockers[b"x"])), Status.LOCKS_HELD)
    want(right.do(right.unlocking(right.opens[0].locks[0])))
    want(right.do(right.releasing(right.lockers[b"x"])))


@case("downgrade-without-open")
def downgrade_to_what_was_not_opened(_room: Room, wrong: RightClient, right: RightClient) -> None:
    """An open for both that was never one for reading."""
    want(wrong.do(wrong.downgrading(opened(wrong), (READ, 0))), Status.INVAL)
    opened(right, b"a", (READ, 0))
    want(right.do(right.downgrading(opened(right), (READ, 0))))


@case("share-invalid")
def share_of_nothing(_room: Room, wrong: RightClient, right: RightClient) -> None:
    opened(wrong)
    want(wrong.do(wrong.opening(wrong.owners[b"A"], (b"b",), (0, 0))), Status.INVAL)
    opened(right)


@case("range-invalid")
def lock_of_no_bytes(_room: Room, wrong: RightClient, right: RightClient) -> None:
    want(wrong.do(wrong.locking(wrong.locker(b"x"), opened(wrong), write_span(5, 0))), Status.INVAL)
    locked(right, opened(right), write_span(5, ENDLESS))


@case("no-filehandle")
def read_without_filehandle(_room: Room, wrong: RightClient, right: RightClient) -> None:
    found = opened(wrong)
    want(wrong.call((Opnum.READ, Read(found.stateid, 0, 5)))[-1].status, Status.NOFILEHANDLE)
    want(right.do(right.reading(opened(right))))


@case("client-id-of-two-principals")
def other_principal(_room: Room, wrong: RightClient, right: RightClient) -> None:
    for client in wrong, right:
        opened(client)
        client.uid = 4711 if client is wrong else client.uid
        found = client.call((Opnum.SETCLIENTID, Setclientid(client.verifier, client.name, client.callback)))[-1]
        want(found.status, Status.CLID_INUSE if client is wrong else Status.OK)
    epoch, number, confirm = found.value
    want(right.call((Opnum.SETCLIENTID_CONFIRM, right.confirmation(epoch, number, confirm)))[-1].status)
    wrong.uid = None


# Warnings: what is left.


@case("open-left", WARNING, leaves=False)
def open_at_end(_room: Room, wrong: RightClient, right: RightClient) -> None:
    opened(wrong)
    want(right.do(right.closing(opened(right))))


@case("open-left", WARNING, leaves=False)
def open_at_new_beginning(_room: Room, wrong: RightClient, right: RightClient) -> None:
    for client in wrong, right:
        found = opened(client)
        want(client.do(client.closing(found)) if client is right else Status.OK)
        client.verifier = b"another!"
        want(client.do(client.introducing()))


@case("lock-left", WARNING, leaves=False)
def lock_at_end(_room: Room, wrong: RightClient, right: RightClient) -> None:
    for client, at in (wrong, 0), (right, 100):
        locked(client, opened(client), write_span(at))
    right.do(right.leaving())


@case("delegation-left", WARNING, setting=LENDING, leaves=False)
def delegation_at_end(_room: Room, wrong: RightClient, right: RightClient) -> None:
    for client, path in (wrong, b"a"), (right, b"b"):
        want(client.do(client.closing(borrow(client, path))))
    right.do(right.leaving())


@case("lock-owner-left", WARNING, leaves=False)
def lock_owner_at_end(_room: Room, wrong: RightClient, right: RightClient) -> None:
    for client, at in (wrong, 0), (right, 100):
        held = locked(client, opened(client), write_span(at))
        want(client.do(client.unlocking(held)))
        want(client.do(client.releasing(held.owner)) if client is right else Status.OK)
        want(client.do(client.closing(held.opened)))


@case("lock-dropped-by-close", WARNING)
def closed_with_lock(_room: Room, wrong: RightClient, right: RightClient) -> None:
    for client, at in (wrong, 0), (right, 100):
        held = locked(client, opened(client), write_span(at))
        want(client.do(client.unlocking(held)) if client is right else Status.OK)
        want(client.do(client.closing(client.opens[0])))


# Warnings: others.


@case("delay-hammered", WARNING, setting=LENDING)
def asked_without_a_pause(room: Room, wrong: RightClient, right: RightClient) -> None:
    opened(wrong, b"b")
    recall(room, right, wrong)
    for _ in range(12):
        want(wrong.do(wrong.opening(wrong.owner(b"A"), (b"a",), (READ, 0))), Status.DELAY)
    want(right.do(right.giving_back(right.lent[0])))
    want(wrong.do(wrong.opening(wrong.owner(b"A"), (b"a",), (READ, 0))))


@case("never-confirmed", WARNING, leaves=False)
def client_without_confirmation(room: Room, _wrong: RightClient, right: RightClient) -> None:
    """The wrong client is one more."""
    other = room.stranger(b"wrong")
    other.verifier = b"another!"
    other.call((Opnum.SETCLIENTID, Setclientid(other.verifier, other.name, other.callback)))
    want(right.do(right.introducing()))


@case("never-confirmed", WARNING, leaves=False)
def owner_without_confirmation(_room: Room, wrong: RightClient, right: RightClient) -> None:
    unconfirmed(wrong)
    want(right.do(right.closing(opened(right))))


@case("own-deny-met", WARNING)
def own_deny(_room: Room, wrong: RightClient, right: RightClient) -> None:
    for client, path, deny in (wrong, b"a", WRITE), (right, b"b", 0):
        opened(client, path, (READ, deny))
        found = client.do(client.opening(client.owner(b"B"), (path,), (WRITE, 0)))
        want(found, Status.SHARE_DENIED if client is wrong else Status.OK)


@case("recall-not-answered", WARNING, setting=LENDING_SHORT)
def recall_in_silence(room: Room, wrong: RightClient, right: RightClient) -> None:
    recall_is_lost(room, wrong, right, SILENT)


@case("recall-not-answered", WARNING, setting=LENDING_SHORT)
def recall_to_nobody(room: Room, wrong: RightClient, right: RightClient) -> None:
    recall_is_lost(room, wrong, right, ENDS)


def recall_is_lost(room: Room, wrong: RightClient, right: RightClient, answer: str) -> None:
    """The wrong client moves its callback to where it isn't answered."""
    stranger = room.stranger(b"wrong", answer=answer)
    wrong.callback = stranger.callback
    want(wrong.do(wrong.introducing()))
    opened(right, b"b")
    borrow(wrong, b"a")
    want(right.do(right.opening(right.owner(b"A"), (b"a",), (READ, 0))), Status.DELAY)
    wait_for(room, Revoke, 1, wrong, right)
    want(right.do(right.opening(right.owner(b"A"), (b"a",), (READ, 0))))
    wrong.lent = []


@case("reclaim-without-grace", WARNING)
def reclaim(_room: Room, wrong: RightClient, right: RightClient) -> None:
    found = opened(wrong)
    named = OpenOwner(*wrong.clientid, b"R")
    words = Open(1, READ, 0, named, NO_CREATE, Claim(CLAIM_PREVIOUS, None, 0))
    want(wrong.on(found.handle, Opnum.OPEN, words)[-1].status, Status.NO_GRACE)
    opened(right)


@case("stale-from-another-run", WARNING, setting=Setting(epoch=7))
def clientid_of_run_before(room: Room, wrong: RightClient, right: RightClient) -> None:
    """Of two clients of that run the right one begins anew as soon as it can't renew its lease."""
    found = opened(wrong)
    stateid = found.stateid._replace(epoch=6)
    want(wrong.on(found.handle, Opnum.READ, Read(stateid, 0, 5))[-1].status, Status.STALE_STATEID)
    words = Lockt(WRITE_LT, 0, 1, LockOwner(6, 1, b"x"))
    want(wrong.on(found.handle, Opnum.LOCKT, words)[-1].status, Status.STALE_CLIENTID)
    right.clientid = 6, right.clientid[1]
    want(right.do(right.renewing()), Status.STALE_CLIENTID)
    want(right.do(right.introducing()))
    opened(right)


@case("callback-address-unusable", WARNING)
def address_of_nobody(_room: Room, wrong: RightClient, right: RightClient) -> None:
    wrong.callback = Callback(0x40000000, b"tcp", b"127.0.0.1:2049", 1)
    want(wrong.do(wrong.introducing()))
    opened(wrong), opened(right)
