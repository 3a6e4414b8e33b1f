"""Mistakes with confirmations, requests that aren't allowed, and mistakes that take time, for `mistaken_series.py`."""
from helpers.expecting_client import Wrong
from helpers.mistaken_ids import reads
from helpers.mistakes import hindered, a_lock, an_open, expect, finding, next_of
from helpers.right_client import Locked, Opened, Owner, read_span, write_span
from helpers.right_series import Series
from helpers.series_clients import SeriesClient
from nfs4tools.model.state_parts import LockState
from nfs4tools.wire import (
    LockOwner,
    Lockt,
    OPEN_DELEGATE_READ,
    OpenConfirm,
    Opnum,
    READ,
    Read,
    ReleaseLockowner,
    Setclientid,
    SetclientidConfirm,
    Status,
    WRITE,
    WRITE_LT,
)


# Confirmations.


def opened_by_new(client: SeriesClient, owner: Owner, path: tuple[bytes, ...]) -> Opened | None:
    """An open of an owner that isn't confirmed, and which the client doesn't count among its own."""
    steps = client.opening(owner, path, (1, 0))
    operations = next(steps)
    results = client.call(*operations)
    client.count(owner, operations[-2][1].seqid, Opnum.OPEN, results[-1].status)
    if results[-1].status != Status.OK:
        return None
    return Opened(owner, path, results[-1].value, results[-2].value.stateid, [(1, 0)])


def closed_properly(client: SeriesClient, opened: Opened) -> bool:
    client.do(client.confirming(opened))
    return client.do(client.closing(opened)) == Status.OK


@finding("owner-not-confirmed")
def leaves_out_confirm(series: Series, client: SeriesClient) -> bool:
    opened = opened_by_new(client, Owner(b"unconfirmed %d" % len(series.server.recorded)), (b"b",))
    return (
        opened is not None
        and reads(client, opened.handle, opened.stateid, Status.BAD_STATEID)
        and closed_properly(client, opened)
    )


@finding("owner-not-confirmed")
def opens_twice(series: Series, client: SeriesClient) -> bool:
    owner = Owner(b"twice %d" % len(series.server.recorded))
    first = opened_by_new(client, owner, (b"b",))
    second = None if first is None else opened_by_new(client, owner, (b"d", b"c"))
    # Also where the second OPEN is refused the first open is lost.
    return (
        first is not None
        and expect(
            client,
            client.on(first.handle, Opnum.OPEN_CONFIRM, OpenConfirm(first.stateid, next_of(owner))),
            Status.BAD_STATEID,
        )
        and (second is None or closed_properly(client, second))
    )


@finding("confirm-of-nothing")
def confirms_again(series: Series, client: SeriesClient) -> bool:
    opened = an_open(series, client)
    return opened is not None and expect(
        client,
        client.on(opened.handle, Opnum.OPEN_CONFIRM, OpenConfirm(opened.stateid, next_of(opened.owner))),
        Status.BAD_STATEID,
    )


@finding("confirm-of-nothing")
def confirms_other_value(series: Series, client: SeriesClient) -> bool:
    introduction = Opnum.SETCLIENTID, Setclientid(client.verifier, client.name, client.callback)
    _, _, confirm = client.call(introduction)[-1].value
    words = SetclientidConfirm(*client.clientid, confirm + 10**6)
    return expect(client, client.call((Opnum.SETCLIENTID_CONFIRM, words)), Status.STALE_CLIENTID) and expect(
        client, client.call((Opnum.SETCLIENTID_CONFIRM, words._replace(confirm=confirm))), Status.OK
    )


# What isn't allowed.


@finding("read-without-access")
def reads_without(series: Series, client: SeriesClient) -> bool:
    opened = an_open(series, client, lambda it: not it.access & READ)
    return opened is not None and client.do(client.reading(opened)) == Status.OPENMODE


@finding("write-without-access")
def writes_without(series: Series, client: SeriesClient) -> bool:
    opened = an_open(series, client, lambda it: not it.access & WRITE)
    return opened is not None and client.do(client.writing(opened)) == Status.OPENMODE


@finding("lock-without-access")
def locks_without(series: Series, client: SeriesClient) -> bool:
    opened = an_open(series, client, lambda it: it.access != READ | WRITE)
    if opened is None:
        return False
    span = write_span() if opened.access == READ else read_span()
    return client.do(client.locking(client.locker(opened.owner.name + b" z"), opened, span)) == Status.OPENMODE


@finding("write-beyond-delegation")
def writes_beyond(series: Series, client: SeriesClient) -> bool:
    fitting = [it for it in client.lent if it.kind == OPEN_DELEGATE_READ and not hindered(series, {it})]
    return bool(fitting) and client.is_reached and client.do(client.writing(fitting[0])) == Status.OPENMODE


def holding(series: Series, client: SeriesClient) -> Locked | None:
    """A lock state that has bytes, as the server knows."""
    numbers = {it.number for it in series.server.states() if isinstance(it, LockState) and not it.ranges.is_empty()}
    return a_lock(series, client, lambda it: it.stateid.number in numbers)


@finding("close-with-locks")
def closes_with_locks(series: Series, client: SeriesClient) -> bool:
    held = holding(series, client) if series.close_locks == "refuse" else None
    return held is not None and client.do(client.closing(held.opened)) == Status.LOCKS_HELD


@finding("release-of-held-lock-owner")
def releases_held(series: Series, client: SeriesClient) -> bool:
    held = holding(series, client)
    return held is not None and expect(
        client,
        client.call((Opnum.RELEASE_LOCKOWNER, ReleaseLockowner(LockOwner(*client.clientid, held.owner.name)))),
        Status.LOCKS_HELD,
    )


@finding("downgrade-without-open")
def downgrades_up(series: Series, client: SeriesClient) -> bool:
    opened = an_open(series, client, lambda it: it.access != READ | WRITE)
    return opened is not None and client.do(client.downgrading(opened, (READ | WRITE, 0))) == Status.INVAL


@finding("share-invalid")
def opens_for_nothing(series: Series, client: SeriesClient) -> bool:
    opened = an_open(series, client)
    return opened is not None and client.do(client.opening(opened.owner, (b"b",), (0, 0))) == Status.INVAL


@finding("range-invalid")
def tests_nothing(series: Series, client: SeriesClient) -> bool:
    owner = LockOwner(*client.clientid, b"any")
    return expect(client, client.on(b"nfh1\0\0\0\1", Opnum.LOCKT, Lockt(WRITE_LT, 5, 0, owner)), Status.INVAL)


@finding("no-filehandle")
def reads_nowhere(series: Series, client: SeriesClient) -> bool:
    opened = an_open(series, client)
    return opened is not None and expect(
        client, client.call((Opnum.READ, Read(opened.stateid, 0, 5))), Status.NOFILEHANDLE
    )


@finding("client-id-of-two-principals")
def comes_as_another(series: Series, client: SeriesClient) -> bool:
    if not series.server.has_state(client.clientid[1]):
        return False
    client.uid, before = 4711, client.uid
    found = client.call((Opnum.SETCLIENTID, Setclientid(b"verifier", client.name, client.callback)))
    client.uid = before
    return expect(client, found, Status.CLID_INUSE)


# What takes time.


def is_alone(series: Series, client: SeriesClient) -> bool:
    return not any(task.client is client for task in series.tasks)


def sleep_on(series: Series, client: SeriesClient) -> None:
    """The client sleeps until it is removed, and then is awake."""
    client.is_asleep = True
    while series.server.is_live(client.clientid[1]):
        series.advance()
    client.is_asleep = False


def wait(series: Series, client: SeriesClient) -> None:
    """Three moments pass or more, in which the client does nothing."""
    client.is_asleep = True
    for _ in range(3):
        series.advance()
    client.is_asleep = False


@finding("lease-lapsed")
def lets_lease_end(series: Series, client: SeriesClient) -> bool:
    if not is_alone(series, client) or not client.usable() or client.lent:
        return False
    sleep_on(series, client)
    client.forget_all()
    return client.do(client.introducing()) == Status.OK


@finding("continues-with-dead-clientid")
def goes_on_dead(series: Series, client: SeriesClient) -> bool:
    if not is_alone(series, client):
        return False
    client.do(client.leaving())
    series.call_back()
    sleep_on(series, client)
    for offset in range(2):
        status = client.do(client.testing(Owner(b"any"), b"nfh1\0\0\0\1", read_span(offset)))
        wait(series, client)
        if status != Status.STALE_CLIENTID:
            raise Wrong(f"a dead client gets {status}")
    client.forget_all()
    return client.do(client.introducing()) == Status.OK


@finding("delegation-not-returned")
def keeps_delegation(series: Series, client: SeriesClient) -> bool:
    """Another client asks for the file once, and the delegation is taken."""
    others = [it for it in series.clients if it is not client and it.is_live() and not it.is_asleep]
    fitting = [it for it in client.lent if not it.is_recalled and not hindered(series, {it})]
    if not fitting or not client.is_reached or not others or hindered(series, {others[0].owner(b"K")}):
        return False
    lent, other = fitting[0], others[0]
    client.lent = [it for it in client.lent if it is not lent]
    status = other.do(other.opening(other.owner(b"K"), lent.path, (3, 0)))
    series.call_back()
    if status != Status.DELAY:
        client.lent.append(lent)
        return False
    while any(it.number == lent.stateid.number for it in series.server.delegations):
        series.advance()
    return True
