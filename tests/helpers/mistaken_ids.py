"""Mistakes with sequence ids and stateids, for `mistaken_series.py`."""
from typing import Any

from helpers.mistakes import hindered, a_lock, an_open, expect, finding, next_of
from helpers.right_client import Lent, Locked, Opened
from helpers.right_series import Series
from helpers.series_clients import SeriesClient
from nfs4tools.wire import (
    CLAIM_NULL,
    Claim,
    Close,
    Delegreturn,
    Lock,
    LockOwner,
    Locku,
    NewLocker,
    Opnum,
    Read,
    Stateid,
    Status,
    WRITE_LT,
)


# Sequence ids.


def closes(client: SeriesClient, opened: Opened, seqid: int, status: Status) -> bool:
    return expect(client, client.on(opened.handle, Opnum.CLOSE, Close(seqid, opened.stateid)), status)


@finding("sequence-id-skipped")
def skips(series: Series, client: SeriesClient) -> bool:
    opened = an_open(series, client)
    return opened is not None and closes(client, opened, next_of(opened.owner, 3), Status.BAD_SEQID)


@finding("sequence-id-reused")
def reuses(series: Series, client: SeriesClient) -> bool:
    opened = an_open(series, client, lambda it: len(client.counted[it.owner]) > 2)
    return opened is not None and closes(client, opened, next_of(opened.owner, -1), Status.BAD_SEQID)


@finding("other-request-with-last-id")
def sends_another(series: Series, client: SeriesClient) -> bool:
    opened = an_open(series, client, lambda it: client.counted[it.owner][-1:] == [Status.OK])
    return opened is not None and closes(client, opened, next_of(opened.owner, 0), Status.BAD_SEQID)


def opens_nothing(client: SeriesClient, opened: Opened, seqid: int) -> bool:
    words = client.open_words(opened.owner, (1, 0), Claim(CLAIM_NULL, b"e", None))._replace(seqid=seqid)
    results = client.call((Opnum.PUTFH, (b"nfh1\0\0\0\0",)), (Opnum.OPEN, words))
    client.count(opened.owner, seqid, Opnum.OPEN, results[-1].status)
    return expect(client, results, Status.NOENT)


@finding("sequence-id-kept-after-counted-refusal")
def keeps_id(series: Series, client: SeriesClient) -> bool:
    opened = an_open(series, client)
    return (
        opened is not None
        and opens_nothing(client, opened, next_of(opened.owner))
        and closes(client, opened, opened.owner.seqid, Status.BAD_SEQID)
    )


@finding("sequence-id-kept-after-counted-refusal")
def asks_thrice(series: Series, client: SeriesClient) -> bool:
    opened = an_open(series, client)
    return (
        opened is not None
        and opens_nothing(client, opened, next_of(opened.owner))
        and all([expect(client, client.again(), Status.NOENT) for _ in range(3)])
    )


@finding("no-filehandle", "sequence-id-moved-after-uncounted-refusal")
def moves_on(series: Series, client: SeriesClient) -> bool:
    opened = an_open(series, client)
    return (
        opened is not None
        and expect(
            client, client.call((Opnum.CLOSE, Close(next_of(opened.owner), opened.stateid))), Status.NOFILEHANDLE
        )
        and closes(client, opened, next_of(opened.owner, 2), Status.BAD_SEQID)
    )


@finding("stateid-unknown", "sequence-id-moved-after-uncounted-refusal")
def moves_on_probably(series: Series, client: SeriesClient) -> bool:
    opened = an_open(series, client)
    return (
        opened is not None
        and expect(
            client,
            client.on(
                opened.handle, Opnum.CLOSE, Close(next_of(opened.owner), opened.stateid._replace(number=10**6))
            ),
            Status.BAD_STATEID,
        )
        and closes(client, opened, next_of(opened.owner, 2), Status.BAD_SEQID)
    )


# Stateids.


def reads(client: SeriesClient, handle: bytes, stateid: Stateid, status: Status) -> bool:
    return expect(client, client.on(handle, Opnum.READ, Read(stateid, 0, 5)), status)


@finding("stateid-old")
def uses_old(series: Series, client: SeriesClient) -> bool:
    opened = an_open(series, client, lambda it: it.stateid.seqid > 1 and client.moved[it] + 2 <= series.moment)
    return opened is not None and reads(
        client, opened.handle, opened.stateid._replace(seqid=opened.stateid.seqid - 1), Status.OLD_STATEID
    )


@finding("stateid-of-other-file")
def reads_another(series: Series, client: SeriesClient) -> bool:
    opened = an_open(series, client)
    if opened is None:
        return False
    other = b"nfh1\0\0\0\2" if opened.handle == b"nfh1\0\0\0\1" else b"nfh1\0\0\0\1"
    return reads(client, other, opened.stateid, Status.BAD_STATEID)


def gone(client: SeriesClient, kind: Any) -> Any:
    """What the client has given up two moments ago or more."""
    now = client.series.moment
    return next((it for it in client.gone if isinstance(it, kind) and client.given_up[it] + 2 <= now), None)


@finding("stateid-closed")
def reads_closed(series: Series, client: SeriesClient) -> bool:
    one = gone(client, Opened)
    return one is not None and reads(client, one.handle, one.stateid, Status.BAD_STATEID)


@finding("stateid-closed")
def uses_dropped_lock(series: Series, client: SeriesClient) -> bool:
    one = gone(client, Locked)
    return one is not None and reads(client, one.handle, one.stateid, Status.BAD_STATEID)


@finding("delegation-used-after-return")
def uses_returned(series: Series, client: SeriesClient) -> bool:
    one = gone(client, Lent)
    return one is not None and client.is_reached and reads(client, one.handle, one.stateid, Status.BAD_STATEID)


@finding("stateid-unknown")
def makes_up_number(series: Series, client: SeriesClient) -> bool:
    opened = an_open(series, client)
    return opened is not None and reads(
        client, opened.handle, opened.stateid._replace(number=10**6), Status.BAD_STATEID
    )


@finding("stateid-unknown")
def makes_up_seqid(series: Series, client: SeriesClient) -> bool:
    opened = an_open(series, client)
    return opened is not None and reads(
        client, opened.handle, opened.stateid._replace(seqid=opened.stateid.seqid + 4), Status.BAD_STATEID
    )


@finding("stateid-of-other-kind")
def unlocks_by_open(series: Series, client: SeriesClient) -> bool:
    held = a_lock(series, client)
    return held is not None and client.on(
        held.handle, Opnum.LOCKU, Locku(WRITE_LT, next_of(held.owner), held.opened.stateid, 0, 1)
    )[-1].status in (Status.BAD_SEQID, Status.BAD_STATEID)


@finding("stateid-of-other-kind")
def closes_by_lock(series: Series, client: SeriesClient) -> bool:
    held = a_lock(series, client)
    return held is not None and client.on(held.handle, Opnum.CLOSE, Close(next_of(held.opened.owner), held.stateid))[
        -1
    ].status in (Status.BAD_SEQID, Status.BAD_STATEID)


@finding("stateid-of-other-kind")
def returns_open(series: Series, client: SeriesClient) -> bool:
    opened = an_open(series, client)
    return opened is not None and expect(
        client, client.on(opened.handle, Opnum.DELEGRETURN, Delegreturn(opened.stateid)), Status.BAD_STATEID
    )


@finding("stateid-of-other-client")
def locks_for_another(series: Series, client: SeriesClient) -> bool:
    opened = an_open(series, client)
    others = [
        it
        for it in series.clients
        if it is not client and it.is_live() and not it.is_asleep and not hindered(series, {it})
    ]
    if opened is None or not others:
        return False
    seqid, owner = next_of(opened.owner), LockOwner(*others[0].clientid, b"theirs")
    found = client.on(opened.handle, Opnum.LOCK, Lock(WRITE_LT, 0, 0, 1, NewLocker(seqid, opened.stateid, 1, owner)))
    client.count(opened.owner, seqid, Opnum.LOCK, found[-1].status)
    return expect(client, found, Status.INVAL)


@finding("new-lock-owner-again")
def comes_as_new(series: Series, client: SeriesClient) -> bool:
    held = a_lock(series, client)
    if held is None:
        return False
    locker = NewLocker(
        next_of(held.opened.owner),
        held.opened.stateid,
        next_of(held.owner),
        LockOwner(*client.clientid, held.owner.name),
    )
    return expect(client, client.on(held.handle, Opnum.LOCK, Lock(WRITE_LT, 0, 0, 1, locker)), Status.BAD_SEQID)
