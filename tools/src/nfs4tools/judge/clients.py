"""Whose an entry is: the client by the id of its SETCLIENTID, however the entry names it."""
from collections.abc import Callable
from typing import Any, NamedTuple

from nfs4tools.journal.entries import Call, Entry, Expire, Forget, Path
from nfs4tools.journal.history import History
from nfs4tools.wire import (
    CLAIM_DELEGATE_CUR,
    Close,
    Delegreturn,
    Lock,
    Lockt,
    Locku,
    NewLocker,
    Open,
    OpenConfirm,
    OpenDowngrade,
    Read,
    ReleaseLockowner,
    Setattr,
    Setclientid,
    SetclientidConfirm,
    Stateid,
    Write,
)

# A clientid by its two halves.
Clientid = tuple[int, int]


class Named(NamedTuple):
    """What arguments name: the clientid by itself or in an owner, and the stateid, each if they have one."""

    clientid: Clientid | None
    stateid: Stateid | None


def by_stateid(arguments: Any) -> Named:
    return Named(None, arguments.stateid)


def by_owner(arguments: Any) -> Named:
    return Named(arguments.owner[:2], None)


def by_open(arguments: Open) -> Named:
    claim = arguments.claim
    return Named(arguments.owner[:2], claim.delegation if claim.kind == CLAIM_DELEGATE_CUR else None)


def by_lock(arguments: Lock) -> Named:
    locker = arguments.locker
    if isinstance(locker, NewLocker):
        return Named(locker.owner[:2], locker.open_stateid)
    return Named(None, locker.lock_stateid)


# How the arguments of operations name a client; all others name none.
NAMED: dict[type, Callable[[Any], Named]] = {
    **dict.fromkeys((Close, Delegreturn, Locku, OpenConfirm, OpenDowngrade, Read, Setattr, Write), by_stateid),
    Lockt: by_owner,
    ReleaseLockowner: by_owner,
    Open: by_open,
    Lock: by_lock,
    SetclientidConfirm: lambda arguments: Named(arguments[:2], None),
}
NOBODY = Named(None, None)


class Memory:
    """The entry that was asked for last, as several ask for the same one."""

    entry: object = None
    history: History | None = None
    client: bytes | None = None


def client_of(entry: Entry, history: History) -> bytes | None:
    """The id of the client that the entry names: by SETCLIENTID's own id, by a clientid or an owner among its
    arguments, or else by a stateid; None where it names none that this server gave."""
    if entry is not Memory.entry or history is not Memory.history:
        Memory.entry, Memory.history, Memory.client = entry, history, found_client(entry, history)
    return Memory.client


def found_client(entry: Entry, history: History) -> bytes | None:
    if not isinstance(entry, Call):
        return history.ids.get(number_of(entry, history))
    if isinstance(entry.arguments, Setclientid):
        return entry.arguments.id
    named = named_in(entry.arguments)
    found = None if named.clientid is None else id_of(named.clientid, history)
    return found if found is not None or named.stateid is None else id_of(named.stateid[1:3], history)


def number_of(entry: Any, history: History) -> int:
    """The number of the client that an entry names which is no call."""
    if isinstance(entry, (Expire, Path)):
        return entry.client
    return entry.owner.client if isinstance(entry, Forget) else history.given[entry.state].client


def named_in(arguments: Any) -> Named:
    """What the arguments of an operation name."""
    by = NAMED.get(type(arguments))
    return NOBODY if by is None else by(arguments)


def stateids_of(arguments: Any) -> list[Stateid]:
    """The stateid that arguments have, if they have one."""
    stateid = named_in(arguments).stateid
    return [] if stateid is None else [stateid]


def id_of(clientid: Clientid, history: History) -> bytes | None:
    """The id to which this server gave the clientid."""
    return history.ids.get(clientid[1]) if clientid[0] == history.epoch else None
