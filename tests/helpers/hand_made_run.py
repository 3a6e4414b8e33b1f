"""A journal that is made by hand, entry by entry, with what each says: client c1 opens and locks file a; client c2 is
refused, and ends; c1 counts a sequence id too many."""
from nfs4tools import wire
from nfs4tools.journal.entries import Answer, Call, Entry, Expire
from nfs4tools.journal.journal import Journal
from nfs4tools.model.tree import Tree
from nfs4tools.wire import (
    Callback,
    Claim,
    LockOwner,
    NewLocker,
    OpenOwner,
    Openhow,
    Opnum,
    Stateid,
    Status,
    u32,
    u64,
)

NOBODY, SOMEBODY = (0, 0), (1, 500)
ROOT, A, B = 0, 1, 2
CALLBACK = Callback(0x40000000, b"tcp", b"127.0.0.1.8.1", 1)


def ended(opnum: Opnum, status: Status = Status.OK, rest: bytes = b"") -> Answer:
    return Answer(opnum, status, rest)


def introduced(number: int, name: bytes, moment: int = 0, confirm: int = 0) -> list[Entry]:
    """SETCLIENTID and its confirmation: the client gets this number, and its confirm verifier is the same number."""
    confirm = confirm or number
    asked = wire.Setclientid(bytes(8), name, CALLBACK)
    given = ended(Opnum.SETCLIENTID, rest=u32(1, number) + u64(confirm))
    confirmed = wire.SetclientidConfirm(1, number, confirm)
    return [
        Call(moment, NOBODY, None, Opnum.SETCLIENTID, asked, given),
        Call(moment, NOBODY, None, Opnum.SETCLIENTID_CONFIRM, confirmed, ended(Opnum.SETCLIENTID_CONFIRM)),
    ]


def opening(client: int, owner: bytes, seqid: int, access: int, deny: int) -> wire.Open:
    return wire.Open(seqid, access, deny, OpenOwner(1, client, owner), Openhow(0, None, None), Claim(0, b"a", None))


def opened(state: int, client: int) -> bytes:
    """The stateid, a directory that stays as it is, CONFIRM and LOCKTYPE_POSIX, no attributes, no delegation."""
    return u32(1, 1, client, state) + u32(1) + u64(0) + u64(0) + u32(6, 0, 0)


def entries() -> list[Entry]:
    """Their numbers are those of the comments."""
    lock = wire.Lock(2, 0, 0, 10, NewLocker(3, Stateid(2, 1, 1, 1), 7, LockOwner(1, 1, b"L")))
    return [
        # 0 to 3
        *introduced(1, b"c1"),
        *introduced(2, b"c2"),
        # 4, 5: c1 opens file a, which denies WRITE
        Call(1, SOMEBODY, ROOT, Opnum.OPEN, opening(1, b"A", 1, 3, 2), ended(Opnum.OPEN, rest=opened(1, 1))),
        Call(
            2,
            SOMEBODY,
            A,
            Opnum.OPEN_CONFIRM,
            wire.OpenConfirm(Stateid(1, 1, 1, 1), 2),
            ended(Opnum.OPEN_CONFIRM, rest=u32(2, 1, 1, 1)),
        ),
        # 6: c2 is refused
        Call(3, NOBODY, ROOT, Opnum.OPEN, opening(2, b"B", 5, 2, 0), ended(Opnum.OPEN, Status.SHARE_DENIED)),
        # 7: of no client
        Call(3, NOBODY, B, Opnum.GETATTR, wire.Getattr((16,)), ended(Opnum.GETATTR, rest=u32(1, 16, 8) + u64(0))),
        # 8: c1 locks bytes 0 to 9
        Call(4, SOMEBODY, A, Opnum.LOCK, lock, ended(Opnum.LOCK, rest=u32(1, 1, 1, 2))),
        # 9, 10: c1 sends 5 in the place of 4, twice
        *[
            Call(
                5 + more,
                SOMEBODY,
                A,
                Opnum.CLOSE,
                wire.Close(5, Stateid(2, 1, 1, 1)),
                ended(Opnum.CLOSE, Status.BAD_SEQID),
            )
            for more in range(2)
        ],
        # 11: c2 ends, as it has said nothing since moment 3
        Expire(2, 3, 94),
        # 12: its clientid is dead
        Call(95, NOBODY, ROOT, Opnum.OPEN, opening(2, b"B", 5, 1, 0), ended(Opnum.OPEN, Status.STALE_CLIENTID)),
        # 13: a clientid that nobody got
        Call(95, NOBODY, ROOT, Opnum.OPEN, opening(77, b"B", 5, 1, 0), ended(Opnum.OPEN, Status.STALE_CLIENTID)),
    ]


def hand_made() -> Journal:
    return Journal(1, 90, Tree(), entries())
