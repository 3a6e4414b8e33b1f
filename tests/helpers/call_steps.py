"""Steps of a long conversation: operations, with the results that are wanted of them; and the COMPOUNDs that they
make."""
from collections.abc import Iterable, Iterator
from typing import Any

from nfs4tools import messages, wire
from nfs4tools.model.state_parts import handle_of
from nfs4tools.wire import Opnum, Status, opaque, u32, u64

# An operation, with the result that is wanted of it.
Pair = tuple[bytes, bytes]
Step = list[Pair]
# A file more than each owner opens; many files keep the opens of each few.
FILES = 33
TREE = "".join(f'[[file]]\npath = "f{number}"\n' for number in range(FILES))
# The same files, which are lent to clients at once.
LENDING = 'policy.callbacks = "assume"\n' + TREE
READ, NONE = 1, 0


def result(opnum: int, status: int = Status.OK, rest: bytes = b"") -> bytes:
    return u32(opnum, status) + rest


def coming(verifier: int, status: int = Status.OK, rest: bytes = b"") -> Pair:
    """The client's SETCLIENTID."""
    callback = u32(7) + opaque(b"tcp") + opaque(b"127.0.0.1.3.232") + u32(1)
    return (u32(Opnum.SETCLIENTID) + u64(verifier) + opaque(b"c1") + callback, result(Opnum.SETCLIENTID, status, rest))


def introduce(verifier: int, number: int) -> Step:
    """The client comes, or begins anew; with each verifier one more confirm value was given."""
    return [
        coming(verifier, rest=u32(1, number) + u64(verifier)),
        (u32(Opnum.SETCLIENTID_CONFIRM, 1, number) + u64(verifier), result(Opnum.SETCLIENTID_CONFIRM)),
    ]


def opening(
    owner: int,
    seqid: int,
    file: int,
    client: int = 1,
    number: int = 0,
    flags: int = 4,
    state_seqid: int = 1,
    status: int = Status.OK,
    access: int = READ,
    **more: Any,
) -> Step:
    """An OPEN, for reading if nothing else is said, and the state that it gives; and if its number is given, the
    delegation for reading."""
    share, given = (access, more.get("deny", NONE)), more.get("given")
    words = messages.opening(seqid, *share, u32(1, client) + opaque(b"%d" % owner), b"f%d" % file)
    rest = b""
    if status == Status.OK:
        rest = u32(state_seqid, 1, client, number) + u32(1) + u64(0) + u64(0) + u32(flags, 0)
        rest += u32(0) if given is None else u32(1, 1, 1, client, given, 0, 0, 0, 0, 0)
    return [(u32(Opnum.PUTROOTFH), result(Opnum.PUTROOTFH)), (words, result(Opnum.OPEN, status, rest))]


def confirming(seqid: int, number: int) -> Step:
    """After the OPEN that gave the state."""
    return [(u32(Opnum.OPEN_CONFIRM, 1, 1, 1, number, seqid), result(Opnum.OPEN_CONFIRM, rest=u32(2, 1, 1, number)))]


def closing(seqid: int, state_seqid: int, number: int, file: int) -> Step:
    handle = opaque(handle_of(file + 1))
    return [
        (u32(Opnum.PUTFH) + handle, result(Opnum.PUTFH)),
        (
            u32(Opnum.CLOSE, seqid, state_seqid, 1, 1, number),
            result(Opnum.CLOSE, rest=u32(state_seqid + 1, 1, 1, number)),
        ),
    ]


def compounds(steps: Iterable[Step]) -> Iterator[Step]:
    """Steps together, as many as there may be in a COMPOUND; one that is refused ends it."""
    pairs: Step = []
    for step in steps:
        if len(pairs) + len(step) > 64:
            yield pairs
            pairs = []
        pairs = pairs + step
        if pairs[-1][1][4:8] != u32(Status.OK):
            yield pairs
            pairs = []
    if pairs:
        yield pairs


def call(xid: int, pairs: Step) -> Any:
    head = u32(xid, 0, 2, wire.NFS4_PROGRAM, 4, 1, 0, 0, 0, 0, 0, 0, len(pairs))
    return wire.record(head + b"".join(operation for operation, _ in pairs))


def reply(xid: int, pairs: Step) -> Any:
    head = pairs[-1][1][4:8] + u32(0, len(pairs))
    return wire.record(wire.accepted(xid, wire.SUCCESS, head + b"".join(wanted for _, wanted in pairs)))
