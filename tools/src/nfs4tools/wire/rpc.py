"""The messages of RPC (RFC 5531): records, calls, and the heads of replies."""
from collections.abc import Callable, Iterator
from io import BytesIO
from typing import NamedTuple

from nfs4tools.wire.xdr import Reader, Unreadable, u32

# The most bytes of a record, and of a credential or a verifier.
RECORD_LIMIT = 262144
BODY_LIMIT = 400

# Records (section 11).


class Fault(Exception):
    """What ends a connection or a run; its one argument is the text after `fault: `."""


def records(take: Callable[[int], bytes]) -> Iterator[bytes]:
    """The records of a connection, as they come, up to its end; or the Fault of a connection that ends otherwise.
    `take` gives so many bytes, or what there is before the end."""
    body, is_inside = b"", False
    while True:
        header = take(4)
        if header == b"" and not is_inside:
            return
        length = int.from_bytes(header, "big") & 0x7FFFFFFF
        if len(header) == 4 and len(body) + length > RECORD_LIMIT:
            raise Fault("record too long")
        part = take(length) if len(header) == 4 else b""
        if len(header) < 4 or len(part) < length:
            raise Fault("input ends inside a record")
        body, is_inside = body + part, True
        if header[0] >> 7:
            yield body
            body, is_inside = b"", False


def split_records(data: bytes) -> tuple[list[bytes], str | None]:
    """The whole records, and what ends the connection: None after a whole record, else the program's fault."""
    found: list[bytes] = []
    try:
        for each in records(BytesIO(data).read):
            found.append(each)
    except Fault as fault:
        return found, str(fault)
    return found, None


def record(body: bytes) -> bytes:
    """A record of one fragment."""
    return u32(0x80000000 + len(body)) + body


# Calls (section 9).

CALL, REPLY = 0, 1
MSG_ACCEPTED, MSG_DENIED = 0, 1
RPC_MISMATCH, AUTH_ERROR = 0, 1
AUTH_BADCRED = 1
AUTH_NONE = 0
AUTH_SYS = 1
AUTH_SHORT = 2
RPCSEC_GSS = 6
NFS4_PROGRAM, NFS_V4 = 100003, 4
NFSPROC4_NULL, NFSPROC4_COMPOUND = 0, 1
SUCCESS = 0
PROG_UNAVAIL = 1
PROG_MISMATCH = 2
PROC_UNAVAIL = 3
GARBAGE_ARGS = 4
SYSTEM_ERR = 5

# Who calls: the flavor, and under AUTH_SYS the uid.
Principal = tuple[int, int]


class CompoundCall(NamedTuple):
    """A COMPOUND that can be called: who calls, its head, and a reader of its operations."""

    xid: int
    principal: Principal
    tag: bytes
    minor: int
    count: int  # type: ignore[assignment]
    operations: Reader


def accepted(xid: int, state: int, rest: bytes = b"") -> bytes:
    return u32(xid, REPLY, MSG_ACCEPTED, AUTH_NONE, 0, state) + rest


def denied(xid: int, *rest: int) -> bytes:
    return u32(xid, REPLY, MSG_DENIED, *rest)


def read_call(data: bytes) -> bytes | CompoundCall | None:
    """What a record calls for: a CompoundCall, the bytes of a reply, or None if there is no reply."""
    reader = Reader(data)
    try:
        xid, message_type, version = reader.u32(), reader.u32(), reader.u32()
    except Unreadable:
        return None
    if message_type != CALL:
        return None
    if version != 2:
        return denied(xid, RPC_MISMATCH, 2, 2)
    try:
        program, program_version, procedure = reader.u32(), reader.u32(), reader.u32()
        flavor, body = reader.u32(), reader.opaque(BODY_LIMIT)
        reader.u32(), reader.opaque(BODY_LIMIT)
    except Unreadable:
        return None
    try:
        principal = read_principal(flavor, body)
    except Unreadable:
        return denied(xid, AUTH_ERROR, AUTH_BADCRED)
    if program != NFS4_PROGRAM:
        return accepted(xid, PROG_UNAVAIL)
    if program_version != NFS_V4:
        return accepted(xid, PROG_MISMATCH, u32(NFS_V4, NFS_V4))
    if procedure == NFSPROC4_NULL:
        return accepted(xid, SUCCESS)
    if procedure != NFSPROC4_COMPOUND:
        return accepted(xid, PROC_UNAVAIL)
    try:
        return CompoundCall(xid, principal, reader.opaque(), reader.u32(), reader.u32(), reader)
    except Unreadable:
        return accepted(xid, GARBAGE_ARGS)


def read_principal(flavor: int, body: bytes) -> Principal:
    if flavor == AUTH_NONE:
        return (flavor, 0)
    if flavor != AUTH_SYS:
        raise Unreadable
    reader = Reader(body)
    reader.u32(), reader.opaque(255)
    uid, _, groups = reader.u32(), reader.u32(), reader.u32()
    if groups > 16:
        raise Unreadable
    reader.fixed(4 * groups)
    return (flavor, uid)
