"""Answers in the server's place."""
from nfs4tools.between.calls import Call, Operation, Reply
from nfs4tools.between.vocabulary import ACCEPT_ERRORS, AUTH_ERRORS
from nfs4tools.wire import (
    AUTH_ERROR,
    Lock,
    Lockt,
    NFS4_PROGRAM,
    Opnum,
    RPC_MISMATCH,
    SUCCESS,
    Status,
    WRITE_LT,
    accepted,
    denied,
    opaque,
    u32,
    u64,
)

# The versions that PROG_MISMATCH names: those of a server without version 4, and of a client's callback program without
# version 1.
VERSIONS, CALLBACK_VERSIONS = (2, 3), (4, 4)
# The owner that holds the lock of NFS4ERR_DENIED, and the address that uses the client of NFS4ERR_CLID_INUSE.
HOLDER = u64(0) + opaque(b"between")
USER = opaque(b"tcp") + opaque(b"0.0.0.0.0.0")


def rest_of(operation: Operation, status: int) -> bytes:
    """What follows a status that isn't OK: of SETATTR the attributes that were set, and what conflicts."""
    arguments = operation.arguments
    if operation.number == Opnum.SETATTR:
        return u32(0)
    if status == Status.DENIED and isinstance(arguments, (Lock, Lockt)):
        return u64(arguments.offset) + u64(arguments.length) + u32(WRITE_LT) + HOLDER
    if status == Status.CLID_INUSE and operation.number == Opnum.SETCLIENTID:
        return USER
    return b""


def result_bytes(operation: Operation, status: int) -> bytes:
    """A result with this status, which isn't OK."""
    return u32(operation.number, status) + rest_of(operation, status)


def first_answer(call: Call, status: int) -> bytes:
    """The reply in which the first operation has this status."""
    result = result_bytes(call.operations[0], status)
    return accepted(call.xid, SUCCESS, u32(status) + opaque(call.tag) + u32(1) + result)


def next_answer(reply: Reply, operation: Operation, status: int) -> bytes:
    """The reply to the operations before this one, all of which are OK, with this one's behind it."""
    record, count = reply.record, len(reply.results)
    head = record[: reply.status_at] + u32(status) + record[reply.status_at + 4 : reply.count_at]
    return head + u32(count + 1) + record[reply.count_at + 4 :] + result_bytes(operation, status)


def error_of_rpc(call: Call, name: str) -> bytes:
    """The reply by which a call isn't taken: an error of RPC with this name."""
    if name in AUTH_ERRORS:
        return denied(call.xid, AUTH_ERROR, AUTH_ERRORS[name])
    if name not in ACCEPT_ERRORS:
        # It speaks another version of RPC.
        return denied(call.xid, RPC_MISMATCH, 3, 3)
    versions = VERSIONS if call.program == NFS4_PROGRAM else CALLBACK_VERSIONS
    rest = u32(*versions) if name == "PROG_MISMATCH" else b""
    return accepted(call.xid, ACCEPT_ERRORS[name], rest)


def with_xid(record: bytes, xid: int) -> bytes:
    """The record by another xid."""
    return u32(xid) + record[4:]
