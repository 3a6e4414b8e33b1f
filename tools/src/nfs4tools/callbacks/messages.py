"""The calls that a server makes to its clients, and what their replies say (RFC 7530, sections 17 and 18; RFC 5531)."""
import re
from enum import Enum
from typing import Any

from nfs4tools import wire
from nfs4tools.wire import Callback, Reader, Status, Unreadable, opaque, u32

CALLBACK_VERSION = 1
CB_NULL, CB_COMPOUND = 0, 1
OP_CB_RECALL = 4
# Where nothing but the flavor is known of a verifier or credential.
NOBODY = u32(wire.AUTH_NONE, 0)
HANDLE_HEAD = b"nfh1"


class CallbackReply(Enum):
    """What a reply to a callback is."""

    ACCEPTED = "accepted"
    REFUSED = "refused"
    UNREADABLE = "unreadable"


# The calls, as records.


def credential_bytes(principal: tuple[int, int]) -> bytes:
    """Of the flavor by which the client introduced itself (section 3.3.3): under AUTH_SYS with its uid and nothing
    else."""
    flavor, uid = principal
    if flavor == wire.AUTH_NONE:
        return NOBODY
    return u32(flavor) + opaque(u32(0) + opaque(b"") + u32(uid, 0, 0))


def call_head(xid: int, program: int, procedure: int, credential: bytes) -> bytes:
    return u32(xid, wire.CALL, 2, program, CALLBACK_VERSION, procedure) + credential + NOBODY


def recall_call(xid: int, recall: Any) -> bytes:
    """The record by which a delegation is called back."""
    callback = recall.callback
    head = call_head(xid, callback.program, CB_COMPOUND, credential_bytes(recall.principal))
    handle = opaque(HANDLE_HEAD + u32(recall.file))
    return wire.record(head + opaque(b"") + u32(0, callback.ident, 1, OP_CB_RECALL, *recall.stateid, 0) + handle)


def null_call(xid: int, program: int) -> bytes:
    """The record by which a path is tried."""
    return wire.record(call_head(xid, program, CB_NULL, NOBODY))


# The replies.


def read_reply(data: bytes, xid: int, is_compound: bool) -> CallbackReply:
    """What a reply is, without the headers of its fragments, to the call with this xid."""
    reader = wire.Reader(data)
    try:
        if (reader.u32(), reader.u32()) != (xid, wire.REPLY):
            return CallbackReply.UNREADABLE
        is_well = read_denial(reader) if reader.one_of(2) == wire.MSG_DENIED else read_accepted(reader, is_compound)
    except Unreadable:
        return CallbackReply.UNREADABLE
    return CallbackReply.ACCEPTED if is_well else CallbackReply.REFUSED


def read_denial(reader: Reader) -> bool:
    """A call that wasn't taken: the versions of RPC that are, or what was wrong with the credential."""
    if reader.one_of(2) == wire.RPC_MISMATCH:
        reader.u32()
    reader.u32()
    return False


def read_accepted(reader: Reader, is_compound: bool) -> bool:
    """Whether the call was done."""
    reader.u32(), reader.opaque(wire.BODY_LIMIT)
    state = reader.one_of(6)
    if state == wire.PROG_MISMATCH:
        reader.u32(), reader.u32()
    if state != wire.SUCCESS:
        return False
    return read_results(reader) == Status.OK if is_compound else True


def read_results(reader: Reader) -> int:
    """The status of a CB_COMPOUND of one operation."""
    status, _, count = reader.u32(), reader.opaque(), reader.u32()
    for _ in range(min(count, 1)):
        reader.u32(), reader.u32()
    return status


# Why a callback wasn't done.
ACCEPT_FAULTS = {
    wire.PROG_UNAVAIL: "PROG_UNAVAIL",
    wire.PROG_MISMATCH: "PROG_MISMATCH",
    wire.PROC_UNAVAIL: "PROC_UNAVAIL",
    wire.GARBAGE_ARGS: "GARBAGE_ARGS",
    wire.SYSTEM_ERR: "SYSTEM_ERR",
}
REJECT_FAULTS = {wire.RPC_MISMATCH: "RPC_MISMATCH", wire.AUTH_ERROR: "AUTH_ERROR"}


def fault_of_reply(data: bytes, xid: int, is_compound: bool) -> str | None:
    """Why the call with this xid wasn't done, by the record that came in reply; or None, if the call was done."""
    kind = read_reply(data, xid, is_compound)
    if kind == CallbackReply.ACCEPTED:
        return None
    if kind == CallbackReply.UNREADABLE:
        is_other = len(data) >= 4 and int.from_bytes(data[:4], "big") != xid
        return "reply of another xid" if is_other else "reply that can't be read"
    reader = wire.Reader(data)
    reader.u32(), reader.u32()
    if reader.u32() == wire.MSG_DENIED:
        return REJECT_FAULTS[reader.u32()]
    reader.u32(), reader.opaque(wire.BODY_LIMIT)
    state = reader.u32()
    return f"status {reader.u32()} of CB_COMPOUND" if state == wire.SUCCESS else ACCEPT_FAULTS[state]


# Addresses.


def address_of(callback: Callback) -> tuple[str, int] | None:
    """The IPv4 address and the port of a callback, or None where it can't be called there (RFC 5665, section 5.2.3)."""
    parts = callback.address.split(b".")
    if callback.netid != b"tcp" or len(parts) != 6:
        return None
    if not all(re.fullmatch(b"[0-9]{1,3}", part) and int(part) <= 255 for part in parts):
        return None
    *host, high, low = map(int, parts)
    port = 256 * high + low
    return (".".join(map(str, host)), port) if port else None
