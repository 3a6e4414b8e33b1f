"""The records of callbacks, written out; what replies to them are; and where a client can be called. They were worked
out from RFC 5531 and RFC 7531."""
import pytest

from nfs4tools.callbacks.messages import (
    CallbackReply,
    address_of,
    fault_of_reply,
    null_call,
    read_reply,
    recall_call,
)
from nfs4tools.model.state_parts import Recall
from nfs4tools.wire import Callback, Stateid, opaque, u32

pytestmark = pytest.mark.quick

ACCEPTED, REFUSED, UNREADABLE = CallbackReply.ACCEPTED, CallbackReply.REFUSED, CallbackReply.UNREADABLE
LENT = Recall(Stateid(1, 1, 1, 2), 1, (0, 0), Callback(0x40000000, b"tcp", b"127.0.0.1.8.1", 1))
# Each a record, with the words that it has to be.
RECORDS = [
    (
        null_call(6, 0x40000000),
        """80000028 00000006 00000000 00000002 40000000 00000001 00000000
        00000000 00000000 00000000 00000000""",
    ),
    (
        recall_call(5, LENT),
        """8000005c 00000005 00000000 00000002 40000000 00000001 00000001
        00000000 00000000 00000000 00000000 00000000 00000000 00000001 00000001 00000004
        00000001 00000001 00000001 00000002 00000000 00000008 6e666831 00000001""",
    ),
    (
        recall_call(5, LENT._replace(principal=(1, 500))),
        """
        80000070 00000005 00000000 00000002 40000000 00000001 00000001 00000001 00000014 00000000 00000000 000001f4
        00000000 00000000 00000000 00000000 00000000 00000000
        00000001 00000001 00000004 00000001 00000001 00000001 00000002 00000000 00000008 6e666831 00000001""",
    ),
]
XID = 5
HEAD = u32(XID, 1, 0, 0, 0)
RECALLED = u32(0) + opaque(b"") + u32(1, 4, 0)


def results(status: int, *each: bytes) -> bytes:
    return HEAD + u32(0, status) + opaque(b"") + u32(len(each)) + b"".join(each)


# Of CB_COMPOUND, but for those that have no results: a name, a reply, and what it is.
REPLIES = [
    ("OK", HEAD + u32(0) + RECALLED, ACCEPTED),
    ("OK with a tag", HEAD + u32(0, 0) + opaque(b"tag") + u32(1, 4, 0), ACCEPTED),
    ("OK, and bytes behind it", HEAD + u32(0) + RECALLED + u32(7), ACCEPTED),
    ("OK, with another verifier", u32(XID, 1, 0, 1) + opaque(bytes(400)) + u32(0) + RECALLED, ACCEPTED),
    ("BADHANDLE", results(10001, u32(4, 10001)), REFUSED),
    ("BAD_STATEID", results(10025, u32(4, 10025)), REFUSED),
    ("RESOURCE without results", results(10018), REFUSED),
    ("PROG_UNAVAIL", HEAD + u32(1), REFUSED),
    ("PROG_MISMATCH", HEAD + u32(2, 1, 1), REFUSED),
    ("PROC_UNAVAIL", HEAD + u32(3), REFUSED),
    ("GARBAGE_ARGS", HEAD + u32(4), REFUSED),
    ("SYSTEM_ERR", HEAD + u32(5), REFUSED),
    ("RPC_MISMATCH", u32(XID, 1, 1, 0, 2, 2), REFUSED),
    ("AUTH_BADCRED", u32(XID, 1, 1, 1, 1), REFUSED),
    ("nothing", b"", UNREADABLE),
    ("an xid", u32(XID), UNREADABLE),
    ("another xid", u32(6, 1, 0, 0, 0, 0), UNREADABLE),
    ("a call", u32(XID, 0, 2), UNREADABLE),
    ("a reply of no kind", u32(XID, 1, 2), UNREADABLE),
    ("a verifier of 401 bytes", u32(XID, 1, 0, 0) + opaque(bytes(401)) + u32(0) + RECALLED, UNREADABLE),
    ("no state of an accepted reply", HEAD + u32(6), UNREADABLE),
    ("no reason of a denial", u32(XID, 1, 1, 2), UNREADABLE),
    ("PROG_MISMATCH that is cut", HEAD + u32(2, 1), UNREADABLE),
    ("RPC_MISMATCH that is cut", u32(XID, 1, 1, 0, 2), UNREADABLE),
    ("AUTH_BADCRED that is cut", u32(XID, 1, 1, 1), UNREADABLE),
    ("SUCCESS alone", HEAD + u32(0), UNREADABLE),
    ("a result that is cut", (HEAD + u32(0) + RECALLED)[:-1], UNREADABLE),
]
# Why the call wasn't done, by the names of these replies, if it can be read and its name doesn't say why.
FAULTS = {
    "BADHANDLE": "status 10001 of CB_COMPOUND",
    "BAD_STATEID": "status 10025 of CB_COMPOUND",
    "RESOURCE without results": "status 10018 of CB_COMPOUND",
    "AUTH_BADCRED": "AUTH_ERROR",
    "another xid": "reply of another xid",
}
ADDRESSES = [
    (b"tcp", b"127.0.0.1.8.1", ("127.0.0.1", 2049)),
    (b"tcp", b"255.255.255.255.255.255", ("255.255.255.255", 65535)),
    (b"tcp", b"0.0.0.0.0.1", ("0.0.0.0", 1)),
    (b"tcp", b"127.0.0.1.1.0", ("127.0.0.1", 256)),
    (b"tcp", b"127.0.0.1.0.0", None),
    (b"tcp", b"127.0.0.1.8", None),
    (b"tcp", b"127.0.0.1.8.1.1", None),
    (b"tcp", b"127.0.0.1.8.256", None),
    (b"tcp", b"127.0.0.1.8.", None),
    (b"tcp", b"127.0.0.1.8.-1", None),
    (b"tcp", b"127.0.0.1.8.+1", None),
    (b"tcp", b"127.0.0.1.8. 1", None),
    (b"tcp", b"127.0.0.1.8.0x1", None),
    (b"tcp", b"127.0.0.1.8.1\n", None),
    (b"tcp", b"127.0.0.1.8.\xd9\xa1", None),
    (b"tcp", b"", None),
    (b"tcp6", b"127.0.0.1.8.1", None),
    (b"TCP", b"127.0.0.1.8.1", None),
    (b"udp", b"127.0.0.1.8.1", None),
    (b"", b"127.0.0.1.8.1", None),
    (b"tcp", b"::1.8.1", None),
]


def test_records():
    for record, written in RECORDS:
        assert record == bytes.fromhex(written)


def test_replies():
    for name, reply, wanted in REPLIES:
        assert read_reply(reply, XID, True) == wanted, name


def test_faults():
    for name, reply, kind in REPLIES:
        unread = {ACCEPTED: None, REFUSED: name, UNREADABLE: "reply that can't be read"}[kind]
        assert fault_of_reply(reply, XID, True) == FAULTS.get(name, unread), name


def test_replies_to_null():
    """CB_NULL has no results: a reply with SUCCESS is enough."""
    for name, reply, wanted in REPLIES:
        has_success = reply[:20] == HEAD and reply[20:24] == u32(0)
        if has_success or wanted != ACCEPTED:
            assert read_reply(reply, XID, False) == (ACCEPTED if has_success else wanted), name


def test_addresses():
    for netid, address, place in ADDRESSES:
        assert address_of(Callback(1, netid, address, 1)) == place, (netid, address)
