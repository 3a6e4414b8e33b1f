"""The form of a trace, without servers: all operations of RFC 7531 have its names; what can't be read is told by its
length and first bytes, and nothing is raised by random bytes; lines of long records are short; and any beginning of a
trace is read up to its last whole line."""
import json
import random
import time

import pytest

from helpers.between_forms import ARGUMENTS, OPENED, RESULTS
from nfs4tools.messages import words
from nfs4tools.processes import PATIENCE
from nfs4tools.trace.form import fields_of
from nfs4tools.trace.reader import read_trace, trace_of
from nfs4tools.trace.watching import Place
from nfs4tools.trace.writer import TraceWriter
from nfs4tools.wire import opaque

pytestmark = pytest.mark.quick
# The most letters of a line.
LINE_LETTERS = 10000

# The fields of each operation's arguments and of its result, in the order of RFC 7531, with those that only some have.
NAMES_OF_ARGUMENTS = {
    "ACCESS": "access",
    "CLOSE": "seqid open_stateid",
    "COMMIT": "offset count",
    "CREATE": "objtype linkdata devdata objname createattrs",
    "DELEGPURGE": "clientid",
    "DELEGRETURN": "deleg_stateid",
    "GETATTR": "attr_request",
    "LINK": "newname",
    "LOCK": "locktype reclaim offset length open_seqid open_stateid lock_stateid lock_seqid lock_owner",
    "LOCKT": "locktype offset length owner",
    "LOCKU": "locktype seqid lock_stateid offset length",
    "LOOKUP": "objname",
    "NVERIFY": "obj_attributes",
    "OPEN": "seqid share_access share_deny owner opentype mode createattrs createverf claim delegate_type "
    "delegate_stateid file file_delegate_prev",
    "OPENATTR": "createdir",
    "OPEN_CONFIRM": "open_stateid seqid",
    "OPEN_DOWNGRADE": "open_stateid seqid share_access share_deny",
    "PUTFH": "object",
    "READ": "stateid offset count",
    "READDIR": "cookie cookieverf dircount maxcount attr_request",
    "RELEASE_LOCKOWNER": "lock_owner",
    "REMOVE": "target",
    "RENAME": "oldname newname",
    "RENEW": "clientid",
    "SECINFO": "name",
    "SETATTR": "stateid obj_attributes",
    "SETCLIENTID": "verifier id cb_program r_netid r_addr callback_ident",
    "SETCLIENTID_CONFIRM": "clientid setclientid_confirm",
    "VERIFY": "obj_attributes",
    "WRITE": "stateid offset stable data",
}
NAMES_OF_RESULTS = {
    "ACCESS": "supported access",
    "COMMIT": "writeverf",
    "CREATE": "atomic before after attrset",
    "GETATTR": "obj_attributes",
    "GETFH": "object",
    "LINK": "atomic before after",
    "OPEN": "stateid atomic before after rflags attrset delegation_type delegation.stateid recall limitby filesize "
    "num_blocks bytes_per_block permissions",
    "READ": "eof data",
    "READDIR": "cookieverf cookie name attrs eof",
    "READLINK": "link",
    "REMOVE": "atomic before after",
    "RENAME": "source_cinfo.atomic source_cinfo.before source_cinfo.after target_cinfo.atomic target_cinfo.before "
    "target_cinfo.after",
    "SECINFO": "flavor oid qop service",
    "SETATTR": "attrsset",
    "SETCLIENTID": "clientid setclientid_confirm",
    "WRITE": "count committed writeverf",
}


# Records.


def called(*operations, program=(100003, 4), xid=7, procedure=1):
    head = words(xid, 0, 2, *program, procedure, 0, 0, 0, 0)
    return head + (words(0, 0, len(operations)) + b"".join(operations) if operations else b"")


def replied(*results, status=0, xid=7):
    return words(xid, 1, 0, 0, 0, 0) + words(status, 0, len(results)) + b"".join(results)


CALLS = [called(words(number) + form) for number, forms in ARGUMENTS.items() for form in forms]
REPLIES = [replied(words(number, 0) + rest) for number, rest in [*RESULTS, *((18, it) for it in OPENED)]]
CALLBACK = words(7, 0, 2, 0x40000000, 1, 1, 0, 0, 0, 0) + words(0, 0, 9, 2)
CALLBACK += words(4, 1, 1, 1, 3, 1) + opaque(b"fh") + words(3) + opaque(b"fh") + words(1, 0x10)


def in_order(found, wanted):
    """Whether the fields have these names, in this order, but for those of a list, which come again."""
    places = [wanted.split().index(word.partition("=")[0]) for word in found]
    return places == sorted(places) or wanted.startswith(("cookieverf", "flavor"))


def test_names():
    """Each operation of RFC 7531 is read, by the names of its fields there."""
    names = set()
    for records, is_reply, wanted in (CALLS, False, NAMES_OF_ARGUMENTS), (REPLIES, True, NAMES_OF_RESULTS):
        for record in records:
            fields = fields_of(record, is_reply, False)
            (step,) = fields["operations"]
            assert "unread" not in fields and fields["xid"] == "0x00000007" and fields["count"] == 1, fields
            assert in_order(step["words"], wanted.get(step["operation"], "")), step
            names.add(step["operation"])
    assert len(names) == 37


def test_values():
    """Values as `tools/show_journal` has them (docs/CLIENTS.md, A session)."""
    lock = words(12, 2, 0) + bytes(8) + b"\xff" * 8 + words(1, 5, 1, 1, 1, 1, 6, 1, 1) + opaque(b'a "locker"')
    (step,) = fields_of(called(lock), False, False)["operations"]
    assert " ".join(step["words"]) == (
        "locktype=WRITE_LT reclaim=FALSE offset=0 length=NFS4_UINT64_MAX open_seqid=5 open_stateid=1:1:1:1 "
        r'lock_seqid=6 lock_owner=1/"a \"locker\""'
    )
    denied = replied(words(12, 10010) + bytes(8) + b"\0" * 7 + b"\x0a" + words(1, 3, 4) + opaque(b"x"), status=10010)
    fields = fields_of(denied, True, False)
    assert fields["status"] == "NFS4ERR_DENIED" and fields["operations"] == [
        {
            "operation": "LOCK",
            "status": "NFS4ERR_DENIED",
            "words": ["offset=0", "length=10", "locktype=READ_LT", 'owner=3:4/"x"'],
        }
    ]


def test_callback_words():
    fields = fields_of(CALLBACK, False, True)
    assert (fields["program"], fields["procedure"], fields["callback_ident"]) == (0x40000000, "CB_COMPOUND", 9)
    assert fields["operations"] == [
        {"operation": "CB_RECALL", "words": ["stateid=1:1:1:3", "truncate=TRUE", "fh=0x6668"]},
        {"operation": "CB_GETATTR", "words": ["fh=0x6668", "attr_request=[size]"]},
    ]
    assert "unread" not in fields
    answer = replied(words(4, 0), words(3, 10001), status=10001)
    assert fields_of(answer, True, True)["operations"] == [
        {"operation": "CB_RECALL", "status": "NFS4_OK", "words": []},
        {"operation": "CB_GETATTR", "status": "NFS4ERR_BADHANDLE", "words": []},
    ]


@pytest.mark.parametrize(
    "rest, fields",
    [
        (words(1, 0, 0, 0, 0), {"answer": "SUCCESS"}),
        (words(1, 0, 0, 0, 1), {"answer": "PROG_UNAVAIL"}),
        (words(1, 0, 0, 0, 2, 4, 4), {"answer": "PROG_MISMATCH", "low": 4, "high": 4}),
        (words(1, 0, 0, 0, 3), {"answer": "PROC_UNAVAIL"}),
        (words(1, 0, 0, 0, 4), {"answer": "GARBAGE_ARGS"}),
        (words(1, 0, 0, 0, 5), {"answer": "SYSTEM_ERR"}),
        (words(1, 1, 0, 2, 2), {"answer": "RPC_MISMATCH", "low": 2, "high": 2}),
        (words(1, 1, 1, 1), {"answer": "AUTH_ERROR", "reason": "AUTH_BADCRED"}),
        (words(1, 1, 1, 5), {"answer": "AUTH_ERROR", "reason": "AUTH_TOOWEAK"}),
        (words(1, 1, 1, 99), {"answer": "AUTH_ERROR", "reason": "99"}),
    ],
)
def test_answers_of_rpc(rest, fields):
    """RFC 5531, section 9."""
    assert fields_of(words(7) + rest, True, False) == {"xid": "0x00000007", **fields}


@pytest.mark.parametrize(
    "record, is_reply, length",
    [
        (b"abc", False, 3),
        (words(7, 1), False, 4),
        (called(words(24), words(77, 1)), False, 8),
        (called(words(24), words(30, 1)), False, 8),
        (called(words(24)) + b"tail", False, 4),
        (called(words(24), program=(100003, 3)), False, 16),
        (called(words(24), procedure=2), False, 16),
        (words(7, 0, 2, 100003, 4, 1, 6, 4, 0, 0, 0, 1, 2, 3), False, 12),
        (replied(words(24, 0), words(77, 0)), True, 8),
        (replied(words(10044, 0)), True, 8),
        (words(7, 0), True, 4),
    ],
)
def test_unread(record, is_reply, length):
    """What can't be read is told by its length and its first bytes; what comes before is read."""
    fields = fields_of(record, is_reply, False)
    assert fields["unread"] == {"length": length, "first": record[len(record) - length :].hex()}
    if b"\0\0\0\x18" in record and "operations" in fields and record.count(words(24)):
        assert [it["operation"] for it in fields["operations"]] == ["PUTROOTFH"]


def test_random_records(path_of):
    """Whatever the bytes are nothing is raised, a line of JSON is written, and what isn't read is the record's end."""
    choose = random.Random(7)
    writer = TraceWriter(path_of("run.trace"), "a test", 90)
    records = [*((it, False) for it in [*CALLS, CALLBACK]), *((it, True) for it in REPLIES)]
    seen = []
    for number in range(3000):
        record, is_reply = choose.choice(records)
        data = bytearray(record)
        for _ in range(choose.randrange(5)):
            at = choose.randrange(len(data) + 1)
            data[at : at + choose.choice([0, 1, 4, 40])] = choose.choice(
                [b"", b"\xff" * 4, words(1), choose.randbytes(3)]
            )
        seen.append(bytes(data))
        writer.see(Place(number % 3, choose.random() < 0.3), is_reply != (choose.random() < 0.1), seen[-1])
    trace = read_trace(path_of("run.trace"))
    assert writer.fault is None and trace.ends is None and len(trace.lines) == len(seen)
    for line, record in zip(trace.lines, seen):
        unread = line.fields.get("unread", {"length": 0, "first": ""})
        assert line.fields["length"] == len(record) >= unread["length"]
        assert unread["first"] == record[len(record) - unread["length"] :][:32].hex()


def test_long_records(path_of):
    """The line of a record stays short, and is written soon."""
    entry = words(1) + bytes(8) + opaque(b"name") + words(1, 0) + opaque(b"")
    directory = replied(words(26, 0) + bytes(8) + entry * 30000 + words(0, 1))
    masks = called(words(9, 100000) + b"\xff" * 400000)
    begun = time.monotonic()
    writer = TraceWriter(path_of("run.trace"), "a test", 90)
    for is_reply, record in (
        (True, directory),
        (False, masks),
        (False, called(words(38) + bytes(28) + opaque(bytes(1 << 20)))),
    ):
        writer.see(Place(1, False), is_reply, record)
    lines = read_trace(path_of("run.trace")).lines
    assert all(len(json.dumps(it.fields)) < LINE_LETTERS for it in lines) and time.monotonic() - begun < PATIENCE
    assert [it.fields["length"] for it in lines[:2]] == [len(directory), len(masks)]
    assert lines[0].steps[0].words[-1] == ".." and lines[1].steps[0].words == ("attr_request=(100000 words)",)


def test_beginnings(path_of):
    """A trace is read up to its last whole line."""
    writer = TraceWriter(path_of("run.trace"), "a test", 90)
    for record in CALLS[:3]:
        writer.see(Place(1, False), False, record)
    writer.end(Place(1, False), "client")
    writer.end(Place(1, False), "server")
    with open(path_of("run.trace"), "rb") as source:
        data = source.read()
    ends = [place + 1 for place, byte in enumerate(data) if byte == 10]
    assert len(ends) == 5 and ends[-1] == len(data)
    for at in range(ends[0], len(data) + 1):
        trace = trace_of(data[:at])
        whole = sum(end <= at for end in ends)
        assert len(trace.lines) == whole - 1 and (trace.ends is None) == (at in ends)
    assert trace.lines[-1].fields["by"] == "client"
