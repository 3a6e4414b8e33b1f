"""The arguments and results of the operations of RFC 7531, as bytes through which `tools/between` has to find its way:
made by hand, beside the forms by which it reads them."""
from nfs4tools.messages import words
from nfs4tools.wire import opaque, u64

STATEID = words(1, 2, 3, 4)
ATTRIBUTES = words(2, 0x10, 0x2) + opaque(bytes(12))
OWNER = words(1, 2) + opaque(b"owner")
CHANGE = words(1) + u64(5) + u64(6)
NAME = opaque(b"name")


def open_arguments(how: bytes = words(0), claim: bytes = words(0) + NAME) -> bytes:
    return words(1, 3, 0) + OWNER + how + claim


# Of each operation by its number, one or several forms of its arguments.
ARGUMENTS = {
    3: [words(63)],
    4: [words(1) + STATEID],
    5: [u64(0) + words(1)],
    6: [
        words(2) + NAME + ATTRIBUTES,
        words(5) + opaque(b"where to") + NAME + ATTRIBUTES,
        words(3, 8, 1) + NAME + ATTRIBUTES,
        words(4, 8, 1) + NAME + ATTRIBUTES,
        words(7) + NAME + ATTRIBUTES,
    ],
    7: [u64(1)],
    8: [STATEID],
    9: [words(0), words(1, 2), words(3, 1, 2, 3)],
    10: [b""],
    11: [NAME],
    12: [
        words(2, 0) + u64(0) + u64(1) + words(1, 1) + STATEID + words(1) + OWNER,
        words(2, 0) + u64(0) + u64(1) + words(0) + STATEID + words(1),
    ],
    13: [words(2) + u64(0) + u64(1) + OWNER],
    14: [words(2, 1) + STATEID + u64(0) + u64(1)],
    15: [NAME],
    16: [b""],
    17: [ATTRIBUTES],
    18: [
        open_arguments(),
        open_arguments(words(1, 0) + ATTRIBUTES),
        open_arguments(words(1, 1) + ATTRIBUTES),
        open_arguments(words(1, 2) + bytes(8)),
        open_arguments(claim=words(1, 2)),
        open_arguments(claim=words(2) + STATEID + NAME),
        open_arguments(claim=words(3) + NAME),
    ],
    19: [words(1)],
    20: [STATEID + words(1)],
    21: [STATEID + words(1, 1, 0)],
    22: [opaque(b"a handle")],
    23: [b""],
    24: [b""],
    25: [STATEID + u64(0) + words(5)],
    26: [u64(0) + bytes(8) + words(100, 200, 1, 2)],
    27: [b""],
    28: [NAME],
    29: [NAME + opaque(b"other")],
    30: [u64(1)],
    31: [b""],
    32: [b""],
    33: [NAME],
    34: [STATEID + ATTRIBUTES],
    35: [bytes(8) + NAME + words(0x40000000) + opaque(b"tcp") + opaque(b"127.0.0.1.3.232") + words(1)],
    36: [u64(1) + bytes(8)],
    37: [ATTRIBUTES],
    38: [STATEID + u64(0) + words(2) + opaque(b"data!")],
    39: [OWNER],
}


def delegations() -> list[bytes]:
    """What an OPEN may lend: nothing, a file to read, or one to write, by a count of bytes or of blocks."""
    entry = words(0, 0, 0) + opaque(b"who@here")
    return [
        words(0),
        words(1) + STATEID + words(0) + entry,
        words(2) + STATEID + words(0, 1) + u64(9) + entry,
        words(2) + STATEID + words(1, 2) + words(3, 512) + entry,
    ]


# Operations that don't name an owner's request, by their numbers, with what stands behind NFS4_OK in their results.
RESULTS = [
    (3, words(63, 13)),
    (5, bytes(8)),
    (6, CHANGE + words(1, 1)),
    (7, b""),
    (8, b""),
    (9, ATTRIBUTES),
    (10, opaque(b"a handle")),
    (11, CHANGE),
    (13, b""),
    (15, b""),
    (16, b""),
    (17, b""),
    (19, b""),
    (22, b""),
    (23, b""),
    (24, b""),
    (25, words(1) + opaque(b"hello")),
    (26, bytes(8) + words(1) + u64(3) + NAME + ATTRIBUTES + words(1) + u64(4) + NAME + ATTRIBUTES + words(0, 1)),
    (26, bytes(8) + words(0, 1)),
    (27, opaque(b"where to")),
    (28, CHANGE),
    (29, CHANGE + CHANGE),
    (30, b""),
    (31, b""),
    (32, b""),
    (33, words(3, 1, 6) + opaque(b"an oid") + words(0, 1, 0)),
    (34, words(1, 2)),
    (35, u64(1) + bytes(8)),
    (36, b""),
    (37, b""),
    (38, words(5, 2) + bytes(8)),
    (39, b""),
]
# Those of an OPEN, which is the one request of an owner then, with what it may lend.
OPENED = [STATEID + CHANGE + words(4, 1, 16) + lent for lent in delegations()]
