"""The words of rules: faults, operations, errors of RPC; and what a status in the server's place means to a client."""
from enum import Enum
from typing import NamedTuple

from nfs4tools.between.valid_statuses import VALID
from nfs4tools.rows.words import NAMES
from nfs4tools.wire import OTHER_OPERATIONS, Opnum, Status

OPERATIONS = {it.name: int(it) for it in Opnum if it is not Opnum.ILLEGAL} | OTHER_OPERATIONS
NULL = "NULL"
ANY = "any"
CB_NULL = "CB_NULL"
CB_RECALL = "CB_RECALL"
OF_CALLBACKS = (CB_NULL, CB_RECALL)
# All that a rule may be about.
NAMED = (NULL, ANY, *OF_CALLBACKS, *OPERATIONS)


class Fault(Enum):
    """What happens to a call or its reply."""

    LOSE_CALL = "lose-call"
    CUT_CALL = "cut-call"
    LOSE_REPLY = "lose-reply"
    CUT_REPLY = "cut-reply"
    SPLIT = "split"
    HOLD = "hold"
    TWICE = "twice"
    AWAY = "away"
    ANSWER = "answer"
    OTHER_XID = "other-xid"


# The faults by their words.
FAULTS = {it.value: it for it in Fault}
# After these the client has to send the call again.
LOSSES = (Fault.LOSE_CALL, Fault.CUT_CALL, Fault.LOSE_REPLY, Fault.CUT_REPLY, Fault.AWAY, Fault.OTHER_XID)
# These end the connection.
ENDING = (Fault.LOSE_CALL, Fault.CUT_CALL, Fault.LOSE_REPLY, Fault.CUT_REPLY, Fault.AWAY)
# What happens to a reply, so that a rule may wait for its status.
OF_REPLIES = (Fault.LOSE_REPLY, Fault.CUT_REPLY, Fault.SPLIT, Fault.HOLD, Fault.OTHER_XID)

# Errors of RPC (RFC 5531, section 9): accept_stat, auth_stat, and reject_stat with another version of RPC.
ACCEPT_ERRORS = {"PROG_UNAVAIL": 1, "PROG_MISMATCH": 2, "PROC_UNAVAIL": 3, "GARBAGE_ARGS": 4, "SYSTEM_ERR": 5}
AUTH_ERRORS = {
    "AUTH_BADCRED": 1,
    "AUTH_REJECTEDCRED": 2,
    "AUTH_BADVERF": 3,
    "AUTH_REJECTEDVERF": 4,
    "AUTH_TOOWEAK": 5,
    "AUTH_INVALIDRESP": 6,
    "AUTH_FAILED": 7,
    "AUTH_KERB_GENERIC": 8,
    "AUTH_TIMEEXPIRE": 9,
    "AUTH_TKT_FILE": 10,
    "AUTH_DECODE": 11,
    "AUTH_NET_ADDR": 12,
    "RPCSEC_GSS_CREDPROBLEM": 13,
    "RPCSEC_GSS_CTXPROBLEM": 14,
}
RPC_ERRORS = (*ACCEPT_ERRORS, *AUTH_ERRORS, "RPC_MISMATCH")

# All statuses by their names without NFS4ERR_.
STATUSES = {name: NAMES[f"NFS4ERR_{name}"] for name in (it.name for it in Status if it is not Status.OK)}
# RESOURCE is of a COMPOUND or CB_COMPOUND (section 13.1.3.4): also of these two, which the tables leave out.
ALSO = {"NVERIFY": {"RESOURCE"}, CB_RECALL: {"RESOURCE"}}
# The statuses behind which a sequence id stays (section 9.1.7); behind each other one it moves on.
STAYING = frozenset("STALE_CLIENTID STALE_STATEID BAD_STATEID BAD_SEQID BADXDR RESOURCE NOFILEHANDLE MOVED".split())


def may_be(operation: str, status: str) -> bool:
    """Whether an operation may have this status."""
    return status in VALID.get(operation, ()) or status in ALSO.get(operation, ())


def valid_for(operation: str) -> list[str]:
    """The statuses that an operation may have, in order."""
    return sorted({*VALID.get(operation, ()), *ALSO.get(operation, ())})


class Gone(Enum):
    """What a status calls gone."""

    NOTHING = ""
    STATEID = "stateid"
    CLIENTID = "client ID"
    # The stateid of an operation that has one, or else its client ID.
    EITHER = "stateid or client ID"


class Meaning(NamedTuple):
    """What a status in the server's place calls gone; what is WRONG after it, beside the sequence id, and its section of
    RFC 7530."""

    gone: Gone
    wrong: str
    section: str


USED = "is used again before SETCLIENTID or RENEW"
REOPENED = "is used again before SETCLIENTID, RENEW, OPEN or a new lock owner's LOCK"
# The statuses after which more than the sequence id is judged.
MEANINGS = {
    "EXPIRED": Meaning(Gone.EITHER, f"its stateid {REOPENED}; without a stateid: its client ID {USED}", "9.6.3.3"),
    "STALE_CLIENTID": Meaning(Gone.CLIENTID, f"its client ID {USED}", "9.1.1"),
    "STALE_STATEID": Meaning(Gone.STATEID, f"its stateid {REOPENED}", "9.1.1"),
    "BAD_STATEID": Meaning(Gone.STATEID, f"its stateid {REOPENED}", "9.6.3.3"),
    "ADMIN_REVOKED": Meaning(Gone.STATEID, f"its stateid {REOPENED}", "9.8"),
    "CB_PATH_DOWN": Meaning(Gone.NOTHING, "SETCLIENTID has another verifier, though the lease goes on", "16.28.5"),
}
# In the order of the table in --help: of these three only the sequence id is judged.
JUDGED = ("DELAY", "GRACE", "RESOURCE", "BAD_SEQID", *MEANINGS)


def moves(status: str) -> bool:
    """Whether the sequence id of a request moves on that is answered so."""
    return status not in STAYING and status not in RPC_ERRORS
