"""What a verdict can find: each sort with its fixed name, its severity, the section of RFC 7530 that it rests on, and
what a right client does. The order of the errors is a rule: a refusal is one error, of the first sort that fits."""
from dataclasses import dataclass
from enum import Enum


# Names, sections and advice of sorts of one severity.
Rows = tuple[tuple[str, str, str], ...]


class Severity(Enum):
    """An error is a client's fault; a warning may be one, or the journal doesn't say whose fault it is."""

    ERROR = "error"
    WARNING = "warning"


@dataclass(frozen=True)
class Sort:
    """A sort of findings; the advice is a sentence on what a right client does."""

    name: str
    severity: Severity
    section: str
    advice: str


@dataclass(frozen=True)
class Finding:
    """One finding. `client` is the id of its SETCLIENTID, or None where the calls name no client; `entries` are those
    of the fault, and `others` those that conflicted, or made what was left; the text is a sentence on what happened.
    What a trace shows has lines of the trace in place of entries."""

    sort: Sort
    client: bytes | None
    entries: tuple[int, ...]
    others: tuple[int, ...]
    text: str
    severity: Severity
    lines: tuple[int, ...] = ()
    other_lines: tuple[int, ...] = ()


def found(
    name: str,
    client: bytes | None,
    entries: tuple[int, ...],
    text: str,
    others: tuple[int, ...] = (),
    severity: Severity | None = None,
) -> Finding:
    """A finding of the sort of this name, of the sort's severity unless another is given."""
    sort = SORTS[name]
    return Finding(sort, client, entries, others, text, severity or sort.severity)


def found_in_trace(
    name: str, client: bytes | None, lines: tuple[int, ...], text: str, others: tuple[int, ...] = ()
) -> Finding:
    """A finding of the sort of this name, by lines of a trace."""
    sort = TRACE_SORTS[name]
    return Finding(sort, client, (), (), text, sort.severity, lines, others)


# Name, section, advice.
ERRORS = (
    (
        "stateid-of-other-kind",
        "9.1.4",
        "A right client keeps the stateids of opens, locks and delegations apart, and sends the kind that the operation "
        "takes.",
    ),
    (
        "stateid-of-other-file",
        "9.1.4",
        "A right client keeps a stateid with its file, and sends it only with that file's filehandle.",
    ),
    (
        "stateid-unknown",
        "9.1.4",
        "A right client sends stateids as the server answered them, with all of their bytes, and makes up none.",
    ),
    (
        "stateid-closed",
        "9.1.4",
        "A right client forgets an open's stateid, and those of its locks, when CLOSE or RELEASE_LOCKOWNER is answered.",
    ),
    (
        "delegation-used-after-return",
        "9.1.4",
        "A right client sends DELEGRETURN last, and goes on by the stateids of its opens.",
    ),
    (
        "confirm-of-nothing",
        "16.18, 16.34",
        "A right client confirms what the last answer asks it to confirm: once, and with the values of that answer.",
    ),
    (
        "stateid-old",
        "9.1.4",
        "A right client replaces a stateid by the one that the last answer on the same state brought.",
    ),
    (
        "stateid-of-other-client",
        "9.1.4",
        "A right client uses the stateids that came to its own clientid, and no others.",
    ),
    (
        "owner-not-confirmed",
        "9.1.11",
        "A right client sends OPEN_CONFIRM when the answer to OPEN asks for it, before anything else of that open owner.",
    ),
    (
        "sequence-id-moved-after-uncounted-refusal",
        "9.1.7",
        "A right client sends the same sequence id again after the errors that section 9.1.7 lists, BAD_STATEID among "
        "them.",
    ),
    (
        "sequence-id-kept-after-counted-refusal",
        "9.1.7",
        "A right client adds one to the sequence id after each answer, except the errors that section 9.1.7 lists.",
    ),
    (
        "other-request-with-last-id",
        "9.1.7",
        "A right client sends a request again unchanged, and gives each new request of an owner the next sequence id.",
    ),
    (
        "new-lock-owner-again",
        "16.10",
        "A right client sends new_lock_owner only in an owner's first LOCK on a file, and the lock stateid in later "
        "LOCKs.",
    ),
    (
        "sequence-id-skipped",
        "9.1.7",
        "A right client adds exactly one to the sequence id for each request of the owner that counts.",
    ),
    ("sequence-id-reused", "9.1.7", "A right client never goes back to an earlier sequence id of the owner."),
    (
        "lease-lapsed",
        "9.5",
        "A right client renews its lease in time, by RENEW with its present clientid or by any use of its stateids.",
    ),
    (
        "continues-with-dead-clientid",
        "9.6.2, 9.6.3",
        "A right client sends SETCLIENTID and its confirmation after EXPIRED or STALE_CLIENTID; then it opens and locks "
        "again.",
    ),
    (
        "delegation-not-returned",
        "10.4.6",
        "A right client answers CB_RECALL, writes back what it has changed, and sends DELEGRETURN within the lease.",
    ),
    (
        "read-without-access",
        "9.1.6",
        "A right client reads by the stateid of an open or a delegation that has access to READ.",
    ),
    (
        "write-without-access",
        "9.1.6",
        "A right client writes by the stateid of an open or a delegation that has access to WRITE.",
    ),
    (
        "lock-without-access",
        "9.1.6",
        "A right client takes a READ lock by an open with access to READ, and a WRITE lock by one with access to WRITE.",
    ),
    (
        "write-beyond-delegation",
        "10.4",
        "A right client writes only by a delegation for writing. With one for reading it opens the file for WRITE.",
    ),
    ("close-with-locks", "16.2", "A right client sends LOCKU for all locks of an open before it sends CLOSE."),
    (
        "release-of-held-lock-owner",
        "16.37",
        "A right client sends LOCKU for all locks of a lock owner before it sends RELEASE_LOCKOWNER.",
    ),
    (
        "downgrade-without-open",
        "16.19",
        "A right client downgrades an open to the union of some of the access and deny pairs with which it has opened "
        "the file.",
    ),
    ("share-invalid", "16.16", "A right client sends an access of READ, WRITE or both, and a deny of at most both."),
    (
        "range-invalid",
        "16.10 to 16.12",
        "A right client locks at least one byte, and sends a length of all ones for a range to the end of the file.",
    ),
    (
        "no-filehandle",
        "13.1.2.5",
        "A right client sends PUTFH or PUTROOTFH in the same COMPOUND before an operation that needs a filehandle.",
    ),
    (
        "client-id-of-two-principals",
        "16.33, 16.34",
        "A right client gives each principal an id of its own, and confirms it by the principal that set it.",
    ),
)
WARNINGS = (
    ("open-left", "9.10", "A right client sends CLOSE for each open before it ends or restarts."),
    ("lock-left", "9.10", "A right client sends LOCKU for each lock before it closes the file, ends or restarts."),
    ("delegation-left", "16.6", "A right client sends DELEGRETURN for each delegation before it ends or restarts."),
    ("lock-owner-left", "16.37", "A client that doesn't need a lock owner any more can free it by RELEASE_LOCKOWNER."),
    (
        "lock-dropped-by-close",
        "16.2",
        "A client should send LOCKU for all locks of an open before it sends CLOSE: other servers may refuse the CLOSE.",
    ),
    (
        "delay-hammered",
        "13.1.1.3",
        "A right client waits longer from one DELAY to the next before it sends the request again.",
    ),
    (
        "never-confirmed",
        "9.1.11, 16.34",
        "A right client confirms each SETCLIENTID, and each open owner for which the answer to OPEN asks it to.",
    ),
    (
        "own-deny-met",
        "9.9",
        "A client that opens a file by two owners gives them shares that don't exclude each other.",
    ),
    (
        "recall-not-answered",
        "10.4.6",
        "A right client keeps its callback service reachable as long as it has delegations, and answers CB_RECALL at "
        "once.",
    ),
    (
        "reclaim-without-grace",
        "9.6.2",
        "A right client reclaims only after a restart of the server; after NO_GRACE it opens the file again.",
    ),
    (
        "stale-from-another-run",
        "9.6.2",
        "A right client takes STALE_CLIENTID or STALE_STATEID for a restart of the server, and sends SETCLIENTID.",
    ),
    (
        "callback-address-unusable",
        "16.33",
        "A right client sends the netid and the universal address at which its callback service listens.",
    ),
)

# What only a trace shows.
TRACE_ERRORS = (
    (
        "renews-another-clientid",
        "16.28",
        "A right client sends RENEW with the clientid that its last confirmed SETCLIENTID was given, and with no other.",
    ),
    (
        "renews-before-confirm",
        "16.28",
        "A right client sends RENEW only after SETCLIENTID_CONFIRM: an unconfirmed clientid has no lease.",
    ),
)
TRACE_WARNINGS = (
    (
        "renewed-late",
        "9.5",
        "A client that renews its lease when two thirds of it are over has time left to send a lost RENEW again.",
    ),
)


def sorts_of(errors: Rows, warnings: Rows) -> dict[str, Sort]:
    return {
        name: Sort(name, severity, section, advice)
        for severity, rows in ((Severity.ERROR, errors), (Severity.WARNING, warnings))
        for name, section, advice in rows
    }


# By their names: what a journal shows, what a trace shows, and both.
SORTS = sorts_of(ERRORS, WARNINGS)
TRACE_SORTS = sorts_of(TRACE_ERRORS, TRACE_WARNINGS)
ALL_SORTS = SORTS | TRACE_SORTS
