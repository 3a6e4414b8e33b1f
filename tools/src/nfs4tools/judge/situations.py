"""Which situations a client can meet, each with the section of RFC 7530 that it is by, and one of the repository's rows
that shows it; and lines on how often clients met them, which `situations_met.py` counts."""
import argparse
import difflib
from collections import Counter
from collections.abc import Iterable, Mapping
from typing import NamedTuple

from nfs4tools.journal.words import name_words

# Where the files of rows are.
ROWS = "crates/rows/data"


class Situation(NamedTuple):
    """Its section, its row as FILE:NAME, and what it is in a sentence."""

    name: str
    section: str
    row: str
    text: str


CLIENTS = (
    (
        "setclientid-repeated",
        "16.33.5",
        "clients_with_opens.rows:a client whose first record is replaced before it is confirmed",
        "The client sends SETCLIENTID again before it confirms the first one, which stays unconfirmed.",
    ),
    (
        "retransmission-of-setclientid-confirm",
        "16.34.5",
        "setclientid.rows:a client id, its confirmation, and the confirmation again",
        "SETCLIENTID_CONFIRM comes again, and is answered OK again.",
    ),
    (
        "callback-updated",
        "16.34.5",
        "clients_with_opens.rows:a client that only changes its callback",
        "The client confirms another SETCLIENTID with the same verifier, which may change its callback; its state stays.",
    ),
    (
        "client-restarted",
        "9.6.1",
        "clients_with_opens.rows:a client that starts anew",
        "The client confirms a SETCLIENTID with another verifier: the state that it had before is gone.",
    ),
    (
        "two-principals",
        "16.33.5",
        "clients_with_opens.rows:CLID_INUSE whatever the verifier",
        "SETCLIENTID or its confirmation comes from another principal than that of the id's client.",
    ),
    (
        "server-restarted",
        "9.6.2",
        "owners.rows:STALE_CLIENTID doesn't count",
        "A clientid or a stateid of another run is refused by STALE_CLIENTID or STALE_STATEID.",
    ),
    (
        "lease-ended",
        "9.6.3.2",
        "leases.rows:a lease that is renewed by nothing",
        "The client's lease ends, and its state is gone.",
    ),
    (
        "lease-ended-and-back",
        "9.6.3.2",
        "leases.rows:the client introduces itself again",
        "The client confirms a new SETCLIENTID after the end of its lease.",
    ),
)
SEQUENCE_IDS = (
    (
        "counted-refusal-of-open",
        "9.1.7",
        "owners.rows:SHARE_DENIED counts",
        "OPEN is refused by an error that counts: the owner's next request has the next sequence id.",
    ),
    (
        "counted-refusal-of-open-confirm",
        "9.1.7",
        "stateids.rows:OPEN_CONFIRM: a seqid below the current one",
        "OPEN_CONFIRM is refused by an error that counts.",
    ),
    (
        "counted-refusal-of-open-downgrade",
        "9.1.7",
        "owners.rows:INVAL of OPEN_DOWNGRADE counts",
        "OPEN_DOWNGRADE is refused by an error that counts.",
    ),
    (
        "counted-refusal-of-close",
        "9.1.7",
        "owners.rows:OLD_STATEID counts",
        "CLOSE is refused by an error that counts.",
    ),
    (
        "counted-refusal-of-lock",
        "9.1.7",
        "lock_sequences.rows:DENIED moves the sequence id on",
        "LOCK is refused by an error that counts.",
    ),
    (
        "counted-refusal-of-locku",
        "9.1.7",
        "locku.rows:an old seqid, and no such range",
        "LOCKU is refused by an error that counts.",
    ),
    (
        "uncounted-stale-clientid",
        "9.1.7",
        "owners.rows:STALE_CLIENTID doesn't count",
        "A request with a sequence id is refused by STALE_CLIENTID, which doesn't count.",
    ),
    (
        "uncounted-stale-stateid",
        "9.1.7",
        "owners.rows:STALE_STATEID doesn't count",
        "A request with a sequence id is refused by STALE_STATEID, which doesn't count.",
    ),
    (
        "uncounted-bad-stateid",
        "9.1.7",
        "owners.rows:BAD_STATEID doesn't count",
        "A request with a sequence id is refused by BAD_STATEID, which doesn't count.",
    ),
    (
        "uncounted-bad-seqid",
        "9.1.7",
        "owners.rows:BAD_SEQID doesn't count",
        "A request with a sequence id is refused by BAD_SEQID, which doesn't count.",
    ),
    (
        "uncounted-nofilehandle",
        "9.1.7",
        "owners.rows:NOFILEHANDLE doesn't count",
        "A request with a sequence id is refused by NOFILEHANDLE, which doesn't count.",
    ),
    ("retransmission-of-open", "9.1.8", "owners.rows:an OPEN again", "OPEN comes again, and gets the stored reply."),
    (
        "retransmission-of-open-confirm",
        "9.1.8",
        "owners.rows:an OPEN_CONFIRM again",
        "OPEN_CONFIRM comes again, and gets the stored reply.",
    ),
    (
        "retransmission-of-open-downgrade",
        "9.1.8",
        "owners.rows:an OPEN_DOWNGRADE again",
        "OPEN_DOWNGRADE comes again, and gets the stored reply.",
    ),
    ("retransmission-of-close", "9.1.8", "owners.rows:a CLOSE again", "CLOSE comes again, and gets the stored reply."),
    (
        "retransmission-of-lock-of-new-owner",
        "9.1.8",
        "lock_sequences.rows:a retransmitted LOCK of a new lock owner",
        "LOCK with new_lock_owner comes again, and gets the stored reply.",
    ),
    (
        "retransmission-of-lock-of-known-owner",
        "9.1.8",
        "lock_sequences.rows:a retransmitted LOCK",
        "LOCK with a lock stateid comes again, and gets the stored reply.",
    ),
    (
        "retransmission-of-locku",
        "9.1.8",
        "lock_sequences.rows:a retransmitted LOCKU",
        "LOCKU comes again, and gets the stored reply.",
    ),
    (
        "retransmission-of-refusal",
        "9.1.8",
        "owners.rows:a refusal again",
        "A request that was refused comes again, and gets the stored refusal, whatever has changed since.",
    ),
    (
        "sequence-id-wrapped",
        "9.1.3",
        "owners.rows:the id after 4294967295 is 0",
        "An owner's sequence id goes past 2^32 - 1; on this server 0 is the next one.",
    ),
)
OPENS = (
    ("open-confirmed", "16.18", "open_confirm.rows:an owner is confirmed", "OPEN_CONFIRM confirms an open owner."),
    (
        "owner-begun-anew",
        "16.18.5",
        "owners.rows:an owner that isn't confirmed starts anew",
        "An unconfirmed open owner sends another OPEN: the owner restarts, and its first open is gone.",
    ),
    (
        "owner-forgotten-and-back",
        "9.1.10",
        "idle_owners.rows:an idle owner, by a forgetting",
        "An open owner without opens is forgotten, opens again, and has to be confirmed again.",
    ),
    (
        "two-open-owners",
        "9.1.1",
        "owners.rows:two owners of one client",
        "Two open owners of the client have the same file open.",
    ),
    (
        "open-upgraded",
        "9.11",
        "open.rows:a second OPEN of the same owner and file keeps the state",
        "A second OPEN of an owner adds access or deny to its open of the file.",
    ),
    (
        "open-downgraded",
        "16.19.4",
        "open_downgrade.rows:back to the first of two pairs",
        "OPEN_DOWNGRADE takes access or deny from an open.",
    ),
    (
        "share-denied",
        "9.9",
        "share.rows:the deny of an open meets the access of an OPEN",
        "OPEN is refused by SHARE_DENIED, because an open of another owner conflicts.",
    ),
    (
        "reclaim-refused",
        "9.6.2",
        "open.rows:CLAIM_PREVIOUS comes before the access and the filehandle",
        "OPEN or LOCK reclaims, and is refused by NO_GRACE.",
    ),
)
LOCKS = (
    (
        "lock-denied",
        "16.10.4",
        "lock.rows:a write lock on bytes that another owner reads",
        "LOCK is refused by DENIED, because the lock of another owner conflicts.",
    ),
    (
        "lock-denied-then-given",
        "9.4",
        "leases.rows:a lock that another client asks for",
        "LOCK of the same bytes comes again after DENIED, and is answered OK.",
    ),
    (
        "blocking-lock-denied",
        "9.4",
        "lock.rows:WRITEW_LT where another owner is in the way",
        "LOCK of type READW_LT or WRITEW_LT is refused by DENIED: the client has to poll.",
    ),
    (
        "lock-test-denied",
        "16.11.4",
        "leases.rows:DENIED renews",
        "LOCKT is answered DENIED, because the lock of another owner conflicts.",
    ),
    (
        "lock-upgraded",
        "9.3",
        "lock.rows:a read lock becomes a write lock in its middle",
        "LOCK for writing changes bytes that the owner holds for reading.",
    ),
    (
        "lock-downgraded",
        "9.3",
        "lock.rows:a write lock becomes a read lock in its middle",
        "LOCK for reading changes bytes that the owner holds for writing.",
    ),
    (
        "lock-split",
        "9.2",
        "lock.rows:a write lock with a hole, as another owner meets it",
        "LOCKU, or LOCK of the other type, takes bytes from the middle of a lock.",
    ),
    (
        "lock-merged",
        "16.10.5",
        "lock.rows:locks that touch",
        "LOCK adds bytes to others that the owner holds in the same mode: the ranges become one.",
    ),
    (
        "lock-to-end-of-file",
        "16.10.4",
        "lock.rows:a length of all ones",
        "LOCK with a length of all ones holds all bytes from its offset on.",
    ),
    (
        "lock-past-signed-offsets",
        "16.10.4",
        "lock.rows:the sum of offset and length at its limit",
        "LOCK with another length holds byte 2^63 or a later one, which no signed offset reaches.",
    ),
    (
        "two-lock-owners",
        "9.1.5",
        "lock.rows:two lock owners by one open",
        "Two lock owners of the client have lock states of the same file.",
    ),
    (
        "known-lock-owner-as-new",
        "16.10.5",
        "lock.rows:one lock owner on two files",
        "LOCK with new_lock_owner begins a lock state of a lock owner that the server knows already.",
    ),
    (
        "lock-owner-released",
        "16.37",
        "release_lockowner.rows:an owner that holds nothing",
        "RELEASE_LOCKOWNER ends a lock owner that the server knows.",
    ),
    (
        "close-frees-locks",
        "16.2.4",
        "close_locks.rows:the same under the policy free",
        "CLOSE frees bytes that are locked by the open.",
    ),
)
DELEGATIONS = (
    (
        "delegation-for-reading",
        "10.4",
        "delegations.rows:a delegation for reading",
        "OPEN grants a delegation for reading.",
    ),
    (
        "delegation-for-writing",
        "10.4",
        "delegations.rows:a delegation for writing, by an OPEN for writing",
        "OPEN grants a delegation for writing.",
    ),
    (
        "delegation-returned-unasked",
        "10.4.4",
        "delegreturn.rows:DELEGRETURN of a delegation for reading",
        "DELEGRETURN returns a delegation that isn't recalled.",
    ),
    (
        "recall-returned-in-time",
        "10.4.4",
        "delegreturn.rows:DELEGRETURN of a delegation that is called back",
        "DELEGRETURN returns a delegation after its recall, and before it is revoked.",
    ),
    (
        "delegation-revoked",
        "10.4.6",
        "revocations.rows:a delegation that isn't given back, by a revocation",
        "The client doesn't return a delegation in time after its recall, and it is revoked.",
    ),
    (
        "callback-path-down",
        "10.4.6",
        'paths.rows:a path that is marked down under "assume"',
        "The client's callback path is marked down: a callback didn't reach it, or wasn't accepted.",
    ),
    (
        "open-by-delegation",
        "10.4.4",
        "delegate_cur.rows:an OPEN by a delegation",
        "OPEN with CLAIM_DELEGATE_CUR opens a file by the client's delegation of it.",
    ),
    (
        "delay-and-retry",
        "13.1.1.3",
        "read_write_delegations.rows:READ beside a delegation for writing",
        "OPEN, READ, WRITE or SETATTR comes again after DELAY, and is answered OK.",
    ),
    (
        "read-by-delegation",
        "9.1.6",
        "read_write_stateids.rows:the stateid of a delegation",
        "READ by the stateid of a delegation is answered OK.",
    ),
    (
        "write-by-delegation",
        "9.1.6",
        "read_write_stateids.rows:the stateid of a delegation",
        "WRITE or SETATTR by the stateid of a delegation is answered OK.",
    ),
    (
        "read-or-write-by-lock",
        "9.1.6",
        "read_write_stateids.rows:the stateid of a lock state",
        "READ, WRITE or SETATTR by a lock stateid is answered OK.",
    ),
    (
        "special-stateid",
        "9.1.4.3",
        "read.rows:by all ones",
        "READ, WRITE or SETATTR by a special stateid, which names no client, is answered OK.",
    ),
)
SITUATIONS: dict[str, Situation] = {
    row[0]: Situation(*row) for row in CLIENTS + SEQUENCE_IDS + OPENS + LOCKS + DELEGATIONS
}

# By the ids of clients, and None for calls that name no client: how often situations were met, by their names.
Counts = Mapping[bytes | None, Counter[str]]


def listing() -> list[str]:
    """All situations: for each a line, and below it its sentence and its row."""
    return [
        line
        for it in SITUATIONS.values()
        for line in (f"{it.name} (RFC 7530, {it.section})", f"    {it.text}", f"    {row_words(it)}")
    ]


def row_words(situation: Situation) -> str:
    """Where the row is, and its name."""
    file, _, name = situation.row.partition(":")
    return f"{ROWS}/{file}, row {name}"


def times(name: str, counts: Counts) -> int:
    return sum(found[name] for found in counts.values())


def table(counts: Counts) -> list[str]:
    """How many situations were met; and for each how often, and by which clients."""
    width = max(map(len, SITUATIONS))
    met = sum(times(name, counts) > 0 for name in SITUATIONS)
    lines = [f"{name:<{width}}  {times(name, counts):>5}  {clients_words(name, counts)}" for name in SITUATIONS]
    return [f"{met} of {len(SITUATIONS)} situations were met:", *(f"    {line.rstrip()}" for line in lines)]


def clients_words(name: str, counts: Counts) -> str:
    """Which clients met the situation, and how often."""
    found = [(client, met[name]) for client, met in counts.items() if met[name]]
    return ", ".join(f"{'of no client' if client is None else name_words(client)} {count}" for client, count in found)


def missing(names: Iterable[str], counts: Counts) -> list[Situation]:
    """Those of these situations that no client met."""
    return [SITUATIONS[name] for name in dict.fromkeys(names) if not times(name, counts)]


def require(names: Iterable[str], counts: Counts) -> list[str]:
    """A line for each of these situations that no client met."""
    return [
        f"{it.name} (RFC 7530, {it.section}) was required, and no client met it: {it.text} An example: "
        f"{row_words(it)}"
        for it in missing(names, counts)
    ]


def situation_name(text: str) -> str:
    """The name of a situation, as argparse's `type` of an option."""
    if text in SITUATIONS:
        return text
    near = difflib.get_close_matches(text, SITUATIONS, 2)
    advice = f"did you mean {' or '.join(near)}? " if near else ""
    raise argparse.ArgumentTypeError(f"there is no situation {text!r}: {advice}--situations lists all")
