"""What a reason is made of: its kind, and a record of what was found, by numbers of entries, states and clients. So
`tools/explain` and `tools/judge` have one list of causes, and `sentences.py` alone makes words of them."""
from dataclasses import dataclass, field
from enum import Enum, auto

from nfs4tools.journal.history import Uncounted
from nfs4tools.model.ranges import Run
from nfs4tools.model.state_parts import OwnerName
from nfs4tools.wire import Principal, Stateid, Status


class Kind(Enum):
    """One for each cause that a sentence tells apart; behind it the record that its reasons have."""

    # Of the call, whoever sends it.
    NO_FILEHANDLE = auto()  # Nothing
    NOT_A_FILE = auto()  # NodeFacts: the current filehandle, or what the name of an OPEN leads to
    NOT_A_DIRECTORY = auto()  # NodeFacts
    # Of a clientid, or of the client in a stateid: `stateid` is None for a clientid.
    CLIENTID_OTHER_EPOCH = auto()  # EpochFacts
    CLIENT_NEVER_GIVEN = auto()  # ClientFacts
    CLIENT_NEVER_CONFIRMED = auto()  # UnconfirmedClient
    CLIENT_EXPIRED = auto()  # GoneClient
    CLIENT_REPLACED = auto()  # GoneClient
    # Of a stateid.
    STATEID_SPECIAL = auto()  # StateidFacts
    STATEID_OTHER_EPOCH = auto()  # EpochFacts
    STATE_NEVER_GIVEN = auto()  # StateidFacts
    STATE_OF_OTHER_CLIENT = auto()  # StateFacts
    STATE_CLOSED = auto()  # EndedState: by the CLOSE of the open, or of the lock state's open
    STATE_RELEASED = auto()  # EndedState: a lock state, by RELEASE_LOCKOWNER
    STATE_RETURNED = auto()  # EndedState: a delegation, by DELEGRETURN
    STATE_REVOKED = auto()  # EndedState: a delegation that wasn't given back in time
    STATE_LOST_TO_OPEN = auto()  # EndedState: by an OPEN that started the unconfirmed owner anew
    STATE_OF_OTHER_KIND = auto()  # OtherKind
    STATE_OF_OTHER_FILE = auto()  # OtherFile
    OWNER_NOT_CONFIRMED = auto()  # StateFacts: `entry` is the OPEN
    OWNER_CONFIRMED = auto()  # StateFacts: OPEN_CONFIRM once more; `entry` confirmed the owner
    SEQID_EARLIER = auto()  # MovedState (OLD_STATEID)
    SEQID_LATER = auto()  # MovedState (BAD_STATEID)
    DELEGATION_OF_OTHER_CLIENT = auto()  # OtherClient: CLAIM_DELEGATE_CUR
    # Of an owner and its sequence id.
    KEPT_ANSWER = auto()  # KeptFacts, with any status
    SEQUENCE_ID_OTHER = auto()  # SequenceFacts
    OTHER_REQUEST_WITH_LAST_ID = auto()  # SequenceFacts, with `differs`
    LOCK_SEQID_OTHER = auto()  # SequenceFacts: the lock_seqid of a new lock owner that is known
    NEW_LOCK_OWNER_KNOWN = auto()  # KnownLocker: it has a lock state of the file
    LOCK_OWNER_OF_OTHER_CLIENT = auto()  # OtherClient (INVAL)
    # Of OPEN.
    RECLAIM = auto()  # ReclaimFacts: CLAIM_PREVIOUS, or a LOCK that reclaims
    CLAIM_NOT_SUPPORTED = auto()  # Nothing: CLAIM_DELEGATE_PREV
    NAME_EMPTY = auto()  # NameFacts
    NAME_TOO_LONG = auto()  # NameFacts
    NO_SUCH_NAME = auto()  # NameFacts
    NO_CREATION = auto()  # NameFacts: ACCESS
    FILE_EXISTS = auto()  # ExistingFile
    SHARE_CONFLICT = auto()  # ShareConflicts: SHARE_DENIED, or LOCKED by a special stateid
    DELEGATION_CONFLICT = auto()  # DelegationConflicts (DELAY)
    SHARE_INVALID = auto()  # ShareFacts: access or deny outside its limits
    DOWNGRADE_NO_UNION = auto()  # DowngradeFacts
    # Of locks.
    LOCKS_HELD = auto()  # HeldLocks: CLOSE, RELEASE_LOCKOWNER
    RANGE_INVALID = auto()  # RangeFacts
    ACCESS_LACKING = auto()  # AccessFacts (OPENMODE)
    LOCK_CONFLICT = auto()  # HeldLocks, one (DENIED)
    # Of bytes, attributes and listings.
    TOO_LARGE = auto()  # SizeFacts (FBIG)
    ATTRIBUTES_NOT_SUPPORTED = auto()  # AttributeFacts
    ATTRIBUTES_TO_SET_ONLY = auto()  # AttributeFacts
    ATTRIBUTES_TO_READ_ONLY = auto()  # AttributeFacts
    ATTRIBUTES_FIXED = auto()  # AttributeFacts (ROFS)
    VALUES_UNREADABLE = auto()  # ValueFacts (BADXDR)
    TIME_OF_CLIENT = auto()  # Nothing (ROFS)
    COOKIE_UNKNOWN = auto()  # ListingFacts
    VERIFIER_OTHER = auto()  # ListingFacts
    LISTING_TOO_SMALL = auto()  # RoomFacts
    # Of SETCLIENTID and its confirmation.
    ID_IN_USE = auto()  # IdFacts (CLID_INUSE)
    CONFIRMED_BY_OTHER = auto()  # PrincipalFacts (CLID_INUSE)
    CONFIRM_NEVER_GIVEN = auto()  # ConfirmFacts
    CONFIRM_OF_OTHER_CLIENT = auto()  # ConfirmFacts
    CONFIRM_GAVE_WAY = auto()  # ConfirmFacts
    CONFIRM_REPLACED = auto()  # ConfirmFacts


class Facts:
    """What a reason found; its sentence is made of it. All are frozen records. Two are the same if the cause is: what
    goes on meanwhile, such as how often an answer was given, isn't compared."""


@dataclass(frozen=True)
class Nothing(Facts):
    pass


@dataclass(frozen=True)
class NodeFacts(Facts):
    node: int
    # Whether it is what the name of an OPEN leads to, and not the current filehandle's.
    is_named: bool = False


# Clients.


@dataclass(frozen=True)
class EpochFacts(Facts):
    given: int
    expected: int
    client: int
    stateid: Stateid | None = None


@dataclass(frozen=True)
class ClientFacts(Facts):
    client: int
    stateid: Stateid | None


@dataclass(frozen=True)
class GoneClient(ClientFacts):
    # The entry that removed it, and the client that took its place, if one did; when it was renewed last, and when the
    # lease was over, if it was.
    entry: int
    other: int | None = None
    seen: int | None = None
    now: int | None = None


@dataclass(frozen=True)
class UnconfirmedClient(ClientFacts):
    # The SETCLIENTID that gave it. If its record gave way, to the client of which entry; and else, if a later
    # SETCLIENTID of its id took its place, the last one, and the client that it gave.
    entry: int
    yielded: int | None = None
    last: int | None = None
    other: int | None = None


# States.


@dataclass(frozen=True)
class StateidFacts(Facts):
    stateid: Stateid


@dataclass(frozen=True)
class StateFacts(StateidFacts):
    state: int
    # The entry of which the sentence speaks, if it does.
    entry: int | None = None


@dataclass(frozen=True)
class EndedState(StateFacts):
    # The entry that forgot its owner, if one did.
    forgotten: int | None = None


@dataclass(frozen=True)
class OtherKind(StateFacts):
    # Which kinds would be right (OpenState, LockState, Delegation), and the state of these that may be meant: of the
    # same client and file; or None if there is none or more than one.
    wanted: tuple[type, ...] = ()
    meant: int | None = None


@dataclass(frozen=True)
class OtherFile(StateFacts):
    # The file of the request: the current filehandle's; or `is_named`, that of an OPEN's name.
    node: int = 0
    is_named: bool = False


@dataclass(frozen=True)
class MovedState(StateFacts):
    # The seqid that the state has, since which entry (`entry`) and which moment.
    seqid: int = 0
    moment: int = 0


@dataclass(frozen=True)
class OtherClient(StateFacts):
    # The client that the request names besides: that of the OPEN's owner, or of the lock owner, with its epoch.
    epoch: int = 0
    client: int = 0


# Owners.


@dataclass(frozen=True)
class SequenceFacts(Facts):
    owner: OwnerName
    expected: int
    given: int
    # The last entry of the owner that counted, and those behind it that didn't; and the last refusal of the owner's
    # client that didn't count, if it came behind that entry.
    entry: int
    uncounted: tuple[Uncounted, ...] = field(default=(), compare=False)
    last_uncounted: Uncounted | None = field(default=None, compare=False)
    # What tells the request from the kept one: "operation", "filehandle", or names of arguments.
    differs: tuple[str, ...] = ()


@dataclass(frozen=True)
class KeptFacts(Facts):
    owner: OwnerName
    entry: int
    # Why it was refused then, if it was; which of the delegations that conflicted then have ended since, and by which
    # entries; the owner's next sequence id; and how often the answer was given before this.
    before: "Reason | None"
    ended: tuple[tuple[int, int], ...] = ()
    next_id: int = 0
    times: int = field(default=1, compare=False)


@dataclass(frozen=True)
class KnownLocker(Facts):
    owner: OwnerName
    state: int
    entry: int


# OPEN.


@dataclass(frozen=True)
class ReclaimFacts(Facts):
    is_lock: bool


@dataclass(frozen=True)
class NameFacts(Facts):
    directory: int
    name: bytes


@dataclass(frozen=True)
class ExistingFile(Facts):
    node: int
    mode: int


@dataclass(frozen=True)
class ShareConflict:
    """An open that excludes another one: what it denies of that, and what it has that the other one would deny; and
    since which entries."""

    state: int
    owner: OwnerName
    denied: int
    denied_since: int | None
    held: int
    held_since: int | None
    is_confirmed: bool


@dataclass(frozen=True)
class ShareConflicts(Facts):
    conflicts: tuple[ShareConflict, ...]


@dataclass(frozen=True)
class DelegationConflict:
    """A delegation that excludes an open, READ or WRITE; which entry gave it; and which recalled it before, or None;
    and the first mark of its client's path behind that, and whether that was up."""

    state: int
    client: int
    begun: int
    recalled: int | None = field(compare=False)
    marked: int | None = field(default=None, compare=False)
    is_up: bool = field(default=False, compare=False)


@dataclass(frozen=True)
class DelegationConflicts(Facts):
    conflicts: tuple[DelegationConflict, ...]
    # Whether it is by a special stateid that the file is to be read or written.
    is_special: bool


@dataclass(frozen=True)
class ShareFacts(Facts):
    access: int
    deny: int


@dataclass(frozen=True)
class DowngradeFacts(ShareFacts):
    stateid: Stateid
    pairs: tuple[tuple[int, int], ...]


# Locks.


@dataclass(frozen=True)
class HeldLock:
    """A range that a lock state holds: since which entry the state is as it is, and of how many ranges it is the
    first."""

    state: int
    owner: OwnerName
    run: Run
    entry: int = field(compare=False)
    runs: int = 1


@dataclass(frozen=True)
class HeldLocks(Facts):
    locks: tuple[HeldLock, ...]
    # The lock owner that is to be released, or None.
    owner: OwnerName | None = None


@dataclass(frozen=True)
class RangeFacts(Facts):
    offset: int
    length: int


@dataclass(frozen=True)
class AccessFacts(Facts):
    """The access that the operation takes, and the state which gives less: an open, or a delegation."""

    operation: str
    wanted: int
    access: int
    state: int
    # What the stateid names: the same, or a lock state.
    named: int


# Bytes, attributes, listings.


@dataclass(frozen=True)
class SizeFacts(Facts):
    # No offset: it is a SETATTR's size.
    offset: int | None
    size: int


@dataclass(frozen=True)
class AttributeFacts(Facts):
    numbers: tuple[int, ...]


@dataclass(frozen=True)
class ValueFacts(AttributeFacts):
    size: int


@dataclass(frozen=True)
class ListingFacts(Facts):
    directory: int
    cookie: int
    verifier: bytes


@dataclass(frozen=True)
class RoomFacts(Facts):
    # The name of the first child that is left, or None.
    name: bytes | None
    needed: int
    most: int


# SETCLIENTID.


@dataclass(frozen=True)
class IdFacts(Facts):
    """The id is that of a client of another principal, which has state."""

    id: bytes
    client: int
    principal: Principal
    state: int
    entry: int


@dataclass(frozen=True)
class PrincipalFacts(Facts):
    entry: int
    principal: Principal
    other: Principal


@dataclass(frozen=True)
class ConfirmFacts(Facts):
    client: int
    confirm: int
    # The SETCLIENTID that gave the confirm value, if one did, and to which client; the entry to whose client its record
    # gave way, or that of the id's last SETCLIENTID; and the value that this gave.
    entry: int | None = None
    other: int | None = None
    later: int | None = None
    later_confirm: int | None = None


# A kept answer that is given again: the owner that it is kept for, and its entry.
@dataclass(frozen=True)
class Again:
    owner: OwnerName
    entry: int


@dataclass(frozen=True)
class Reason:
    """What is answered, and why."""

    kind: Kind
    status: Status
    # The heading of docs/RULES.md, and the section of RFC 7530.
    heading: str
    section: str
    facts: Facts
    # If a kept answer is given again, which.
    again: Again | None = None
    # The entries and states that it speaks of.
    entries: tuple[int, ...] = ()
    states: tuple[int, ...] = ()
    # Whether it is about the delegation's stateid of a CLAIM_DELEGATE_CUR.
    is_of_claim: bool = False
    # What else is wrong: the stateid of a request that is refused for its sequence id.
    also: "Reason | None" = None
