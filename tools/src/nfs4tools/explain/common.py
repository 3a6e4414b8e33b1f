"""What the rules of all operations have in common: the headings and sections of their reasons, and what is asked of the
current filehandle."""
from collections.abc import Iterable, Iterator

from nfs4tools.explain.kinds import Facts, Kind, NodeFacts, Nothing, Reason
from nfs4tools.journal.history import History
from nfs4tools.wire import Status

Reasons = Iterator[Reason]

# Headings of docs/RULES.md that aren't names of operations.
OWNERS = "Owners and sequenced operations"
IDLE = "Idle owners"
STATEIDS = "Stateids"
CLIENT_IDS = "Client ids"
SHARE = "Share reservations"
RANGES = "Byte-range locks"
DELEGATIONS = "Delegations"

# The sections of RFC 7530 by kind; of the other kinds that of the heading.
SECTIONS = {
    Kind.NO_FILEHANDLE: "13.1.2.5",
    Kind.CLIENTID_OTHER_EPOCH: "9.6.2",
    Kind.STATEID_OTHER_EPOCH: "9.6.2",
    Kind.CLIENT_NEVER_CONFIRMED: "9.1.1",
    Kind.CLIENT_EXPIRED: "9.5",
    Kind.CLIENT_REPLACED: "9.1.1",
    Kind.STATEID_SPECIAL: "9.1.4.3",
    Kind.STATE_RELEASED: "16.37.5",
    Kind.STATE_REVOKED: "10.4.6",
    Kind.STATE_LOST_TO_OPEN: "16.18.5",
    Kind.OWNER_NOT_CONFIRMED: "16.18.5",
    Kind.OTHER_REQUEST_WITH_LAST_ID: "9.1.9",
    Kind.LOCK_SEQID_OTHER: "9.1.9",
    Kind.NEW_LOCK_OWNER_KNOWN: "16.10.5",
    Kind.RECLAIM: "9.6.2",
    Kind.ACCESS_LACKING: "9.1.6",
    Kind.ATTRIBUTES_TO_SET_ONLY: "5.5",
    Kind.ATTRIBUTES_TO_READ_ONLY: "5.5",
}
SECTIONS_OF_HEADINGS = {
    OWNERS: "9.1.7",
    IDLE: "9.1.10",
    STATEIDS: "9.1.4.4",
    CLIENT_IDS: "9.1.1",
    SHARE: "9.9",
    RANGES: "16.10.4",
    DELEGATIONS: "10.4.4",
    "CLOSE": "16.2",
    "DELEGRETURN": "16.6",
    "GETATTR": "16.7",
    "LOCK": "16.10",
    "LOCKT": "16.11",
    "LOCKU": "16.12",
    "OPEN": "16.16",
    "OPEN_CONFIRM": "16.18",
    "OPEN_DOWNGRADE": "16.19",
    "READ": "16.23",
    "READDIR": "16.24",
    "SETATTR": "16.32",
    "SETCLIENTID": "16.33",
    "SETCLIENTID_CONFIRM": "16.34",
    "WRITE": "16.36",
    "RELEASE_LOCKOWNER": "16.37",
}


def reason(
    kind: Kind,
    status: Status,
    heading: str,
    facts: Facts,
    entries: Iterable[int | None] = (),
    states: Iterable[int] = (),
) -> Reason:
    """A reason with the section that it has by its kind, or by its heading."""
    section = SECTIONS[kind] if kind in SECTIONS else SECTIONS_OF_HEADINGS[heading]
    named = tuple(entry for entry in entries if entry is not None)
    return Reason(kind, status, heading, section, facts, None, named, tuple(states))


class Common:
    """The causes of refusals in the present state of a server that follows a journal."""

    def __init__(self, server: History) -> None:
        self.server = server
        # The reasons of answers, by their entries; and of kept answers, how often they were given again.
        self.given: dict[int, Reason] = {}
        self.repeated: dict[int, int] = {}

    def of_filehandle(self, filehandle: int | None) -> Reasons:
        if filehandle is None:
            yield reason(Kind.NO_FILEHANDLE, Status.NOFILEHANDLE, "COMPOUND", Nothing())

    def of_node(self, node: int, status: Status, heading: str) -> Reasons:
        """That a file is wanted, where it would be ISDIR, or a directory, where it would be NOTDIR."""
        wants_file = status == Status.ISDIR
        if self.server.tree.is_file(node) != wants_file:
            kind = Kind.NOT_A_FILE if wants_file else Kind.NOT_A_DIRECTORY
            yield reason(kind, status, heading, NodeFacts(node))
