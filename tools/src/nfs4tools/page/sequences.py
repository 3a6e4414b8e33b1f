"""The sequence ids of owners: of each sequenced request the id that it sent, and the id that its owner had to send."""
from typing import NamedTuple

from nfs4tools.explain import Reason, ExplainedEntry
from nfs4tools.journal.entries import Call, Entry
from nfs4tools.journal.history import History
from nfs4tools.model.sequenced import NOT_COUNTED
from nfs4tools.model.server import OPERATIONS, Subject
from nfs4tools.model.state_parts import (
    Owner,
    OwnerName,
    Refusal,
    Request,
    is_first_lock,
    next_sequence_id,
    sequence_id_of,
)
from nfs4tools.page.names import name_of
from nfs4tools.wire import OpenOwner, Opnum


class Sent(NamedTuple):
    """A sequence id: its entry, the owner, the id that came, and the one that was due (None if any was). What became of
    it is "counted", "replay", "wrong" or "not counted"."""

    entry: int
    kind: str
    client: int
    owner: str
    sent: int
    due: int | None
    outcome: str = ""


class SequenceIds:
    """Looks at entries of a replay, and has their sequence ids."""

    def __init__(self, server: History) -> None:
        self.server = server
        self.all: list[Sent] = []
        # Those of the entry that is looked at.
        self.now: list[Sent] = []

    def before(self, number: int, entry: Entry, reason: Reason | None) -> None:
        self.now = []
        if isinstance(entry, Call) and OPERATIONS[entry.opnum].subject == Subject.REQUEST:
            self.now = self.sent_by(number, Request(entry.opnum, entry.arguments, entry.filehandle))

    def after(self, told: ExplainedEntry) -> None:
        self.all += [it._replace(outcome=outcome_of(it, told)) for it in self.now]

    def sent_by(self, number: int, request: Request) -> list[Sent]:
        """That of the owner, and that of a new lock owner."""
        found = []
        try:
            owner = self.server.owner_of(request)
        except Refusal:
            owner = None
        if owner is not None or request.opnum == Opnum.OPEN:
            name = request.arguments.owner if owner is None else owner.name
            found.append(sent(number, name, sequence_id_of(request), self.due(owner, request)))
        if is_first_lock(request):
            locker = request.arguments.locker
            known = self.server.lock_owners.get(locker.owner)
            due = None if known is None else next_sequence_id(known.kept.seqid)
            found.append(sent(number, locker.owner, locker.lock_seqid, due))
        return found

    def due(self, owner: Owner | None, request: Request) -> int | None:
        """The owner's next sequence id; None if it may begin with any."""
        if owner is None or request.opnum == Opnum.OPEN and not owner.is_confirmed:
            return None
        return next_sequence_id(owner.kept.seqid)


def outcome_of(it: Sent, told: ExplainedEntry) -> str:
    """What became of a sequence id by the entry's answer."""
    assert isinstance(told.entry, Call)
    if told.reason is not None and told.reason.again is not None:
        return "replay"
    if it.due not in (None, it.sent):
        return "wrong"
    return "not counted" if told.entry.answer.status in NOT_COUNTED else "counted"


def sent(number: int, owner: OwnerName, came: int, due: int | None) -> Sent:
    kind = "open" if isinstance(owner, OpenOwner) else "lock"
    return Sent(number, kind, owner.client, name_of(owner.name), came, due)
