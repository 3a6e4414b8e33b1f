"""What is said of a refusal: the faults of which it may be the sign, and what of earlier entries tells a fault from
what a right client does while several of its calls are under way, or after a reply was lost."""
from collections import defaultdict
from collections.abc import Callable, Hashable, Iterator
from dataclasses import dataclass, replace
from typing import Any

from nfs4tools.explain import Kind, Reason, ExplainedEntry, is_refusal, sentence
from nfs4tools.explain.kinds import SequenceFacts, StateidFacts
from nfs4tools.journal.entries import Call
from nfs4tools.journal.history import History, Uncounted
from nfs4tools.journal.words import STATUS_NAMES
from nfs4tools.judge.clients import client_of, stateids_of
from nfs4tools.judge.findings import SORTS, Severity
from nfs4tools.model.sequenced import NOT_COUNTED
from nfs4tools.model.server import OPERATIONS, Subject
from nfs4tools.model.state_parts import LAST, OpenState
from nfs4tools.wire import Opnum, Reader, STATEID, SetclientidConfirm

# How many sequence ids there are.
IDS = LAST + 1

# Who sends a request that comes so many moments after an answer, or later, knows the answer; before that the request
# may have been under way.
KNOWN_AFTER = 2
UNDER_WAY = "it may have been under way then"
ASKED_AGAIN = f"{UNDER_WAY}, as the client has asked again by another stateid"
# The operations whose answers bring stateids of opens and lock states.
GIVING = {Opnum.OPEN, Opnum.OPEN_CONFIRM, Opnum.OPEN_DOWNGRADE, Opnum.CLOSE, Opnum.LOCK, Opnum.LOCKU}
# Those that name a stateid and have no sequence id: several may be under way with one stateid.
TRANSFERS = {Opnum.READ, Opnum.WRITE, Opnum.SETATTR}


@dataclass(frozen=True)
class Refused:
    """A call that is refused, and why; and whose it is, by the id of its SETCLIENTID."""

    number: int
    call: Call
    reason: Reason
    client: bytes | None


@dataclass(frozen=True)
class Fault:
    """A fault that a refusal may be the sign of. Those of one key are the same fault again."""

    name: str
    key: Hashable
    text: str
    others: tuple[int, ...]
    # How a right client may have come to it, if it may; or what says so when all entries are known.
    doubt: str = ""
    later: Callable[[], str] | None = None

    @property
    def severity(self) -> Severity:
        return Severity.WARNING if self.doubt else SORTS[self.name].severity

    def settled(self) -> "Fault":
        """The fault by all entries."""
        return self if self.later is None else replace(self, doubt=self.later(), later=None)


def fault(name: str, refused: Refused, reason: Reason, text: str, doubt: str = "") -> Fault:
    """The fault that a reason tells, with the entries that it is about."""
    facts = reason.facts
    what = facts.stateid if isinstance(facts, StateidFacts) else facts
    return Fault(name, (refused.call.opnum, reason.kind, what), text, reason.entries, doubt)


class Finder:
    """Says of which faults of one kind a refusal may be the sign, in the present state of a server that follows a
    journal."""

    def __init__(self, server: History, memory: "Memory") -> None:
        self.server, self.memory = server, memory

    def faults(self, refused: Refused, reason: Reason) -> Iterator[Fault]:
        """Those that a reason is the sign of: that of the refusal, or what is wrong besides."""
        raise NotImplementedError

    def fault(self, name: str, refused: Refused, reason: Reason, doubt: str = "") -> Fault:
        """One that the reason's sentence tells, with the entries that gave the states which it is about."""
        text = f"{answer_words(refused.call)}: {sentence(reason, self.server)}"
        found = fault(name, refused, reason, text, doubt)
        if found.others:
            return found
        return replace(found, others=tuple(self.server.begun[state] for state in reason.states))


def answer_words(call: Call) -> str:
    return f"{call.opnum.name} gets {STATUS_NAMES[call.answer.status]}"


def request_of(call: Call) -> Hashable:
    """What a call has in common with one that comes again."""
    return call.opnum, call.arguments, call.filehandle


def transfer_of(call: Call) -> Hashable:
    """What a READ, a WRITE or a SETATTR has in common with the same one by another stateid."""
    return call.opnum, call.arguments._replace(stateid=None), call.filehandle


def is_sequenced(call: Call) -> bool:
    return OPERATIONS[call.opnum].subject == Subject.REQUEST


def counts(told: ExplainedEntry, call: Call) -> bool:
    """Whether the answer to an owner's request counts; a kept answer doesn't once more."""
    is_again = told.reason is not None and told.reason.again is not None
    return call.answer.status not in NOT_COUNTED and not is_again


def is_misled(reason: Reason) -> bool:
    """Whether the stateid is one of another kind, and so the owner that it leads to may be another one, too."""
    return Kind.STATE_OF_OTHER_KIND in (reason.kind, reason.also and reason.also.kind)


class Memory:
    """What is kept of the entries so far."""

    def __init__(self, server: History) -> None:
        self.server = server
        # When a state's seqid was answered last, by the state's number and the seqid: an answer that comes again is
        # one that was lost.
        self.answered: dict[tuple[int, int], int] = {}
        # Of each sequenced request that counted the last entry; and how often one came again too late.
        self.counted: dict[Hashable, int] = {}
        self.late_copies: dict[Hashable, int] = {}
        # The access that an open had before an OPEN_DOWNGRADE, and the moment of that.
        self.narrowed: dict[int, tuple[int, int]] = {}
        # Of each client the requests that didn't count and lead to no owner; or, by a stateid of another kind, to
        # another owner than theirs.
        self.ownerless: dict[int, list[Uncounted]] = defaultdict(list)
        # The clientids and confirm values that were confirmed.
        self.confirmed: set[tuple[int, int]] = set()
        # Transfers that were refused and may have been under way; and the entries of those that their clients made by
        # another stateid since.
        self.lost: dict[Hashable, list[Refused]] = defaultdict(list)
        self.asked_again: set[int] = set()

    def note_before(self, call: Call) -> None:
        """The state is that which the call meets, which is answered OK."""
        if call.opnum == Opnum.OPEN_DOWNGRADE:
            found = self.server.given[call.arguments.stateid.number]
            assert isinstance(found, OpenState)
            self.narrowed[found.number] = call.moment, found.share()[0]

    def note_after(self, told: ExplainedEntry) -> None:
        call = told.entry
        assert isinstance(call, Call)
        if is_refusal(call):
            self.note_refusal(told, call)
        elif call.opnum in GIVING:
            stateid: Any = STATEID.read(Reader(call.answer.rest))
            self.answered[stateid.number, stateid.seqid] = call.moment
        elif isinstance(call.arguments, SetclientidConfirm):
            self.confirmed.add((call.arguments.client, call.arguments.confirm))
        if is_sequenced(call) and counts(told, call):
            self.counted[request_of(call)] = told.number
        if self.lost and call.opnum in TRANSFERS and not is_refusal(call):
            self.note_transfer(call)

    def note_transfer(self, call: Call) -> None:
        """What is made by a special stateid names no client, but the one who sends it."""
        client = client_of(call, self.server)
        self.asked_again.update(
            it.number
            for it in self.lost.get(transfer_of(call), ())
            if it.client == client or client is None and it.call.principal == call.principal
        )

    def note_refusal(self, told: ExplainedEntry, call: Call) -> None:
        """Keeps those of owners that aren't known."""
        assert told.reason is not None
        clients = {stateid.client for stateid in stateids_of(call.arguments)} if is_sequenced(call) else set[int]()
        for last in (self.server.last_uncounted.get(client) for client in clients):
            if last is not None and last.entry == told.number and (last.owner is None or is_misled(told.reason)):
                assert last.client is not None
                self.ownerless[last.client].append(last)

    def is_known(self, entry: int, moment: int) -> bool:
        """Whether the client of a request at this moment has to know the answer of an entry."""
        answered = self.server.recorded[entry].moment
        return bool(moment - answered >= KNOWN_AFTER)

    def doubt_of_transfer(self, refused: Refused, moment: int) -> Callable[[], str] | None:
        """Says whether a transfer may have been under way at this moment, when what it needs ended: so it is if the
        client makes it by another stateid, or as far as the journal goes."""
        if refused.call.opnum not in TRANSFERS or refused.call.moment - moment >= KNOWN_AFTER:
            return None
        self.lost[transfer_of(refused.call)].append(refused)
        return lambda: self.doubt_of(refused.number)

    def doubt_of(self, number: int) -> str:
        if number in self.asked_again:
            return ASKED_AGAIN
        return UNDER_WAY if number == self.server.entries - 1 else ""

    def knows_newer(self, state: int, seqid: int, moment: int) -> bool:
        """The same of the answer that brought a state's seqid."""
        return moment - self.answered.get((state, seqid), moment) >= KNOWN_AFTER

    def is_copy(self, refused: Refused) -> bool:
        """Whether it is a request that counted before, unchanged."""
        return is_sequenced(refused.call) and request_of(refused.call) in self.counted

    def is_late_copy(self, refused: Refused) -> bool:
        """Whether it is the owner's last request but one, unchanged: what comes again on another connection as its
        reply was lost may come after its copy, and after the request behind it."""
        facts = refused.reason.facts
        is_last_but_one = isinstance(facts, SequenceFacts) and facts.given == (facts.expected - 2) % IDS
        return is_last_but_one and self.is_copy(refused)
