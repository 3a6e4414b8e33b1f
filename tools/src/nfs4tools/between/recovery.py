"""What clients do after a status in the server's place that calls a stateid or a client ID gone, though it still stands
at the server."""
import time
from dataclasses import dataclass
from typing import TYPE_CHECKING, Any

from nfs4tools import wire
from nfs4tools.between.calls import Call, Operation, Reply, Who, name_of
from nfs4tools.between.names import OperationSubjects, Clientid, clientid_of, stateid_of
from nfs4tools.between.outcomes import Case, Outcome
from nfs4tools.between.vocabulary import Gone, MEANINGS, Meaning
from nfs4tools.journal.words import STATUS_NAMES
from nfs4tools.wire import NewLocker, Status

if TYPE_CHECKING:
    from nfs4tools.between.links import Link
    from nfs4tools.between.tale import Tale

# The seconds in which a call may come that was sent before the answer was read, by a client that has several under way.
CROSSING = 0.1
# These give a state up, and may come after it is gone.
GIVING_UP = ("CLOSE", "LOCKU", "DELEGRETURN", "RELEASE_LOCKOWNER")
# The statuses of calls that meet the state of another client.
MEETING = (Status.DENIED, Status.SHARE_DENIED, Status.LOCKED)


@dataclass(eq=False)
class Lost:
    """What a client was told to be gone: a state, or else its client ID; or neither, where its lease goes on."""

    case: Case
    meaning: Meaning
    about: OperationSubjects
    link: "Link"
    state: Who | None
    clientid: Clientid | None
    verifier: bytes | None
    # Whether the client has not done yet what it has to; whether another client has met what stands at the server.
    is_open: bool = True
    is_met: bool = False

    @property
    def operation(self) -> str:
        """The name of the operation that was answered so."""
        return self.case.call.operations[self.case.index].name

    def is_of(self, about: OperationSubjects, link: "Link") -> bool:
        """Whether an operation is the client's."""
        return bool(about.clients & self.about.clients) if self.about.clients else link is self.link

    def is_ended_by(self, operation: Operation, about: OperationSubjects, link: "Link") -> bool:
        """Whether the client begins to recover with this operation, or asks whether it has to."""
        if not self.is_of(about, link):
            return False
        match operation.arguments:
            case wire.Setclientid():
                return True
            case wire.Renew():
                return self.operation != "RENEW"
            case wire.Open():
                return self.state is not None
            case wire.Lock(locker=NewLocker()):
                return self.state is not None and about.state != self.state
        return self.meaning.gone is Gone.NOTHING and operation.name == "DELEGRETURN"

    def is_used_by(self, operation: Operation, about: OperationSubjects) -> bool:
        """Whether an operation is by what is gone. It may be given up."""
        if operation.name in GIVING_UP and operation.name != self.operation:
            return False
        if self.state is not None:
            return about.state == self.state
        return self.clientid is not None and clientid_of(operation.arguments) == self.clientid


class Recovery:
    """What clients were told to be gone."""

    def __init__(self, tale: "Tale") -> None:
        self.tale = tale
        self.lost: list[Lost] = []

    def begin(self, case: Case, about: OperationSubjects, link: "Link") -> None:
        """A case was answered in the server's place."""
        meaning = MEANINGS.get(case.status or "")
        if meaning is None or case.call.is_callback:
            return
        arguments = case.call.operations[case.index].arguments
        has_state = meaning.gone in (Gone.STATEID, Gone.EITHER) and stateid_of(arguments) is not None
        by_client = meaning.gone in (Gone.CLIENTID, Gone.EITHER) and not has_state
        state, clientid = about.state if has_state else None, clientid_of(arguments) if by_client else None
        if state is None and clientid is None and meaning.gone is not Gone.NOTHING:
            return
        verifier = next((self.tale.names.verifiers.get(it) for it in about.clients), None)
        self.lost.append(Lost(case, meaning, about, link, state, clientid, verifier))

    def arrived(self, call: Call, abouts: list[OperationSubjects], link: "Link") -> None:
        """A call comes that its client hasn't sent before."""
        for lost in [it for it in self.lost if it.is_open]:
            for operation, about in zip(call.operations, abouts):
                if lost.is_ended_by(operation, about, link):
                    self.tell_recovery(lost, operation, link)
                    break
                if lost.is_used_by(operation, about) and not self.may_cross(lost, link):
                    self.tell_used(lost, operation, link)
                    break

    def may_cross(self, lost: Lost, link: "Link") -> bool:
        """Whether a call may have been sent before the answer was read."""
        return link.has_several and time.monotonic() - lost.case.begun < CROSSING

    def tell_recovery(self, lost: Lost, operation: Operation, link: "Link") -> None:
        lost.is_open, case = False, lost.case
        where = f"{case.since}, on {link.place}"
        arguments: Any = operation.arguments
        if lost.meaning.gone is Gone.NOTHING and isinstance(arguments, wire.Setclientid):
            if lost.verifier is not None and arguments.verifier != lost.verifier:
                what = f"after {case.status_words} SETCLIENTID has another verifier, though the lease goes on"
                line = f"{what}: {operation.words()}, {where} {section(lost)}"
                self.tale.tell(case, Outcome.ANOTHER_VERIFIER, line, True)
                return
        self.tale.tell(
            case, Outcome.RECOVERS, f"after {case.status_words} its client sends {operation.words()}, {where}"
        )

    def tell_used(self, lost: Lost, operation: Operation, link: "Link") -> None:
        lost.is_open, case = False, lost.case
        which = Gone.CLIENTID if lost.state is None else Gone.STATEID
        what = f"after {case.status_words} its {which.value} is used again"
        line = f"{what}: {operation.words()}, {case.since}, on {link.place} {section(lost)}"
        self.tale.tell(case, Outcome.USED, line, True)

    def answered(self, call: Call, abouts: list[OperationSubjects], reply: Reply, link: "Link") -> None:
        """The server has answered a call: maybe by what it still holds for a client that was told otherwise."""
        for operation, about, (result, _) in zip(call.operations, abouts, reply.results):
            for lost in [it for it in self.lost if not it.is_met and it.meaning.gone is not Gone.NOTHING]:
                if result.status == Status.OK and lost.is_of(about, link):
                    lost.is_met = is_freed(lost, operation, about)
                elif result.status in MEETING and about.clients and not lost.is_of(about, link):
                    self.tell_met(lost, operation, about, result, link)

    def tell_met(self, lost: Lost, operation: Operation, about: OperationSubjects, result: Any, link: "Link") -> None:
        """Another client's call may meet what stands: the lock's owner, or the file, says so."""
        holder = getattr(result.value, "owner", None)
        if holder is not None:
            is_met = (holder.epoch, holder.client) == lost.about.clientid
        else:
            is_met = self.tale.names.have(lost.about.clients, about.files, lost.state)
        if is_met:
            lost.is_met = True
            status = name_of(STATUS_NAMES, result.status)
            what = f"{link.place}, {operation.words()} -> {status}: meets what {lost.case.status_words} calls gone"
            self.tale.tell(lost.case, Outcome.MET, f"{what}; it stands at the server")


def is_freed(lost: Lost, operation: Operation, about: OperationSubjects) -> bool:
    """Whether the server has let go what a client was told to be gone."""
    if operation.name == "SETCLIENTID_CONFIRM":
        return clientid_of(operation.arguments) != lost.about.clientid
    return operation.name in GIVING_UP and lost.state is not None and about.state == lost.state


def section(lost: Lost) -> str:
    return f"(RFC 7530, section {lost.meaning.section})"
