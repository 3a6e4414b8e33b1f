"""The reason of a call's answer: `Causes` goes through the rules of its operation in their order, as the model does,
and takes the first that refuses it. `tests/journals/test_reasons.py` sees that each refusal has one, of the status that was
answered, and that no other call has any."""
from collections.abc import Set

from nfs4tools.explain.common import Reasons
from nfs4tools.explain.kinds import Reason
from nfs4tools.explain.of_transfers import OfTransfers
from nfs4tools.journal.entries import Call
from nfs4tools.model.sequenced import NOT_COUNTED
from nfs4tools.model.server import OPERATIONS, Subject
from nfs4tools.model.state_parts import Refusal, Request, replay, sequence_id_of
from nfs4tools.wire import Status


class Causes(OfTransfers):
    """Why calls are refused, in the present state of a server that follows a journal. If `later` isn't None, it has the
    requests of all calls whose reasons are wanted."""

    later: Set[Request] | None = None

    def reason_of(self, call: Call) -> Reason | None:
        """The reason of the answer that the next entry has; or None if the call is OK, and no kept request again."""
        return self.note(next(self.of_call(call), None))

    def reason_of_lawful(self, call: Call, is_wanted: bool = True) -> Reason | None:
        """The same, if the answer is known to be the one that the rules give: one of OK has a reason only if it is a
        stored reply. A reason that isn't wanted is left out, unless the reason of a later stored reply may name it."""
        if not is_wanted and not self.is_for_later(call):
            return None
        if call.answer.status != Status.OK:
            return self.reason_of(call)
        if OPERATIONS[call.opnum].subject != Subject.REQUEST:
            return None
        request = Request(call.opnum, call.arguments, call.filehandle)
        try:
            owner = self.server.owner_of(request)
        except Refusal:
            return None
        is_again = owner is not None and replay(owner.kept, sequence_id_of(request), request) is not None
        return self.note(self.kept_answer(owner)) if owner is not None and is_again else None

    def is_for_later(self, call: Call) -> bool:
        """Whether the call may get a stored reply, or its answer may be stored for a later call whose reason is
        wanted."""
        if call.answer.status in NOT_COUNTED or OPERATIONS[call.opnum].subject != Subject.REQUEST:
            return False
        return self.later is None or Request(call.opnum, call.arguments, call.filehandle) in self.later

    def note(self, reason: Reason | None) -> Reason | None:
        """Keeps the reason of the next entry, as later ones may be stored replies."""
        if reason is not None:
            self.given[self.server.entries] = reason
            if reason.again is not None:
                self.repeated[reason.again.entry] = self.repeated.get(reason.again.entry, 0) + 1
        return reason

    def of_call(self, call: Call) -> Reasons:
        kind = OPERATIONS[call.opnum].subject
        if kind == Subject.REQUEST:
            return self.of_sequenced(Request(call.opnum, call.arguments, call.filehandle))
        return self.rule_of(call.opnum)(call.arguments, call.filehandle if kind == Subject.NODE else call.principal)
