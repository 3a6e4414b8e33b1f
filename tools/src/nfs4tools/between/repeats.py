"""Calls that come again, or instead of those that should: whether the client sends what it has to, and whether the
server answers as it did."""
import time
from typing import TYPE_CHECKING

from nfs4tools.between.calls import Call, Reply, is_same_but_for_xid
from nfs4tools.between.outcomes import Case, Missed, Outcome, answered_words, xid_words
from nfs4tools.between.vocabulary import Fault
from nfs4tools.wire import Opnum, Status

if TYPE_CHECKING:
    from nfs4tools.between.links import Link
    from nfs4tools.between.tale import Tale

# The sections of RFC 7530 that say what a client and a server have to do.
CONNECTION, ORDER, KEPT = "(RFC 7530, section 3.1.1)", "(RFC 7530, section 9.1.7)", "(RFC 7530, section 9.1.8)"
# How many calls are known that may come again, and are no case.
MISSED_LIMIT = 1024


class Repeats:
    """The calls that may come again."""

    def __init__(self, tale: "Tale", lease: int) -> None:
        self.tale, self.lease = tale, lease
        self.missed: list[Missed] = []

    def miss(self, call: Call, link: "Link", case: Case | None, behind: Case | None = None) -> None:
        """A caller doesn't get the reply to this call: it is a case, or its connection ended behind a case, or neither.
        One that is no case is forgotten in time."""
        is_known = any(it.call is call and it.case is case for it in self.missed)
        if case is not None and (is_known or any(it.outcome is Outcome.ANOTHER for it in case.told)):
            return
        self.missed.append(Missed(call, link, case, False, behind))
        others = [missed for missed in self.missed if missed.case is None]
        if len(others) > MISSED_LIMIT:
            self.missed.remove(others[0])

    def doubt(self, case: Case, link: "Link") -> None:
        """A case's reply was given, and its client ended the connection: it may not have read it."""
        if case.is_given and not any(it.call is case.call for it in self.missed):
            self.missed.append(Missed(case.call, link, case, True))

    def arrived(self, call: Call, link: "Link") -> Missed | None:
        """Looks for what a call is the outcome of: what it is again, or None."""
        again = [missed for missed in self.missed if missed.is_again(call, link)]
        if again:
            found = next((missed for missed in again if missed.call.xid == call.xid), again[0])
            self.missed.remove(found)
            if found.case is not None:
                self.tell_again(found, found.case, call, link)
            elif found.behind is not None:
                line = f"{call.words()} comes again {found.behind.since}, on {link.place}"
                self.tale.tell(found.behind, Outcome.AGAIN, line)
            return found
        owner = self.tale.owners.caller_of(call)
        for missed in list(self.missed) if owner is not None else ():
            if missed.case is not None and missed.case.owner == owner and not missed.is_given:
                self.missed.remove(missed)
                self.tell_other(missed.case, call, link)
        return None

    def tell_again(self, missed: Missed, case: Case, call: Call, link: "Link") -> None:
        first, case.has_come = missed.call.xid, True
        xid = f"the same xid {xid_words(first)}"
        if call.xid != first:
            xid = f"xid {xid_words(call.xid)} in place of {xid_words(first)}"
        # An answer that was under way on a connection that ended may not have come.
        is_answered = call.record != missed.call.record or not missed.link.has_ended
        if case.is_moving and is_answered:
            self.tell_moved(case, Outcome.STAYS, "doesn't move on", call, link)
            return
        word, outcome = ("comes again", Outcome.AGAIN) if case.status is None else ("the same call comes", Outcome.SAME)
        line = f"{word} {case.since}, on {link.place}, with {xid}"
        self.tale.tell(case, outcome, line, is_strict=case.fault is Fault.SPLIT)

    def tell_other(self, case: Case, call: Call, link: "Link") -> None:
        """The owner of a case goes on with another request."""
        where = f"{case.since}, on {link.place}"
        if case.status is None:
            line = f"another request comes instead: {call.request.words()}, {where} {ORDER}"
            self.tale.tell(case, Outcome.ANOTHER, line, True)
            return
        moved = (call.request.seqid - case.call.request.seqid) % 2**32
        if case.is_moving is None or moved == case.is_moving:
            line = f"after {case.status_words} its owner goes on with {call.request.words()}, {where}"
            self.tale.tell(case, Outcome.GOES_ON, line)
        elif case.is_moving:
            self.tell_moved(case, Outcome.STAYS, f"doesn't move on{' by one' if moved else ''}", call, link)
        else:
            self.tell_moved(case, Outcome.MOVES, "moves on", call, link)

    def tell_moved(self, case: Case, outcome: Outcome, how: str, call: Call, link: "Link") -> None:
        """The sequence id moves on, or doesn't, and should have done the other."""
        request = case.call.request
        if case.call.operations[case.index] is request and not case.counted.rule.is_error_of_rpc:
            what = f"after {case.status_words} the sequence id {how}"
        else:
            what = f"its {request.name} wasn't run, but the sequence id {how}"
        line = f"{what}: {call.request.words()}, {case.since}, on {link.place} {ORDER}"
        self.tale.tell(case, outcome, line, True)

    def tell_standing(self, case: Case | None, call: Call, link: "Link") -> None:
        """A call comes again on a connection that stands."""
        if case is not None:
            line = f"comes again on {link.place}, which is still open {CONNECTION}"
            self.tale.tell(case, Outcome.STANDING, line, True)
        else:
            line = f"{link.place}, {call.words()}: comes again on its connection, which is still open {CONNECTION}"
            self.tale.tell_other(line, True)

    # Answers to calls that come again.

    def compare(self, case: Case, call: Call, reply: Reply) -> None:
        """Tells whether the answer to a call that came again is that of the first time."""
        first, answered = case.reply, answered_words(reply)
        if first is None and case.passed > 1:
            line = f"{answered}; the server had the call before, and its first answer isn't known"
            self.tale.tell(case, Outcome.HAD, line)
        elif first is None:
            self.tale.tell(case, Outcome.FIRST, f"{answered}, the first answer")
        elif call.is_judged:
            self.compare_results(case, first, call, reply)
        elif is_same_but_for_xid(first, reply):
            self.tale.tell(case, Outcome.ALIKE, f"{answered}, the same answer")
        else:
            self.tale.tell(case, Outcome.CHANGED, f"{answered}, another answer")

    def compare_results(self, case: Case, before: Reply, call: Call, reply: Reply) -> None:
        answered, first, now = answered_words(reply), before.result_of(case.call), reply.result_of(call)
        if first is None or now is None:
            self.tale.tell(case, Outcome.WITHOUT, f"{answered}, without its {call.request.name}")
        elif first == now:
            self.tale.tell(case, Outcome.STORED, f"{answered}, the stored reply")
        elif self.may_be_forgotten(case, reply):
            self.tale.tell(case, Outcome.FORGOTTEN, f"{answered}, as for a forgotten owner")
        else:
            self.tale.tell(case, Outcome.CHANGED, f"{answered}, another answer than {before.words()} {KEPT}", True)

    def may_be_forgotten(self, case: Case, reply: Reply) -> bool:
        """Whether this may be the answer to the call since the server has forgotten its owner meanwhile: as it may one
        without opens, when a lease has passed since its last request (RFC 7530, section 9.1.10)."""
        return (
            case.call.request.number == Opnum.CLOSE
            and reply.status == Status.BAD_STATEID
            and time.monotonic() - case.came > self.lease
        )

    def tell_end(self) -> None:
        """The calls that never came again."""
        cases = [missed.case for missed in self.missed if missed.case is not None and not missed.is_given]
        for case in sorted(cases, key=lambda it: it.number):
            if not case.has_come:
                line = f"never comes again: {case.call.words(None if case.owner else case.index)}"
                is_wrong = case.is_loss and case.call.is_judged and not case.call.is_callback
                self.tale.tell(case, Outcome.NEVER, line, is_wrong)
