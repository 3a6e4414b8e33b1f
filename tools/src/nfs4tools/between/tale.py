"""What is told of a run: each fault, what came of it, and the counts at the end."""
import sys
from collections.abc import Callable, Sequence
from time import monotonic
from typing import TYPE_CHECKING

from nfs4tools.between.calls import Call, Reply
from nfs4tools.between.endings import Endings
from nfs4tools.between.names import OperationSubjects, Names, place_of
from nfs4tools.between.outcomes import Case, Outcome, OutcomeLine, answered_words
from nfs4tools.between.owners import Owners
from nfs4tools.between.recovery import Recovery
from nfs4tools.between.repeats import Repeats
from nfs4tools.between.rules import Counted, Rule, counted
from nfs4tools.between.vocabulary import ANY, Fault, STATUSES, moves
from nfs4tools.model.tcp import say
from nfs4tools.wire import Status

if TYPE_CHECKING:
    from nfs4tools.between.links import Link

# Where lines go.
Print = Callable[[str], None]


def print_line(line: str) -> None:
    say(line, sys.stdout)


class Tale:
    """What is told, by `print_it`, and what is known for that. A run by these rules, in which a server's lease has so
    many seconds."""

    def __init__(self, rules: Sequence[Rule], lease: int = 90, seed: int = 0, print_it: Print = print_line) -> None:
        self.rules, self.print_it = counted(rules, seed), print_it
        self.owners, self.names = Owners(), Names()
        self.repeats, self.endings, self.recovery = Repeats(self, lease), Endings(self), Recovery(self)
        self.cases: list[Case] = []
        # Lines that are of no fault, by whether they are wrong.
        self.others: list[tuple[bool, str]] = []
        self.connections = self.calls = self.wrong = self.strict = 0
        self.is_over = False

    def say(self, line: str) -> None:
        if not self.is_over:
            self.print_it(line)

    def tell(self, case: Case, outcome: Outcome, line: str, is_wrong: bool = False, is_strict: bool = False) -> None:
        """Tells what came of a fault."""
        if self.is_over:
            return
        case.told.append(OutcomeLine(outcome, line, is_wrong, is_strict))
        self.wrong += is_wrong
        self.strict += is_strict
        self.say(f"{'WRONG ' * is_wrong}{case.number}: {line}")

    def note(self, case: Case, outcome: Outcome, line: str) -> None:
        """Keeps for reports what came of a fault, and tells no line: that a client goes on as ever."""
        if not self.is_over:
            case.told.append(OutcomeLine(outcome, line))

    def tell_other(self, line: str, is_wrong: bool = False) -> None:
        """Tells what is of no fault."""
        if not self.is_over:
            self.others.append((is_wrong, line))
            self.wrong += is_wrong
            self.say(f"{'WRONG ' * is_wrong}{line}")

    # Faults.

    def strike(self, call: Call, abouts: list[OperationSubjects], link: "Link", can_be_met: bool) -> Case | None:
        """The fault that a call meets now, or None. The call is counted by the rules that don't wait for a status."""
        places = {
            it: place
            for it in self.rules
            if it.rule.status is None and (place := place_of(it.rule, call, abouts, link.number)) is not None
        }
        for it in places:
            it.take()
        due = [it for it in places if it.is_due and self.can_be_done(it, call)]
        return self.case_of(due[0], call, places[due[0]], link) if due and can_be_met else None

    def strike_reply(self, call: Call, abouts: list[OperationSubjects], link: "Link", reply: Reply) -> Case | None:
        """The fault that a reply meets now, or None. It is counted by the rules that wait for its status."""
        due = []
        for it in self.rules:
            place = place_of(it.rule, call, abouts, link.number) if it.rule.status is not None else None
            if place is None or status_at(reply, None if it.rule.operation == ANY else place) != it.rule.status:
                continue
            it.take()
            due += [(it, place)] * it.is_due
        return self.case_of(due[0][0], call, due[0][1], link) if due else None

    def case_of(self, chosen: Counted, call: Call, index: int, link: "Link") -> Case:
        chosen.is_due = False
        return Case(chosen, call, link.place, index, self.owners.caller_of(call) if call.is_judged else None)

    def can_be_done(self, it: Counted, call: Call) -> bool:
        """Whether it is clear what the rule's answer in the server's place means for owners."""
        return it.rule.fault is not Fault.ANSWER or it.rule.is_error_of_rpc or self.owners.is_clear(call)

    def put_off(self, case: Case) -> None:
        """Its fault waits for the next such call."""
        case.counted.is_due = True

    def tell_done(self, case: Case, what: str, reply: str | None = None) -> None:
        """The fault is done now."""
        self.cases.append(case)
        case.number, case.begun = len(self.cases), monotonic()
        case.counted.met += 1
        case.done = case.head + (f" -> {reply}" if reply else "") + f": {what}"
        self.say(f"{case.number}: {case.done}")

    def tell_answer(self, case: Case, link: "Link", about: OperationSubjects, before: Reply | None) -> str:
        """The case's call is answered in the server's place, after what the operations before had as a reply, or None:
        by which name."""
        call, rule = case.call, case.counted.rule
        status = case.status = str(rule.value)
        self.tell_done(case, "answered in the server's place", case.status_words)
        self.repeats.miss(call, link, case)
        at = call.operations.index(call.request) if call.is_judged else None
        if at is not None and at < case.index and not rule.is_error_of_rpc:
            # It was run, and the server knows of its id.
            case.reply = before
        elif case.owner is not None and self.owners.is_known(case.owner):
            case.is_moving = at == case.index and moves(status)
            if case.is_moving:
                self.owners.move_on(case.owner, call.request, STATUSES[status], case)
        self.recovery.begin(case, about, link)
        return status

    def tell_kept(self, case: Case, status: str, is_same: bool) -> None:
        """A request with the id of an answer in the server's place is answered so, too."""
        how = ", the stored reply" if is_same else " in the server's place"
        self.tell(case, Outcome.STORED if is_same else Outcome.IN_ITS_PLACE, f"answered {status}{how}")

    def tell_before(self, case: Case, reply: Reply) -> None:
        """An operation before one that was to be answered in the server's place isn't OK."""
        self.put_off(case)
        self.tell_other(f"{case.head} -> {reply.words()}: passed on unchanged; the fault waits")

    def tell_before_kept(self, case: Case, reply: Reply) -> None:
        """An operation before one with a kept answer isn't OK."""
        self.tell(case, Outcome.WITHOUT, f"{answered_words(reply)}, without its {case.call.request.name}")

    # The end.

    def tell_end(self, links: Sequence["Link"]) -> None:
        """What is left to tell, of the connections that there still are, too."""
        self.repeats.tell_end()
        self.endings.tell_end(links)
        for it in self.never():
            self.say(f"never met: {it.rule} ({it.count} such calls)")
        if not self.calls:
            self.say("no call passed")
        self.say(
            f"between: {self.connections} connections, {self.calls} calls, {len(self.cases)} faults, {self.wrong} wrong"
        )
        self.is_over = True

    def never(self) -> list[Counted]:
        """The rules that were never met."""
        return [it for it in self.rules if not it.met]


def status_at(reply: Reply, index: int | None) -> str | None:
    """The name of a result's status, or of the whole reply's; None if there is none."""
    if index is None:
        number = reply.status
    else:
        number = reply.results[index][0].status if index < len(reply.results) else None
    return None if number is None else next((it.name for it in Status if it == number), None)
