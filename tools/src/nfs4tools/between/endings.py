"""What becomes of connections that a fault leaves open."""
import time
from collections.abc import Sequence
from typing import TYPE_CHECKING

from nfs4tools.between.calls import Call
from nfs4tools.between.outcomes import Case, Outcome, counted_words
from nfs4tools.between.vocabulary import Fault

if TYPE_CHECKING:
    from nfs4tools.between.links import Link
    from nfs4tools.between.tale import Tale

# The seconds in which a client that has read a whole reply may end its connection, as it has nothing more to ask.
NORMAL = 1


class Endings:
    """What a client does on a connection after a fault."""

    def __init__(self, tale: "Tale") -> None:
        self.tale = tale

    def begin(self, case: Case, link: "Link") -> None:
        """A fault is done on a connection, and leaves it open."""
        link.last_case, link.goes_on = case, False

    def called(self, call: Call, link: "Link") -> None:
        """A client sends a call on a connection."""
        if link.last_case is not None and not link.goes_on and not link.is_callback:
            line = f"the next call is {call.words()}, {link.last_case.since}, on {link.place}"
            self.tale.note(link.last_case, Outcome.NEXT, line)
        link.goes_on = True

    def ended(self, link: "Link", is_reset: bool) -> None:
        """A client ends its connection. After a fault that is told if calls are under way, or if it may not have read
        the reply; else it is noted if it is the first that the client does there."""
        case, count = link.last_case, len(link.asked)
        if case is None or link.is_callback or link.is_over or link.goes_on and not count:
            return
        link.last_case, link.ended_behind = None, case
        line = f"{link.place} is ended by the client, {case.since}, with {counted_words(count, 'call')} under way"
        if count or is_reset or case.fault is Fault.SPLIT and is_late(case):
            self.tale.tell(case, Outcome.ENDED, line, is_strict=case.fault is Fault.SPLIT)
        else:
            self.tale.note(case, Outcome.ENDED, line)
        self.tale.repeats.doubt(case, link)

    def tell_end(self, links: Sequence["Link"]) -> None:
        """The clients that have sent nothing more after a fault, though they should."""
        for link in sorted(links, key=lambda it: it.number):
            case = link.last_case
            if case is None or link.is_callback or link.goes_on or case.has_come:
                continue
            if link.asked or case.fault is Fault.SPLIT and is_late(case):
                self.tale.tell(case, Outcome.SILENT, "the client says nothing more since", is_strict=True)


def is_late(case: Case) -> bool:
    """Whether the reply was given so long ago that its client should have gone on; or the fault was done then, if
    it has no reply."""
    return time.monotonic() - (case.given or case.begun) > NORMAL
