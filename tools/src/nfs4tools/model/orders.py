"""What a test orders a server to do, by a line each: moments, marks of callback paths, waits, and the end.
docs/PROGRAM.md has the table of the orders and their answers.

The orders are done one after the other, by one thread."""
import re
import time
from collections.abc import Callable

from nfs4tools.journal.entries import MOMENT_LIMIT
from nfs4tools.model.beginning import Beginning
from nfs4tools.model.order_queue import Answers, LINE_LIMIT, Line, OrderQueue, TOO_MANY
from nfs4tools.model.state_parts import DOWN, NOT_LIVE, UP, Unchanged
from nfs4tools.model.sweeps import Swept
from nfs4tools.model.tcp import StopFlag, SharedServer

# The seconds between two looks of a wait, those of a wait that says none, and the most.
LOOK, WAIT, LONGEST_WAIT = 0.005, 5, 600
# The most seconds without a look at whether the run ends.
PERIOD = 1.0
# The last moment, and the greatest number of a client.
LAST_MOMENT, LAST_CLIENT = MOMENT_LIMIT - 1, 2**32 - 1
# What an order is, without the blanks around its words.
FORMS = re.compile(
    "(advance) ([0-9]+)|(sweep)|(moment)|(mark) ([0-9]+) (up|down)|(wait) (up|down) ([0-9]+)(?: ([0-9]+))?"
    "|(entries)|(journal)|(end)"
)
# The errors, of which others have numbers.
NO_ORDER = (
    "no order: there are `advance N`, `sweep`, `moment`, `mark CLIENT up|down`, `wait up|down CLIENT [1 to 600]`, "
    "`entries`, `journal` and `end`"
)
CUT, TOO_LONG = "the input ends inside the line", f"a line has {LINE_LIMIT} bytes at most"
NO_MOMENT, RUN_ENDS = f"a moment is {LAST_MOMENT} at most", "the run ends"
NO_JOURNAL, JOURNAL_LOST, FULL = "there is no `--journal`", "the file can't be kept", "the journal is full"


class NotDone(Exception):
    """The order isn't done. The argument says why."""


def number(word: str, least: int, most: int) -> int:
    if not least <= int(word) <= most:
        raise NotDone(NO_ORDER)
    return int(word)


def client_of(word: str) -> int:
    return number(word, 0, LAST_CLIENT)


def words_of(line: Line) -> list[str]:
    """The words of an order; or NotDone. Words stand between blanks."""
    if line.is_cut:
        raise NotDone(CUT)
    if len(line.data) > LINE_LIMIT:
        raise NotDone(TOO_LONG)
    words = line.data.decode("ascii", "replace").split(" ")
    found = FORMS.fullmatch(" ".join(word for word in words if word))
    if found is None:
        raise NotDone(NO_ORDER)
    return [word for word in found.groups() if word is not None]


class Orders:
    """Does the orders of a queue at a served, whose moment they move, and answers them. `beginning` is that of the
    journal, or None."""

    def __init__(
        self,
        served: SharedServer,
        queue: OrderQueue,
        answers: Answers,
        stop_flag: StopFlag,
        beginning: Beginning | None,
    ) -> None:
        self.served, self.queue, self.answers = served, queue, answers
        self.stop_flag, self.beginning = stop_flag, beginning
        self.is_end_ordered = False
        self.tasks: dict[str, Callable[..., str]] = {
            "advance": self.advance,
            "sweep": self.sweep,
            "moment": lambda: f"moment {self.served.moment()}",
            "mark": self.mark,
            "wait": self.wait,
            "entries": self.count_entries,
            "journal": self.write_journal,
        }

    def run(self) -> None:
        """Does the orders up to the last one, and ends the run."""
        while not (self.is_end_ordered or self.queue.is_done()):
            line = self.queue.take(PERIOD)
            if line is not None:
                self.do(line)
        self.stop_flag.set()

    def do(self, line: Line) -> None:
        """Does the order of a line, and answers it. The end is answered behind the end of the run."""
        try:
            name, *words = words_of(line)
            self.is_end_ordered = name == "end"
            answer = "" if self.is_end_ordered else self.tasks[name](*words)
        except NotDone as why:
            answer = f"error: {why}"
        if answer:
            self.answers.give(answer)
        if not self.is_end_ordered:
            for _ in range(line.refused):
                self.answers.give(TOO_MANY)

    # The orders.

    def advance(self, seconds: str) -> str:
        if self.served.moment() + int(seconds) > LAST_MOMENT:
            raise NotDone(NO_MOMENT)
        return self.swept(self.served.advance(int(seconds)))

    def sweep(self) -> str:
        return self.swept(self.served.sweep())

    def swept(self, swept: Swept) -> str:
        found = f"expired {swept.expired} revoked {swept.revoked} forgotten {swept.forgotten}"
        refused = f" refused {swept.refused}" if swept.refused else ""
        return f"moment {self.served.moment()}: {found}{refused}{' stopped' if swept.is_stopped else ''}"

    def mark(self, client: str, mark: str) -> str:
        found = client_of(client)
        try:
            with self.served.turn:
                self.served.mark(found, mark == UP)
        except Unchanged as why:
            is_dead = why.args[0] == NOT_LIVE
            raise NotDone(f"client {found} isn't live" if is_dead else FULL) from None
        return f"client {found} {mark}"

    def wait(self, mark: str, client: str, seconds: str = str(WAIT)) -> str:
        found, most, begun = client_of(client), number(seconds, 1, LONGEST_WAIT), time.monotonic()
        while not (self.queue.is_over or self.stop_flag.is_set()):
            if self.served.path_of(found) == {"up": UP, "down": DOWN}[mark]:
                return f"client {found} {mark}"
            if time.monotonic() - begun >= most:
                raise NotDone(f"not within {most} s")
            time.sleep(LOOK)
        raise NotDone(RUN_ENDS)

    def count_entries(self) -> str:
        with self.served.turn:
            return f"entries {self.served.server.entries}"

    def write_journal(self) -> str:
        if self.beginning is None:
            raise NotDone(NO_JOURNAL)
        count = self.beginning.update()
        if count is None:
            raise NotDone(JOURNAL_LOST)
        return f"journal {count} entries"
