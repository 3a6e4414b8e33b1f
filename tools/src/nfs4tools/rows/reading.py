"""Row files, as crates/rows/README.md has their format: read into rows, or refused at the first line at fault.

`row.py` and `orders.py` have what is read; `words.py` and `messages.py` read words and messages."""
import os
import re

from nfs4tools.rows.errors import BadLine, NO_FAULT, NO_MESSAGE, NO_NUMBER, NO_ROW, NO_SECTIONS, NO_TAKE, NO_WANT, Wrong
from nfs4tools.rows.messages import Message, begin_message
from nfs4tools.rows.orders import MOMENT_LIMIT, ORDER_LINES, TakeRecall
from nfs4tools.rows.row import Part, Row
from nfs4tools.rows.words import SPACES, decimal, expect_end, spelled, split_word

# The most seconds of a lease.
LEASE_LIMIT = 86_400
# How a connection may end, besides the end of the input after a whole record.
FAULTS = ("input ends inside a record", "record too long", *(f"tree refused ({number})" for number in range(1, 5)))
# Which sections of which RFCs a row is by, such as `RFC 7530, 9.1.7, 16.10; RFC 5531, 9`.
SECTIONS_OF_ONE = "RFC [0-9]+(, [0-9A-Z]+([.][0-9]+)*)+"
SECTIONS = re.compile(f"{SECTIONS_OF_ONE}(; {SECTIONS_OF_ONE})*")


class File:
    """The rows of a file, read line by line; or one of UNREAD."""

    def __init__(self, path: str) -> None:
        self.path, self.clock, self.sections = path, 0, ""
        self.rows: list[Row] = []
        self.message: Message | None = None
        with open(path, "rb") as source:
            lines = [line.strip(SPACES) for line in source.read().decode().removesuffix("\n").split("\n")]
        place = 0
        try:
            for place, line in enumerate(lines, 1):
                self.take(place, line)
            self.end_row()
        except Wrong as wrong:
            raise BadLine(path, place, wrong, lines[place - 1]) from None

    def row(self) -> Row:
        """The row that is read."""
        if not self.rows:
            raise Wrong(NO_ROW)
        return self.rows[-1]

    def take(self, place: int, line: str) -> None:
        """A line without the spaces around it."""
        if line == "# portable" and self.rows:
            self.row().is_portable = True
        if line == "" or line.startswith("#"):
            return
        keyword, rest = split_word(line)
        rest = rest.lstrip(SPACES)
        if keyword == "row":
            self.end_row()
            self.rows.append(Row(self.path, place, rest, sections=self.sections))
            self.clock = 0
        elif keyword == "sections":
            self.end_message()
            self.set_sections(rest)
        elif keyword in ("send", "want", "take"):
            self.begin_message(keyword, rest)
        elif keyword in ("rule", "tree", "lease", "epoch", "alone", "fault", "moment", "at", *ORDER_LINES):
            self.end_message()
            self.set(self.row(), keyword, rest)
        else:
            self.add_words(rest if keyword == "+" else line, keyword != "+")

    def end_row(self) -> None:
        """Ends the row that is read, if there is one."""
        self.end_message()
        if self.rows and not self.row().is_whole:
            raise Wrong(NO_WANT)

    def begin_message(self, direction: str, text: str) -> None:
        self.end_message()
        self.row().is_whole |= direction == "want"
        if (direction, text) == ("take", "nothing"):
            self.row().steps.append(TakeRecall())
        elif (direction, text) != ("want", "nothing"):
            self.message = begin_message(direction, text)

    def add_words(self, words: str, is_line: bool) -> None:
        if self.message is None:
            raise Wrong(NO_MESSAGE)
        self.message.lines += is_line
        self.message.body += spelled(words)

    def end_message(self) -> None:
        """Adds the message that is read to what its part has of its direction; or the recall that is taken."""
        message, self.message = self.message, None
        if message is None:
            return
        if message.direction == "take":
            if len(message.body) < 4:
                raise Wrong(NO_TAKE)
            self.row().steps.append(TakeRecall(message.spelled()))
            return
        part = self.part()
        if message.direction == "send":
            part.sent += message.spelled()
        else:
            part.wanted += message.spelled()

    def set_sections(self, text: str) -> None:
        """Those of the row that is read; or, in the file's head, of the rows that have none of their own."""
        if not SECTIONS.fullmatch(text):
            raise Wrong(NO_SECTIONS)
        if self.rows:
            self.row().sections = text
        else:
            self.sections = text

    def part(self) -> Part:
        """The part that is read: behind an order a new one, at the same moment."""
        steps = self.row().steps
        last = steps[-1]
        if not isinstance(last, Part):
            last = Part(self.clock, goes_on=True)
            steps.append(last)
        return last

    def set(self, row: Row, keyword: str, text: str) -> None:
        if keyword == "rule":
            row.rule.append(text)
        elif keyword == "tree":
            row.document = (row.document or "") + text + "\n"
        elif keyword == "lease":
            row.lease = decimal(text, LEASE_LIMIT + 1, NO_NUMBER)
            if row.lease == 0:
                raise Wrong(NO_NUMBER)
        elif keyword == "epoch":
            row.epoch = decimal(text, 2**32, NO_NUMBER)
        elif keyword == "alone":
            expect_end(text)
            row.says_alone = True
        elif keyword == "fault":
            self.part().fault = text
            if text not in FAULTS:
                raise Wrong(NO_FAULT)
        elif keyword in ORDER_LINES:
            row.steps.append(ORDER_LINES[keyword](text))
        else:
            self.clock = decimal(text, MOMENT_LIMIT, NO_NUMBER)
            self.set_clock(row, keyword == "moment" and row.connections[-1].sent != b"")

    def set_clock(self, row: Row, is_other: bool) -> None:
        """What follows comes at the moment that the clock has now; on another connection, where that is said."""
        last = row.steps[-1]
        if isinstance(last, Part) and not last.sent:
            last.moment, last.goes_on = self.clock, last.goes_on and not is_other
        else:
            row.steps.append(Part(self.clock, goes_on=not is_other))


def files_of(path: str) -> list[str]:
    """The file, where the path ends with .rows, and else those of the folder that do."""
    if path.endswith(".rows"):
        return [path]
    return sorted(os.path.join(path, name) for name in os.listdir(path) if name.endswith(".rows"))
