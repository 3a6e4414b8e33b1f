"""What tools/show_journal does with a journal's file: it shows the entries, judges them, writes those that are whole,
or follows the file while a server writes."""
import argparse
import os
import sys
import time
from typing import BinaryIO

from nfs4tools.explain import Replay, ExplainedEntry
from nfs4tools.journal.entries import Call, NotJournal
from nfs4tools.journal.entries import Entry as Recorded
from nfs4tools.journal.journal import Growing, Journal, WrongAnswer, head_bytes, journal_bytes, verdict_on
from nfs4tools.journal.named_words import named_line_of
from nfs4tools.journal.partial import end_without_journal, read_file, tell_end
from nfs4tools.journal.words import line_of
from nfs4tools.runs.data import entry_data
from nfs4tools.runs.data import line_of as json_line
from nfs4tools.runs.files import expect, keep_all
from nfs4tools.runs.options import selection_of
from nfs4tools.runs.run import Entry, Naming
from nfs4tools.runs.selection import Chooser, Names
from nfs4tools.wire import Status

# What the name of a beginning has behind that of the journal which takes its place.
PART = ".part"
# How many bytes are read at once of a file that is followed, and the seconds between two looks at it.
PIECE, PAUSE = 1 << 20, 0.2


class Remarks:
    """What is said behind answers of DELAY. A replay, as far as the last of these, tells new answers from kept ones, at
    which the delegation may be gone."""

    def __init__(self, head: Journal) -> None:
        self.replay: Replay | None = Replay(head, is_quick=True)
        self.replay.expect([])
        self.entries: list[Recorded] = []
        self.told: ExplainedEntry | None = None

    def on(self, number: int, entry: Recorded) -> str:
        """That of an entry, or nothing: of no other one, and of none behind an entry that can't follow."""
        if not isinstance(entry, Call) or entry.answer.status != Status.DELAY:
            return ""
        self.follow(number)
        if self.replay is None or self.told is None or self.told.reason is None:
            return ""
        again = self.told.reason.again
        return f"  # the stored reply of entry {again.entry}" if again else "  # a delegation conflicts"

    def follow(self, number: int) -> None:
        """Replays up to this entry."""
        try:
            while self.replay is not None and self.replay.server.entries <= number:
                at = self.replay.server.entries
                self.told = self.replay.step(self.entries[at], is_wanted=at == number)
        except WrongAnswer:
            self.replay = None


class Lines:
    """Shows entries as they come, as far as they are wanted."""

    def __init__(self, given: argparse.Namespace) -> None:
        self.given = given
        self.selection = selection_of(given)
        self.chooser, self.names = Chooser(self.selection), Names()
        self.naming: Naming | None = None
        self.remarks: Remarks | None = None
        self.shown, self.last = 0, -1

    def show(self, growing: Growing, recorded: list[Recorded]) -> None:
        """Shows of the entries that were read last those that are wanted; there are none before the head is read."""
        if growing.head is not None:
            self.naming = self.naming or Naming(growing.head)
            self.remarks = self.remarks or Remarks(growing.head)
            self.remarks.entries += recorded
            passed = self.naming.pass_before(self.selection.first(), recorded)
            self.chooser.pass_over(recorded[:passed])
            for entry in self.naming.entries(recorded[passed:], Entry):
                if self.selection.has_names():
                    self.names.add(entry)
                for it in self.chooser.shown(entry):
                    self.print(it)
        sys.stdout.flush()

    def print(self, entry: Entry) -> None:
        """Shows an entry, behind a line that parts it from those before it, if there are others between."""
        if self.selection.context and self.shown and not self.given.json and entry.number > self.last + 1:
            print("--")
        self.shown, self.last = self.shown + 1, entry.number
        print(self.line_of(entry))

    def line_of(self, entry: Entry) -> str:
        given = self.given
        if given.json:
            data = entry_data(entry, given.whole)
            if given.wall is not None and entry.moment is not None:
                data["wall"] = given.wall(entry.moment)
            return json_line(data)
        words_of = line_of if given.words else named_line_of
        assert self.remarks is not None
        line = words_of(entry.recorded, entry.tree, given.whole, given.wall or str)
        return f"{entry.number}: {line}{self.remarks.on(entry.number, entry.recorded)}"

    def is_over(self) -> bool:
        """Whether no other entry can be wanted."""
        last = self.selection.last()
        return last is not None and self.naming is not None and self.naming.count > last

    def end(self) -> None:
        """Ends the program where a name that is wanted has matched nothing, and says where nothing is wanted."""
        sys.stdout.flush()
        expect(self.names, self.selection)
        if self.shown == 0 and not self.selection.is_all():
            print("no entry is one of these", file=sys.stderr)


def show(given: argparse.Namespace) -> None:
    keep_all()
    lines, growing = Lines(given), Growing()
    try:
        with open(given.path, "rb") as source:
            while not lines.is_over() and growing.fault is None and (data := source.read(PIECE)):
                lines.show(growing, growing.take(data))
    except OSError as failed:
        if isinstance(failed, BrokenPipeError):
            raise
        sys.exit("fault: file not read")
    except NotJournal as wrong:
        end_without_journal(str(wrong))
    lines.end()
    if not lines.is_over():
        tell_end(growing, given.json)


def read_entries(path: str) -> tuple[Growing, Journal]:
    """The file as far as it can be read, and the journal of its whole entries."""
    growing, entries = read_file(path)
    if growing.head is None:
        end_without_journal(growing.ending())
    return growing, growing.head._replace(entries=entries)


def judge(path: str) -> None:
    """Says up to which entry the file is lawful."""
    growing, journal = read_entries(path)
    is_lawful, line = verdict_on(journal)
    if not is_lawful:
        sys.exit(line)
    print(line)
    tell_end(growing)


def save(path: str, target: str) -> None:
    """Writes the journal of the file's whole entries."""
    growing, journal = read_entries(path)
    try:
        with open(target, "wb") as file:
            file.write(journal_bytes(journal))
    except OSError:
        sys.exit("fault: file not written")
    print(f"saved: {len(journal.entries)} entries")
    tell_end(growing)


# Reading on while a server writes.


class Followed:
    """A file that is shown as far as it has come, and on."""

    def __init__(self, source: BinaryIO, given: argparse.Namespace) -> None:
        self.path: str = given.path
        self.source, self.lines = source, Lines(given)
        self.growing = Growing()
        self.last: Recorded | None = None

    def run(self) -> None:
        """To the end of the journal; or until the file isn't there any more, or its name is another file's."""
        while not (self.is_over() or self.lines.is_over()):
            is_left = self.is_left()
            data = self.source.read(PIECE)
            if data:
                entries = self.growing.take(data)
                self.last = entries[-1] if entries else self.last
                self.lines.show(self.growing, entries)
            elif is_left:
                return self.go_on()
            else:
                time.sleep(PAUSE)

    def is_over(self) -> bool:
        return self.growing.fault is not None or self.growing.is_whole() and self.growing.count > 0

    def is_left(self) -> bool:
        """Whether the name that the file had is gone, or another file's: then nobody writes to it any more."""
        try:
            return not os.path.samestat(os.stat(self.path), os.fstat(self.source.fileno()))
        except OSError:
            return True

    def go_on(self) -> None:
        """Shows the other entries of the journal that took the place of this beginning, if one did."""
        whole = Growing()
        try:
            with open(self.path[: -len(PART)], "rb") as source:
                entries = whole.take(source.read())
        except (OSError, NotJournal):
            entries = []
        if os.path.exists(self.path) or not self.path.endswith(PART) or not self.is_beginning_of(whole, entries):
            print(f"{self.path} isn't that file any more", file=sys.stderr)
        else:
            rest = entries[self.growing.entries :]
            self.growing = whole
            self.lines.show(whole, rest)

    def is_beginning_of(self, whole: Growing, entries: list[Recorded]) -> bool:
        """Whether these entries begin with those that were shown."""
        shown = self.growing.entries
        if whole.head is None or len(entries) < shown:
            return False
        is_same = self.growing.head is None or head_bytes(self.growing.head) == head_bytes(whole.head)
        return is_same and (shown == 0 or entries[shown - 1] == self.last)


def opened(path: str) -> BinaryIO:
    """The file, once it is there."""
    is_told = False
    while True:
        try:
            return open(path, "rb")
        except FileNotFoundError:
            if not is_told:
                print(f"{path} isn't there yet", file=sys.stderr)
            is_told = True
            time.sleep(PAUSE)
        except OSError:
            sys.exit("fault: file not read")


def follow(given: argparse.Namespace) -> None:
    with opened(given.path) as source:
        followed = Followed(source, given)
        try:
            followed.run()
        except NotJournal as wrong:
            end_without_journal(str(wrong))
        except KeyboardInterrupt:
            pass
        followed.lines.end()
        tell_end(followed.growing, given.json)
