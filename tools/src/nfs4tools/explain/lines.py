"""The lines of tools/explain: why calls are refused, which callback paths fail, what becomes of delegations, and which
answers are kept ones. Equal refusals are told once: who asks again and again would else fill the screen."""
import argparse
import itertools
import sys
from collections.abc import Iterable, Iterator, Sequence
from dataclasses import dataclass
from typing import Any

from nfs4tools.explain import Reason, ExplainedEntry, again_words, is_refusal, repeated_words, sentence
from nfs4tools.explain.at import Renewals, State
from nfs4tools.explain.differences import differences
from nfs4tools.journal.entries import Call
from nfs4tools.journal.entries import Entry as Recorded
from nfs4tools.journal.entries import Path
from nfs4tools.journal.history import History
from nfs4tools.journal.named_words import named_line_of
from nfs4tools.journal.partial import end_line, tell_end
from nfs4tools.journal.words import line_of
from nfs4tools.runs.data import entry_data
from nfs4tools.runs.data import line_of as json_line
from nfs4tools.runs.files import expect, expect_names, pieces_of, run_of_file
from nfs4tools.runs.options import selection_of
from nfs4tools.runs.reasons import reason_data
from nfs4tools.runs.replayed import Replayed
from nfs4tools.runs.run import Entry, Reading, Run
from nfs4tools.runs.selection import Chooser, Names, Selection, Span
from nfs4tools.runs.summary import Summary, counts_words
from nfs4tools.wire import Stateid

# The fields of arguments by which equal requests differ.
SEQUENCE_IDS = {"seqid", "open_seqid", "lock_seqid"}
# More refusals than these are told in short on a terminal.
MANY = 200


@dataclass
class Paragraph:
    """What is printed of an entry; how many are equal to it, with it; and the last of them, with its reason if it is a
    refusal."""

    lines: list[str]
    first: int
    is_refusal: bool
    count: int = 1
    last: int = 0
    reason: Reason | None = None

    def add(self, number: int, reason: Reason | None) -> None:
        self.count, self.last, self.reason = self.count + 1, number, reason

    def text(self) -> Iterator[str]:
        yield from self.lines
        if self.count > 1:
            times = f"{self.count} times" if self.reason is None else repeated_words(self.reason, self.count)
            yield f"    entries {self.first} to {self.last}: {times}"


class Paragraphs:
    """Those of a journal, in their order."""

    def __init__(
        self, given: argparse.Namespace, server: History, entries: Sequence[Entry] = (), begin: int = 0
    ) -> None:
        self.given, self.server = given, server
        # The entries from the number on that `begin` is.
        self.entries, self.begin = entries, begin
        self.all: list[Paragraph] = []
        # The first of equal ones, by what they have in common.
        self.first: dict[Any, Paragraph] = {}
        # All refusals by their numbers, with their reasons.
        self.reasons: list[tuple[int, Reason]] = []

    def add(self, told: ExplainedEntry) -> None:
        if told.reason is not None and is_refusal(told.entry):
            self.reasons.append((told.number, told.reason))
        key = None if self.given.each or self.given.again else what_is_equal(told)
        if key in self.first:
            self.first[key].add(told.number, told.reason)
            return
        lines = self.lines_of(told)
        if lines:
            self.all.append(Paragraph(lines, told.number, is_refusal(told.entry)))
        if lines and key is not None:
            self.first[key] = self.all[-1]

    def count_refusals(self) -> int:
        """How many refusals are printed, of which equal ones are one; none if replays are asked for."""
        return 0 if self.given.again else sum(it.is_refusal for it in self.all)

    def show(self, context: int = 0) -> None:
        """Prints them, each among so many entries before and after it."""
        own = {it.first for it in self.all}
        told = -1
        for paragraph in self.all:
            first = paragraph.first
            self.show_entries(range(max(told + 1, first - context), first), own)
            print("\n".join(paragraph.text()))
            following = range(first + 1, min(first + 1 + context, self.begin + len(self.entries)))
            told = self.show_entries(itertools.takewhile(lambda number: number not in own, following), own, first)
        sys.stdout.flush()

    def show_entries(self, numbers: Iterable[int], own: set[int], last: int = -1) -> int:
        """Prints entries that have no paragraph: the number of the last."""
        for number in numbers:
            if number not in own:
                print(f"{number}: {self.words_of(self.entries[number - self.begin].recorded)}")
            last = number
        return last

    def words_of(self, entry: Recorded) -> str:
        words = line_of if self.given.words else named_line_of
        return words(entry, self.server.tree, self.given.whole)

    def lines_of(self, told: ExplainedEntry) -> list[str]:
        """What is printed of an entry, if anything."""
        if self.given.again:
            if told.reason is None or told.reason.again is None:
                return []
            assert isinstance(told.entry, Call)
            return [f"{told.number}: {again_words(told.entry, told.reason.again)}"]
        below = list[str]()
        if is_refusal(told.entry):
            assert told.reason is not None
            below.append(f"{sentence(told.reason, self.server)} ({place_of(told.reason)})")
        if path := failed_path(told.entry):
            below.append(path_words(path))
        below += told.events if self.given.delegations else []
        head = [f"{told.number}: {self.words_of(told.entry)}"] if below else []
        return head + [f"    {line}" for line in below]


def failed_path(entry: Recorded) -> Path | None:
    """The entry, if it marks a callback path down."""
    return entry if isinstance(entry, Path) and not entry.is_up else None


def path_words(path: Path) -> str:
    """Where the reason is of a path that is marked down, which no entry has."""
    line = f"`client {path.client}: callback to ..`"
    return (
        "a callback to the client failed, or an order marked the path; the run's standard error has the reason of a "
        f"callback, in a line {line} (RULES: Paths)"
    )


def what_is_equal(told: ExplainedEntry) -> Any:
    """What equal entries have in common, of which the first is told: of refusals the request, but for its sequence ids
    and stateids, and the cause; of paths that are marked down the client. It is None for other entries."""
    if path := failed_path(told.entry):
        return None if told.events else path.client
    if told.reason is None or not is_refusal(told.entry) or told.events:
        return None
    assert isinstance(told.entry, Call)
    call, reason = told.entry, told.reason
    return call.opnum, call.principal, call.filehandle, bare(call.arguments), reason.kind, reason.status, reason.facts


def bare(value: Any) -> Any:
    """Arguments without sequence ids and stateids."""
    if isinstance(value, Stateid) or not isinstance(value, (tuple, list)):
        return None if isinstance(value, Stateid) else value
    names = getattr(value, "_fields", [""] * len(value))
    return tuple(bare(it) for name, it in zip(names, value) if name not in SEQUENCE_IDS)


def place_of(reason: Reason) -> str:
    return f"RULES: {reason.heading}; RFC 7530, {reason.section}"


def explain(given: argparse.Namespace) -> None:
    """Prints what is asked for of the journal's file, and how that ends."""
    selection = selection_of(given)
    if given.at is not None:
        show_state(given.path, given.at, selection)
        return
    if given.diff is not None:
        show_differences(given, selection)
        return
    if given.summary and given.no_reasons:
        summarize(given.path, selection)
        return
    run = run_of_file(given.path, selection.last(), given.json, selection.first())
    expect_names(selection, run.entries)
    replayed = Replayed(run, given.delegations)
    if given.summary:
        summary = summary_of(run, selection)
        add_reasons(summary, replayed, selection)
        show_summary(summary, replayed.server)
    elif given.json:
        show_json(given, selection, replayed)
    else:
        show_paragraphs(given, selection, replayed)
    end(run, replayed.fault, given.json)


def end(run: Run[Entry], fault: str | None, is_json: bool = False) -> None:
    """Says where a run ends that is no whole journal, or that isn't lawful to its end."""
    sys.stdout.flush()
    if fault is not None:
        if is_json:
            print(end_line(None, fault), flush=True)
        sys.exit(fault)
    if run.is_at_end:
        tell_end(run.growing, is_json)


def show_state(path: str, number: int, selection: Selection) -> None:
    """The state after the entry of this number."""
    run = run_of_file(path, number, first=0 if selection.has_names() else number)
    if run.count() <= number:
        end(run, None)
        sys.exit(f"fault: entry {number} isn't there: there are {run.count()} entries, from 0 on")
    expect_names(selection, run.entries)
    replayed = Replayed(run)
    renewals = Renewals(replayed.server)
    for _ in replayed.told([renewals], Selection(entries=Span(number))):
        pass
    if replayed.fault is not None:
        sys.exit(replayed.fault)
    print("\n".join(State(replayed.server, renewals, selection).lines()))


def show_differences(given: argparse.Namespace, selection: Selection) -> None:
    """Where this run and another one part; the status is 1 if they do."""
    first, last = selection.first(), selection.last()
    runs = [run_of_file(path, last, first=first) for path in (given.path, given.diff)]
    expect_names(selection, [*runs[0].entries, *runs[1].entries])
    found = list(differences(*(selection.chosen(run.entries, run.passed) for run in runs)))
    print(f"- {given.path}\n+ {given.diff}")
    for _, lines in found:
        print("\n".join(lines))
    for path, run in zip((given.path, given.diff), runs):
        if run.ending is not None:
            print(f"{path}: {run.ending}")
    sys.exit(0 if all(is_same for is_same, _ in found) else 1)


def show_paragraphs(given: argparse.Namespace, selection: Selection, replayed: Replayed[Entry]) -> None:
    """Refusals, or what else is asked for; on a terminal the summary in the place of very many."""
    run = replayed.run
    paragraphs = Paragraphs(given, replayed.server, run.entries, len(run.passed))
    for _, told in replayed.told(selection=selection):
        paragraphs.add(told)
    if paragraphs.count_refusals() <= MANY or not sys.stdout.isatty():
        paragraphs.show(selection.context)
        return
    summary = summary_of(run, selection)
    for number, reason in paragraphs.reasons:
        summary.add_reason(run.at(number), reason)
    show_summary(summary, replayed.server)
    print(f"\nThese are {paragraphs.count_refusals()} refusals, more than {MANY}. All of them: explain FILE | less")
    print("Some of them: --client, --file, --owner, --status, --entries, --moments")


def show_json(given: argparse.Namespace, selection: Selection, replayed: Replayed[Entry]) -> None:
    """A line for each entry that has what is asked for."""
    for entry, told in replayed.told(selection=selection):
        is_again = told.reason is not None and told.reason.again is not None
        is_told = entry.is_refusal or failed_path(told.entry) is not None or given.delegations and told.events
        if is_again if given.again else is_told:
            data = entry_data(entry, given.whole)
            data["reason"] = None if told.reason is None else reason_data(told.reason, replayed.server)
            if given.delegations:
                data["events"] = told.events
            print(json_line(data))


# The summary.


def summarize(path: str, selection: Selection) -> None:
    """The summary without reasons, for which no entry has to be kept."""
    reading = Reading(path, Entry, selection.last(), selection.first())
    names, summary, chooser = Names(), Summary(), Chooser(selection)
    for piece in pieces_of(reading):
        chooser.pass_over(piece.passed)
        for entry in piece.entries:
            if selection.has_names():
                names.add(entry)
            if chooser.is_wanted(entry):
                summary.add(entry)
    expect(names, selection)
    print("\n".join(lines_of_table(summary)))
    if reading.is_at_end:
        tell_end(reading.growing)


def summary_of(run: Run[Entry], selection: Selection) -> Summary:
    summary = Summary()
    for entry in selection.chosen(run.entries, run.passed):
        summary.add(entry)
    return summary


def add_reasons(summary: Summary, replayed: Replayed[Entry], selection: Selection) -> None:
    for entry, told in replayed.told(selection=selection):
        if entry.is_refusal and told.reason is not None:
            summary.add_reason(entry, told.reason)


def lines_of_table(summary: Summary) -> Iterator[str]:
    yield summary.head()
    if summary.times:
        yield ""
        yield from summary.table()


def show_summary(summary: Summary, server: History) -> None:
    """The table, and the first refusal of each kind."""
    print("\n".join(lines_of_table(summary)))
    firsts = sorted(summary.firsts.values(), key=lambda it: it.entry.number)
    if firsts:
        print("\nThe first refusal of each kind:")
    for first in firsts:
        print(f"{first.entry}\n    {sentence(first.reason, server)} ({place_of(first.reason)})")
        print(f"    {counts_words(first.counts)}")
