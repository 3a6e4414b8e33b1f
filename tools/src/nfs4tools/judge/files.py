"""The files that are judged: a journal, a trace, or both."""
from collections.abc import Callable
from typing import NamedTuple

from nfs4tools.journal.entries import Entry
from nfs4tools.journal.journal import Growing
from nfs4tools.journal.partial import read_file
from nfs4tools.judge.reports import Show
from nfs4tools.judge.traced import told_words
from nfs4tools.judge.verdicts import Verdict, judge_file, with_trace
from nfs4tools.model.tree import Tree
from nfs4tools.trace.reader import NotTrace, Trace, read_trace


class NoVerdict(Exception):
    """A file can't be judged; the argument is its fault."""


class Judged(NamedTuple):
    """A verdict, and how what it names is shown: entries, and lines of the trace."""

    verdict: Verdict
    show_entry: Show
    show_line: Show


def judge_files(journal: str | None, trace: str | None, words_of: Callable[[Entry, Tree], str]) -> Judged:
    """The verdict on the files that are given, of which one is; or NoVerdict."""
    verdict: Verdict | None = None
    show_entry: Show = str
    if journal is not None:
        verdict, read = judge_file(*read_journal(journal))

        def show_entry(number: int) -> str:
            return words_of(read.entries[number], read.tree)

    if trace is None:
        assert verdict is not None
        return Judged(verdict, show_entry, str)
    lines = read_trace_file(trace)
    return Judged(with_trace(verdict, lines), show_entry, show_of(lines))


def read_journal(path: str) -> tuple[Growing, list[Entry]]:
    """The journal's file, or a beginning with its head; or NoVerdict."""
    try:
        growing, entries = read_file(path)
    except SystemExit as ended:
        raise NoVerdict(f"{ended.code}: {path}") from None
    if growing.head is None:
        raise NoVerdict(f"fault: not a journal: {growing.ending()}: {path}")
    return growing, entries


def read_trace_file(path: str) -> Trace:
    try:
        return read_trace(path)
    except OSError:
        raise NoVerdict(f"fault: file not read: {path}") from None
    except NotTrace as wrong:
        raise NoVerdict(f"fault: not a trace: {wrong}: {path}") from None


def show_of(trace: Trace) -> Show:
    """How a line with a call is shown, with its reply."""
    calls = {call.number: (call, reply) for call, reply in trace.exchanges()}
    begun = trace.begun
    return lambda number: told_words(*calls[number], begun)
