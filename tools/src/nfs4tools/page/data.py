"""The values of a page, from one replay of a run. Bytes are texts; sequence ids and moments have less than 2^53, and
the bytes of locks are texts too, so JavaScript has all numbers as they are."""
from typing import Any, NamedTuple
from urllib.parse import urlencode

from nfs4tools.explain import Reason, ExplainedEntry, sentence
from nfs4tools.explain.lines import place_of
from nfs4tools.journal.history import History
from nfs4tools.journal.words import STATUS_NAMES
from nfs4tools.page.bars import Bars
from nfs4tools.page.lives import Lives
from nfs4tools.page.sequences import Sent, SequenceIds
from nfs4tools.page.names import name_of
from nfs4tools.runs.parties import last_moment
from nfs4tools.runs.reasons import kind_name
from nfs4tools.runs.replayed import Replayed
from nfs4tools.runs.run import Entry, Run
from nfs4tools.runs.selection import Selection, Span
from nfs4tools.wire import Status

# A page has the words of each of so many entries; of more it has those of refusals alone. It has at most MOST entries.
WITH_WORDS, MOST = 20_000, 100_000


class ShownReason(NamedTuple):
    """The reason of a refusal: its kind, the entries and states that it names, and what `tools/explain` prints."""

    kind: str
    entries: tuple[int, ...]
    states: tuple[int, ...]
    text: str


class Row(NamedTuple):
    """An entry. It has the moment of the last entry that has one, if it has none."""

    entry: int
    moment: int
    client: str | None
    number: int | None
    file: str | None
    owners: tuple[str, ...]
    # A call's operation and status; of another entry its kind.
    operation: str
    status: str | None
    words: str | None
    why: ShownReason | None


class TooLarge(Exception):
    """More entries than a page has; the argument says what to do."""


def page_values(run: Run[Entry], title: str, selection: Selection = Selection()) -> dict[str, Any]:
    """All that the page has: of the entries that the selection's span has, or of all. The page begins with the rest of
    the selection."""
    span = selection.entries
    count = sum(it.number in span for it in run.entries)
    if count > MOST:
        raise TooLarge(f"fault: {count} entries, and a page has at most {MOST}: --entries FROM-TO chooses some")
    replayed = Replayed(run)
    server = replayed.server
    bars, lives, sequences = Bars(server), Lives(server), SequenceIds(server)
    rows: list[Row] = []
    moment = last_moment([*run.passed, *(it.recorded for it in run.entries[: max(0, span.first - len(run.passed))])])
    for entry, told in replayed.told([bars, lives], Selection(entries=span), [sequences]):
        moment = moment if entry.moment is None else entry.moment
        rows.append(row_of(entry, told, moment, server, count <= WITH_WORDS))
    return {
        "title": title,
        "lease": run.head.lease,
        "total": run.count() if run.is_at_end else run.growing.count,
        "end": replayed.fault or run.ending,
        "begin": address_of(selection),
        "bars": [vars(it) for it in bars.of.values() if is_within(it.begin, it.end, span)],
        "clients": [vars(it) for it in lives.of.values() if is_within(it.given, it.ended, span)],
        "fields": {"rows": Row._fields, "sequences": Sent._fields, "why": ShownReason._fields},
        "rows": rows,
        "sequences": sequences.all,
    }


def is_within(begin: int, end: int | None, span: Span) -> bool:
    """Whether what stands from one entry to another one meets the span."""
    return (span.last is None or begin <= span.last) and (end is None or end >= span.first)


def row_of(entry: Entry, told: ExplainedEntry, moment: int, server: History, has_words: bool) -> Row:
    call, reason = entry.call, told.reason
    is_refusal = call is not None and call.answer.status != Status.OK
    return Row(
        entry.number,
        moment,
        entry.client,
        entry.client_number,
        entry.path,
        tuple([name_of(it.name) for it in entry.owners]),
        type(entry.recorded).__name__ if call is None else call.opnum.name,
        None if call is None else STATUS_NAMES[call.answer.status],
        entry.line if has_words or is_refusal else None,
        why_of(reason, server) if is_refusal and reason is not None else None,
    )


def why_of(reason: Reason, server: History) -> ShownReason:
    text = f"{sentence(reason, server)} ({place_of(reason)})"
    return ShownReason(kind_name(reason), reason.entries, reason.states, text)


def address_of(selection: Selection) -> str:
    """The selection without its entries, as the page's address has it."""
    pairs = [
        *(("client", it) for it in selection.clients),
        *(("file", it) for it in selection.paths),
        *(("owner", it) for it in selection.owners),
        *(("status", it.name) for it in selection.statuses),
    ]
    if selection.moments != Span():
        pairs.append(("moments", span_word(selection.moments)))
    if selection.context:
        pairs.append(("context", str(selection.context)))
    return urlencode(pairs)


def span_word(span: Span) -> str:
    return f"{span.first}-{'' if span.last is None else span.last}"
