"""The verdict on the clients of a journal: one replay, those who watch it, and what they find of each client; and what a
trace says besides, or alone."""
from collections import Counter
from collections.abc import Iterable, Iterator, Mapping
from dataclasses import dataclass, replace
from math import inf

from nfs4tools.explain import Replay
from nfs4tools.journal.entries import Entry
from nfs4tools.journal.history import History
from nfs4tools.journal.journal import Growing, Journal, WrongAnswer, fault_of
from nfs4tools.judge.activity import Activities, Activity
from nfs4tools.judge.circumstances import Circumstances
from nfs4tools.judge.delays import Delays
from nfs4tools.judge.findings import ALL_SORTS, Finding
from nfs4tools.judge.leases import DeadClientids, Lapses
from nfs4tools.judge.leftovers import Leftovers
from nfs4tools.judge.recalls import Recalls
from nfs4tools.judge.refusals import Refusals
from nfs4tools.judge.renewals import Renewals, Traced
from nfs4tools.judge.situations_met import SituationsMet
from nfs4tools.judge.watching import Holdings, Watcher
from nfs4tools.trace.reader import Trace

ORDER = {name: place for place, name in enumerate(ALL_SORTS)}


@dataclass(frozen=True)
class ClientVerdict:
    """Of a client, by the id of its SETCLIENTID, or of the calls that name none: what it did, what was found of it in
    the order of the journal, and how often it met situations; and what it did in a trace, if one is judged."""

    client: bytes | None
    activity: Activity
    findings: tuple[Finding, ...]
    situations: Counter[str]
    traced: Traced | None = None


@dataclass(frozen=True)
class TraceRead:
    """A trace that is judged: how many lines it has, and how its file ends if its last line isn't whole."""

    lines: int
    ends: str | None


@dataclass(frozen=True)
class Verdict:
    """On all clients of a journal; with how many entries it has, and how its file ends if that is no whole journal.
    `fault` says why what follows was not judged: it is no entry, or the answer is wrong. `trace` is what was judged of a
    trace, and `is_of_journal` whether there is a journal, too."""

    clients: tuple[ClientVerdict, ...]
    entries: int
    ends: str | None = None
    fault: str | None = None
    trace: TraceRead | None = None
    is_of_journal: bool = True


def judge_file(growing: Growing, entries: list[Entry]) -> tuple[Verdict, Journal]:
    """The verdict on a journal's file, or on a beginning that has its head; and the journal of its whole entries."""
    assert growing.head is not None
    journal = growing.head._replace(entries=entries)
    if growing.fault is not None:
        return judge(journal, None, f"fault: not a journal: {growing.fault}"), journal
    return judge(journal, None if growing.is_whole() else growing.ending()), journal


def judge(journal: Journal, ends: str | None = None, fault: str | None = None) -> Verdict:
    """The verdict on the journal's entries, up to the first that can't follow."""
    replay = Replay(journal)
    holdings = Holdings(replay.server)
    activities, met = Activities(replay.server, holdings), SituationsMet(replay.server)
    finders = finders_of(replay.server, holdings, ends is None and fault is None)
    try:
        for _ in replay.run([holdings, activities, met, *finders]):
            pass
    except WrongAnswer as ended:
        return judge(journal._replace(entries=journal.entries[: ended.args[0]]), ends, fault_of(ended))
    findings = [finding for finder in finders for finding in finder.findings()]
    return Verdict(tuple(by_client(activities.of, findings, met.counts)), replay.server.entries, ends, fault)


def with_trace(verdict: Verdict | None, trace: Trace) -> Verdict:
    """A journal's verdict, or that on no journal, with what a trace says of each client."""
    verdict = verdict or Verdict((), 0, is_of_journal=False)
    renewals = Renewals(trace)
    known = {it.client: it for it in verdict.clients}
    findings = sorted(renewals.findings(), key=place_of)
    for client in [*renewals.done, *(it.client for it in findings)]:
        known.setdefault(client, ClientVerdict(client, Activity(), (), Counter()))
    clients = (
        replace(
            it,
            findings=it.findings + tuple(each for each in findings if each.client == client),
            traced=renewals.done.get(client, Traced()),
        )
        for client, it in sorted(known.items(), key=lambda pair: pair[0] is None)
    )
    read = TraceRead(1 + len(trace.lines), trace.ends)
    return replace(verdict, clients=tuple(clients), trace=read)


def finders_of(server: History, holdings: Holdings, is_whole: bool) -> list[Watcher]:
    """All who find something."""
    return [
        Refusals(server),
        Lapses(server, holdings),
        DeadClientids(server),
        Recalls(server, holdings, is_whole),
        Leftovers(server, holdings),
        Delays(server),
        Circumstances(server),
    ]


def by_client(
    done: dict[bytes | None, Activity], findings: Iterable[Finding], met: Mapping[bytes | None, Counter[str]]
) -> Iterator[ClientVerdict]:
    """What there is of each client, in the order in which they came, and at last of no client."""
    found: dict[bytes | None, list[Finding]] = {client: [] for client in done}
    for finding in sorted(findings, key=place_of):
        found.setdefault(finding.client, []).append(finding)
    for client in sorted(found, key=lambda client: client is None):
        activity, counts = done.get(client, Activity()), met.get(client, Counter())
        yield ClientVerdict(client, activity, tuple(found[client]), counts)


def place_of(finding: Finding) -> tuple[float, int, tuple[int, ...]]:
    """Where a finding stands: by its first entry or line, and at the end if it is of the end of the journal."""
    first = min(finding.entries or finding.lines, default=inf)
    return first, ORDER[finding.sort.name], finding.others
