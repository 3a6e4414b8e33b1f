"""Delegations that are recalled and not given back: by a client that had the recall, or by one that may not have had
it. A recall has arrived if the mark of the client's path behind it is up (docs/RULES.md, Callbacks)."""
from collections.abc import Iterator
from dataclasses import dataclass, field, replace
from itertools import islice

from nfs4tools.explain import Kind, Reason, ExplainedEntry
from nfs4tools.journal.entries import Call, Entry, Path, Revoke
from nfs4tools.journal.history import History
from nfs4tools.judge.clients import client_of
from nfs4tools.judge.findings import Finding, Severity, found
from nfs4tools.judge.watching import Holdings, Watcher
from nfs4tools.model.state_parts import UNKNOWN, UP
from nfs4tools.wire import SetclientidConfirm

# So many moments lie between DELAYs at least if a delegation isn't given back in time.
PATIENCE = 2


@dataclass
class Recalled:
    """A delegation that was recalled: whose it is, and when others met DELAY for it."""

    state: int
    client: bytes | None
    # Whether the first mark behind it may be of another callback: of a CB_NULL that was under way, or to a callback
    # that took the place of this one.
    is_unsure: bool
    # When the mark came, if one did.
    marked: int | None = None
    delays: list[tuple[int, int]] = field(default_factory=list)


class Recalls(Watcher):
    """Looks at what becomes of recalls."""

    def __init__(self, server: History, holdings: Holdings, is_whole: bool) -> None:
        super().__init__(server)
        # Whether the journal is whole: in a beginning the client may still give back what it has.
        self.holdings, self.is_whole = holdings, is_whole
        self.recalled: dict[int, Recalled] = {}
        # The path of the client that an entry marks, before it does.
        self.path: str | None = None
        # What was found, by the delegation.
        self.found: dict[int, Finding] = {}

    def before(self, number: int, entry: Entry, reason: Reason | None) -> None:
        if isinstance(entry, Path) and self.server.is_live(entry.client):
            self.path = self.server.live_record(entry.client).path

    def after(self, told: ExplainedEntry) -> None:
        entry = told.entry
        for state in islice(reversed(self.server.recalled), len(self.server.recalled) - len(self.recalled)):
            client = self.server.live_record(self.server.given[state].client)
            self.recalled[state] = Recalled(state, client.id, client.path == UNKNOWN)
        if isinstance(entry, Path):
            self.note_mark(told.number, entry)
        elif isinstance(entry, Revoke):
            self.note_revocation(told.number, self.recalled[entry.state])
        elif isinstance(entry, Call) and told.reason is not None:
            self.note_refusal(told.number, entry, told.reason)
        elif isinstance(entry, Call) and isinstance(entry.arguments, SetclientidConfirm):
            self.note_callback(told.number, entry.arguments.client)

    def outstanding(self, client: int) -> list[Recalled]:
        """The delegations that are recalled of this client, and not given back."""
        states = sorted(self.holdings.of_client.get(client, ()))
        return [self.recalled[state] for state in states if state in self.recalled]

    def note_callback(self, number: int, client: int) -> None:
        """A confirmation that brings another callback: no reply to a recall marks the path from now on."""
        if self.server.path_marks.get(client) == number:
            for it in self.outstanding(client):
                it.is_unsure = it.is_unsure or it.marked is None

    def note_mark(self, number: int, entry: Path) -> None:
        recalled = self.outstanding(entry.client)
        unanswered = [it for it in recalled if it.marked is None]
        for it in unanswered:
            if self.server.recall_marks.get(it.state, (None, False))[0] == number:
                it.marked = self.server.moment
        if not entry.is_up and self.path == UP and unanswered:
            what = self.states_words(it.state for it in unanswered)
            text = f"the callback path of the client was up, and is marked down while a recall isn't answered: {what}"
            recalls = self.recall_entries(unanswered)
            warning = found("recall-not-answered", unanswered[0].client, (number,), text, recalls)
            self.found.update((it.state, warning) for it in unanswered)

    def recall_entries(self, recalled: list[Recalled]) -> tuple[int, ...]:
        return tuple(sorted({self.server.recalled[it.state] for it in recalled}))

    def has_arrived(self, it: Recalled) -> bool:
        """Whether the client surely had the recall."""
        return not it.is_unsure and self.server.recall_marks.get(it.state, (0, False))[1]

    def note_revocation(self, number: int, it: Recalled) -> None:
        others = (self.server.begun[it.state], self.server.recalled[it.state])
        if self.has_arrived(it):
            text = f"{self.recall_words(it)}; it wasn't returned, and entry {number} revoked it"
            self.found[it.state] = found("delegation-not-returned", it.client, (number,), text, others)
        elif it.state not in self.found:
            text = (
                f"{self.sentences.state(it.state)}, was recalled by {self.sentences.entry(others[1])}; no mark of "
                f"the callback path says that the recall arrived, and entry {number} revoked it"
            )
            self.found[it.state] = found("recall-not-answered", it.client, (number,), text, others)

    def recall_words(self, it: Recalled) -> str:
        """That a recall was answered."""
        recall, mark = self.server.recalled[it.state], self.server.recall_marks[it.state][0]
        return (
            f"{self.sentences.state(it.state)}, was recalled by {self.sentences.entry(recall)}, and the recall was "
            f"answered (entry {mark} marks the path up)"
        )

    def note_refusal(self, number: int, entry: Call, reason: Reason) -> None:
        """Another client's request that meets DELAY, or a use of a delegation that was revoked."""
        if reason.kind == Kind.STATE_REVOKED:
            self.add_use(number, reason.states)
        elif reason.kind == Kind.DELEGATION_CONFLICT:
            client = client_of(entry, self.server)
            for it in map(self.recalled.get, reason.states):
                if it is not None and client not in (None, it.client):
                    it.delays.append((number, entry.moment))

    def add_use(self, number: int, states: tuple[int, ...]) -> None:
        for state in states:
            if state in self.found:
                before = self.found[state]
                self.found[state] = replace(before, entries=(*before.entries, number))

    def findings(self) -> Iterator[Finding]:
        yield from dict.fromkeys(self.found.values())
        for state, it in self.recalled.items():
            if state not in self.server.ended and self.has_arrived(it):
                yield from self.not_returned(it)

    def not_returned(self, it: Recalled) -> Iterator[Finding]:
        """At the end of the journal a delegation is still there for which others waited."""
        assert it.marked is not None
        if not it.delays or it.delays[-1][1] - max(it.delays[0][1], it.marked) < PATIENCE:
            return
        (first, since), (last, until) = it.delays[0], it.delays[-1]
        text = (
            f"{self.recall_words(it)}; another client met DELAY for it from {since} (entry {first}) to {until} "
            f"(entry {last}), and it isn't returned at the end of the journal"
        )
        entries = tuple(number for number, _ in it.delays)
        severity = None if self.is_whole else Severity.WARNING
        yield found("delegation-not-returned", it.client, (), text, (self.server.begun[it.state], *entries), severity)
