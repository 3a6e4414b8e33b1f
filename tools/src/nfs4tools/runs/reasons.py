"""A reason as data: its kind, the states, entries and owners that it names, the heading of docs/RULES.md, the section of
RFC 7530, and its sentence."""
from typing import Any

from nfs4tools.explain.kinds import HeldLocks, KeptFacts, Reason, SequenceFacts, ShareConflicts
from nfs4tools.explain.sentences import sentence, uncounted_of
from nfs4tools.journal.history import History
from nfs4tools.journal.words import STATUS_NAMES
from nfs4tools.model.state_parts import Delegation, OwnerName
from nfs4tools.runs.parties import text_of
from nfs4tools.wire import OpenOwner


def kind_name(reason: Reason) -> str:
    """The kind in lower case, with hyphens, as findings of `tools/judge` are written."""
    return reason.kind.name.lower().replace("_", "-")


def owner_data(owner: OwnerName) -> dict[str, Any]:
    """An owner of opens or of locks, with its client's number."""
    kind = "open" if isinstance(owner, OpenOwner) else "lock"
    return {"kind": kind, "client": owner.client, "name": text_of(owner.name)}


def owners_of(reason: Reason, server: History) -> list[OwnerName]:
    """The owners that a reason names: whose sequence id it is about, or whose states it names; each once."""
    facts = reason.facts
    owner: OwnerName | None = getattr(facts, "owner", None)
    found = [] if owner is None else [owner]
    if isinstance(facts, ShareConflicts):
        found += [it.owner for it in facts.conflicts]
    if isinstance(facts, HeldLocks):
        found += [it.owner for it in facts.locks]
    states = [server.given[it] for it in reason.states]
    return list(dict.fromkeys([*found, *(it.owner for it in states if not isinstance(it, Delegation))]))


def entries_of(reason: Reason) -> list[int]:
    """The entries that a reason names, each once; also those that had the right sequence id, and didn't count."""
    facts = reason.facts
    more = [it.entry for it in uncounted_of(facts)] if isinstance(facts, SequenceFacts) else []
    return list(dict.fromkeys([*reason.entries, *more]))


def reason_data(reason: Reason, server: History) -> dict[str, Any]:
    """A reason as JSON has it (docs/run.schema.json)."""
    data: dict[str, Any] = {
        "kind": kind_name(reason),
        "status": STATUS_NAMES[reason.status],
        "entries": entries_of(reason),
        "states": list(reason.states),
        "owners": [owner_data(it) for it in owners_of(reason, server)],
        "heading": reason.heading,
        "section": reason.section,
        "text": sentence(reason, server),
    }
    if isinstance(reason.facts, SequenceFacts):
        data |= {"expected": reason.facts.expected, "given": reason.facts.given}
    if reason.again is not None:
        data["replay_of"] = reason.again.entry
    if isinstance(reason.facts, KeptFacts) and reason.facts.before is not None:
        data["before"] = reason_data(reason.facts.before, server)
    if reason.also is not None:
        data["also"] = reason_data(reason.also, server)
    return data
