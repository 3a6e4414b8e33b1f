"""The sentences of reasons, each made of its record in one place. A sentence stays the same when the replay goes on."""
from collections.abc import Callable, Iterable
from typing import Any

from nfs4tools.explain.kinds import (
    AccessFacts,
    Again,
    AttributeFacts,
    ClientFacts,
    ConfirmFacts,
    DelegationConflict,
    DelegationConflicts,
    DowngradeFacts,
    EndedState,
    EpochFacts,
    ExistingFile,
    GoneClient,
    HeldLock,
    HeldLocks,
    IdFacts,
    KeptFacts,
    Kind,
    KnownLocker,
    ListingFacts,
    MovedState,
    NameFacts,
    NodeFacts,
    OtherClient,
    OtherFile,
    OtherKind,
    PrincipalFacts,
    RangeFacts,
    Reason,
    ReclaimFacts,
    RoomFacts,
    SequenceFacts,
    ShareConflict,
    ShareConflicts,
    ShareFacts,
    SizeFacts,
    StateFacts,
    StateidFacts,
    UnconfirmedClient,
    ValueFacts,
)
from nfs4tools.journal.entries import Call
from nfs4tools.journal.history import History, Uncounted
from nfs4tools.journal.words import (
    STATUS_NAMES,
    client_words,
    name_words,
    owner_words,
    place_words,
    principal_words,
    purpose_of,
)
from nfs4tools.model.attributes import NAMES
from nfs4tools.model.ranges import LAST_BYTE, READ_MODE, Run
from nfs4tools.model.state_parts import Delegation, KeptState, LockState, OpenState
from nfs4tools.model.tree import NAME_LIMIT, TEXT_LIMIT
from nfs4tools.wire import BOTH, GUARDED4, OPEN_DELEGATE_WRITE, Opnum, READ, WRITE

MODES = {0: "nothing", READ: "READ", WRITE: "WRITE", BOTH: "READ and WRITE"}
KINDS = {OpenState: "an open", LockState: "a lock state", Delegation: "a delegation"}
# Of those that conflict together so many are named.
NAMED = 3


def sentence(reason: Reason, server: History) -> str:
    """Why the call is refused, or gets a stored reply."""
    text = SENTENCES[reason.kind](Sentences(server), reason.facts)
    if reason.also is not None and reason.also.kind in BEFORE:
        text = f"{sentence(reason.also, server)}; {text}"
    return f"of the delegation's stateid: {text}" if reason.is_of_claim else text


def uncounted_of(facts: SequenceFacts) -> list[Uncounted]:
    """The refusals that had the owner's next sequence id, and didn't count."""
    last = facts.last_uncounted
    found = [it for it in facts.uncounted if it.sequence_id == facts.expected]
    if last is not None and last.owner is None and last.sequence_id == facts.expected:
        found.append(last)
    return found


def again_words(call: Call, again: Again) -> str:
    """A replay: its owner, and the entry whose answer it gets."""
    return f"{call.opnum.name} by {owner_words(again.owner)} is a replay of entry {again.entry}"


def repeated_words(reason: Reason, count: int) -> str:
    """Of a refusal that came so often, of which this is the reason of the last."""
    text = f"{count} times {STATUS_NAMES[reason.status]}"
    if isinstance(reason.facts, KeptFacts):
        return f"{text}, the stored reply of entry {reason.facts.entry}"
    if not isinstance(reason.facts, DelegationConflicts):
        return text
    conflicts = reason.facts.conflicts
    numbers = " and ".join(str(it.state) for it in conflicts)
    failed = [f"entry {it.marked}" for it in conflicts if it.marked is not None and not it.is_up]
    text += f", delegation{'s' * (len(conflicts) > 1)} {numbers} not returned"
    return text + (f", because the recall could not be delivered ({' and '.join(failed)})" if failed else "")


def listed(texts: list[str]) -> str:
    """The first ones, and how many others there are."""
    others = len(texts) - NAMED
    return "; ".join(texts[:NAMED]) + (f"; and {others} more" if others > 0 else "")


def run_words(run: Run, place: str) -> str:
    """The bytes of a file that are held, and in which way."""
    held = f"the bytes from {run.first} on" if run.last == LAST_BYTE else f"bytes {run.first} to {run.last}"
    return f"{held} of {place} for {'reading' if run.mode == READ_MODE else 'writing'}"


def attribute_words(numbers: Iterable[int]) -> str:
    """Attributes by their numbers and names."""
    words = [f"{number} ({NAMES[number]})" if number in NAMES else f"{number}" for number in sorted(numbers)]
    return f"attribute {listed(words)}" if words else "no attribute"


class Sentences:
    """Makes the sentences, each by the name of its kind, from the facts and the names that the server knows."""

    def __init__(self, server: History) -> None:
        self.server = server

    # Names.

    def entry(self, number: int) -> str:
        return self.server.entry_words(number)

    def place(self, node: int) -> str:
        return place_words(node, self.server.tree)

    def state(self, number: int) -> str:
        return self.state_words(self.server.given[number])

    def state_words(self, state: KeptState) -> str:
        place = self.place(state.file)
        if isinstance(state, Delegation):
            granted = f"a delegation of {place} for {purpose_of(state.kind)} to {client_words(state.client)}"
            return f"state {state.number}, {granted}"
        return f"state {state.number}, {KINDS[type(state)]} of {place} by {owner_words(state.owner)}"

    # Of the call.

    def no_filehandle(self, _facts: Any) -> str:
        return "no filehandle is current: no operation before it in its COMPOUND made one so"

    def not_a_file(self, facts: NodeFacts) -> str:
        if facts.is_named:
            return f"the name is that of {self.place(facts.node)}"
        return f"the current filehandle is that of {self.place(facts.node)}, which is no file"

    def not_a_directory(self, facts: NodeFacts) -> str:
        return f"the current filehandle is that of {self.place(facts.node)}, which is no directory"

    # Of clients.

    def other_epoch(self, facts: EpochFacts) -> str:
        named = "clientid" if facts.stateid is None else "stateid"
        return f"the {named} has epoch {facts.given}, but this server has epoch {facts.expected}"

    def client_never_given(self, facts: ClientFacts) -> str:
        client = client_words(facts.client)
        return (
            f"{client} was never given"
            if facts.stateid is None
            else (f"the stateid is one of {client}, which was never given")
        )

    def client_expired(self, facts: GoneClient) -> str:
        return f"{client_words(facts.client)} was removed by entry {facts.entry}, because its lease had expired"

    def client_replaced(self, facts: GoneClient) -> str:
        assert facts.other is not None
        return (
            f"{client_words(facts.client)} was removed by {self.entry(facts.entry)}, because "
            f"{client_words(facts.other)} took its place"
        )

    def client_never_confirmed(self, facts: UnconfirmedClient) -> str:
        text = f"{client_words(facts.client)}, which {self.entry(facts.entry)} gave, was never confirmed"
        if facts.yielded is not None:
            return f"{text}, and was dropped for the client of entry {facts.yielded}"
        if facts.last is None or facts.other is None:
            return text
        return f"{text}, and {self.entry(facts.last)} gave its id {client_words(facts.other)}"

    # Of stateids.

    def stateid_special(self, facts: StateidFacts) -> str:
        bits = "one" if facts.stateid.seqid else "zero"
        return f"all bits of the stateid are {bits}, so it names no state"

    def state_never_given(self, facts: StateidFacts) -> str:
        return f"state {facts.stateid.number} was never given"

    def state_of_other_client(self, facts: StateFacts) -> str:
        owner = self.server.given[facts.state].client
        return (
            f"state {facts.state} was given to {client_words(owner)}, but the stateid names "
            f"{client_words(facts.stateid.client)}"
        )

    def state_ended(self, facts: EndedState) -> str:
        assert facts.entry is not None
        text = f"{self.state(facts.state)}, was ended by {self.entry(facts.entry)}"
        entry = self.server.recorded[facts.entry]
        if not isinstance(entry, Call):
            return f"{text}, because it wasn't returned in time"
        if entry.opnum == Opnum.OPEN:
            return f"{text}, which restarted its owner"
        forgotten = facts.forgotten
        return text if forgotten is None else f"{text}, and its owner was forgotten by {self.entry(forgotten)}"

    def state_of_other_kind(self, facts: OtherKind) -> str:
        wanted = " or ".join(KINDS[kind] for kind in facts.wanted)
        text = f"the stateid is that of {self.state(facts.state)}; {wanted} is wanted here"
        return text if facts.meant is None else f"{text}, such as state {facts.meant}"

    def state_of_other_file(self, facts: OtherFile) -> str:
        naming = "the OPEN names" if facts.is_named else "the current filehandle is that of"
        return f"the stateid is that of {self.state(facts.state)}, but {naming} {self.place(facts.node)}"

    def owner_not_confirmed(self, facts: StateFacts) -> str:
        found = self.server.given[facts.state]
        assert isinstance(found, OpenState)
        return (
            f"{owner_words(found.owner)} isn't confirmed: it has opened the file in entry {facts.entry}, but no "
            "OPEN_CONFIRM has followed"
        )

    def owner_confirmed(self, facts: StateFacts) -> str:
        found = self.server.given[facts.state]
        assert isinstance(found, OpenState)
        return f"{owner_words(found.owner)} is confirmed since entry {facts.entry}"

    def moved(self, facts: MovedState) -> str:
        assert facts.entry is not None
        side = "earlier" if facts.stateid.seqid < facts.seqid else "later"
        return (
            f"state {facts.state} has seqid {facts.seqid} since {self.entry(facts.entry)}, but the stateid has the "
            f"{side} {facts.stateid.seqid}"
        )

    def delegation_of_other_client(self, facts: OtherClient) -> str:
        return f"it is that of {self.state(facts.state)}, but the OPEN is one of {client_words(facts.client)}"

    # Of owners.

    def kept_answer(self, facts: KeptFacts) -> str:
        text = f"it is a replay of {self.entry(facts.entry)}, and gets the stored reply"
        if facts.before is None:
            return text
        if not isinstance(facts.before.facts, DelegationConflicts):
            return f"{text}; the cause then: {sentence(facts.before, self.server)}"
        ended = dict(facts.ended)
        found = [
            f"delegation {it.state} conflicted then"
            + (f", and is gone since {self.entry(ended[it.state])}" if it.state in ended else "")
            for it in facts.before.facts.conflicts
        ]
        return f"{text}; {listed(found)}; the owner's next sequence id is {facts.next_id}"

    def due(self, facts: SequenceFacts) -> str:
        return (
            f"{facts.expected} is the next sequence id of {owner_words(facts.owner)}, after "
            f"{self.entry(facts.entry)}"
        )

    def uncounted(self, facts: SequenceFacts) -> str:
        """Those that had the next sequence id, and didn't count."""
        found = uncounted_of(facts)
        return f"; {listed([self.uncounted_words(it) for it in found])}" if found else ""

    def uncounted_words(self, it: Uncounted) -> str:
        return f"{self.entry(it.entry)} had {it.sequence_id}, and {STATUS_NAMES[it.status]} doesn't count"

    def sequence_id_other(self, facts: SequenceFacts) -> str:
        return f"{self.due(facts)}, but {facts.given} came{self.uncounted(facts)}"

    def other_request_with_last_id(self, facts: SequenceFacts) -> str:
        return f"{self.due(facts)}, but {facts.given} came{self.itself(facts)}"

    def itself(self, facts: SequenceFacts) -> str:
        """What tells the request from the entry that has its sequence id, if it has the last one that counted."""
        names = ["current filehandle" if name == "filehandle" else name for name in facts.differs]
        differs = " and ".join([", ".join(names[:-1])] * (len(names) > 1) + names[-1:])
        return f": that of the entry itself, with another {differs}" if names else ""

    def lock_seqid_other(self, facts: SequenceFacts) -> str:
        return f"{self.due(facts)}, but the lock_seqid is {facts.given}{self.itself(facts)}{self.uncounted(facts)}"

    def new_lock_owner_known(self, facts: KnownLocker) -> str:
        return (
            f"it names a new lock owner, but {owner_words(facts.owner)} has state {facts.state} on the file "
            f"since {self.entry(facts.entry)}"
        )

    def lock_owner_of_other_client(self, facts: OtherClient) -> str:
        return (
            f"the lock owner has the clientid {facts.epoch} {facts.client}, but the open is one of client "
            f"{facts.stateid.client}"
        )

    # Of opens and delegations.

    def reclaim(self, facts: ReclaimFacts) -> str:
        if facts.is_lock:
            return "it reclaims, but no lock outlives a run of the server"
        return "it reclaims (CLAIM_PREVIOUS), but no state outlives a run of the server"

    def claim_not_supported(self, _facts: Any) -> str:
        return "CLAIM_DELEGATE_PREV isn't supported"

    def name_empty(self, _facts: NameFacts) -> str:
        return "the name is empty"

    def name_too_long(self, facts: NameFacts) -> str:
        return f"the name has {len(facts.name)} bytes, but at most {NAME_LIMIT} are allowed"

    def no_such_name(self, facts: NameFacts) -> str:
        return f"{self.place(facts.directory)} has no {name_words(facts.name)}"

    def no_creation(self, facts: NameFacts) -> str:
        return f"{self.no_such_name(facts)}, and this server creates no files"

    def file_exists(self, facts: ExistingFile) -> str:
        mode = "GUARDED4" if facts.mode == GUARDED4 else "EXCLUSIVE4"
        return f"{self.place(facts.node)} exists already, but {mode} creates a new file"

    def share_conflict(self, facts: ShareConflicts) -> str:
        return listed([self.share_words(it) for it in facts.conflicts])

    def share_words(self, it: ShareConflict) -> str:
        place = self.place(self.server.given[it.state].file)
        texts = [f"denies {MODES[it.denied]} of {place} since entry {it.denied_since}"] if it.denied else []
        if it.held:
            texts.append(f"has {place} open for {MODES[it.held]}, which this OPEN denies, since entry {it.held_since}")
        return (
            f"{owner_words(it.owner)} "
            + " and ".join(texts)
            + ("" if it.is_confirmed else " (it isn't confirmed, which makes no difference here)")
        )

    def delegation_conflict(self, facts: DelegationConflicts) -> str:
        return listed([self.delegation_words(it, facts.is_special) for it in facts.conflicts])

    def delegation_words(self, it: DelegationConflict, is_special: bool) -> str:
        """How a delegation conflicts, and since when it is recalled."""
        held = self.server.given[it.state]
        assert isinstance(held, Delegation)
        is_whole = held.kind == OPEN_DELEGATE_WRITE
        if is_special:
            operations = "READs and WRITEs" if is_whole else "WRITEs"
            excluded = f"conflicts with {operations} with a special stateid, from every client"
        elif is_whole:
            excluded = "conflicts with every open of another client"
        else:
            excluded = "conflicts with opens of other clients that write or deny READ"
        recalled = "is recalled now" if it.recalled is None else f"was recalled by {self.entry(it.recalled)}"
        if it.marked is not None and not it.is_up:
            recalled += f", but the recall could not be delivered (entry {it.marked})"
        return f"{self.state_words(held)} since {self.entry(it.begun)}, {excluded}, and {recalled}"

    def share_invalid(self, facts: ShareFacts) -> str:
        if READ <= facts.access <= BOTH:
            return f"the deny is {facts.deny}, but has to be 0 to 3"
        return f"the access is {facts.access}, but has to be 1 to 3"

    def downgrade_no_union(self, facts: DowngradeFacts) -> str:
        kept = ", ".join(f"{access} and {deny}" for access, deny in facts.pairs)
        return (
            f"access {facts.access} and deny {facts.deny} are no union of pairs with which the open was "
            f"opened: {kept}"
        )

    # Of locks.

    def locks_held(self, facts: HeldLocks) -> str:
        if facts.owner is None:
            return listed([self.lock_words(it) for it in facts.locks])
        places = [f"{self.place(self.server.given[it.state].file)} (state {it.state})" for it in facts.locks]
        return f"{owner_words(facts.owner)} holds bytes of {listed(places)}"

    def lock_words(self, it: HeldLock) -> str:
        """The bytes that a lock state holds, and since when."""
        held = run_words(it.run, self.place(self.server.given[it.state].file))
        more = f", the first of {it.runs} ranges" if it.runs > 1 else ""
        return (
            f"{owner_words(it.owner)} holds {held}{more}, in state {it.state}, which was changed last by "
            f"{self.entry(it.entry)}"
        )

    def range_invalid(self, facts: RangeFacts) -> str:
        if facts.length == 0:
            return "a length of 0 names no bytes"
        return f"offset {facts.offset} and length {facts.length} add up to more than 2^64 - 1"

    def access_lacking(self, facts: AccessFacts) -> str:
        asked = f"{facts.operation} needs access to {MODES[facts.wanted]}"
        if isinstance(self.server.given[facts.state], Delegation):
            return f"{asked}, but the stateid is that of {self.state(facts.state)}"
        return f"{asked}, but {self.state(facts.state)}, has access only to {MODES[facts.access]}"

    # Of bytes, attributes and listings.

    def too_large(self, facts: SizeFacts) -> str:
        if facts.offset is None:
            return f"the size is {facts.size}, but a file has at most {TEXT_LIMIT} bytes"
        return (
            f"offset {facts.offset} and {facts.size} bytes add up to {facts.offset + facts.size}, but a file has "
            f"at most {TEXT_LIMIT} bytes"
        )

    def attributes_not_supported(self, facts: AttributeFacts) -> str:
        return f"{attribute_words(facts.numbers)} isn't supported"

    def attributes_to_set_only(self, facts: AttributeFacts) -> str:
        return f"{attribute_words(facts.numbers)} can only be set"

    def attributes_to_read_only(self, facts: AttributeFacts) -> str:
        return f"{attribute_words(facts.numbers)} can only be read"

    def attributes_fixed(self, facts: AttributeFacts) -> str:
        return f"{attribute_words(facts.numbers)} never changes"

    def values_unreadable(self, facts: ValueFacts) -> str:
        return f"the {facts.size} bytes of values are no values of {attribute_words(facts.numbers)}"

    def time_of_client(self, _facts: Any) -> str:
        return "the client gives a time of its own, but the server only sets its own time"

    def cookie_unknown(self, facts: ListingFacts) -> str:
        return f"cookie {facts.cookie} is neither 0 nor that of a child of {self.place(facts.directory)}"

    def verifier_other(self, facts: ListingFacts) -> str:
        return f"the verifier is {facts.verifier.hex()}, but the verifier of every listing is zero"

    def listing_too_small(self, facts: RoomFacts) -> str:
        what = "a listing without an entry" if facts.name is None else f"a listing with only {name_words(facts.name)}"
        return f"{what} has {facts.needed} bytes, but here at most {facts.most} are allowed"

    # Of SETCLIENTID and its confirmation.

    def id_in_use(self, facts: IdFacts) -> str:
        client = f"{client_words(facts.client)}, by {principal_words(facts.principal)}"
        return (
            f"the id {name_words(facts.id)} is that of {client}, which has state: {self.state(facts.state)}, since "
            f"{self.entry(facts.entry)}"
        )

    def confirmed_by_other(self, facts: PrincipalFacts) -> str:
        return (
            f"{self.entry(facts.entry)} came from {principal_words(facts.principal)}, but its confirmation from "
            f"{principal_words(facts.other)}"
        )

    def confirm_never_given(self, facts: ConfirmFacts) -> str:
        return f"confirm verifier {facts.confirm} was never given"

    def confirm_of_other_client(self, facts: ConfirmFacts) -> str:
        assert facts.entry is not None and facts.other is not None
        return f"{self.entry(facts.entry)} gave confirm verifier {facts.confirm} to {client_words(facts.other)}"

    def confirm_gave_way(self, facts: ConfirmFacts) -> str:
        assert facts.entry is not None
        return f"the record of {self.entry(facts.entry)} was dropped for the client of entry {facts.later}"

    def confirm_replaced(self, facts: ConfirmFacts) -> str:
        assert facts.entry is not None
        record = self.server.introductions[facts.confirm].record
        return (
            f"confirm verifier {facts.confirm} is that of {self.entry(facts.entry)}, but entry {facts.later} gave "
            f"the id {name_words(record.id)} confirm verifier {facts.later_confirm}"
        )


# The kinds whose sentences have other names than they.
OTHER_NAMES: dict[Kind, Callable[[Sentences, Any], str]] = {
    Kind.CLIENTID_OTHER_EPOCH: Sentences.other_epoch,
    Kind.STATEID_OTHER_EPOCH: Sentences.other_epoch,
    Kind.SEQID_EARLIER: Sentences.moved,
    Kind.SEQID_LATER: Sentences.moved,
    Kind.LOCK_CONFLICT: Sentences.locks_held,
    **dict.fromkeys(
        [Kind.STATE_CLOSED, Kind.STATE_RELEASED, Kind.STATE_RETURNED, Kind.STATE_REVOKED, Kind.STATE_LOST_TO_OPEN],
        Sentences.state_ended,
    ),
}
SENTENCES: dict[Kind, Callable[[Sentences, Any], str]] = {
    **{kind: getattr(Sentences, kind.name.lower()) for kind in Kind if kind not in OTHER_NAMES},
    **OTHER_NAMES,
}
# What is wrong besides a sequence id that explains it, and stands before it.
BEFORE = {Kind.STATE_OF_OTHER_KIND}
