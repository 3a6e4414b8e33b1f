"""What calls and replies show of the owners of opens and locks. One who was answered DELAY or GRACE in the server's
place has moved its sequence id on, of which the server doesn't know: its ids are rewritten from then on."""
from typing import TYPE_CHECKING, NamedTuple

from nfs4tools.between.calls import Call, Change, NEW_LOCK_SEQID, Operation, Reply, Who, open_owner, seqid_change, state
from nfs4tools.wire import Opnum, Stateid, Status

if TYPE_CHECKING:
    from nfs4tools.between.outcomes import Case


class Kept(NamedTuple):
    """The last answer to an owner in the server's place: to which id and bytes, with which status, in which case."""

    seqid: int
    data: bytes
    status: int
    case: "Case"


class Owners:
    """Who has which state; by how much the ids of owners are ahead of the server's; and the answers that are kept."""

    def __init__(self) -> None:
        self.of_state: dict[Who, Who] = {}
        self.states: dict[Who, set[Who]] = {}
        self.ahead: dict[Who, int] = {}
        self.kept: dict[Who, Kept] = {}

    def owner_of(self, who: Who) -> Who:
        """The owner of a state; or the state, where nothing was seen of its owner."""
        return self.of_state.get(who, who)

    def caller_of(self, call: Call) -> Who | None:
        """Whose request the call's first one is, or None where it has none."""
        who = call.request.who if call.requests else None
        return None if who is None else self.owner_of(who)

    def is_known(self, owner: Who | None) -> bool:
        return owner in self.states

    def learn(self, call: Call, reply: Reply) -> None:
        """Takes notice of a reply of the server's."""
        for operation, (result, _) in zip(call.operations, reply.results):
            if result.status != Status.OK or call.is_callback:
                continue
            if operation.number == Opnum.OPEN:
                self.give(open_owner(operation.arguments.owner), result.value.stateid)
            elif operation.number == Opnum.LOCK and operation.locker is not None:
                self.give(operation.locker, result.value)
            elif operation.locker is not None:
                self.forget(operation.locker)

    def give(self, owner: Who, stateid: Stateid) -> None:
        self.of_state[state(stateid)] = owner
        self.states.setdefault(owner, set()).add(state(stateid))

    def forget(self, owner: Who) -> None:
        for own in self.states.pop(owner, ()):
            self.of_state.pop(own, None)
        self.ahead.pop(owner, None)
        self.kept.pop(owner, None)

    def is_clear(self, call: Call) -> bool:
        """Whether it is clear what an answer in the server's place means for owners: not where the call has requests of
        several, nor where a LOCK brings a lock owner that has locked before."""
        return not call.requests or call.is_judged and not self.is_known(call.request.locker)

    def move_on(self, owner: Who, request: Operation, status: int, case: "Case") -> None:
        """The owner's request is answered in the server's place, so that its id moves on."""
        self.ahead[owner] = self.ahead.get(owner, 0) + 1
        self.kept[owner] = Kept(request.seqid, request.data, status, case)

    def kept_for(self, call: Call) -> Kept | None:
        """What is kept for the id of the call's request, or None. It is no longer kept once the next id comes."""
        owner = self.caller_of(call) if call.is_judged else None
        kept = None if owner is None else self.kept.get(owner)
        if owner is None or kept is None:
            return None
        if call.request.seqid == (kept.seqid + 1) % 2**32:
            del self.kept[owner]
        return kept if call.request.seqid == kept.seqid else None

    def changes(self, call: Call) -> list[Change]:
        """The changes by which the call has the sequence ids that the server wants."""
        found = []
        for operation in call.operations:
            places = [] if operation.who is None else [(operation.seqid_at, self.owner_of(operation.who))]
            if operation.number == Opnum.LOCK and operation.locker is not None:
                places.append((NEW_LOCK_SEQID, operation.locker))
            found += [
                seqid_change(operation, place, self.ahead[owner]) for place, owner in places if owner in self.ahead
            ]
        return found
