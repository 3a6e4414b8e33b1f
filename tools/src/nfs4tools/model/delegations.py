"""The rules of delegations (RFC 7530, section 10.4), which `Server` has with its others: what one is in the way
of, when it is given, called back, given back and taken. Sections are those of RFC 7530."""
from nfs4tools.model.state import State
from nfs4tools.model.state_parts import Delegation, Recall, Refusal, UNKNOWN, UP, expect_seqid
from nfs4tools.wire import (
    CLAIM_NULL,
    OPEN_DELEGATE_NONE,
    OPEN_DELEGATE_READ,
    OPEN_DELEGATE_WRITE,
    Open,
    READ,
    Stateid,
    Status,
    WRITE,
    opaque,
    u32,
    u64,
)

# How many bytes a file may get under a write delegation, and that it is bytes which are counted.
SPACE, NFS_LIMIT_SIZE = 65536, 1


def bars(kind: int, share: tuple[int, int]) -> bool:
    """Whether a delegation of this kind is in the way of an open of another client with this access and deny: one for
    writing of any, one for reading of one that writes or denies to read."""
    access, deny = share
    return kind == OPEN_DELEGATE_WRITE or access & WRITE != 0 or deny & READ != 0


def kind_wanted(policy: str, share: tuple[int, int]) -> int:
    """The kind that an OPEN with this access and deny may bring, if nobody else is in the way."""
    access, deny = share
    if access & WRITE:
        return OPEN_DELEGATE_WRITE if policy == "all" else OPEN_DELEGATE_NONE
    return OPEN_DELEGATE_READ if deny == 0 and policy in ("read", "all") else OPEN_DELEGATE_NONE


def delegation_bytes(kind: int, stateid: bytes = b"") -> bytes:
    """In the answer to an OPEN: it isn't called back at once, and its access list entry permits nobody anything."""
    if kind == OPEN_DELEGATE_NONE:
        return u32(kind)
    space = u32(NFS_LIMIT_SIZE) + u64(SPACE) if kind == OPEN_DELEGATE_WRITE else b""
    return u32(kind) + stateid + u32(0) + space + u32(0, 0, 0) + opaque(b"")


class Delegating(State):
    """What a server does with its delegations."""

    def delegations_of_others(self, client: int, file: int) -> list[Delegation]:
        return [it for it in self.delegations if it.file == file and it.client != client]

    # In OPEN; and in READ and WRITE, which have the access of an open that denies nothing.

    def expect_claimed(self, stateid: Stateid, client: int, file: int) -> None:
        """CLAIM_DELEGATE_CUR names a delegation of the client on the file that is opened (section 16.16)."""
        found: Delegation = self.state_of(Delegation, stateid, file)
        if found.client != client:
            raise Refusal(Status.BAD_STATEID)
        expect_seqid(stateid, found)

    def expect_none_in_the_way(self, held: list[Delegation], share: tuple[int, int]) -> None:
        """None of these delegations bars an open with this share; those that do are called back."""
        barring = [it for it in held if bars(it.kind, share)]
        if barring:
            self.recall(barring)
            raise Refusal(Status.DELAY)

    def kind_given(self, arguments: Open, file: int) -> int:
        """The kind of the delegation that an OPEN brings whose owner was confirmed before."""
        client, share = arguments.owner.client, (arguments.access, arguments.deny)
        kind = kind_wanted(self.tree.policy.delegations, share)
        if kind == OPEN_DELEGATE_NONE or arguments.claim.kind != CLAIM_NULL or self.live_record(client).path != UP:
            return OPEN_DELEGATE_NONE
        has_one = any(it.file == file and it.client == client for it in self.delegations)
        return OPEN_DELEGATE_NONE if has_one or self.is_barred(kind, client, file) else kind

    def is_barred(self, kind: int, client: int, file: int) -> bool:
        """Whether an open or a delegation of another client is in the way of a delegation of this kind."""
        opens = [it for it in self.opens_of(file) if it.owner.client != client]
        if kind == OPEN_DELEGATE_WRITE:
            return bool(opens or self.delegations_of_others(client, file))
        held = self.delegations_of_others(client, file)
        return any(bars(kind, it.share()) for it in opens) or any(it.kind == OPEN_DELEGATE_WRITE for it in held)

    def delegate(self, client: int, file: int, kind: int) -> bytes:
        """Gives a delegation of this kind: what the answer to its OPEN says of it."""
        if kind == OPEN_DELEGATE_NONE:
            return delegation_bytes(kind)
        given = Delegation(client, file, kind, self.next_number())
        self.delegations.append(given)
        return delegation_bytes(kind, self.spelled(given))

    # To the end.

    def due(self, now: int) -> Delegation | None:
        """The delegation of the least number among those that were called back more seconds ago than the lease has,
        or None."""
        found = [it for it in self.delegations if it.recalled is not None and it.recalled + self.lease < now]
        return min(found, key=lambda it: it.number) if found else None

    def revoke(self, now: int) -> int | None:
        """Takes the delegation that is due (section 10.4.6): the number of the entry, or None where none is due; or
        Unchanged."""
        found = self.due(now)
        if found is None:
            return None
        self.expect_entry()
        self.end_delegation(found)
        return self.enter()

    def end_delegation(self, found: Delegation) -> None:
        self.delegations = [it for it in self.delegations if it is not found]

    def probe(self, after: int) -> int | None:
        """The least number above this one that a live client has of whose path nothing is known, or None."""
        return min(
            (it.number for it in self.records if it.is_confirmed and it.path == UNKNOWN and it.number > after),
            default=None,
        )

    # Recalls (section 10.4.4).

    def recall(self, held: list[Delegation]) -> None:
        """Calls delegations back, in the order of their numbers, unless they have been."""
        for found in sorted((it for it in held if it.recalled is None), key=lambda it: it.number):
            found.recalled = self.moment
            record = self.live_record(found.client)
            stateid = Stateid(found.seqid, self.epoch, found.client, found.number)
            self.recalls.append(Recall(stateid, found.file, record.principal, record.callback))

    def pending(self) -> list[Recall]:
        """The recalls that wait."""
        return self.recalls[self.taken :]

    def take_recall(self) -> Recall | None:
        """The first recall that waits, which then doesn't any more; or None. It makes no entry."""
        if not self.pending():
            return None
        self.taken += 1
        return self.recalls[self.taken - 1]
