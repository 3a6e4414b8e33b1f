"""Why an OPEN, or an operation on an open, is refused."""
from dataclasses import replace

from nfs4tools.explain.common import DELEGATIONS, SHARE, Reasons, reason
from nfs4tools.explain.kinds import (
    DelegationConflict,
    DelegationConflicts,
    DowngradeFacts,
    ExistingFile,
    HeldLock,
    HeldLocks,
    Kind,
    NameFacts,
    NodeFacts,
    Nothing,
    OtherClient,
    OtherFile,
    Reason,
    ReclaimFacts,
    ShareConflict,
    ShareConflicts,
    ShareFacts,
    StateFacts,
)
from nfs4tools.explain.of_owners import OfOwners
from nfs4tools.explain.of_stateids import bad_stateid
from nfs4tools.model.delegations import bars
from nfs4tools.model.operations.close import holding
from nfs4tools.model.ranges import Run
from nfs4tools.model.state_parts import Delegation, LockState, OpenState, conflict, is_lawful_downgrade
from nfs4tools.model.tree import NAME_LIMIT
from nfs4tools.wire import (
    BOTH,
    CLAIM_DELEGATE_CUR,
    CLAIM_DELEGATE_PREV,
    CLAIM_PREVIOUS,
    Close,
    EXCLUSIVE4,
    GUARDED4,
    OPEN4_CREATE,
    Open,
    OpenConfirm,
    OpenDowngrade,
    READ,
    Stateid,
    Status,
)


class OfOpens(OfOwners):
    """The causes that lie in opens and delegations."""

    def of_open(self, arguments: Open, directory: int) -> Reasons:
        claim = arguments.claim
        if claim.kind == CLAIM_PREVIOUS:
            yield reason(Kind.RECLAIM, Status.NO_GRACE, "OPEN", ReclaimFacts(is_lock=False))
        if claim.kind == CLAIM_DELEGATE_PREV:
            yield reason(Kind.CLAIM_NOT_SUPPORTED, Status.NOTSUPP, "OPEN", Nothing())
        yield from self.of_share(arguments, "OPEN")
        yield from self.of_file_name(arguments, directory)
        server = self.server
        file = server.tree.child(directory, claim.name)
        assert file is not None
        if claim.kind == CLAIM_DELEGATE_CUR:
            yield from self.of_claimed(claim.delegation, arguments.owner.client, file)
        share, others = (arguments.access, arguments.deny), server.delegations_of_others(arguments.owner.client, file)
        opens = [it for it in server.opens_of(file) if it.owner != arguments.owner and conflict(it.share(), share)]
        yield from self.of_other_opens(opens, share, SHARE)
        yield from self.of_delegations(others, share)

    def of_share(self, arguments: Open | OpenDowngrade, heading: str) -> Reasons:
        if not READ <= arguments.access <= BOTH or arguments.deny > BOTH:
            facts = ShareFacts(arguments.access, arguments.deny)
            yield reason(Kind.SHARE_INVALID, Status.INVAL, heading, facts)

    def of_file_name(self, arguments: Open, directory: int) -> Reasons:
        """What is wrong with the name that an OPEN has."""
        tree, name, how = self.server.tree, arguments.claim.name, arguments.how
        yield from self.of_node(directory, Status.NOTDIR, "OPEN")
        facts = NameFacts(directory, name)
        if name == b"":
            yield reason(Kind.NAME_EMPTY, Status.INVAL, "OPEN", facts)
        if len(name) > NAME_LIMIT:
            yield reason(Kind.NAME_TOO_LONG, Status.NAMETOOLONG, "OPEN", facts)
        node = tree.child(directory, name)
        creates = how.create == OPEN4_CREATE
        if node is None and creates:
            yield reason(Kind.NO_CREATION, Status.ACCESS, "OPEN", facts)
        if node is None:
            yield reason(Kind.NO_SUCH_NAME, Status.NOENT, "OPEN", facts)
            return
        if not tree.is_file(node):
            yield reason(Kind.NOT_A_FILE, Status.ISDIR, "OPEN", NodeFacts(node, True))
        if creates and how.mode in (GUARDED4, EXCLUSIVE4):
            yield reason(Kind.FILE_EXISTS, Status.EXIST, "OPEN", ExistingFile(node, how.mode))

    def of_claimed(self, stateid: Stateid, client: int, file: int) -> Reasons:
        """What is wrong with the delegation that CLAIM_DELEGATE_CUR names."""
        for found in self.of_claimed_stateid(stateid, client, file):
            facts = found.facts
            if isinstance(facts, OtherFile):
                facts = replace(facts, is_named=True)
            yield replace(found, is_of_claim=True, facts=facts)

    def of_claimed_stateid(self, stateid: Stateid, client: int, file: int) -> Reasons:
        yield from self.of_stateid_client(stateid)
        yield from self.of_state(stateid, Delegation, file)
        found, server = self.state_of(stateid, Delegation), self.server
        if found.client != client:
            facts = OtherClient(stateid, found.number, None, server.epoch, client)
            yield reason(Kind.DELEGATION_OF_OTHER_CLIENT, Status.BAD_STATEID, "OPEN", facts, (), [found.number])
        yield from self.of_stateid(stateid, Delegation, file)

    # What conflicts with an open, READ or WRITE.

    def of_delegations(self, held: list[Delegation], share: tuple[int, int], is_special: bool = False) -> Reasons:
        """Those of these delegations that conflict with an access and a deny."""
        conflicting = sorted((it for it in held if bars(it.kind, share)), key=lambda it: it.number)
        if conflicting:
            facts = DelegationConflicts(tuple(self.delegation_conflict(it) for it in conflicting), is_special)
            entries = [it.recalled for it in facts.conflicts]
            states = [it.number for it in conflicting]
            yield reason(Kind.DELEGATION_CONFLICT, Status.DELAY, DELEGATIONS, facts, entries, states)

    def delegation_conflict(self, held: Delegation) -> DelegationConflict:
        server, number = self.server, held.number
        marked, is_up = server.recall_marks.get(number, (None, False))
        return DelegationConflict(number, held.client, server.begun[number], server.recalled.get(number), marked, is_up)

    def of_other_opens(self, opens: list[OpenState], share: tuple[int, int], heading: str) -> Reasons:
        """These opens deny what is asked, or have what it is to deny."""
        if opens:
            facts = ShareConflicts(tuple(self.share_conflict(it, share) for it in opens))
            entries = sorted(
                {at for it in facts.conflicts for at in (it.denied_since, it.held_since) if at is not None}
            )
            status = Status.SHARE_DENIED if heading == SHARE else Status.LOCKED
            found = reason(Kind.SHARE_CONFLICT, status, heading, facts, entries, [it.number for it in opens])
            yield found if heading == SHARE else replace(found, section="9.1.6")

    def share_conflict(self, opened: OpenState, share: tuple[int, int]) -> ShareConflict:
        """How an open excludes one with this access and deny."""
        (access, deny), since = opened.share(), self.server.since
        denied, held = deny & share[0], access & share[1]
        return ShareConflict(
            opened.number,
            opened.owner,
            denied,
            since(opened, 1, denied) if denied else None,
            held,
            since(opened, 0, held) if held else None,
            self.server.open_owners[opened.owner].is_confirmed,
        )

    # Operations on opens.

    def of_open_confirm(self, arguments: OpenConfirm, file: int) -> Reasons:
        yield from self.of_stateid(arguments.stateid, OpenState, file, of_unconfirmed=True)
        found = self.state_of(arguments.stateid, OpenState)
        if self.server.open_owners[found.owner].is_confirmed:
            facts = StateFacts(arguments.stateid, found.number, self.server.owner_confirmations[found.owner])
            yield replace(bad_stateid(Kind.OWNER_CONFIRMED, facts), heading="OPEN_CONFIRM", section="16.18")

    def of_open_downgrade(self, arguments: OpenDowngrade, file: int) -> Reasons:
        yield from self.of_stateid(arguments.stateid, OpenState, file)
        yield from self.of_share(arguments, "OPEN_DOWNGRADE")
        opened = self.state_of(arguments.stateid, OpenState)
        if not is_lawful_downgrade(opened.pairs, (arguments.access, arguments.deny)):
            pairs = tuple(sorted(opened.pairs))
            facts = DowngradeFacts(arguments.access, arguments.deny, arguments.stateid, pairs)
            yield reason(Kind.DOWNGRADE_NO_UNION, Status.INVAL, "OPEN_DOWNGRADE", facts, (), [opened.number])

    def of_close(self, arguments: Close, file: int) -> Reasons:
        yield from self.of_stateid(arguments.stateid, OpenState, file)
        server = self.server
        held = holding(server, self.state_of(arguments.stateid, OpenState))
        if server.tree.policy.close_locks == "refuse" and held:
            yield self.locks_held([self.first_lock(it) for it in held], "CLOSE")

    # Locks that are held.

    def locks_held(self, locks: list[HeldLock], heading: str) -> Reason:
        return reason(
            Kind.LOCKS_HELD,
            Status.LOCKS_HELD,
            heading,
            HeldLocks(tuple(locks)),
            [it.entry for it in locks],
            [it.state for it in locks],
        )

    def first_lock(self, state: LockState) -> HeldLock:
        """The first range that a lock state holds."""
        runs = state.ranges.held()
        return self.held_lock(state, runs[0], len(runs))

    def held_lock(self, state: LockState, run: Run, runs: int = 1) -> HeldLock:
        return HeldLock(state.number, state.owner, run, self.server.moved[state.number], runs)
