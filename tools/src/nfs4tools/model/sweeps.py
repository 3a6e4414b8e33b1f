"""Changes that no call asks for, which `Server` makes besides its operations: a sweep goes through what is over,
the leases of clients, the delegations that aren't given back, and the open owners that are idle. Each change is an
entry of the journal, or Unchanged. Sections are those of RFC 7530."""
from dataclasses import dataclass

from nfs4tools.model.delegations import Delegating
from nfs4tools.model.state_parts import DOWN, NOT_DUE, Owner, UP, Unchanged


@dataclass(frozen=True)
class Swept:
    """Of a sweep: how many clients it removed, how many have a lease that isn't over, and for how many others the
    journal had no entry left; how many delegations it took, how many owners it forgot, and whether others of these are
    left that are due."""

    expired: int = 0
    kept: int = 0
    refused: int = 0
    revoked: int = 0
    forgotten: int = 0
    is_stopped: bool = False


class Sweeping(Delegating):
    """What ends since its time is over."""

    def sweep(self, now: int) -> Swept:
        """Removes the clients whose leases are over, in the order of their numbers: more seconds than the lease have
        passed since the last renewal. Then it takes the delegations that are due, and forgets the owners that are."""
        due = sorted(number for number, moment in self.renewals.items() if moment + self.lease < now)
        kept, expired, revoked, forgotten = len(self.renewals) - len(due), 0, 0, 0
        try:
            for number in due:
                self.expire(number, self.renewals[number], now)
                expired += 1
        except Unchanged:
            pass
        try:
            while self.revoke(now) is not None:
                revoked += 1
            # To forget one makes no other due.
            for owner in self.idle(now):
                self.forget_owner(owner, now)
                forgotten += 1
        except Unchanged:
            return Swept(expired, kept, len(due) - expired, revoked, forgotten, True)
        return Swept(expired, kept, len(due) - expired, revoked, forgotten)

    def expire(self, number: int, seen: int, now: int) -> int:
        """Removes a client whose lease was renewed last at the moment that was seen (section 9.5)."""
        self.expect_live(number)
        if seen + self.lease >= now:
            raise Unchanged(NOT_DUE)
        self.expect_entry()
        self.remove_client(number)
        return self.enter()

    def mark_path(self, number: int, is_up: int) -> int:
        """Says that a client can be called back, or that it can't."""
        self.expect_live(number)
        self.expect_entry()
        self.live_record(number).path = UP if is_up else DOWN
        return self.enter()

    # Open owners without opens (section 9.1.10). How long they are known is the server's choice: a lease after the last
    # request that counted. One that comes again for its kept answer doesn't count.

    def idle(self, now: int) -> list[Owner]:
        """The open owners that may be forgotten, in the order in which they became known."""
        opening = {it.owner for it in self.opens}
        found = [
            owner
            for owner in self.open_owners.values()
            if owner.name not in opening and owner.kept.moment + self.lease < now
        ]
        return sorted(found, key=lambda owner: owner.recorded)

    def forget(self, now: int) -> int | None:
        """Forgets the owner that is due: the number of the entry, or None where none is due; or Unchanged."""
        found = self.idle(now)[:1]
        return self.forget_owner(found[0], now) if found else None

    def forget_owner(self, owner: Owner, _now: int) -> int:
        """The owner is as one that never came."""
        self.expect_entry()
        del self.open_owners[owner.name]
        return self.enter()
