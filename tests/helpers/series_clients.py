"""Clients of the random series of calls (`right_series.py`), and the steps that a client has under way."""
from collections import defaultdict
from collections.abc import Sequence
from dataclasses import dataclass
from typing import Any, TYPE_CHECKING

from helpers.right_client import Direct, LAST, NOWHERE, Opened, Operation, Owner, RightClient, Steps
from nfs4tools.wire import Opnum, Stateid

if TYPE_CHECKING:
    from helpers.right_series import Series


@dataclass(eq=False)
class Task:
    """Steps of a client, of which a call is under way, or which wait for a later moment if it has no operations. While
    they aren't done nobody else may use what they have to themselves, nor have to itself what they share."""

    client: "SeriesClient"
    steps: Steps[None]
    own: frozenset[Any]
    shared: frozenset[Any]
    operations: Sequence[Operation] = ()
    built: int = 0

    def hinders(self, own: frozenset[Any], shared: frozenset[Any]) -> bool:
        return bool(self.own & (own | shared) or self.shared & own)


class SeriesClient(RightClient):
    """A client of a series."""

    def __init__(self, series: "Series", name: bytes, uid: int | None) -> None:
        super().__init__(Direct(series.server), name, uid, NOWHERE)
        self.chance, self.series = series.chance, series
        self.is_reached = not series.is_rare(0.1)
        self.is_asleep, self.begun, self.renewed = False, 0, 0
        self.lost = self.how_often
        # When an open or a lock state got its stateid; and of owners the answers that counted.
        self.moved: dict[Any, int] = {}
        self.counted: dict[Owner, list[int]] = defaultdict(list)
        # When it gave up what is gone.
        self.given_up: dict[Any, int] = {}

    def how_often(self, _operations: Sequence[Operation]) -> int:
        return self.chance.choice([0] * 12 + [1, 1, 2])

    def keep(self, opnum: Opnum, held: Any, stateid: Stateid) -> None:
        super().keep(opnum, held, stateid)
        self.moved[held] = self.series.moment

    def count(self, owner: Owner, seqid: int, opnum: Opnum, status: int) -> None:
        super().count(owner, seqid, opnum, status)
        self.counted[owner] += [status] if self.counts(opnum, status) else []

    def give_up(self, *held: Any) -> None:
        super().give_up(*held)
        self.given_up.update((it, self.series.moment) for it in held)

    def hear_of(self, recalled: Stateid) -> None:
        for lent in self.lent:
            lent.is_recalled |= lent.stateid == recalled

    def new_owner(self, name: bytes) -> Owner:
        """Of either kind: some begin near the last sequence id."""
        return Owner(name, self.chance.choice([0, 0, 0, 7, LAST, LAST - 1, LAST - 3]))

    def owner(self, name: bytes) -> Owner:
        return self.owners.setdefault(name, self.new_owner(name))

    def locker(self, name: bytes) -> Owner:
        return self.lockers.setdefault(name, self.new_owner(name))

    def is_live(self) -> bool:
        return self.clientid != (0, 0)

    def usable(self) -> list[Opened]:
        """The opens whose owners are confirmed."""
        return [it for it in self.opens if it.owner.is_confirmed]
