"""The model beside which random calls are made: its files, and how often it answers what."""
import random
from collections import Counter
from typing import Any

from nfs4tools.journal.entries import Expire, Forget as Forgetting, Path, Revoke as Revocation
from nfs4tools.journal.journal import Recorder
from nfs4tools.model.pages import Pages
from nfs4tools.model.state_parts import ClientRecord, Owner, OwnerName, Refusal, Request, Result, SLOTS
from nfs4tools.model.tree import CLIENTS, CLOSE_LOCKS, DEFAULT
from nfs4tools.wire import Opnum, Principal, Status

# What is counted besides the operations: delegations by their type, entries of the journal, slots of clients, and
# owners that come again after they were forgotten.
LENT = {1: "delegations for reading", 2: "delegations for writing"}


WHAT = {
    Expire: "clients removed",
    Revocation: "delegations revoked",
    Path: "paths marked",
    Forgetting: "owners forgotten",
}


AGAIN, YIELDED, NONE_LEFT = "slots given again", "records that were dropped", "newcomers without a slot"


BACK = "forgotten owners that came again"


# Files that a listing has beside the others, by names of several lengths.
LISTED = "".join(f'[[file]]\npath = "{"n" * length}{length}"\n' for length in (1, 2, 3, 4, 5, 30, 100, 250))


class Counting(Recorder):
    """The model, which counts what it answers."""

    def __init__(self, *given: Any) -> None:
        super().__init__(*given)
        self.counts: Counter[Any] = Counter()
        # All records of clients, also those that are gone; and the owners that were forgotten, by their names.
        self.introduced: list[ClientRecord] = []
        self.forgotten: dict[OwnerName, Owner] = {}
        self.pages = Pages(self.counts)

    def effect(self, opnum: Opnum, arguments: Any, subject: Any) -> bytes:
        size = len(self.text_of(subject)) if opnum == Opnum.WRITE and subject is not None else 0
        rest = super().effect(opnum, arguments, subject)
        if opnum == Opnum.SETCLIENTID:
            self.introduced.append(self.records[-1])
        elif opnum == Opnum.READ:
            begin, count = arguments.offset, int.from_bytes(rest[4:8], "big")
            self.pages.read(subject, begin, begin + count)
        elif opnum == Opnum.WRITE:
            begin = arguments.offset
            self.pages.write(subject, size, begin, begin + len(arguments.data))
        return rest

    def new_number(self, replaced: ClientRecord | None) -> int:
        try:
            number = super().new_number(replaced)
        except Refusal:
            self.counts[NONE_LEFT] += 1
            raise
        self.counts[AGAIN] += number >= SLOTS
        return number

    def give_way(self, record: ClientRecord) -> None:
        super().give_way(record)
        self.counts[YIELDED] += 1

    def forget_owner(self, owner: Owner, now: int) -> int:
        self.forgotten[owner.name] = owner
        return super().forget_owner(owner, now)

    def begin_owner(self, request: Request, owner: Owner | None) -> Result:
        result = super().begin_owner(request, owner)
        self.counts[BACK] += request.arguments.owner in self.forgotten and result.status == Status.OK
        return result

    def delegate(self, client: int, file: int, kind: int) -> bytes:
        self.counts.update([LENT[kind]] if kind in LENT else [])
        return super().delegate(client, file, kind)

    def resize(self, file: int, size: int) -> None:
        before = len(self.text_of(file))
        super().resize(file, size)
        self.pages.resize(file, before, size)

    def apply(
        self, opnum: Opnum, arguments: Any, filehandle: int | None, principal: Principal, is_refused: bool = False
    ) -> Result:
        result = super().apply(opnum, arguments, filehandle, principal, is_refused)
        self.counts[opnum, result.status] += 1
        return result


def document_of(chance: random.Random, profile: str) -> str:
    """Mostly delegations of both kinds, to clients that can be called at once; and under "clients" more to list."""
    delegations, callbacks = chance.choice(["all"] * 6 + ["read", "none"]), chance.choice(["assume"] * 3 + ["probe"])
    words = f'delegations = "{delegations}", callbacks = "{callbacks}", close_locks = "{chance.choice(CLOSE_LOCKS)}"'
    if profile == CLIENTS:
        return f'policy = {{ {words}, profile = "{CLIENTS}" }}\n{DEFAULT}{LISTED}'
    return f"policy = {{ {words} }}\n{DEFAULT}"
