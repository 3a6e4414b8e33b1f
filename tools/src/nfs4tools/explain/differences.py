"""Where two runs part, client by client, by what was asked and answered. Numbers of clients and states, confirm verifiers,
other verifiers and callback addresses are replaced by the order in which the client's calls have them first; moments
are left out."""
from collections.abc import Iterable, Iterator
from itertools import zip_longest
from typing import Any

from nfs4tools.journal.entries import Call
from nfs4tools.journal.named_words import SPECIAL, field_word, fields_of, fields_of_answer, operation_name
from nfs4tools.journal.words import STATUS_NAMES, name_words, principal_words
from nfs4tools.runs.run import Entry
from nfs4tools.runs.summary import counted, title
from nfs4tools.wire import LockOwner, OpenOwner, Stateid

# So many entries of each run are shown where they part.
SHOWN = 3
# The fields whose values are replaced, by what they are.
REPLACED = {
    "setclientid_confirm": "confirm verifier",
    "r_addr": "callback address",
    **dict.fromkeys(("verifier", "createverf", "writeverf"), "verifier"),
}


class Plain:
    """What a client asked and was answered, as words in which nothing hangs on the run."""

    def __init__(self) -> None:
        self.orders: dict[str, dict[Any, int]] = {}

    def ordered(self, what: str, value: Any) -> str:
        """The value by the order in which it came first."""
        orders = self.orders.setdefault(what, {})
        return f"{what} {orders.setdefault(value, len(orders) + 1)}"

    def client(self, epoch: int, number: int) -> str:
        return self.ordered("client", (epoch, number))

    def field(self, name: str, value: Any) -> str:
        if name in REPLACED:
            return f"{name}={self.ordered(REPLACED[name], value)}"
        if name == "clientid":
            return f"{name}={self.client(*value)}"
        if isinstance(value, Stateid) and value not in SPECIAL:
            return f"{name}={value.seqid}:{self.client(*value[1:3])}:{self.ordered('state', value[1:])}"
        if isinstance(value, (OpenOwner, LockOwner)):
            return f"{name}={self.client(*value[:2])}/{name_words(value.name)}"
        return field_word(name, value, True)

    def words(self, call: Call, place: str | None) -> str:
        asked = [self.field(*it) for it in fields_of(call.arguments)]
        answered = [self.field(*it) for it in fields_of_answer(call.answer)]
        head = [principal_words(call.principal), str(place), call.opnum.name]
        status = [operation_name(call.answer.number), STATUS_NAMES[call.answer.status]]
        return " ".join([*head, *asked, *status, *answered])


def calls_by_client(entries: Iterable[Entry]) -> dict[str | None, list[Entry]]:
    found: dict[str | None, list[Entry]] = {}
    for entry in entries:
        if entry.call:
            found.setdefault(entry.client, []).append(entry)
    return found


def words_of(entries: list[Entry]) -> list[str]:
    plain = Plain()
    return [plain.words(it.call, it.file) for it in entries if it.call]


def differences(one: Iterable[Entry], other: Iterable[Entry]) -> Iterator[tuple[bool, list[str]]]:
    """Of each client whether the runs have the same calls of it, and lines that say so; the first run is marked by -,
    the other by +."""
    first, second = calls_by_client(one), calls_by_client(other)
    for client in sorted(first.keys() | second.keys(), key=lambda it: (it is None, it or "")):
        mine, others = first.get(client, []), second.get(client, [])
        yield parting(title(client), mine, others)


def parting(name: str, mine: list[Entry], others: list[Entry]) -> tuple[bool, list[str]]:
    pairs = zip_longest(words_of(mine), words_of(others))
    place = next((number for number, (one, other) in enumerate(pairs) if one != other), None)
    if place is None:
        return True, [f"{name}: the same, {counted(len(mine), 'call')}"]
    lines = [f"{name}: the same for {counted(place, 'call')} of {len(mine)} and {len(others)}, then"]
    for sign, entries in (("-", mine), ("+", others)):
        lines += [f"  {sign} {it}" for it in entries[place : place + SHOWN]] or [f"  {sign} no more calls"]
    return False, lines
