"""What a trace shows of RENEW and of leases, which no journal has: clientids that are another's, or aren't confirmed, and
renewals that come late. It is judged for any server: nothing is taken for its form but the clientids and stateids that
its answers gave, and calls about which the trace doesn't say enough are right."""
from collections.abc import Iterable, Iterator
from dataclasses import dataclass, field

from nfs4tools.journal.words import name_words
from nfs4tools.judge.findings import Finding, found_in_trace
from nfs4tools.judge.trace_leases import Leases
from nfs4tools.judge.traced import Place, TracedOperation, Where, clientid_of, told_steps
from nfs4tools.trace.reader import Trace


@dataclass(frozen=True)
class ClientidGrant:
    """A clientid was given to the client of this id, by the answer in this line."""

    client: bytes
    line: int


@dataclass(frozen=True)
class Confirm:
    """SETCLIENTID_CONFIRM: where it was sent, and the line of its answer and whether that is OK, or None."""

    sent: Where
    line: int | None = None
    is_ok: bool | None = None


@dataclass(frozen=True)
class Present:
    """A clientid that was confirmed: which, by which answer it was given, and the line that confirmed it."""

    clientid: str
    gift: ClientidGrant
    line: int


@dataclass
class Traced:
    """What a client did in a trace: how many operations name it, and how many of these are RENEW."""

    operations: int = 0
    renewals: int = 0

    def words(self) -> str:
        noun = "operation" if self.operations == 1 else "operations"
        return f"{self.operations} {noun} in the trace, {self.renewals} of them RENEW"


@dataclass
class Clientids:
    """What the answers of a trace say of clientids, and who uses them."""

    gifts: dict[str, list[ClientidGrant]] = field(default_factory=dict)
    confirms: dict[str, list[Confirm]] = field(default_factory=dict)
    # By connections: the clientids that other operations than RENEW name there, in the order in which they came.
    used: dict[Place, dict[str, None]] = field(default_factory=dict)
    # By clients: the line that gave the first clientid, and the clientids that were confirmed.
    first: dict[bytes, int] = field(default_factory=dict)
    confirmed: dict[bytes, list[Present]] = field(default_factory=dict)

    def note(self, told: TracedOperation, clientid: str | None) -> None:
        """An operation with its answer, and the clientid that it names."""
        if told.step.operation == "SETCLIENTID":
            self.note_introduction(told)
        elif clientid is not None and told.step.operation != "RENEW":
            self.used.setdefault(told.place, {})[clientid] = None
            if told.step.operation == "SETCLIENTID_CONFIRM":
                self.note_confirmation(told, clientid)

    def note_introduction(self, told: TracedOperation) -> None:
        clientid = clientid_of(told.result)
        if told.name is None or clientid is None or told.line is None:
            return
        self.gifts.setdefault(clientid, []).append(ClientidGrant(told.name, told.line))
        self.first.setdefault(told.name, told.line)
        self.used.setdefault(told.place, {})[clientid] = None

    def note_confirmation(self, told: TracedOperation, clientid: str) -> None:
        is_ok = None if told.line is None else told.status == "NFS4_OK"
        self.confirms.setdefault(clientid, []).append(Confirm(told.where, told.line, is_ok))
        gift = self.owner(clientid, told.where[0])
        if told.line is not None and is_ok and gift is not None:
            self.confirmed.setdefault(gift.client, []).append(Present(clientid, gift, told.line))

    def owner(self, clientid: str, line: int) -> ClientidGrant | None:
        """To whom it had been given last before this line."""
        return next((gift for gift in reversed(self.gifts.get(clientid, [])) if gift.line < line), None)

    def client_of(self, clientid: str | None, line: int) -> bytes | None:
        """The id of the client to which it had been given before this line."""
        gift = None if clientid is None else self.owner(clientid, line)
        return None if gift is None else gift.client

    def clients_at(self, place: Place, line: int) -> list[bytes]:
        """The clients that use this connection, of those that had a clientid before this line."""
        found: dict[bytes, None] = {}
        for clientid in self.used.get(place, {}):
            found.update((gift.client, None) for gift in self.gifts.get(clientid, []))
        return [client for client in found if self.first[client] < line]

    def present(self, client: bytes, line: int) -> Present | None:
        """The clientid that had been confirmed last before this line."""
        return next((it for it in reversed(self.confirmed.get(client, [])) if it.line < line), None)

    def is_confirmed(self, clientid: str, where: Where) -> bool:
        """Whether a confirmation had been sent before, and had not been refused by then."""
        return any(
            it.sent < where and (it.line is None or it.line > where[0] or bool(it.is_ok))
            for it in self.confirms.get(clientid, [])
        )


@dataclass
class Fault:
    """What is found of a client, with the lines of the RENEWs, of which the first one is told."""

    text: str
    others: tuple[int, ...]
    lines: list[int] = field(default_factory=list)


class Renewals:
    """Looks at a trace, and finds what is wrong with its RENEWs, and late. `done` has what each client did."""

    def __init__(self, trace: Trace) -> None:
        self.clientids, self.leases = Clientids(), Leases(trace.lease)
        self.done: dict[bytes | None, Traced] = {}
        self.faults: dict[tuple[str, bytes | None, str], Fault] = {}
        told = [(it, self.leases.take(it)) for it in told_steps(trace)]
        for it, clientid in told:
            self.clientids.note(it, clientid)
        for it, clientid in told:
            self.count(it, clientid)
            if it.step.operation == "RENEW" and clientid is not None:
                self.judge(it, clientid)

    def count(self, told: TracedOperation, clientid: str | None) -> None:
        client = told.name if told.name is not None else self.clientids.client_of(clientid, told.where[0])
        if client is None and clientid is None:
            return
        done = self.done.setdefault(client, Traced())
        done.operations += 1
        done.renewals += told.step.operation == "RENEW"

    def judge(self, told: TracedOperation, clientid: str) -> None:
        """A RENEW with this clientid."""
        line = told.where[0]
        gift, at_place = self.clientids.owner(clientid, line), self.clientids.clients_at(told.place, line)
        if gift is None:
            self.judge_unknown(told, clientid, at_place)
        elif at_place and gift.client not in at_place:
            text = f"RENEW has clientid {clientid}, which line {gift.line} gave to client {name_words(gift.client)}"
            self.add("renews-another-clientid", at_place[0], clientid, Fault(text, (gift.line,)), line)
        else:
            self.judge_own(told, clientid, gift)

    def judge_unknown(self, told: TracedOperation, clientid: str, at_place: Iterable[bytes]) -> None:
        """It may be of before the trace, unless its client has another one by now."""
        line = told.where[0]
        found = [(it, self.clientids.present(it, line)) for it in at_place]
        client, present = next(((it, each) for it, each in found if each is not None), (None, None))
        if present is not None and clientid not in self.clientids.used.get(told.place, {}):
            text = f"RENEW has clientid {clientid}, which no answer gave; that of the client is {present.clientid}"
            self.add("renews-another-clientid", client, clientid, Fault(text, (present.gift.line,)), line)

    def judge_own(self, told: TracedOperation, clientid: str, gift: ClientidGrant) -> None:
        line = told.where[0]
        present = self.clientids.present(gift.client, line)
        if present is not None and present.clientid != clientid and present.gift.line > gift.line:
            text = (
                f"RENEW has clientid {clientid}, but line {present.line} confirmed {present.clientid} for this client"
            )
            self.add("renews-another-clientid", gift.client, clientid, Fault(text, (gift.line, present.line)), line)
        elif not self.clientids.is_confirmed(clientid, told.where):
            text = f"RENEW has clientid {clientid}, which line {gift.line} gave, and which isn't confirmed yet"
            self.add("renews-before-confirm", gift.client, clientid, Fault(text, (gift.line,)), line)

    def add(self, name: str, client: bytes | None, clientid: str, fault: Fault, line: int) -> None:
        """A finding, or one more line of it."""
        self.faults.setdefault((name, client, clientid), fault).lines.append(line)

    def findings(self) -> Iterator[Finding]:
        for (name, client, _), fault in self.faults.items():
            yield found_in_trace(name, client, tuple(fault.lines), fault.text, fault.others)
        for clientid, late in self.leases.late.items():
            client = self.clientids.client_of(clientid, late.lines[0])
            yield found_in_trace("renewed-late", client, tuple(late.lines), late.text, tuple(late.befores))
