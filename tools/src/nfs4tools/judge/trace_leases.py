"""Leases as a trace shows them: which client an operation names, since when each client has sent nothing that renews its
lease while it has opens or delegations, and which renewals come late. RFC 7530, section 9.5, has what renews."""
import re
from collections.abc import Iterable
from dataclasses import dataclass, field

from nfs4tools.judge.traced import TracedOperation, clientid_of, state_of

BY_CLIENTID = {"DELEGPURGE", "LOCK", "LOCKT", "OPEN", "RELEASE_LOCKOWNER", "RENEW"}
BY_STATEID = {
    "CLOSE",
    "DELEGRETURN",
    "LOCK",
    "LOCKU",
    "OPEN",
    "OPEN_CONFIRM",
    "OPEN_DOWNGRADE",
    "READ",
    "SETATTR",
    "WRITE",
}
RENEWING = BY_CLIENTID | BY_STATEID
# The answers by which a client knows that its lease is over.
OVER = {"NFS4ERR_EXPIRED", "NFS4ERR_STALE_CLIENTID", "NFS4ERR_STALE_STATEID"}
LEASE_TIME = re.compile(r"[\[,]lease_time=([0-9]+)[,\]]")
SECOND = 1000000


@dataclass
class Renewal:
    """The last operation of a client that renews its lease, and the one before it."""

    told: TracedOperation
    before: "Renewal | None" = None


@dataclass
class Late:
    """The renewals of a clientid that came late: the first one in words, the lines of all, and of those before."""

    text: str
    lines: list[int] = field(default_factory=list)
    befores: list[int] = field(default_factory=list)


class Leases:
    """The leases of all clientids, in the order of the calls."""

    def __init__(self, lease: int) -> None:
        self.lease = lease
        # By clientids: the opens and delegations, the last renewal, and what came late; and whose each state is.
        self.held: dict[str, set[str]] = {}
        self.last: dict[str, Renewal] = {}
        self.late: dict[str, Late] = {}
        self.states: dict[str, str] = {}

    def take(self, told: TracedOperation) -> str | None:
        """The next operation: the clientid that it names, or None."""
        clientid = self.clientid_of(told)
        if clientid is not None and told.step.operation in RENEWING:
            self.renew(told, clientid)
        if told.step.operation == "GETATTR":
            found = LEASE_TIME.search(told.result.get("obj_attributes", ""))
            self.lease = int(found[1]) if found else self.lease
        if clientid is not None and told.line is not None:
            self.learn(told, clientid)
        return clientid

    def clientid_of(self, told: TracedOperation) -> str | None:
        """The clientid in the arguments, or that of the state."""
        clientid, state = clientid_of(told.values), state_of(told.values)
        return self.states.get(state) if clientid is None and state is not None else clientid

    def renew(self, told: TracedOperation, clientid: str) -> None:
        before = self.last.get(clientid)
        if before is not None and before.told.where[0] == told.where[0]:
            return
        if before is not None and self.held.get(clientid):
            self.measure(told, before.told, clientid)
            before.before = None
        self.last[clientid] = Renewal(told, before)

    def measure(self, told: TracedOperation, before: TracedOperation, clientid: str) -> None:
        passed = told.time - before.time
        if 3 * passed <= 2 * self.lease * SECOND:
            return
        text = (
            f"{told.step.operation} comes {passed / SECOND:.1f} s after the last renewal, and two thirds of the lease of "
            f"{self.lease} s are {2 * self.lease / 3:.1f} s"
        )
        late = self.late.setdefault(clientid, Late(text))
        late.lines.append(told.where[0])
        late.befores.append(before.where[0])

    def learn(self, told: TracedOperation, clientid: str) -> None:
        """What the answer says."""
        operation, last = told.step.operation, self.last.get(clientid)
        if told.status is None and last is not None and last.told.where == told.where:
            # It wasn't run, as one before it had failed.
            self.forget(clientid, last.before)
        elif told.status in OVER:
            self.held.pop(clientid, None)
            self.forget(clientid, None)
        elif told.status == "NFS4_OK" and operation in ("CLOSE", "DELEGRETURN"):
            self.held.get(clientid, set()).discard(state_of(told.values) or "")
        elif told.status == "NFS4_OK" and operation == "SETCLIENTID_CONFIRM":
            self.last.setdefault(clientid, Renewal(told))
        elif told.status == "NFS4_OK" and operation in ("OPEN", "LOCK"):
            self.add(operation, clientid, given_by(told))

    def forget(self, clientid: str, before: Renewal | None) -> None:
        """The last renewal was none: that before it is the last one, if there is one."""
        self.last.pop(clientid, None)
        if before is not None:
            self.last[clientid] = before

    def add(self, operation: str, clientid: str, states: Iterable[str]) -> None:
        """States that were given. A lock has its open beside it."""
        for state in states:
            self.states[state] = clientid
            if operation == "OPEN":
                self.held.setdefault(clientid, set()).add(state)


def given_by(told: TracedOperation) -> list[str]:
    """The states that the answer to an OPEN or a LOCK gives."""
    names = "stateid", "lock_stateid", "delegation.stateid"
    return [told.result[name].partition(":")[2] for name in names if name in told.result]
