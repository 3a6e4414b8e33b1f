"""Which client, owner and file each operation is about, as far as calls and replies have shown it."""
from dataclasses import dataclass, field, replace
from typing import Any

from nfs4tools import wire
from nfs4tools.between.calls import Call, Operation, Reply, Who, state
from nfs4tools.between.rules import Aim, OfClient, OfConnection, OfFile, OfOwner, Rule
from nfs4tools.between.vocabulary import ANY, NULL, OF_CALLBACKS
from nfs4tools.wire import KnownLocker, NewLocker, Opnum, Stateid, Status

# A client ID by its two halves.
Clientid = tuple[int, int]
NOTHING: frozenset[bytes] = frozenset()
# No state has these: the anonymous stateid, and that of READ bypass.
SPECIAL = (("state", 0, 0, 0), ("state", 2**32 - 1, 2**32 - 1, 2**32 - 1))


@dataclass(frozen=True)
class OperationSubjects:
    """What an operation is about: the ids of the client, the names of owners, the names of the file; and the state and
    the client ID by which it says so, or None."""

    clients: frozenset[bytes] = NOTHING
    owners: frozenset[bytes] = NOTHING
    files: frozenset[bytes] = NOTHING
    state: Who | None = None
    clientid: Clientid | None = None

    def fits(self, aim: Aim | None, connection: int) -> bool:
        match aim:
            case None:
                return True
            case OfConnection(number):
                return number == connection
            case OfClient(name):
                return name in self.clients
            case OfOwner(name):
                return name in self.owners
            case OfFile(name):
                return name in self.files


@dataclass
class Handles:
    """The names of the current and the saved filehandle's file, as the operations of a call go on."""

    current: frozenset[bytes] = NOTHING
    saved: frozenset[bytes] = NOTHING


@dataclass
class Names:
    """Who has which client ID and state, and what files are called."""

    clients: dict[Clientid, bytes] = field(default_factory=dict)
    states: dict[Who, OperationSubjects] = field(default_factory=dict)
    handles: dict[bytes, frozenset[bytes]] = field(default_factory=dict)
    # The clients that are called back at an address and by a program; and the verifier of each.
    called: dict[tuple[Any, int], set[bytes]] = field(default_factory=dict)
    verifiers: dict[bytes, bytes] = field(default_factory=dict)

    def of_call(self, call: Call, before: frozenset[bytes], target: Any) -> list[OperationSubjects]:
        """What each operation is about; of a call without operations there is one. An operation that names no client is
        the client's that the connection named before; a callback is the client's with this address."""
        if call.is_callback:
            before = frozenset(self.called.get((target, call.program), ()))
        handles, found = Handles(), []
        for operation in call.operations:
            about = self.of_operation(operation, handles)
            before = about.clients or before
            found.append(about if about.clients else replace(about, clients=before))
        return found or [OperationSubjects(before)]

    def of_operation(self, operation: Operation, handles: Handles) -> OperationSubjects:
        """What an operation is about, which may change the current filehandle."""
        arguments = operation.arguments
        number = state(stateid) if (stateid := stateid_of(arguments)) is not None else None
        known = self.states.get(number, OperationSubjects()) if number is not None else OperationSubjects()
        own, owners = clientid_of(arguments), owner_names(arguments)
        clients = known.clients | ({self.clients[own]} if own in self.clients else NOTHING)
        if isinstance(arguments, wire.Setclientid):
            clients = frozenset({arguments.id})
        files = known.files | self.files_of(operation, handles)
        return OperationSubjects(
            clients, known.owners | owners, files, None if number in SPECIAL else number, own or known.clientid
        )

    def files_of(self, operation: Operation, handles: Handles) -> frozenset[bytes]:
        """The names of the file that an operation is on, by its name or the current filehandle."""
        match operation.arguments:
            case wire.Open(claim=wire.Claim(name=bytes() as name)) | wire.Lookup(name=name):
                handles.current = frozenset({name})
            case wire.Putfh(filehandle=handle) | wire.CallbackRecall(filehandle=handle):
                handles.current = self.handles.get(handle, NOTHING)
            case _ if operation.name in ("PUTROOTFH", "PUTPUBFH", "LOOKUPP", "OPENATTR", "CREATE"):
                handles.current = NOTHING
            case _ if operation.number == Opnum.SAVEFH:
                handles.saved = handles.current
            case _ if operation.number == Opnum.RESTOREFH:
                handles.current = handles.saved
        return handles.current

    def learn(self, call: Call, abouts: list[OperationSubjects], reply: Reply) -> None:
        """Takes notice of a reply of the server's."""
        if call.is_callback:
            return
        for operation, about, (result, _) in zip(call.operations, abouts, reply.results):
            if result.status != Status.OK:
                continue
            self.learn_result(operation, about, result.value)

    def learn_result(self, operation: Operation, about: OperationSubjects, value: Any) -> None:
        arguments = operation.arguments
        match arguments:
            case wire.Setclientid(verifier=verifier, id=name):
                self.clients[value.epoch, value.client] = name
                self.verifiers[name] = verifier
            case wire.Open():
                self.states[state(value.stateid)] = about
                if value.delegation is not None:
                    self.states[state(value.delegation.stateid)] = replace(about, owners=NOTHING)
            case wire.Lock(locker=NewLocker(owner=owner)):
                self.states[state(value)] = replace(about, owners=frozenset({owner.name}))
        if operation.number == Opnum.GETFH and about.files:
            self.handles[value] = self.handles.get(value, NOTHING) | about.files

    def have(self, clients: frozenset[bytes], files: frozenset[bytes], number: Who | None) -> bool:
        """Whether these clients were given a state of these files, or this one is of them."""
        known = [it for who, it in self.states.items() if number is None or who == number]
        return any(it.clients & clients and it.files & files for it in known)


def stateid_of(arguments: Any) -> Stateid | None:
    """The stateid that an operation has, of whatever kind."""
    found: Any = getattr(arguments, "stateid", None)
    match arguments:
        case wire.Lock(locker=NewLocker(open_stateid=stateid) | KnownLocker(lock_stateid=stateid)):
            found = stateid
        case wire.Open(claim=wire.Claim(delegation=stateid)):
            found = stateid
    return found if isinstance(found, Stateid) else None


def owner_of(arguments: Any) -> Any:
    """The owner that an operation has, or None."""
    match arguments:
        case wire.Open(owner=owner) | wire.Lockt(owner=owner) | wire.ReleaseLockowner(owner=owner):
            return owner
        case wire.Lock(locker=NewLocker(owner=locker)):
            return locker
    return None


def clientid_of(arguments: Any) -> Clientid | None:
    """The client ID that an operation has, by itself or in an owner."""
    has = arguments if isinstance(arguments, (wire.Renew, wire.SetclientidConfirm)) else owner_of(arguments)
    return None if has is None else (has.epoch, has.client)


def owner_names(arguments: Any) -> frozenset[bytes]:
    """The name of the owner that an operation has."""
    owner = owner_of(arguments)
    return NOTHING if owner is None else frozenset({owner.name})


def place_of(rule: Rule, call: Call, abouts: list[OperationSubjects], connection: int) -> int | None:
    """The index of the operation that a rule is about in this call, which is 0 in a call without operations; or None."""
    if not call.is_readable or call.is_callback != rule.is_of_callbacks:
        return None
    is_any = rule.operation == ANY or rule.operation in (NULL, OF_CALLBACKS[0]) and call.names == [rule.operation]
    for index, about in enumerate(abouts):
        if (is_any or index < len(call.operations) and call.operations[index].name == rule.operation) and about.fits(
            rule.aim, connection
        ):
            return index
    return None
