"""Audits the file of a journal. It prints `lawful: K entries`. If the file is no journal, or an answer is wrong, it
says so and at which entry, with status 1.

A journal has what a server began with, and an entry for each operation on its state and each other change of it.
docs/JOURNAL.md has the layout of the file. A journal is lawful if the model's rules allow each entry after the
entries before it. `Recorder` is a model that keeps its journal. `Growing` reads a file that is no whole journal yet."""
import argparse
import gc
import json
import sys
from collections.abc import Callable, Iterator
from dataclasses import dataclass, field
from typing import Any, NamedTuple

from nfs4tools.journal.entries import (
    Answer,
    Call,
    EndsEarly,
    Entry,
    Expire,
    Forget,
    NotJournal,
    Path,
    Revoke,
    StrictReader,
    entry_bytes,
    read_entry,
)
from nfs4tools.model.server import Server
from nfs4tools.model.state import JOURNAL_LIMIT
from nfs4tools.model.state_parts import Owner, Result, Unchanged
from nfs4tools.model.tree import (
    CALLBACKS,
    CLIENTS,
    CLOSE_LOCKS,
    DELEGATIONS,
    NAME_LIMIT,
    Node,
    PLAIN,
    Policy,
    Refused,
    TEXT_LIMIT,
    Tree,
    tree_of,
)
from nfs4tools.wire import OpenOwner, Opnum, Principal, Status, opaque, u32

# How a file begins, by the profile. One of the earlier edition, which knew one profile, has no word for what CLOSE
# does, which was to free, and no Forget.
HEAD, HEAD_OF_CLIENTS, EARLIER = b"NFSJRN03", b"NFSJRC03", b"NFSJRN02"
PROFILE_OF = {HEAD: PLAIN, HEAD_OF_CLIENTS: CLIENTS, EARLIER: PLAIN}
HEAD_OF = {PLAIN: HEAD, CLIENTS: HEAD_OF_CLIENTS}
LEASE_LIMIT = 86400


class Journal(NamedTuple):
    epoch: int
    lease: int
    tree: Tree
    entries: list[Any]
    # How its file begins, which it has again when it is written.
    head: bytes = HEAD


class WrongAnswer(Exception):
    """The entries before that of this number are lawful, and it can't follow them."""


@dataclass
class Recorder(Server):
    """A server that keeps its journal."""

    recorded: list[Any] = field(default_factory=list)

    def apply(
        self, opnum: Opnum, arguments: Any, filehandle: int | None, principal: Principal, is_refused: bool = False
    ) -> Result:
        result = super().apply(opnum, arguments, filehandle, principal, is_refused)
        if result.status != Status.RESOURCE:
            answer = Answer(opnum, result.status, result.rest)
            self.recorded.append(Call(self.moment, principal, filehandle, opnum, arguments, answer))
        return result

    def follow(self, call: Call) -> bool:
        """Whether the server gives this answer; it has the entry then, and keeps it as it is."""
        self.moment = call.moment
        result = super().apply(call.opnum, call.arguments, call.filehandle, call.principal)
        if result.status == Status.RESOURCE:
            return False
        self.recorded.append(call)
        return (call.opnum, *result) == call.answer

    def expire(self, number: int, seen: int, now: int) -> int:
        entry = super().expire(number, seen, now)
        self.recorded.append(Expire(number, seen, now))
        return entry

    def mark_path(self, number: int, is_up: int) -> int:
        entry = super().mark_path(number, is_up)
        self.recorded.append(Path(number, is_up))
        return entry

    def revoke(self, now: int) -> int | None:
        found, entry = self.due(now), super().revoke(now)
        if found is not None and entry is not None:
            self.recorded.append(Revoke(found.number, now))
        return entry

    def forget_owner(self, owner: Owner, now: int) -> int:
        entry = super().forget_owner(owner, now)
        assert isinstance(owner.name, OpenOwner)
        self.recorded.append(Forget(owner.name, now))
        return entry

    def journal(self) -> Journal:
        return Journal(self.epoch, self.lease, self.tree, self.recorded, HEAD_OF[self.tree.policy.profile])


# The file.


def journal_bytes(journal: Journal) -> bytes:
    entries = b"".join(entry_bytes(entry) for entry in journal.entries)
    return head_bytes(journal) + u32(len(journal.entries)) + entries


def head_bytes(journal: Journal) -> bytes:
    """What the server began with."""
    policy, nodes = journal.tree.policy, journal.tree.nodes[1:]
    numbers = [DELEGATIONS.index(policy.delegations), CALLBACKS.index(policy.callbacks)]
    numbers += [CLOSE_LOCKS.index(policy.close_locks)] * (journal.head != EARLIER)
    head = journal.head + u32(journal.epoch, journal.lease, *numbers, len(nodes))
    return head + b"".join(node_bytes(node) for node in nodes)


def node_bytes(node: Node) -> bytes:
    return u32(node.parent, node.is_file) + opaque(node.name) + (opaque(node.text) if node.is_file else b"")


def read_journal(data: bytes) -> Journal:
    """The journal of this file; or NotJournal."""
    reader = StrictReader(data)
    journal = read_whole(reader)
    if reader.at < len(data):
        raise NotJournal("bytes after the last entry")
    return journal


def read_whole(reader: StrictReader) -> Journal:
    journal, count = read_head(reader)
    return journal._replace(entries=[read_next(reader, journal) for _ in range(count)])


def read_next(reader: StrictReader, journal: Journal) -> Entry:
    """The next entry of a journal with this head."""
    return read_entry(reader, journal.tree, journal.head != EARLIER)


def read_head(reader: StrictReader) -> tuple[Journal, int]:
    """A journal without its entries, and their number as the file says it."""
    head = reader.fixed(len(HEAD))
    if head not in PROFILE_OF:
        raise NotJournal("it begins with other bytes")
    epoch, lease = reader.u32(), reader.u32()
    if not 1 <= lease <= LEASE_LIMIT:
        raise NotJournal("a lease outside its limits")
    delegations, callbacks = DELEGATIONS[reader.one_of(3)], CALLBACKS[reader.one_of(2)]
    close_locks = CLOSE_LOCKS[0 if head == EARLIER else reader.one_of(2)]
    policy = Policy(delegations, callbacks, close_locks, PROFILE_OF[head])
    nodes = [read_node(reader) for _ in range(reader.u32())]
    try:
        tree = tree_of(nodes, policy)
    except Refused:
        raise NotJournal("nodes that no document gives") from None
    return Journal(epoch, lease, tree, [], head), reader.u32()


def read_node(reader: StrictReader) -> Node:
    parent, is_file, name = reader.u32(), reader.one_of(2) == 1, reader.opaque(NAME_LIMIT)
    return Node(parent, name, is_file, reader.opaque(TEXT_LIMIT) if is_file else b"")


@dataclass
class Growing:
    """A journal's file that is read as far as it has come: one that is still written, or was cut. The number of its
    entries is then 0, or above those that are there."""

    # The journal without its entries, once all that stands before them is there.
    head: Journal | None = None
    # The number of entries that the file says, and how many there are.
    count: int = 0
    entries: int = 0
    # The bytes behind what is whole; and what is wrong with them, where they are no beginning of an entry.
    rest: bytes = b""
    fault: str | None = None

    def take(self, data: bytes) -> list[Entry]:
        """The entries that are whole now that these bytes have come; or NotJournal where no journal begins so."""
        reader, whole = StrictReader(self.rest + data), 0
        taken: list[Entry] = []
        try:
            if self.head is None:
                self.head, self.count = read_head(reader)
                whole = reader.at
            tree, has_forgets = self.head.tree, self.head.head != EARLIER
            while reader.at < len(reader.data) and self.fault is None:
                self.expect_more(len(taken))
                taken.append(read_entry(reader, tree, has_forgets))
                whole = reader.at
        except EndsEarly:
            pass
        except NotJournal as wrong:
            if self.head is None:
                raise
            self.fault = f"entry {self.entries + len(taken)}: {wrong}"
        self.rest, self.entries = reader.data[whole:], self.entries + len(taken)
        return taken

    def expect_more(self, taken: int) -> None:
        if self.count == self.entries + taken > 0:
            raise NotJournal("bytes after the last one")

    def is_whole(self) -> bool:
        """Whether it is a journal, of which nothing is missing."""
        return self.head is not None and self.count == self.entries and self.rest == b""

    def is_beginning(self) -> bool:
        """Whether it is a beginning of a journal: its number of entries is still to come."""
        return self.head is not None and self.count == 0

    def ending(self) -> str:
        """How the file ends that is no whole journal."""
        if self.head is None:
            return "the file ends before its first entry"
        if self.rest:
            return f"the file ends inside entry {self.entries}, of which it has {len(self.rest)} bytes"
        place = f"after entry {self.entries - 1}" if self.entries else "before its first entry"
        return f"the file ends {place}" + (f", and says that it has {self.count}" if self.count else "")


# Whether it is lawful.


def audit(journal: Journal, limit: int = JOURNAL_LIMIT) -> Recorder:
    """The server that the journal leads to; or WrongAnswer."""
    server: Recorder = [*states(journal, limit)][-1]
    return server


def states(journal: Journal, limit: int = JOURNAL_LIMIT, kind: type[Any] = Recorder) -> Iterator[Any]:
    """The one server, of this kind, that follows the journal: before the first entry, and after each; or
    WrongAnswer."""
    server = kind(journal.tree, journal.lease, journal.epoch, limit)
    yield server
    for number, entry in enumerate(journal.entries):
        if server.entries == limit:
            raise WrongAnswer(number)
        if not STEPS[type(entry)](server, entry):
            raise WrongAnswer(number)
        yield server


def follow_expire(server: Recorder, expire: Expire) -> bool:
    """Whether the client may be removed: it is live, and more seconds than the lease have passed since it was seen (RFC
    7530, section 9.5). The server has removed it then."""
    return is_made(lambda: server.expire(*expire))


def follow_revoke(server: Recorder, revoke: Revoke) -> bool:
    """Whether the delegation may be taken: it is the one that is due then, as of all that were called back longer ago
    than the lease the one of the least number is (section 10.4.6). The server has taken it then."""
    found = server.due(revoke.now)
    return found is not None and found.number == revoke.state and is_made(lambda: server.revoke(revoke.now))


def follow_path(server: Recorder, path: Path) -> bool:
    """Whether the client's path may be marked: it is live. The server has marked it then."""
    return is_made(lambda: server.mark_path(*path))


def follow_forget(server: Recorder, forget: Forget) -> bool:
    """Whether the owner may be forgotten: it is the one that is due then, as of all open owners without opens, of which
    the kept request came longer ago than the lease, it became known first. The server has forgotten it then."""
    found = server.idle(forget.now)[:1]
    return [owner.name for owner in found] == [forget.owner] and is_made(lambda: server.forget(forget.now))


def is_made(change: Callable[[], Any]) -> bool:
    """Whether a change is made that no call asked for; the server has its entry then."""
    try:
        change()
    except Unchanged:
        return False
    return True


STEPS: dict[Any, Callable[[Any, Any], bool]] = {
    Call: Recorder.follow,
    Expire: follow_expire,
    Revoke: follow_revoke,
    Path: follow_path,
    Forget: follow_forget,
}


NO_JOURNAL = "fault: not a journal"


def verdict(data: bytes, limit: int = JOURNAL_LIMIT) -> tuple[bool, str]:
    """Whether the file is a lawful journal, and a line that says so."""
    try:
        return verdict_on(read_journal(data), limit)
    except NotJournal:
        return False, NO_JOURNAL


def verdict_on(journal: Journal, limit: int = JOURNAL_LIMIT) -> tuple[bool, str]:
    """Whether the journal is lawful, and a line that says so."""
    try:
        audit(journal, limit)
    except WrongAnswer as ended:
        return False, fault_of(ended)
    return True, f"lawful: {len(journal.entries)} entries"


def fault_of(ended: WrongAnswer) -> str:
    """The line that says at which entry a journal isn't lawful any more."""
    return f"fault: wrong answer at entry {ended.args[0]}"


def json_of(data: bytes, limit: int = JOURNAL_LIMIT) -> dict[str, Any]:
    """The verdict as JSON has it (docs/run.schema.json): how many entries the file has as far as they can be read, which
    entry can't follow those before it, how the file ends that is no whole journal, and the line of a fault."""
    growing, entries, ending, wrong = Growing(), list[Entry](), None, None
    try:
        entries = growing.take(data)
        ending = None if growing.is_whole() else growing.fault or growing.ending()
        if growing.head is not None:
            audit(growing.head._replace(entries=entries), limit)
    except NotJournal as failed:
        ending = str(failed)
    except WrongAnswer as failed:
        wrong = failed.args[0]
    is_lawful, line = verdict(data, limit)
    fault = None if is_lawful else line
    return {"lawful": is_lawful, "entries": len(entries), "wrong": wrong, "ending": ending, "fault": fault}


def main() -> int:
    parser = argparse.ArgumentParser(description=__doc__, formatter_class=argparse.RawDescriptionHelpFormatter)
    parser.add_argument("--json", action="store_true", help="print a line of JSON instead (docs/run.schema.json)")
    parser.add_argument("journal", metavar="FILE", help="a journal, or a beginning of one, which is no journal")
    given = parser.parse_args()
    # All entries are kept to the end, so there is nothing to look for that can be freed.
    gc.disable()
    try:
        with open(given.journal, "rb") as source:
            data = source.read()
    except OSError as error:
        sys.exit(f"{given.journal}: {error.strerror} (os error {error.errno})\nfault: file not read")
    if given.json:
        found = json_of(data)
        print(json.dumps(found))
        return 0 if found["lawful"] else 1
    is_lawful, line = verdict(data)
    if line == NO_JOURNAL:
        print(f"{given.journal}: {json_of(data)['ending']}", file=sys.stderr)
    print(line, file=sys.stdout if is_lawful else sys.stderr)
    return 0 if is_lawful else 1
