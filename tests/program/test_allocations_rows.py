"""Each allocation of memory is refused in turn to the programs that run rows, while they start and while they answer.

The server's program runs each row of `crates/rows/data` with one part, a record at a time, once for each allocation: of
its start, with the default tree and with that of each row that has one, and of its answers. Each reply has to be what
it is without a refusal, or to say that memory is wanting: SYSTEM_ERR, or the results up to an operation that is
answered NFS4ERR_RESOURCE, or the end of the connection, with a line that says so. A record that was refused is sent
again, and has to get the reply that it gets without a refusal; but not if an operation of the record had changed the
state before the refused one.

That program has one connection, and one moment. So a row of several parts, which are its connections and what is sent
between changes of the clock and orders, is run by the program of rows, as `tools/rows --again` does, which has a part
or an order taken once more if it goes wrong: each call has to get its reply then, also if the refusal ended the
connection, each sweep has to have removed its clients, taken its delegations and forgotten its owners, and the same
recalls have to wait in the same order. It is left out if a part makes more than one change of the state, since the
first would be made twice. If memory is refused to the program of rows itself, it has to say so, and to end. The
journal at the end is looked at, too: without a refusal it is the model's; with one, it is lawful, and the same but for
calls of the part that was taken again. So a call that was refused has ended no lease, and renewed none but of the
client that it names. All of this goes for these rows, and those of a few files besides, also if each part has a
thread of its own and the state is shared (`tools/rows --shared --again`)."""
import re
from itertools import groupby

import pytest

from helpers.expecting_client import Wrong
from helpers.refused_allocations import allocations_in, model_row
from helpers.row_journals import ROW_FILES, journal_of, rows_of
from nfs4tools.journal.entries import Call, Expire, Forget, NotJournal, Revoke, request_bytes
from nfs4tools.journal.journal import head_bytes, journal_bytes, read_journal, verdict
from nfs4tools.messages import (
    GETATTR,
    NFS4_OK,
    NFS4ERR_RESOURCE,
    PUTROOTFH,
    SETATTR,
    TYPE_SIZE_FILEID,
    compound,
    split,
    words,
    xid,
)
from nfs4tools.processes import PROGRAM, Piped
from nfs4tools.rows.driver import ALONE, NoMemory, PROGRAM as ROWS, SHARED as BY_THREADS
from nfs4tools.rows.row import Part
from nfs4tools.rows.running import PIECE, WHOLE, run
from nfs4tools.wire import Opnum, record

pytestmark = pytest.mark.needs("nfs4state")

# The operations that change the state. A new one that does has to be added here.
CHANGING = (
    "SETCLIENTID",
    "SETCLIENTID_CONFIRM",
    "OPEN",
    "OPEN_CONFIRM",
    "OPEN_DOWNGRADE",
    "CLOSE",
    "LOCK",
    "LOCKU",
    "RELEASE_LOCKOWNER",
    "DELEGRETURN",
    "WRITE",
    "SETATTR",
)
# The words that begin lines between two parts of a row.
DIVIDING = ("moment", "at", "sweep", "mark", "revoke", "take", "pending", "probe", "forget")


# So many rows of a file are tried together, and fewer of those whose parts are also served by threads.
TOGETHER, PARTS_TOGETHER = 8, 3


# A thousand locks, or 255 clients, make so many allocations, and each would be a run of them all.
LEFT_OUT = ("client_slots.rows", "runs.rows")
# Rows in which one sweep removes a client whose delegation is due: where memory is refused for the first, the
# delegation is revoked by itself before, which the row doesn't want.
LEFT_OUT_ROWS = (
    "a delegation that is due goes with its client",
    "a delegation of a client that isn't there any longer isn't revoked",
    "a delegation that is due goes with its client, and another one is revoked",
)
# The files whose rows of one part are also run with threads, of which each makes more allocations; but for rows of a
# WRITE in one call with a READ or READDIR, which would tell of it when it is taken again.
SHARED = (
    "client_ids.rows",
    "delegation_parts.rows",
    "lockt.rows",
    "read.rows",
    "readdir.rows",
    "release_lockowner.rows",
    "setclientid.rows",
)
UNSHARED_ROWS = ("the attributes of each child",)
# By how the program of rows keeps the state: the pieces that its input comes in.
PIECES = {ALONE: WHOLE, BY_THREADS: PIECE}


# The seconds that the program has for a reply, on however busy a machine.
PATIENCE = 60
# The line before a fault that says what is wrong with a document.
REASON = re.compile(r"(?m)^/.*\.toml:([0-9]+:)? .*\n")


# Rows of one part.


def options_of(row, memory):
    """Those by which the server's program runs the row."""
    options = [f"--lease={row.lease}"] * (row.lease != 90) + [f"--epoch={row.epoch}"] * (row.epoch != 1)
    if row.document is not None:
        path = memory.new_path("toml")
        with open(path, "w", encoding="utf-8") as tree:
            tree.write(row.document)
        options += ["--tree", path]
    return options


def parts_of(row):
    return [step for step in row.steps if isinstance(step, Part)]


def is_repeatable(text):
    """Whether each part of the row with this text makes one change of the state at most."""
    changes, is_sent = [0], False
    for line in text.splitlines():
        word = line.strip().partition(" ")[0]
        if word in DIVIDING:
            changes.append(0)
        if word in ("send", "want"):
            is_sent = word == "send"
        elif is_sent and word in CHANGING:
            changes[-1] += 1
    return max(changes) <= 1


def is_system_error(got, wanted):
    return got == record(wanted[4:8] + words(1, 0, 0, 0, 5))


def refused_results(got, wanted):
    """The results before the operation that is answered RESOURCE in place of what is wanted, or None without one."""
    # The fragment's header, six words of RPC, the status, the length of the tag, the tag and its padding, the count.
    start = 36 + -(-int.from_bytes(wanted[32:36], "big") // 4) * 4 + 4
    refusal = words(NFS4ERR_RESOURCE)
    # Behind the status of SETATTR stands an empty bitmap.
    if got[-12:] == words(SETATTR) + refusal + words(0):
        got = got[:-4]
    before = got[start:-8]
    is_head = got[4 : start - 4] == wanted[4:28] + refusal + wanted[32 : start - 4]
    is_last = wanted[start:].startswith(before + got[-8:-4]) and got[-4:] == refusal
    return before if is_head and is_last and len(got) >= start + 8 else None


def changes(before):
    """Whether an operation that changed the state is among these results, which are all NFS4_OK. (A refusal that is
    kept for an owner changes the state, too, but ends the list.)"""
    at = [before[i : i + 8] for i in range(0, len(before), 4)]
    return any(words(Opnum[operation], NFS4_OK) in at for operation in CHANGING)


class Client(Piped):
    """A client of the program behind pipes, to which this is refused."""

    def __init__(self, options, refusal):
        self.refusal = refusal
        super().__init__([PROGRAM, "once", *options], env=refusal.environment)

    def end(self):
        """What more it writes, its status, its line of a fault, and whether an allocation was refused."""
        output, errors = self.program.communicate()
        return output, self.program.returncode, REASON.sub("", errors.decode()).strip(), self.refusal.took_place()


def converse(part, peer):
    """How many records were refused and sent again, where the row's part gets its replies; or None where a refusal ends
    it."""
    (whole, rest), wanted, again = split(part.sent), split(part.wanted)[0], 0
    for message in whole + [rest] * bool(rest):
        peer.send(message)
        # A reply has the xid of its call.
        if not wanted or xid(wanted[0]) != xid(message):
            continue
        got, reply = peer.receive(PATIENCE), wanted.pop(0)
        if got == reply:
            continue
        if not got:
            return None
        before = b"" if is_system_error(got, reply) else refused_results(got, reply)
        if before is None:
            raise Wrong(f"{got.hex()} in place of {reply.hex()}")
        if changes(before):
            return None
        again += 1
        peer.send(message)
        if peer.receive(PATIENCE) != reply:
            raise Wrong("sent again, a record that was refused gets another reply")
    return again


def run_part(part, options, refusal):
    """Runs a row's one part where this is refused: whether it was, and how many records were sent again."""
    peer, fault = Client(options, refusal), f"fault: {part.fault}" if part.fault else ""
    again = converse(part, peer)
    output, status, line, was_refused = peer.end()
    is_undisturbed = again is not None and (status, line) == (1 if fault else 0, fault)
    is_refusal = status == 1 and line in ("fault: no memory", "fault: tree refused (5)")
    is_cut = again is None and (status, line) == (0, "")
    if output or not (is_undisturbed or was_refused and (is_refusal or is_cut)):
        raise Wrong(f"status {status}, {line}, {output.hex()}")
    return was_refused, again or 0


def refuse_in_row(memory, row, starting=0, after=None):
    """Refuses each allocation of a row with one part, but for those while the program starts with the default tree,
    where their number is given: how many there are, and how many records were sent again."""
    ([part], options), again = (parts_of(row), options_of(row, memory)), []

    def is_refused(allocation):
        refusal = memory.refusal(allocation, after=after)
        try:
            was_refused, count_again = run_part(part, options, refusal)
        except Wrong as wrong:
            raise Wrong(f"{row.name}, under {refusal}: {wrong}") from wrong
        again.append(count_again)
        return was_refused

    return allocations_in(is_refused, 1 if "--tree" in options else starting + 1), sum(again)


# Rows of several parts.


def in_order(entries):
    """The entries, where those of one sweep come by the numbers of the clients, then of the delegations, and then by
    the owners: one that is made once more removes those last for whose end there was no memory."""
    groups = groupby(entries, lambda entry: getattr(entry, "now", None))
    by_kind = lambda entry: ((Expire, Revoke, Forget).index(type(entry)), entry)
    return [entry for now, group in groups for entry in (group if now is None else sorted(group, key=by_kind))]


def more_than(wanted, entries):
    """The entries in one place without which these are the wanted ones; or None where there is no such place."""
    more = len(entries) - len(wanted)
    places = range(len(wanted) + 1) if more >= 0 else ()
    return next((entries[at : at + more] for at in places if entries[:at] + entries[at + more :] == wanted), None)


def may_be_left(journal, wanted):
    """Whether this journal may be left in place of the wanted one where an allocation was refused. It may have more
    calls, of the part that was taken again, which stand together, and whose answers may have been others; or a client
    whose end was refused at first had owners that were forgotten before it was removed."""
    asked = [request_bytes(entry) for entry in wanted.entries if isinstance(entry, Call)]
    ended = [(entry.client, entry.now) for entry in wanted.entries if isinstance(entry, Expire)]
    more = more_than(in_order(wanted.entries), in_order(journal.entries))
    is_again = more is not None and all(isinstance(it, Call) and request_bytes(it) in asked for it in more)
    is_before = more is not None and all(isinstance(it, Forget) and (it.owner.client, it.now) in ended for it in more)
    if not (is_again or is_before):
        return False
    return head_bytes(journal) == head_bytes(wanted) and verdict(journal_bytes(journal))[0]


def expect_journal(row, wanted, data, was_refused):
    """The file is the journal that the row leaves."""
    if data == journal_bytes(wanted):
        return
    try:
        is_left = was_refused and may_be_left(read_journal(data), wanted)
    except NotJournal:
        is_left = False
    if not is_left:
        raise Wrong(f"{row.name}: where {len(wanted.entries)} entries are wanted, the journal {data.hex()}")


def run_parts(way, row, refusal):
    """Runs the row in its parts where this is refused: whether it was, and what came of the row, if the program of rows
    isn't out of memory."""
    try:
        outcome = run(row, way, PIECES[way], is_again=True, path=ROWS, environment=refusal.environment)
    except NoMemory:
        outcome = None
    was_refused = refusal.took_place()
    if outcome is None and not was_refused:
        raise Wrong(f"{row.name}: out of memory, with none refused")
    if outcome is not None and outcome.wrong is not None:
        raise Wrong(f"{row.name}, under {refusal}, gets {outcome.wrong.got!r} at {outcome.wrong.place}")
    return was_refused, outcome


def refuse_in_parts(memory, way, row):
    """Refuses each allocation of the program of rows that runs this row: how many there are, and with how many of them
    the row gets its replies."""
    wanted, answered = journal_of(row), []

    def is_refused(allocation):
        was_refused, outcome = run_parts(way, row, memory.refusal(allocation))
        if outcome is not None and wanted is not None:
            expect_journal(row, wanted, outcome.journal, was_refused)
        answered.append(was_refused and outcome is not None)
        return was_refused

    return allocations_in(is_refused), sum(answered)


# All rows.


@pytest.fixture(scope="session")
def starting(memory):
    """How many allocations the program makes while it starts, with the default tree: the same for each row without one
    of its own."""
    found, _ = refuse_in_row(memory, model_row("no input", None, b""))
    assert found, "the program makes no allocation while it starts"
    return found


def test_start(starting, tell):
    tell(f"{starting} allocations")


def places():
    """Those of all rows: a file, and the numbers of the rows that are tried together."""
    for file, path in ROW_FILES.items():
        with open(path, encoding="utf-8") as source:
            total = 0 if file in LEFT_OUT else source.read().count("\nrow ")
        size = PARTS_TOGETHER if file.endswith("_parts.rows") else TOGETHER
        yield from (
            pytest.param(file, range(first, min(first + size, total)), id=f"{file} {first}")
            for first in range(0, total, size)
        )


def rows_at(file, place):
    """The rows there with one part; those with several that can be sent again; and those that are also run with
    threads."""
    with open(ROW_FILES[file], encoding="utf-8") as source:
        texts = re.split(r"(?m)^row ", source.read())[1:]
    single, several, shared = [], [], []
    for row, text in list(zip(rows_of(file), texts, strict=True))[place.start : place.stop]:
        if row.name in LEFT_OUT_ROWS:
            continue
        has_parts = len(parts_of(row)) > 1 or row.is_ordering
        if not has_parts:
            single.append(row)
        elif is_repeatable(text):
            several.append(row)
        is_again = has_parts or file in SHARED and row.name not in UNSHARED_ROWS
        if is_repeatable(text) and is_again and not row.is_unshared:
            shared.append(row)
    return single, several, shared


@pytest.mark.needs("rows")
@pytest.mark.parametrize("file, place", places())
def test_rows(file, place, memory, starting, add_up):
    single, several, shared = rows_at(file, place)
    for row in single:
        allocations, again = refuse_in_row(memory, row, starting)
        add_up(1, "rows")
        add_up(allocations, "allocations")
        add_up(again, "records sent again")
    for way, rows, which in (ALONE, several, ""), (BY_THREADS, shared, " by threads"):
        for row in rows:
            allocations, answered = refuse_in_parts(memory, way, row)
            add_up(1, f"rows of parts{which}")
            add_up(answered, f"allocations in them{which}")
            add_up(allocations - answered, f"allocations for which the program of rows has no memory{which}")


def allocations_of_record(memory, number):
    """How many allocations the record of this number makes, of those that each have 60 entries, and how many of these
    are refused where the record can be sent again; each is refused in turn."""
    sent = [compound(xid, words(PUTROOTFH), *[words(GETATTR, 1, TYPE_SIZE_FILEID)] * 60) for xid in range(number)]
    return refuse_in_row(memory, model_row("pieces of entries", None, b"".join(sent)), after=sum(map(len, sent[:-1])))


def test_new_piece(memory, tell):
    """The record with which the journal's entries get another piece, of which each has 4,096. A record within a piece
    makes as many allocations wherever it stands, since a piece has all of its memory when it is begun, but for the
    first two, with which the two queues of records get theirs; this one makes two more, for the piece, and for the list
    of those that are full."""
    (third, _), (fifth, _), (at_piece, again) = (allocations_of_record(memory, number) for number in (3, 5, 69))
    assert third == fifth == at_piece - 2 and again
    tell(f"{at_piece} allocations, and {again} records sent again")
