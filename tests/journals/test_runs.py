"""A run as values, and what explain and show_journal choose and print of it: whom entries are about, filters, the
summary, the state after an entry, and where two runs part. What is wanted is of a journal that is made by hand."""
import sys

import pytest

from helpers.hand_made_run import entries, hand_made, introduced
from helpers.journal_cases import beginning_of
from helpers.row_journals import journal_of, rows_of
from helpers.run_commands import call, path, put, run_of
from nfs4tools.explain.command import main as explain
from nfs4tools.journal.entries import Answer, Call, Path
from nfs4tools.journal.journal import head_bytes, journal_bytes
from nfs4tools.runs.options import span
from nfs4tools.runs.reasons import reason_data
from nfs4tools.runs.replayed import Replayed
from nfs4tools.runs.run import Entry, Reading, read_run
from nfs4tools.runs.selection import NoSuch, Selection, Span
from nfs4tools.runs.summary import Summary
from nfs4tools.show.command import main as show_journal
from nfs4tools.wire import LockOwner, Lockt, OpenOwner, Opnum, Stateid, Status, opaque, u32, u64

# These are fixtures.
__all__ = ["call", "path", "put"]
pytestmark = pytest.mark.quick
OPENER, LOCKER, OTHER = OpenOwner(1, 1, b"A"), LockOwner(1, 1, b"L"), OpenOwner(1, 2, b"B")


# Values.


def test_parties():
    """The client, its number, the file and the owners of each entry."""
    found = [(it.client, it.client_number, it.path, it.owners) for it in run_of(hand_made())]
    assert found == [
        ("c1", 1, None, ()),
        ("c1", 1, None, ()),
        ("c2", 2, None, ()),
        ("c2", 2, None, ()),
        ("c1", 1, "/a", (OPENER,)),
        ("c1", 1, "/a", (OPENER,)),
        ("c2", 2, "/a", (OTHER,)),
        (None, None, "/b", ()),
        ("c1", 1, "/a", (OPENER, LOCKER)),
        ("c1", 1, "/a", (OPENER,)),
        ("c1", 1, "/a", (OPENER,)),
        ("c2", 2, None, ()),
        ("c2", 2, "/a", (OTHER,)),
        (None, 77, "/a", (OpenOwner(1, 77, b"B"),)),
    ]


def test_entry():
    opening, expiry = run_of(hand_made())[4], run_of(hand_made())[11]
    assert (opening.operation, opening.status, opening.file, opening.event) == ("OPEN", Status.OK, "/", None)
    assert (expiry.operation, expiry.status, expiry.file, expiry.moment) == (None, None, None, 94)
    assert repr(expiry) == "11: client 2 expires, seen at 3, now 94"


def test_read(put):
    """A file is read up to an entry, or to its end; of a beginning it says how that ends."""
    whole = journal_bytes(hand_made())
    assert read_run(put("whole", whole), Entry).ending is None
    early = read_run(put("whole", whole), Entry, 5)
    assert (len(early.entries), early.ending) == (6, None)
    cut = read_run(put("cut.part", whole[:-4]), Entry)
    assert (len(cut.entries), cut.ending.partition(",")[0]) == (13, "the file ends inside entry 13")
    wrong = read_run(put("wrong.part", beginning_of(hand_made()) + bytes(4)), Entry)
    assert (len(wrong.entries), wrong.ending) == (14, "fault: not a journal: entry 14: no kind of entry")


# Selections, each with the entries that it has.
SELECTIONS = [
    (Selection(), range(14)),
    (Selection(clients=("c2",)), [2, 3, 6, 11, 12]),
    (Selection(clients=("2",)), [2, 3, 6, 11, 12]),
    (Selection(clients=("c1", "77")), [0, 1, 4, 5, 8, 9, 10, 13]),
    (Selection(paths=("/b",)), [7]),
    (Selection(owners=("L",)), [8]),
    (Selection(owners=("A",)), [4, 5, 8, 9, 10]),
    (Selection(statuses=(Status.STALE_CLIENTID, Status.SHARE_DENIED)), [6, 12, 13]),
    (Selection(statuses=(Status.STALE_CLIENTID,), clients=("c2",)), [12]),
    (Selection(entries=Span(3, 5)), [3, 4, 5]),
    (Selection(entries=Span(12)), [12, 13]),
    (Selection(moments=Span(3, 4)), [6, 7, 8]),
    (Selection(moments=Span(95)), [12, 13]),
]


@pytest.mark.parametrize("selection, wanted", SELECTIONS)
def test_selections(selection, wanted):
    run = run_of(hand_made())
    selection.expect_names(run)
    assert [it.number for it in selection.chosen(run)] == list(wanted)


def test_around():
    run = run_of(hand_made())
    selection = Selection(statuses=(Status.SHARE_DENIED, Status.BAD_SEQID), context=1)
    assert selection.around(selection.chosen(run)) == {5, 6, 7, 8, 9, 10, 11}


def test_mark_without_a_moment():
    """The mark of a path is at the moment of the entry before it."""
    journal = hand_made()
    run = run_of(journal._replace(entries=[*entries()[:5], Path(1, 1), *entries()[5:]]))
    assert [it.number for it in Selection(moments=Span(1, 1)).chosen(run)] == [4, 5]


@pytest.mark.parametrize(
    "selection, text",
    [
        (Selection(clients=("c3",)), "no entry has the client 'c3': there is c1, c2"),
        (Selection(paths=("/c",)), "no entry has the file '/c': there is /a, /b"),
        (Selection(owners=("C",)), "no entry has the owner 'C': there is A, B, L"),
        (
            Selection(statuses=(Status.DENIED,)),
            "no entry has the status 'DENIED': there is BAD_SEQID, OK, SHARE_DENIED, STALE_CLIENTID",
        ),
        (Selection(clients=("c2",), entries=Span(0, 1)), "no entry up to 1 has the client 'c2': there is c1"),
    ],
)
def test_names_that_match_nothing(selection, text):
    run = run_of(hand_made())
    last = selection.last()
    with pytest.raises(NoSuch) as wrong:
        selection.expect_names(run if last is None else run[: last + 1])
    assert str(wrong.value) == text


def test_a_client_that_is_named_none():
    """Its name matches its own entries, and none that has no client or no number."""
    run = run_of(hand_made())
    assert [it.number for it in run if it.client_number is None] == [7]
    with pytest.raises(NoSuch, match="no entry has the client 'None': there is c1, c2"):
        Selection(clients=("None",)).expect_names(run)
    assert Selection(clients=("None",)).chosen(run) == []
    journal = hand_made()
    longer = run_of(journal._replace(entries=[*journal.entries, *introduced(3, b"None", 95)]))
    assert [it.number for it in Selection(clients=("None",)).chosen(longer)] == [14, 15]


def test_spans():
    assert [span(it) for it in ("3-5", "3-", "-5", "3")] == [Span(3, 5), Span(3), Span(0, 5), Span(3, 3)]
    for wrong in ("", "-", "5-3", "a-b", "1-2-3"):
        with pytest.raises(Exception, match="is no FROM-TO|ends before"):
            span(wrong)


# The commands.


def test_show_journal_filtered(path, call):
    _, all_lines, _ = call(show_journal, path)
    assert len(all_lines) == 14
    assert call(show_journal, "--client", "c2", path) == (0, [all_lines[it] for it in (2, 3, 6, 11, 12)], "")
    assert call(show_journal, "--file", "b", path) == (0, [all_lines[7]], "")
    assert call(show_journal, "--entries", "12-", path) == (0, all_lines[12:], "")
    around = [*all_lines[5:8], "--", *all_lines[11:]]
    words = ["--client", "c2", "--status", "SHARE_DENIED", "--status", "nfs4err_stale_clientid", "--context", "1"]
    assert call(show_journal, *words, path) == (0, around, "")
    wrong = "fault: no entry has the client 'c3': there is c1, c2\n"
    assert call(show_journal, "--client", "c3", path) == (1, [], wrong)
    none = call(show_journal, "--client", "c1", "--file", "b", path)
    assert none == (0, [], "no entry is one of these\n")


def test_wall(path, call):
    _, lines, _ = call(show_journal, "--wall", "2026-11-30T21:59:58+01:00", "--entries", "4-11", path)
    assert lines[0].startswith("4: moment 2026-11-30T21:59:59+01:00, AUTH_SYS 500, ")
    last = "11: client 2 expires, seen at 2026-11-30T22:00:01+01:00, now 2026-11-30T22:01:32+01:00"
    assert lines[-1] == last
    status, _, errors = call(show_journal, "--wall", "noon", path)
    assert status == 2 and "'noon' is no time" in errors


REFUSED = (
    '6: moment 3, AUTH_NONE, directory "/": OPEN seqid=5 share_access=WRITE share_deny=NONE owner=2/"B" '
    'opentype=OPEN4_NOCREATE claim=CLAIM_NULL file="a" -> NFS4ERR_SHARE_DENIED',
    '    open owner "A" of client 1 denies WRITE of file "/a" since entry 4 (RULES: Share reservations; RFC 7530, 9.9)',
)
MISCOUNTED = (
    '9: moment 5, AUTH_SYS 500, file "/a": CLOSE seqid=5 open_stateid=2:1:1:1 -> NFS4ERR_BAD_SEQID',
    '    4 is the next sequence id of open owner "A" of client 1, after entry 8 (LOCK), but 5 came (RULES: Owners and '
    "sequenced operations; RFC 7530, 9.1.7)",
)


def test_explain_filtered(path, call):
    status, lines, _ = call(explain, "--client", "c1", path)
    assert (status, lines) == (0, [*MISCOUNTED, "    entries 9 to 10: 2 times NFS4ERR_BAD_SEQID"])
    assert call(explain, "--entries", "-8", path)[1] == [*REFUSED]
    around = call(explain, "--status", "SHARE_DENIED", "--context", "1", path)[1]
    assert [it.partition(":")[0] for it in around] == [
        "5",
        "6",
        '    open owner "A" of client 1 denies WRITE of file "/a" since entry 4 (RULES',
        "7",
    ]
    assert call(explain, "--owner", "Z", path)[::2] == (1, "fault: no entry has the owner 'Z': there is A, B, L\n")


# Rows in which requests come again, and calls are refused for what stands.
REPEATING = ["owners.rows", "delays.rows", "lock_sequences.rows", "delegation_conflicts.rows"]


def told_from(path, first):
    """Of each refusal from this entry on: whom it is about, and its reason as data."""
    reading = Reading(path, Entry, first=first)
    run = reading.run_of(list(reading.pieces()))
    assert [it.number for it in run.entries] == list(range(first, run.count()))
    replayed = Replayed(run)
    told = replayed.told(selection=Selection(entries=Span(first)))
    return [
        (entry, entry.client, entry.path, entry.owners, reason_data(it.reason, replayed.server))
        for entry, it in told
        if it.reason is not None
    ]


@pytest.mark.parametrize("name", REPEATING)
def test_from_an_entry_on(put, name):
    """What is said of the last entries is the same if nothing is wanted of those before them."""
    journals = [it for it in map(journal_of, rows_of(name)) if it is not None and len(it.entries) > 1]
    for journal in journals:
        path = put("run.journal", journal_bytes(journal))
        whole = told_from(path, 0)
        for first in range(1, len(journal.entries)):
            assert told_from(path, first) == [it for it in whole if it[0].number >= first]
    assert journals


def test_parts_of_a_range(path, call):
    """Moments, context and the state after an entry, where all of it stands behind entries that aren't wanted."""
    lines = call(show_journal, path)[1]
    assert call(show_journal, "--entries", "11-", "--moments", "-94", path)[1] == [lines[11]]
    assert call(show_journal, "--entries", "12-", "--context", "2", path)[1] == lines[10:]
    assert call(explain, "--entries", "6-8", "--context", "1", path)[1] == [lines[5], *REFUSED, lines[7]]
    assert call(explain, "--summary", "--no-reasons", "--entries", "13-", path)[1][-1] == "no client  1 from 13"


TABLE = [
    "14 entries from moment 0 to 95: 5 refusals",
    "",
    "           OK        SHARE_DENIED  STALE_CLIENTID  BAD_SEQID",
    "c1         5 from 0                                2 from 9",
    "c2         2 from 2  1 from 6      1 from 12",
    "no client  1 from 7                1 from 13",
]


def test_summary(path, call):
    assert call(explain, "--summary", "--no-reasons", path) == (0, TABLE, "")
    lines = call(explain, "--summary", path)[1]
    assert lines[:6] == TABLE and lines[7] == "The first refusal of each kind:"
    assert lines[8:11] == [*REFUSED, "    1 of this kind: c2 1"]
    assert lines[11:14] == [*MISCOUNTED, "    2 of this kind: c1 2"]
    assert [it.partition(":")[0] for it in lines[14::3]] == ["12", "13"]
    of_c1 = call(explain, "--summary", "--no-reasons", "--client", "c1", path)[1]
    assert of_c1 == [
        "7 entries from moment 0 to 6: 2 refusals",
        "",
        "    OK        BAD_SEQID",
        "c1  5 from 0  2 from 9",
    ]


def test_summary_of_many_statuses():
    """Columns that have no room stand below the others, beside the names again."""
    opening, summary = entries()[4], Summary()
    assert isinstance(opening, Call)
    for number, status in enumerate(it for it in Status if it != Status.OK):
        refused = opening._replace(answer=Answer(opening.opnum, status, b""))
        summary.add(Entry(number, refused, 0, "c1", 1, "/a", (), None))
    lines = list(summary.table())
    assert all(len(it) <= 120 for it in lines)
    assert len(lines) > 2 and all(it.startswith("c1  1 from ") for it in lines[1::2])
    assert " ".join(lines[::2]).split() == [it.name for it in sorted(Status) if it != Status.OK]


def test_many_refusals_on_a_terminal(put, call, monkeypatch):
    """On a terminal the summary comes in the place of more than 200 refusals, and to a file all come."""
    journal = hand_made()
    path = put("many", journal_bytes(journal._replace(entries=[*journal.entries[:9], *denials()])))
    assert len(call(explain, path)[1]) == 2 * 211
    monkeypatch.setattr(sys.stdout, "isatty", lambda: True)
    lines = call(explain, path)[1]
    assert lines[0] == "219 entries from moment 0 to 4: 211 refusals"
    assert lines[-2] == "These are 211 refusals, more than 200. All of them: explain FILE | less"
    assert call(explain, "--status", "SHARE_DENIED", path)[1] == [*REFUSED]


def denials():
    """LOCKTs of bytes that are held, by another owner, each of other bytes."""
    held = Answer(Opnum.LOCKT, Status.DENIED, u64(0) + u64(10) + u32(2, 1, 1) + opaque(b"L"))
    asked = [Lockt(2, first, length, LockOwner(1, 1, b"M")) for first in range(10) for length in range(1, 22)]
    return [Call(4, (0, 0), 1, Opnum.LOCKT, it, held) for it in asked]


# Options that don't go together, each with what is said of them.
EXPLAIN_FAULTS = [
    (["--no-reasons"], "--no-reasons is for the summary: give --summary --no-reasons"),
    (["--no-reasons", "--each"], "--no-reasons is for the summary: give --summary --no-reasons, and not --each"),
    (
        ["--summary", "--each"],
        "--each is for the list of refusals, which --summary doesn't show: leave out one of them",
    ),
    (["--at", "3", "--words"], "--words is for the list of refusals, which --at doesn't show: leave out one of them"),
    (
        ["--diff", "x", "--whole"],
        "--whole is for the list of refusals, which --diff doesn't show: leave out one of them",
    ),
]
SHOW_FAULTS = [
    (["--html", "x", "--json"], "--json is for the list of entries, which --html doesn't show: leave out one of them"),
    (
        ["--save", "x", "--client", "c1"],
        "--save takes the whole file: leave out the options that choose entries, or --save",
    ),
    (
        ["--lawful", "--entries", "3"],
        "--lawful takes the whole file: leave out the options that choose entries, or --lawful",
    ),
]


@pytest.mark.parametrize(
    "main, words, wrong",
    [(explain, *it) for it in EXPLAIN_FAULTS] + [(show_journal, *it) for it in SHOW_FAULTS],
)
def test_options_that_do_not_go_together(path, call, main, words, wrong):
    status, lines, errors = call(main, *words, path)
    assert (status, lines, errors.splitlines()[-1]) == (2, [], f"command: error: {wrong}")


def test_no_page_of_a_file_without_entries(put, call, tmp_path):
    """It ends before its first entry, with or without all that stands before this one."""
    journal, target = hand_made(), tmp_path / "run.html"
    begun = put("begun.part", head_bytes(journal)[:-4])
    headed = put("headed.part", head_bytes(journal) + u32(14))
    wrong = "fault: no page is written: the file ends before its first entry"
    assert call(show_journal, "--html", str(target), begun) == (2, [], f"{wrong}\n")
    assert call(show_journal, "--html", str(target), headed) == (2, [], f"{wrong}, and says that it has 14\n")
    assert not target.exists()


# The state after an entry.

AFTER_8 = [
    "after entry 8, moment 4; the lease is 90 s",
    'client "c1", number 1: renewed last at moment 4, by entry 8: 90 s of its lease are left; callback path unknown',
    '  open owner "A": next sequence id 4, after entry 8',
    '    state 1: file "/a" open for READ and WRITE, denies WRITE; seqid 2 since entry 5',
    '  lock owner "L": next sequence id 8, after entry 8',
    '    state 2: bytes 0 to 9 of file "/a" for writing; seqid 1 since entry 8',
    'client "c2", number 2: renewed last at moment 3, by entry 6: 89 s of its lease are left; callback path unknown',
]


def test_state_after_an_entry(path, call):
    assert call(explain, "--at", "8", path) == (0, AFTER_8, "")
    assert call(explain, "--at", "8", "--client", "c2", path)[1] == [AFTER_8[0], AFTER_8[6]]
    assert call(explain, "--at", "8", "--owner", "L", path)[1] == [*AFTER_8[:2], *AFTER_8[4:6]]
    assert call(explain, "--at", "8", "--file", "a", path)[1] == AFTER_8[:6]
    assert call(explain, "--at", "4", "--owner", "A", path)[1][2] == (
        '  open owner "A": next sequence id 2, after entry 4, not confirmed'
    )
    assert call(explain, "--at", "2", path)[1][2] == 'client "c2", number 2: not confirmed'
    assert [it.partition(":")[0] for it in call(explain, "--at", "12", path)[1] if it.startswith("client")] == [
        'client "c1", number 1'
    ]
    gone = (1, [], "fault: entry 14 isn't there: there are 14 entries, from 0 on\n")
    assert call(explain, "--at", "14", path) == gone
    assert call(explain, "--at", "8", "--status", "OK", path)[0] == 2


# Where runs part.


def test_same_runs(put, path, call):
    """Another run in which c2 came first, with other numbers, confirm verifiers and moments, is the same."""
    journal = hand_made()
    other = put("other", journal_bytes(journal._replace(entries=[*renumbered(journal.entries[:11])])))
    same = ["c1: the same, 7 calls", "c2: the same, 3 calls", "no client: the same, 1 call"]
    words = ["--diff", other, "--entries", "-10", path]
    assert call(explain, *words) == (0, [f"- {path}", f"+ {other}", *same], "")


def renumbered(recorded):
    """The entries with clients 1 and 2 the other way round, other confirm verifiers, and later moments."""
    swapped = [*introduced(1, b"c2", 7, 5), *introduced(2, b"c1", 7, 9)]
    numbers = {1: 2, 2: 1}

    def other(value):
        if isinstance(value, (OpenOwner, LockOwner)):
            return value._replace(client=numbers[value.client])
        if isinstance(value, Stateid) and value.client:
            return value._replace(client=numbers[value.client], number=value.number + 3)
        if hasattr(value, "_replace"):
            return type(value)(*map(other, value))
        return value

    def answer(it):
        rest = it.rest
        if it.number != Opnum.GETATTR and len(rest) >= 16:
            state = int.from_bytes(rest[12:16], "big") + 3
            rest = rest[:8] + u32(numbers[rest[11]], state) + rest[16:]
        return it._replace(rest=rest)

    changed = [it._replace(moment=9, arguments=other(it.arguments), answer=answer(it.answer)) for it in recorded[4:]]
    return [*swapped, *changed]


def test_runs_that_part(put, path, call):
    """The first calls in which they differ, of each client; a client of one run; and a beginning, which says so."""
    journal = hand_made()
    changed = [*entries()[:9], *entries()[10:12]]
    data = journal_bytes(journal._replace(entries=changed))
    other = put("other", data[:-10])
    status, lines, _ = call(explain, "--diff", other, path)
    assert status == 1 and lines[:2] == [f"- {path}", f"+ {other}"]
    assert lines[2] == "c1: the same for 6 calls of 7 and 6, then"
    assert lines[3].startswith("  - 10: moment 6, ") and lines[4] == "  + no more calls"
    assert lines[5] == "c2: the same for 3 calls of 4 and 3, then"
    assert lines[8].startswith("no client: the same for 1 call of 2 and 1, then")
    assert lines[-1] == f"{other}: the file ends inside entry 10, of which it has 14 bytes"
