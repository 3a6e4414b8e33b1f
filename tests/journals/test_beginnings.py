"""Beginnings of journals: of a journal with 0 or with its own number of entries, which is cut at many places, the whole
entries are read, also where it comes in pieces; and tools/show_journal and tools/explain show, judge, save and follow
such files. And how clients are named there, whose slots were given before."""
import os
import signal
import subprocess
import sys
import threading
import time
from typing import Any

import pytest

from helpers.expecting_client import expect
from helpers.journal_cases import (
    LAST,
    NOBODY,
    ask_for_number,
    beginning_of,
    confirm,
    earlier,
    idle,
    lent,
    listed_and_set,
    open_by,
    places_of,
    sample,
    sample_for_clients,
    small,
    with_words,
)
from helpers.reason_cases import kept_answers
from nfs4tools.journal.entries import Expire, Forget, NotJournal, entry_bytes
from nfs4tools.journal.journal import EARLIER, Growing, HEAD, HEAD_OF_CLIENTS, Recorder, journal_bytes
from nfs4tools.journal.named_words import named_line_of
from nfs4tools.journal.words import client_words, line_of
from nfs4tools.model.tree import DEFAULT, Tree
from nfs4tools.processes import TOP, with_interrupts
from nfs4tools.program import bytes_of
from nfs4tools.wire import Delegreturn, OpenConfirm, OpenOwner, Opnum, READ, Read, Stateid, Write, u32

pytestmark = pytest.mark.quick

# The seconds that a tool has, on however busy a machine.
PATIENCE = 120
HEAD_ENDS = "the file ends before its first entry"


def read_in_pieces(data, size):
    growing, entries = Growing(), []
    for at in range(0, len(data), size):
        entries += growing.take(data[at : at + size])
    return growing, entries


def ending_wanted(places, length, count):
    """How a file ends that has this length and says that it has so many entries, or None where it is whole."""
    if length < places[0]:
        return HEAD_ENDS
    whole = sum(place <= length for place in places) - 1
    if length > places[whole]:
        return f"the file ends inside entry {whole}, of which it has {length - places[whole]} bytes"
    if whole == count:
        return None
    place = f"after entry {whole - 1}" if whole else "before its first entry"
    return f"the file ends {place}" + (f", and says that it has {count}" if count else "")


def forgettings():
    server = idle()
    server.sweep(192)
    return server.journal()


# Journals, and how far it is from one place where they are cut to the next.
CUT = {
    "three entries": (small, 1),
    "all operations": (sample, 11),
    "forgettings": (forgettings, 1),
    "the earlier version": (lambda: earlier(small()), 1),
    "listings and sizes": (listed_and_set, 1),
}


@pytest.mark.parametrize("name", CUT)
def test_cuts(name, add_up):
    make, step = CUT[name]
    journal = make()
    places = places_of(journal)
    for count, data in ((0, beginning_of(journal)), (len(journal.entries), journal_bytes(journal))):
        for length in range(0, len(data) + 1, step):
            wanted = journal.entries[: max(0, sum(place <= length for place in places) - 1)]
            for size in (1 << 20, 1000, 52):
                growing, entries = read_in_pieces(data[:length], size)
                ending = None if growing.is_whole() else growing.ending()
                expect(
                    f"the first {length} bytes in pieces of {size}, of {count} entries",
                    (entries, ending, growing.fault),
                    (wanted, ending_wanted(places, length, count), None),
                )
                add_up(1, "cuts")


FORGOTTEN = entry_bytes(Forget(OpenOwner(1, 1, b"A"), 191))


def test_faults():
    """What follows whole entries, and is no beginning of one."""
    data, first = beginning_of(small()), places_of(small())[0]
    cases = [
        ("no kind of entry", data + u32(9), "entry 3: no kind of entry"),
        ("more than its number", journal_bytes(small()) + u32(1), "entry 3: bytes after the last one"),
        ("padding", with_words(data, first + 44, 0x63310001), "entry 0: padding that isn't zero"),
        ("a Forget in the earlier version", beginning_of(earlier(small())) + FORGOTTEN, "entry 3: no kind of entry"),
        (
            'a listing behind a beginning that isn\'t of "clients"',
            HEAD + beginning_of(listed_and_set())[8:],
            "entry 0: an operation that makes no entry",
        ),
    ]
    for name, file, fault in cases:
        growing = Growing()
        growing.take(file)
        expect(f"a beginning with {name}", (growing.fault, growing.is_whole()), (fault, False))


@pytest.mark.parametrize("version", [b"NFSJRN01", b"NFSJRN04", b"NFSJRC01", b"NFSJRC02", b"NFSJRC04"])
def test_other_versions(version):
    with pytest.raises(NotJournal):
        Growing().take(version)


# Clients by their numbers.
CLIENTS = {
    1: "client 1",
    255: "client 255",
    256: "client 256",
    257: "client 257 (slot 1, second)",
    767: "client 767 (slot 255, third)",
    769: "client 769 (slot 1, 4th)",
    2561: "client 2561 (slot 1, 11th)",
    2817: "client 2817 (slot 1, 12th)",
    3073: "client 3073 (slot 1, 13th)",
    5121: "client 5121 (slot 1, 21st)",
    5377: "client 5377 (slot 1, 22nd)",
    5633: "client 5633 (slot 1, 23rd)",
    28161: "client 28161 (slot 1, 111th)",
    LAST: "client 4294967295 (slot 255, 16777216th)",
}
# The ends of the lines of `slot_given_again`: what is answered, or what no call asks for.
LINES = [
    "SETCLIENTID NFS4_OK 1 1 u64:1",
    "SETCLIENTID_CONFIRM NFS4_OK",
    "client 1 expires, seen at 0, now 91",
    "SETCLIENTID NFS4_OK 1 257 u64:2  # client 257 (slot 1, second)",
    "SETCLIENTID_CONFIRM NFS4_OK",
    "OPEN NFS4_OK 1 1 257 1 1 u64:0 u64:0 6 0 0",
    "OPEN_CONFIRM NFS4_OK 2 1 257 1",
    "OPEN NFS4_OK 3 1 257 1 1 u64:0 u64:0 4 0 1 1 1 257 2 0 0 0 0 0  # gives client 257 (slot 1, second) state 2, a "
    "delegation for reading",
    "the callback path of client 257 (slot 1, second) is marked down",
    "DELEGRETURN NFS4_OK  # client 257 (slot 1, second) returns state 2",
    "client 257 (slot 1, second) expires, seen at 0, now 91",
]


def slot_given_again():
    """Client 1 ends, and client 257 has its slot; it gets a delegation, gives that back, and ends, too."""
    server = Recorder(Tree('policy.callbacks = "assume"\n' + DEFAULT))
    ask_for_number(server, b"c1")
    confirm(server, 1)
    server.expire(1, 0, 91)
    ask_for_number(server, b"c1")
    confirm(server, 257)
    open_by(server, 257, 1)
    server.apply(Opnum.OPEN_CONFIRM, OpenConfirm(Stateid(1, 1, 257, 1), 2), 1, NOBODY)
    open_by(server, 257, 3, READ)
    server.mark_path(257, False)
    server.apply(Opnum.DELEGRETURN, Delegreturn(Stateid(1, 1, 257, 2)), 1, NOBODY)
    server.expire(257, 0, 91)
    return server.journal()


def test_clients():
    assert {number: client_words(number) for number in CLIENTS} == CLIENTS
    journal = slot_given_again()
    assert [line_of(entry, journal.tree).split(" -> ")[-1] for entry in journal.entries] == LINES


# The ends of the lines of forgettings, of names that are texts and of others.
FORGETTINGS = {
    Forget(OpenOwner(1, 1, b"A"), 191): 'open owner "A" of client 1 is forgotten, now 191',
    Forget(OpenOwner(1, 257, b"a b"), 0): 'open owner "a b" of client 257 (slot 1, second) is forgotten, now 0',
    Forget(OpenOwner(1, 2, b"\xff\0"), 2): r'open owner "\xff\x00" of client 2 is forgotten, now 2',
}


def test_forgettings():
    assert {entry: line_of(entry, None) for entry in FORGETTINGS} == FORGETTINGS


def test_earlier_is_kept():
    """A journal of the earlier version, when it was read, is written as it was."""
    for journal in (earlier(small()), earlier(lent().journal())):
        growing, entries = read_in_pieces(journal_bytes(journal), 1000)
        again = journal_bytes(growing.head._replace(entries=entries))
        assert again == journal_bytes(journal) and again.startswith(EARLIER)


# The tools.


def shown(journal):
    """Its lines. No DELAY of these journals is a kept answer."""
    lines = [f"{number}: {named_line_of(entry, journal.tree)}" for number, entry in enumerate(journal.entries)]
    return [line + "  # a delegation conflicts" * line.endswith(" -> NFS4ERR_DELAY") for line in lines]


@pytest.fixture
def put(tmp_path):
    """Writes a file: its path."""

    def write(name, data):
        (tmp_path / name).write_bytes(data)
        return str(tmp_path / name)

    return write


def expect_tool(tool, words, lines, status=0, errors=""):
    """The tool prints these lines, and this on standard error."""
    ran = subprocess.run(
        [sys.executable, os.path.join(TOP, "tools", tool), *words],
        stdout=subprocess.PIPE,
        stderr=subprocess.PIPE,
        text=True,
        timeout=PATIENCE,
    )
    assert (ran.returncode, ran.stdout, ran.stderr) == (status, "".join(f"{line}\n" for line in lines), errors)


def expect_bytes(path, wanted, head=b""):
    """The file that a tool saves has these bytes, and begins as this version does."""
    assert bytes_of(path) == wanted and wanted.startswith(head)


def test_shown(put, tmp_path):
    """A beginning is shown, judged, saved and explained; a journal is shown as it is."""
    journal = sample()
    lines, places = shown(journal), places_of(journal)
    count, inside = len(lines), f"the file ends inside entry {len(lines) - 1}, of which it has 20 bytes"
    whole, cut = journal_bytes(journal), beginning_of(journal)[: places[count - 1] + 20]
    path, saved = put("cut.part", cut), str(tmp_path / "saved")
    expect_tool("show_journal", [put("whole", whole)], lines)
    expect_tool("show_journal", [put("none", journal_bytes(small()._replace(entries=[])))], [])
    expect_tool("show_journal", [path], lines[:-1] + [inside])
    expect_tool("show_journal", ["--lawful", path], [f"lawful: {count - 1} entries", inside])
    expect_tool("show_journal", ["--save", saved, path], [f"saved: {count - 1} entries", inside])
    expect_bytes(saved, journal_bytes(journal._replace(entries=journal.entries[:-1])))
    expect_tool("show_journal", [put("head.part", whole[:20])], [HEAD_ENDS], 2)
    expect_tool(
        "show_journal",
        [put("other", whole + b"\0")],
        lines,
        2,
        f"fault: not a journal: entry {count}: bytes after the last one\n",
    )
    expect_tool("show_journal", [str(tmp_path / "missing")], [], 1, "fault: file not read\n")
    early = f"fault: not a journal: {HEAD_ENDS}\n"
    expect_tool("show_journal", ["--lawful", str(tmp_path / "head.part")], [], 2, early)
    expect_tool("show_journal", ["--save", saved, str(tmp_path / "head.part")], [], 2, early)


def test_earlier(put, tmp_path):
    """A beginning of the earlier version is shown and judged as another one, and saved as what it is."""
    journal = earlier(sample())
    path, count = put("earlier.part", beginning_of(journal) + FORGOTTEN[:20]), len(journal.entries)
    saved = str(tmp_path / "saved")
    unknown = f"fault: not a journal: entry {count}: no kind of entry\n"
    expect_tool("show_journal", [path], shown(journal), 2, unknown)
    expect_tool("show_journal", ["--lawful", path], [f"lawful: {count} entries"], 2, unknown)
    expect_tool("show_journal", ["--save", saved, path], [f"saved: {count} entries"], 2, unknown)
    expect_bytes(saved, journal_bytes(journal))
    expect_tool("show_journal", [put("earlier", journal_bytes(journal))], shown(journal))
    refused = small()._replace(entries=[small().entries[1]])
    expect_tool(
        "explain", [put("refused.earlier", journal_bytes(earlier(refused)))], [], 1, "fault: wrong answer at entry 0\n"
    )


LISTED = [
    '0: moment 0, AUTH_NONE, directory "/d": READDIR u64:0 hex:0000000000000000 0 56 1 16 -> READDIR NFS4_OK '
    'hex:0000000000000000 1 u64:6 "c" 1 16 8 0x00000000 0x00000000 0 1',
    '1: moment 0, AUTH_NONE, file "/a": GETATTR 2 0 0x00400000 -> GETATTR NFS4ERR_INVAL',
    '2: moment 0, AUTH_NONE, file "/a": SETATTR 0 0 0 0 1 16 8 0x00000000 0x00000000 -> SETATTR NFS4_OK 1 16',
    '3: moment 0, AUTH_NONE, file "/a": SETATTR 0 0 0 0 2 0 2 4 0x00000180 -> SETATTR NFS4ERR_ROFS 0',
]
NOT_LISTED = {
    1: "    attribute 54 (time_modify_set) can only be set (RULES: GETATTR; RFC 7530, 5.5)",
    3: "    attribute 33 (mode) never changes (RULES: SETATTR; RFC 7530, 16.32)",
}


def test_for_clients(put, tmp_path):
    """A journal under "clients", and a beginning of one, which is saved as what it is."""
    journal, saved = listed_and_set(), str(tmp_path / "saved")
    whole = put("listed", journal_bytes(journal))
    expect_tool("show_journal", ["--words", whole], LISTED)
    explained = [line for number, reason in NOT_LISTED.items() for line in (LISTED[number], reason)]
    expect_tool("explain", ["--words", whole], explained)
    cut = put("listed.part", beginning_of(journal)[: places_of(journal)[3] + 8])
    inside = "the file ends inside entry 3, of which it has 8 bytes"
    expect_tool("show_journal", ["--words", cut], LISTED[:3] + [inside])
    expect_tool("show_journal", ["--lawful", cut], ["lawful: 3 entries", inside])
    expect_tool("show_journal", ["--save", saved, cut], ["saved: 3 entries", inside])
    expect_bytes(saved, journal_bytes(journal._replace(entries=journal.entries[:3])), HEAD_OF_CLIENTS)
    plain = put("plain.part", HEAD + beginning_of(journal)[8:])
    expect_tool("show_journal", [plain], [], 2, "fault: not a journal: entry 0: an operation that makes no entry\n")


def test_data(put):
    """Of more than 64 bytes of a file the first are shown, but with --whole: in refusals and in answers."""
    server = Recorder(Tree())
    nobody, place = Stateid(0, 0, 0, 0), 'moment 0, AUTH_NONE, file "/a": '
    for data, offset in ((b"a" * 64, 0), (b"b" * 65, 0), (b"c" * 70000, 0), (bytes(66), 2**32)):
        server.apply(Opnum.WRITE, Write(nobody, offset, 2, data), 1, (0, 0))
    server.apply(Opnum.READ, Read(nobody, 0, 99), 1, (0, 0))
    head, written = f"{place}WRITE 0 0 0 0 u64:", " -> WRITE NFS4_OK"
    text_a, text_b, text_c = (f'"{letter * 64}"' for letter in "abc")
    lines = [
        f"0: {head}0 2 {text_a}{written} 64 2 1 0",
        f"1: {head}0 2 {text_b} .. (65 bytes){written} 65 2 1 0",
        f"2: {head}0 2 {text_c} .. (70000 bytes) -> WRITE NFS4ERR_FBIG",
        f"3: {head}4294967296 2 hex:{'00' * 64} .. (66 bytes) -> WRITE NFS4ERR_FBIG",
        f"4: {place}READ 0 0 0 0 u64:0 99 -> READ NFS4_OK 1 {text_b} .. (65 bytes)",
    ]
    whole = [
        lines[0],
        lines[1].replace(f"{text_b} .. (65 bytes)", f'"{"b" * 65}"'),
        lines[2].replace(f"{text_c} .. (70000 bytes)", f'"{"c" * 70000}"'),
        lines[3].replace(f"hex:{'00' * 64} .. (66 bytes)", f"66{' 0x00000000' * 17}"),
        lines[4].replace(f"{text_b} .. (65 bytes)", f'"{"b" * 65}"'),
    ]
    path = put("data", journal_bytes(server.journal()))
    expect_tool("show_journal", ["--words", path], lines)
    expect_tool("show_journal", ["--words", "--whole", path], whole)
    many = " bytes add up to {}, but a file has at most 65536 bytes (RULES: WRITE; RFC 7530, 16.36)"
    reasons = [
        "    offset 0 and 70000" + many.format(70000),
        "    offset 4294967296 and 66" + many.format(2**32 + 66),
    ]
    for words, of in (([], lines), (["--whole"], whole)):
        expect_tool("explain", ["--words", *words, path], [of[2], reasons[0], of[3], reasons[1]])


def test_explained(put):
    """Refusals alone, with what follows in a beginning; and an end at the first entry that isn't lawful."""
    confirmed = small()
    client, ends = confirmed.entries[2], Expire(1, 0, 91)
    stale = client._replace(answer=client.answer._replace(status=10022))
    journal = confirmed._replace(entries=[*confirmed.entries, ends, stale])
    lines = [
        shown(journal)[4],
        "    client 1 was removed by entry 3, because its lease had expired (RULES: SETCLIENTID_CONFIRM; RFC 7530, "
        "9.5)",
    ]
    expect_tool("explain", [put("refused", journal_bytes(journal))], lines)
    expect_tool(
        "explain",
        [put("refused.part", beginning_of(journal) + u32(1))],
        lines + ["the file ends inside entry 5, of which it has 4 bytes"],
    )
    expect_tool("explain", [put("kept", journal_bytes(confirmed))], [])
    unlawful = journal._replace(entries=[*journal.entries, client])
    path = put("unlawful.part", beginning_of(unlawful))
    for tool, words, shown_lines in (("explain", [path], lines), ("show_journal", ["--lawful", path], [])):
        expect_tool(tool, words, shown_lines, 1, "fault: wrong answer at entry 5\n")


def test_again(put):
    """Only the entries that are replays, also of a beginning; and none."""
    journal = kept_answers().server.journal()
    owners = 'open owner "A"', 'lock owner "x"'
    opener, locker = (f"by {owner} of client 1 is a replay of entry" for owner in owners)
    lines = [
        f"3: OPEN {opener} 2",
        f"5: OPEN_CONFIRM {opener} 4",
        f"8: OPEN_DOWNGRADE {opener} 7",
        f"9: OPEN_DOWNGRADE {opener} 7",
        f"11: LOCK {opener} 10",
        f"13: LOCK {locker} 12",
        f"15: LOCKU {locker} 14",
        f"17: OPEN {opener} 16",
        f"19: CLOSE {opener} 18",
    ]
    expect_tool("explain", ["--again", put("again", journal_bytes(journal))], lines)
    expect_tool(
        "explain",
        ["--again", put("again.part", beginning_of(journal)[: places_of(journal)[9]])],
        lines[:3] + ["the file ends after entry 8"],
    )
    expect_tool("explain", ["--again", put("none again", journal_bytes(sample()))], [])


def following(path):
    """A run of show_journal that follows the file, and writes by its own flushes alone."""
    words = [sys.executable, os.path.join(TOP, "tools/show_journal"), "--follow", path]
    environment = {name: value for name, value in os.environ.items() if name != "PYTHONUNBUFFERED"}
    return subprocess.Popen(
        words, stdout=subprocess.PIPE, stderr=subprocess.PIPE, text=True, env=environment, preexec_fn=with_interrupts
    )


# What is done with a file that is followed, at last; beside a journal, of which it has all entries but the last, and a
# part of this one.


def replace_by(make):
    """The journal that this makes takes the place of its beginning."""

    def end(path, put, _file, _follower):
        put(os.path.basename(path).removesuffix(".part"), journal_bytes(make()))
        os.remove(path)

    return end


def remove(path, *_):
    os.remove(path)


def rename(path, put, *_):
    """Another file gets its name."""
    os.rename(path, path + ".old")
    put(os.path.basename(path), b"")


def write_rest(path, _put, file, _follower):
    file.write(beginning_of(sample())[os.path.getsize(path) :])
    os.remove(path)


def interrupt(_path, _put, _file, follower):
    follower.send_signal(signal.SIGINT)


def another():
    *entries, other, last = sample().entries
    return sample()._replace(entries=[*entries, other._replace(moment=7), last])


LAST_ENTRY = len(sample().entries) - 1
INSIDE, GONE = f"the file ends inside entry {LAST_ENTRY}, of which it has 8 bytes", "{} isn't that file any more\n"
# Each with the lines that are shown then, behind those of the entries that are whole, and what is said of it; the last
# entry's own line is `None`.
ENDS: dict[str, Any] = {
    "ended": (sample, replace_by(sample), [None], ""),
    "another": (sample, replace_by(another), [INSIDE], GONE),
    "a shorter one": (sample, replace_by(small), [INSIDE], GONE),
    "of another epoch": (sample, replace_by(lambda: sample()._replace(epoch=2)), [INSIDE], GONE),
    "of the earlier version": (sample, replace_by(lambda: earlier(sample())), [INSIDE], GONE),
    "ended, under clients": (sample_for_clients, replace_by(sample_for_clients), [None], ""),
    "removed": (sample, remove, [INSIDE], GONE),
    "renamed": (sample, rename, [INSIDE], GONE),
    "interrupted": (sample, interrupt, [INSIDE], ""),
    "written to its end": (sample, write_rest, [None, f"the file ends after entry {LAST_ENTRY}"], GONE),
}


@pytest.mark.parametrize("name", ENDS)
def test_followed(name, put, tmp_path):
    """A file is followed from before it is there; it comes in pieces that cut entries, and then it ends."""
    make, end, more, errors = ENDS[name]
    journal, path = make(), str(tmp_path / "followed.part")
    data = beginning_of(journal)[: places_of(journal)[-2] + 8]
    with following(path) as follower:
        limit = threading.Timer(PATIENCE, follower.kill)
        limit.start()
        first = follower.stderr.readline()
        with open(path, "wb", buffering=0) as file:
            for at in range(0, len(data), 700):
                file.write(data[at : at + 700])
                time.sleep(0.01)
            # Entries are shown as they come.
            got = [follower.stdout.readline().rstrip("\n") for _ in journal.entries[:-1]]
            end(path, put, file, follower)
        rest, told = follower.communicate()
        limit.cancel()
    *lines, last = shown(journal)
    assert (first, told) == (f"{path} isn't there yet\n", errors.format(path))
    assert got + rest.splitlines() == lines + [line or last for line in more]


def test_followed_whole(put):
    """A file that is a whole journal has its end."""
    expect_tool("show_journal", ["--follow", put("followed", journal_bytes(sample()))], shown(sample()))
