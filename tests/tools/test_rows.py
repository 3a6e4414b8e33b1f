"""`tools/rows`, by the program of rows as the gate has proved and built it: on the repository's rows, of which all
pass, also where each connection has a thread of its own and the state is shared; on each of them with one byte changed
in what it wants, which has to fail by its name, also in these other ways, and so on those with orders, with something
else wanted of one; on files with a broken line, each of which has to be reported by file, line and reason; on folders
that can't be read; and by programs that run out of memory, end early, or leave another journal. The journal that each
row leaves has to be the model's; and the model has to give the replies that it wants."""
import os
import re
import subprocess
import sys

import pytest

from helpers.row_journals import journal_of
from nfs4tools.journal.journal import journal_bytes
from nfs4tools.processes import TOP
from nfs4tools.rows import running
from nfs4tools.rows.by_model import check
from nfs4tools.rows.driver import ALONE, PROGRAM
from nfs4tools.rows.reading import File, files_of

needs_rows = pytest.mark.needs("rows")
DATA = os.path.join(TOP, "crates/rows/data")
# The ways to run rows, and in how many parts their files are run.
WAYS = {"alone": (), "again": ("--again",), "shared": ("--shared",), "shared again": ("--shared", "--again")}
PARTS = 4
each_way = pytest.mark.parametrize("words", WAYS.values(), ids=WAYS)


def run(*words, program=PROGRAM):
    """The status of the command with these words, and what it reports, of which the end is shown where a test fails."""
    ran = subprocess.run(
        [sys.executable, os.path.join(TOP, "tools/rows"), "--program", program, *words],
        stdout=subprocess.PIPE,
        stderr=subprocess.STDOUT,
        timeout=600,
        text=True,
    )
    print(ran.stdout[-10_000:])
    return ran.returncode, ran.stdout


@pytest.fixture(params=range(PARTS), ids="part {}".format)
def files(request):
    """The files of a part of the rows."""
    return list(files_of(DATA))[request.param :: PARTS]


@needs_rows
@each_way
def test_pass(words, files):
    count = sum(len(File(file).rows) for file in files)
    assert run(*words, *files) == (0, f"{count} rows in {len(files)} files: 0 failed, 0 files not read\n")


def test_model(capsys, tell):
    """The model's replies are those that the rows want."""
    assert check([DATA]) == 0
    tell(capsys.readouterr().out.strip())


@needs_rows
def test_journals(files):
    """Each row leaves the journal that the model makes of it."""
    for row in (row for file in files for row in File(file).rows):
        journal = journal_of(row)
        wanted = None if journal is None else journal_bytes(journal)
        is_models = running.run(row, ALONE, running.WHOLE).journal == wanted
        assert is_models, f"{row.file}:{row.line}: {row.name}"


def rows_of(text):
    """A file's lines by its rows, without what comes before the first."""
    return [
        ["row " + part] if "\n" not in part else ("row " + part).splitlines()
        for part in re.split(r"(?m)^row ", text)[1:]
    ]


def changed_byte(lines):
    """The row with another last byte wanted, or with another end of its connection where nothing is."""
    lines = [line.split(" #")[0].rstrip() for line in lines if not line.strip().startswith("#")]
    at = max((i for i, line in enumerate(lines) if line.startswith("  want ")), default=None)
    if lines[at] == "  want nothing":
        lines[at] = "  want null 7"
        return [lines]
    end = at + 1
    while end < len(lines) and lines[end].startswith("    "):
        end += 1
    head, last = lines[end - 1].rsplit(" ", 1)
    if last == "NFS4_OK" and end - 1 > at:
        last = "NFS4ERR_PERM"
    elif last == "hex:0000001800000000" or "*" in last:
        last += " hex:00"
    elif re.fullmatch(r"(u64:)?[0-9]+", last):
        prefix, number = ("u64:", last[4:]) if last.startswith("u64:") else ("", last)
        last = f"{prefix}{int(number) ^ 1}"
    elif last.startswith("0x"):
        last = hex(int(last, 16) ^ 1)
    elif last.startswith("NFS4ERR_"):
        last = "NFS4_OK"
    else:
        last = "77"
    lines[end - 1] = f"{head} {last}"
    return [lines]


# The words that begin orders.
ORDERS = ("sweep", "mark", "revoke", "forget", "take", "pending", "probe")


def changed_orders(lines):
    """The row with something else wanted of the last order of a kind, for each kind that it has."""
    for word in ORDERS:
        at = max((i for i, line in enumerate(lines) if line.startswith(f"  {word} ")), default=None)
        if at is not None:
            yield [*lines[:at], *otherwise(lines[at], lines[at + 1 :])]


def otherwise(line, rest):
    """The lines from that of an order on, with something else wanted of it."""
    if line == "  take nothing":
        return ["  take record", "    7", *rest]
    if line == "  take record":
        return [line, changed_number(rest[0]), *rest[1:]]
    if line.endswith('"'):
        return [line[:-1] + '!"', *rest]
    some = {"probe": " client 1", "revoke": " state 1", "forget": ' owner 1 "A"'}.get(line.split()[0])
    ends = {" done": " not live", " not live": " done", " none": some}
    for end, other in ends.items():
        if line.endswith(end):
            return [line.removesuffix(end) + other, *rest]
    return [changed_number(line), *rest]


def changed_number(line):
    """The line with another number at its end."""
    head, last = line.rsplit(" ", 1)
    return f"{head} {int(last) ^ 1}"


def places_of(path, rows):
    """How each row begins that is reported, where the file has these."""
    line = 1
    for lines in rows:
        yield f"{path}:{line}: {lines[0][4:]}\n"
        line += len(lines)


@needs_rows
@each_way
def test_changed(words, files, path_of, file_of, tell):
    """Each row that is changed fails, by its name."""
    places, counts = [], dict.fromkeys((changed_byte, changed_orders), 0)
    for file in files:
        with open(file, encoding="utf-8") as source:
            rows = rows_of(source.read())
        for change in counts:
            others = [other for lines in rows for other in change(lines)]
            path = file_of(
                f"{change.__name__}.{os.path.basename(file)}", "".join("\n".join(lines) + "\n" for lines in others)
            )
            places += places_of(path, others)
            counts[change] += len(others)
    status, report = run(*words, path_of(""))
    passing = [place for place in places if f"\n{place}" not in f"\n{report}"]
    assert not passing
    assert status == 1 and f"\n{len(places)} rows in {2 * len(files)} files: {len(places)} failed, 0 files" in report
    with_byte, with_order = counts.values()
    tell(f"{with_byte} rows fail with a byte changed, {with_order} with something else wanted of an order")


# Why files can't be read, with the second lines of rows for which they can't, and with the words of records.
SECOND_LINES = {
    "no message has begun": ["PUTROOTFH"],
    "the row wants nothing": ["send null 7", "sweep 9 expired 0 kept 0"],
    "a word is no number": ["want compound 9 OK"],
    "the line goes on after its message": ["want compound 9 NFS4_OK 1", "want null 9 NFS4_OK", "take record 5"],
    "a lease is 1 to 86,400 seconds": [
        "lease 0",
        "lease 86401",
        "lease +5",
        "epoch 4294967296",
        "moment 1099511627774",
        "at 1099511627774",
        "at",
        "sweep 1099511627774 expired 0 kept 0",
        "revoke 1099511627774 none",
        "forget 1099511627774 none",
    ],
    "no sweep": [
        "sweep 9",
        "sweep 9 expired 0",
        "sweep 9 kept 0 expired 0",
        "sweep 9 expired one kept 0",
        "sweep 9 expired +0 kept 0",
        "sweep 9 expired 0 kept 0 1",
        "sweep 9 expired 0 kept 0 revoked",
        "sweep 9 expired 0 kept 0 revoked 0 1",
        "sweep 9 expired 0 kept 0 forgotten",
        "sweep 9 expired 0 kept 0 forgotten one",
        "sweep 9 expired 0 kept 0 forgotten 1 revoked 1",
    ],
    "no mark of a path": [
        "mark 1 up",
        "mark 1 done",
        "mark 1 sideways done",
        "mark 4294967296 up done",
        "mark 1 up not",
        "mark 1 up done 1",
    ],
    "no revocation": ["revoke 9", "revoke 9 state", "revoke 9 state one", "revoke 9 none 1"],
    "no forgetting": [
        "forget 9",
        "forget 9 owner 1",
        "forget 9 owner 1 A",
        'forget 9 owner A "A"',
        'forget 9 owner 1 "A" 1',
        "forget 9 none 1",
    ],
    "a text has no closing quote": ['forget 9 owner 1 "A'],
    "no recall that is taken": ["take", "take bytes"],
    "no number of recalls": ["pending", "pending 1 2", "pending +1"],
    "no client to be tried": ["probe", "probe 0 1", "probe 0 client", "probe 4294967296 none"],
    "no fault of a connection": ["fault input too short"],
}
WORDS = {
    "a word is no number": ["4294967296", "0x", "hex:123", "u64:18446744073709551616", "1*2*3", "+1", "u64:+1"],
    "a message above 1,048,576 bytes": ["1000000*1000000"],
}
# Lines of other files, with the number of the one at fault and why it can't be read.
BROKEN = [
    (["send null 7"], 1, "no row has begun"),
    (["row a", "  send null 7", "row b", "  want null 7"], 3, "the row wants nothing"),
    (["row a", "  want nothing", "  send compound 9", "    LOKUP"], 4, "a word is no number"),
    (["row a", "  want nothing", "  send compound 9", '    LOOKUP "a'], 4, "a text has no closing quote"),
    (["row a", "  want nothing", "  send record", "    1048576*hex:00", "    7"], 5, "a message above 1,048,576 bytes"),
    (["row a", "  want nothing", "  send packet 9"], 3, "no message"),
    (["row a", "  want nothing", "  send compound"], 3, "a message has no xid"),
    (["row a", "  want nothing", "  send compound 9 AUTH_SYS"], 3, "after the xid"),
    (["row a", "  want nothing", "  send record 1 CALL"], 3, "the line goes on after its message"),
    (["at 9"], 1, "no row has begun"),
    (["sweep 9 expired 0 kept 0"], 1, "no row has begun"),
    (["mark 1 up done"], 1, "no row has begun"),
    (["row a", "  take record", "  want nothing"], 3, "no recall that is taken"),
    (["row a", "  take record", "    hex:000005", "  want nothing"], 4, "no recall that is taken"),
    (["row a", "  take nothing", "    5", "  want nothing"], 3, "no message has begun"),
    (["row a", "  want nothing", "  take record", "    LOKUP"], 4, "a word is no number"),
    *[(["row a", f"  {line}"], 2, reason) for reason, lines in SECOND_LINES.items() for line in lines],
    *[
        (["row a", "  want nothing", "  send record", f"    {word}"], 4, reason)
        for reason, words in WORDS.items()
        for word in words
    ],
]


@needs_rows
def test_broken_lines(file_of, tell):
    paths = [file_of(f"{number}.rows", "\n".join(lines) + "\n") for number, (lines, _, _) in enumerate(BROKEN)]
    status, report = run(*paths)
    for path, (lines, at, reason) in zip(paths, BROKEN):
        assert f"\n{path}:{at}: {reason}" in f"\n{report}", lines
    count = len(BROKEN)
    assert status == 1 and report.endswith(f"\n0 rows in {count} files: 0 failed, {count} files not read\n")
    tell(f"{count} broken lines are told")


@needs_rows
def test_folders(path_of, file_of):
    """A folder that isn't there, one without rows, and a file that is no text."""
    status, report = run(path_of("missing"))
    assert status == 2 and report.startswith("rows: ")
    os.mkdir(path_of("empty"))
    assert run(path_of("empty")) == (1, "0 rows in 0 files: 0 failed, 0 files not read\n")
    path = file_of("bytes.rows", b"row \xff\n")
    status, report = run(path)
    assert status == 1 and report.startswith(f"{path}: ")


@pytest.fixture
def null_row(file_of):
    return file_of("null.rows", "row NULL\n  send null 7\n  want null 7\n")


def test_hex(null_row):
    """A row in hexadecimal, with nothing run."""
    call = "80000028000000070000000000000002000186a300000004" + "00000000" * 5
    reply = "800000180000000700000001" + "00000000" * 4
    assert run("--hex", null_row) == (0, f"row NULL\nsend {call}\nwant {reply}\n")


# A program in place of this one: it runs it, and changes the last byte that comes behind the end of the input, which is
# the journal's, where the state is shared.
OTHER_JOURNAL = """#!{python}
import os, subprocess, threading
head, has_ended = os.read(0, 4), threading.Event()
with subprocess.Popen(["{program}"], stdin=subprocess.PIPE, stdout=subprocess.PIPE, bufsize=0) as program:
    def relay():
        program.stdin.write(head)
        while more := os.read(0, 65536):
            program.stdin.write(more)
        has_ended.set()
        program.stdin.close()
    threading.Thread(target=relay).start()
    journal = b""
    while more := os.read(program.stdout.fileno(), 65536):
        if has_ended.is_set():
            journal += more
        else:
            os.write(1, more)
os.write(1, journal[:-1] + bytes([journal[-1] ^ int.from_bytes(head, "big")]))
"""


# Programs that aren't the one that is wanted; with what `tools/rows` reports of them.
PROGRAMS = {
    "no memory": ("#!/bin/sh\necho rows: out of memory >&2; exit 2\n", (2, "rows: out of memory\n"), ()),
    "ended": ("#!/bin/sh\nexit 7\n", (2, "rows: the program ends with status 7: \n"), ()),
    "other journal": (
        OTHER_JOURNAL.format(python=sys.executable, program=PROGRAM),
        (
            1,
            "{row}:1: NULL\n    the journal differs from that of a run without shared state\n"
            "1 rows in 1 files: 1 failed, 0 files not read\n",
        ),
        ("--shared",),
    ),
}


@needs_rows
@pytest.mark.parametrize("text, wanted, words", PROGRAMS.values(), ids=PROGRAMS)
def test_programs(text, wanted, words, null_row, file_of):
    status, report = wanted
    program = file_of("program", text)
    os.chmod(program, 0o755)
    assert run(*words, null_row, program=program) == (status, report.format(row=null_row))
