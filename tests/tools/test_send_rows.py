"""`send_rows`, against servers that go on, the model and the program; and with a new server for each row.

By names all rows that need no server that has just been started pass, one after another, against one run of a server,
where they have few ids of clients; and against one of another epoch, with other files round those of the rows, by a
path and a uid, but for two rows that are known to differ, where the reports in the forms of TAP and JUnit say the same.
Each row with another status wanted fails, and leaves nothing. Rows that have to fail do, with the words that tell how.

Byte by byte, to the model: the portable rows, and those of some files, of which all pass; a row with another byte
wanted, which has to fail by its name; a row that sweeps leases, which is left out; and a port on which nothing listens.
With `nfs4state serve`, a new one for each row: all rows but those with orders, such as sweeps of leases; and rows that
have to fail, each for another reason."""
import os
import re
import socket
import subprocess
import sys
from contextlib import contextmanager
from functools import cache
from xml.etree import ElementTree

import pytest

from helpers.expecting_client import expect
from nfs4tools.journal.entries import Call
from nfs4tools.journal.partial import read_file
from nfs4tools.processes import PROGRAM, Served, TOP
from nfs4tools.rows.reading import File, files_of
from nfs4tools.rows.reports import read_known, title
from nfs4tools.wire import Opnum

DATA = os.path.join(TOP, "crates/rows/data")
# A server goes on until its input ends.
GOES_ON = ["--listen", "127.0.0.1:0", "--until-input-ends"]
MODEL = [sys.executable, os.path.join(TOP, "tools/model/serve.py"), *GOES_ON]
needs_program = pytest.mark.needs("nfs4state")
SERVERS = [
    pytest.param(MODEL, id="model"),
    pytest.param([PROGRAM, "serve", *GOES_ON], id="program", marks=needs_program),
]
# How many ids of clients a run of send_rows may have: each may be that of a live client until its lease is over.
IDS_LIMIT = 250
# How often a row is sent of which a reply is waited for a short while.
TIMES = 5
# In how many parts the files of rows are sent, where that shows the same.
PARTS = 2
# The seconds that a run of send_rows has, on however busy a machine.
PATIENCE = 600

TREE = """file = [{ path = "export/z" }, { path = "export/rows/z" }, { path = "export/rows/b" },
        { path = "export/rows/d/c" }, { path = "export/rows/a", text = "hello" }]
"""
KNOWN = """# By --uid a call without a credential is uid 100's, who isn't nobody; and this tree has a node 5.
credentials.rows: the principal is the uid
  It sends AUTH_NONE,
  and --uid has AUTH_SYS in its place.
putfh.rows: the handle of a node one past the last
  There are more nodes.
"""


@contextmanager
def serving(command):
    """The port of a server that runs meanwhile."""
    with Served(command, stdin=subprocess.PIPE) as served:
        yield str(served.port)
        served.end_input()
        expect("the status of a server", served.end()[0], 0)


@pytest.fixture
def port():
    """The port of a model that goes on."""
    with serving(MODEL) as number:
        yield number


@pytest.fixture(params=range(PARTS), ids="part {}".format)
def files(request):
    """The files of a part of the rows."""
    return list(files_of(DATA))[request.param :: PARTS]


def send(*words):
    """The status of send_rows, and what it prints, of which the end is shown where a test fails."""
    ran = subprocess.run(
        [sys.executable, os.path.join(TOP, "tools/send_rows"), *words],
        stdout=subprocess.PIPE,
        stderr=subprocess.STDOUT,
        text=True,
        timeout=PATIENCE,
    )
    print(ran.stdout[-10_000:])
    return ran.returncode, ran.stdout


def send_named(port, path, *words):
    return send("--names", *words, "127.0.0.1", port, path)


def rows_in(files):
    return [row for file in files for row in File(file).rows]


@cache
def all_rows():
    return rows_in(files_of(DATA))


def count_alone():
    return sum(row.is_alone for row in all_rows())


def ending(known=0):
    """What is told at last, where all rows are sent that can be."""
    told = f", {known} differ as is known" if known else ""
    return (
        f"{len(all_rows()) - count_alone()} rows: 0 failed{told}, {count_alone()} that need a server that has just "
        "been started are left out\n"
    )


# By names.


@pytest.mark.parametrize("command", SERVERS)
def test_all(command, path_of, tell):
    """All rows, one after another. By the journal the ids of their clients are few, though each row has its own
    verifiers, and its clients begin anew by others."""
    journal = path_of("journal")
    with serving([*command, "--journal", journal]) as port:
        assert send_named(port, DATA) == (0, ending())
    calls = [entry for entry in read_file(journal)[1] if isinstance(entry, Call)]
    clients = {entry.arguments[:2] for entry in calls if entry.opnum == Opnum.SETCLIENTID}
    count = len({name for _, name in clients})
    assert count <= IDS_LIMIT and len(clients) > 1000
    tell(f"{len(all_rows()) - count_alone()} rows by names, with {count} ids of clients")


def test_elsewhere(path_of, file_of):
    """Another epoch, other nodes, a path, a uid, known differences and reports."""
    tree, known = file_of("tree.toml", TREE), file_of("known", KNOWN)
    tap, junit = path_of("tap"), path_of("junit")
    with serving([*MODEL, "--epoch", "7", "--tree", tree]) as port:
        got = send_named(
            port, DATA, "--path", "export/rows", "--uid", "500", "--known", known, "--tap", tap, "--junit", junit
        )
    assert got == (0, ending(known=2))
    count, alone = len(all_rows()), count_alone()
    with open(tap, encoding="utf-8") as source:
        lines = source.read().split("\n")
    *kinds, sections = [
        sum(bool(re.search(kind, line)) for line in lines)
        for kind in ("^ok .* # SKIP", "^not ok", "^not ok .* # TODO", "^ok [0-9]+ - [^#]*$", "^# RFC 7530, ")
    ]
    assert lines[1] == f"1..{count}" and kinds == [alone, 2, 2, count - alone - 2]
    assert sections > (count - alone) // 2
    suite = ElementTree.parse(junit).getroot()
    cases = len(suite.findall("testcase")), len(suite.findall("testcase/skipped"))
    assert (suite.get("tests"), suite.get("failures"), cases) == (str(count), "0", (count, alone + 2))


def changed(text):
    """A row with another status of its last COMPOUND; or nothing, where it has none."""
    found = list(re.finditer("(?m)^  want compound [0-9]+ ([A-Z0-9_]+)$", text))
    return f"row {text[:found[-1].start(1)]}NFS4ERR_PERM{text[found[-1].end(1):]}" if found else ""


def test_changed(files, port, path_of, file_of, tell):
    """Each row with a status wanted at last that nothing has: it fails, and leaves nothing to those behind it."""
    for file in files:
        with open(file, encoding="utf-8") as source:
            rows = re.split("(?m)^row ", source.read())[1:]
        file_of(os.path.basename(file), "".join(map(changed, rows)))
    count = sum(not row.is_alone for row in rows_in(files_of(path_of(""))))
    status, said = send_named(port, path_of(""))
    told = said.count(": status of the COMPOUND wanted NFS4ERR_PERM, got ")
    assert status == 1 and f"\n{count} rows: {told} failed, " in said and told == count > 450 // PARTS
    status, said = send("--names", "127.0.0.1", port, *files)
    assert status == 0 and " rows: 0 failed, " in said
    tell(f"{told} rows with another status fail")


INTRODUCED = """
  send compound 1
    SETCLIENTID 1 2 "c" 0 "tcp" "127.0.0.1.3.232" 1
    SETCLIENTID_CONFIRM 1 1 u64:1
  want compound 1 NFS4_OK
    SETCLIENTID NFS4_OK 1 1 u64:1
    SETCLIENTID_CONFIRM NFS4_OK"""
OPENED = """
  send compound 2
    PUTROOTFH
    OPEN 1 3 3 1 1 "A" 0 0 "a"
  want compound 2 NFS4_OK
    PUTROOTFH NFS4_OK
    OPEN NFS4_OK 1 1 1 7 1 u64:0 u64:0 6 0 0"""
# Rows that have to fail, with what is said of them; each that opens a file keeps all others from it.
WRONG = [
    (
        "sections RFC 7530, 16.16, 9.1.4" + INTRODUCED + OPENED.replace("OPEN NFS4_OK 1", "OPEN NFS4_OK 2"),
        "(RFC 7530, 16.16, 9.1.4)\n    call 2, OPEN: seqid wanted 2, got 1\n",
    ),
    (INTRODUCED + OPENED.replace("6 0 0", "4 0 0"), "call 2, OPEN: rflags wanted 4, got 6\n"),
    (
        INTRODUCED + OPENED + OPENED.replace(" 1 1 1 7 ", " 1 1 1 8 "),
        "call 3, OPEN: stateid wanted a new one (the row's 1 1 8), got ",
    ),
    (
        INTRODUCED
        + OPENED
        + """
  send compound 3
    PUTROOTFH
    LOOKUP "a"
    CLOSE 2 1 1 1 8
  want compound 3 NFS4_OK
    PUTROOTFH NFS4_OK
    LOOKUP NFS4_OK
    CLOSE NFS4_OK 2 1 1 8""",
        "call 3, CLOSE: status wanted NFS4_OK, got NFS4ERR_BAD_STATEID\n",
    ),
    (
        INTRODUCED + INTRODUCED.replace("u64:1", "u64:2").replace("OK 1 1", "OK 1 2"),
        "call 2, SETCLIENTID: clientid wanted a new one (the row's 1 2), got ",
    ),
    (
        INTRODUCED.replace("_CONFIRM 1 1 u64:1", "_CONFIRM 1 1 u64:3"),
        "call 1, SETCLIENTID_CONFIRM: status wanted NFS4_OK, got NFS4ERR_STALE_CLIENTID\n",
    ),
    (
        """send compound 1
    PUTROOTFH
    GETFH
  want compound 1 NFS4_OK
    PUTROOTFH NFS4_OK
    GETFH NFS4_OK 8 0x6e666831 1""",
        "call 1, GETFH: filehandle wanted ",
    ),
    (
        """send compound 1
    PUTROOTFH
  want compound 1 NFS4_OK
    PUTROOTFH NFS4_OK
    GETFH NFS4_OK 8 0x6e666831 0""",
        "call 1, operation 2: wanted GETFH, got no result\n",
    ),
    ("send null 1\n  want compound 1 NFS4_OK", "call 1: number of results wanted 0, got none\n"),
    (
        """send arguments 1
    0 1 0
  want compound 1 NFS4_OK""",
        "call 1: status of the COMPOUND wanted NFS4_OK, got NFS4ERR_MINOR_VERS_MISMATCH\n",
    ),
    ("send bytes\n    0x80040001 1\n  want null 1", "call 1: the connection ends without a reply\n"),
    ("send null 1\n  want null 1\n  want null 2", "    after the last call: no reply\n"),
]
RIGHT = """row it passes
  send null 1
  want null 1
row by itself
  alone # A comment.
  send null 1
  want nothing
"""


def test_wrong(port, file_of):
    """Rows that have to fail, by their words, and rows that are left out."""
    text = "".join(f"row wrong {number}\n  {row}\n" for number, (row, _) in enumerate(WRONG)) + RIGHT
    path = file_of("wrong.rows", text)
    status, said = send_named(port, path)
    for number, (_, words) in enumerate(WRONG):
        assert re.search(rf": wrong {number}( .*)?\n", said) and words in said
    assert status == 1 and said.endswith(
        f"\n{len(WRONG) + 1} rows: {len(WRONG)} failed, 1 that need a server that has "
        "just been started are left out\n"
    )
    assert send_named(port, path, "--only", "it passes") == (0, "1 rows: 0 failed\n")
    got = send_named(port, path, "--only", "no such row")
    assert got == (1, "send_rows: there is no row 'no such row'\n")
    known = file_of("better", "wrong.rows: it passes\n  Not so.\n")
    status, said = send_named(port, path, "--only", "it passes", "--known", known)
    assert status == 0 and "it passes, though it is known to differ\n" in said
    got = send_named(port, path, "--path", "d")
    assert got == (1, "send_rows: /d/a can't be found: LOOKUP is NFS4ERR_NOENT\n")


def test_in_vain(port, file_of):
    path = file_of("vain.rows", "row of no call\n  send record\n    1\n  want null 1\n")
    status, said = send_named(port, path, "--patience", "1")
    assert status == 1 and "call 1: no reply within 1 s\n" in said and said.endswith("1 rows: 1 failed\n")


def test_unwanted(port, file_of):
    """A reply that isn't wanted may come later than it is waited for, though not each time."""
    path = file_of("unwanted.rows", "row of a reply\n  send null 1\n  want nothing\n")
    came = (send_named(port, path) for _ in range(TIMES))
    status, said = next((got for got in came if got[0] != 0), (0, ""))
    assert status == 1 and "    after the last call: a reply that isn't wanted\n" in said


REFUSED = {
    "no RFC": ("rows", "sections 16.16\nrow a\n  want nothing\n", ":1: no sections: "),
    "no section": ("rows", "row a\n  sections RFC 7530\n  want nothing\n", ":2: no sections: "),
    "alone": ("rows", "row a\n  alone now\n  want nothing\n", ":2: the line goes on after its message\n"),
    "known": ("known", "# A comment.\nit passes\n", ":2: no row: `FILE.rows: NAME`\n"),
}


@pytest.mark.parametrize("kind, text, words", REFUSED.values(), ids=REFUSED)
def test_refused(kind, text, words, file_of):
    """Lines that can't be read, of rows and of known differences."""
    path, right = file_of(f"refused.{kind}", text), file_of("right.rows", RIGHT)
    status, said = send("127.0.0.1", "1", *([path] if kind == "rows" else [right, "--known", path]))
    assert status == 1 and said.startswith(f"send_rows: {path}{words}")


def test_other_server():
    """The rows that another server is known to answer otherwise are there."""
    assert set(read_known(os.path.join(TOP, "tools/ganesha.known"))) <= {
        title(row) for row in all_rows() if not row.is_alone
    }


# Byte by byte.


def test_plain(port, file_of):
    """Without names a row that comes again fails, by words."""
    path = file_of("plain.rows", f"row c{INTRODUCED}\n")
    assert send("127.0.0.1", port, path) == (0, "1 rows: 0 failed\n")
    status, said = send("127.0.0.1", port, path)
    assert status == 1
    assert "    call 1, SETCLIENTID: confirm verifier wanted 1, got 2\n      word  wanted    got\n" in said


OTHER_BYTE = "row of another reply\n  rule None.\n  send null 7\n  want null 8\n"
SWEEP = "row NULL\n  send null 7\n  want null 7\nrow of a sweep\n  want nothing\n  sweep 9 expired 1 kept 0\n"


def test_model(file_of):
    with Served(
        [
            sys.executable,
            os.path.join(TOP, "tools/model/serve.py"),
            "--each",
            "--until-killed",
            "--listen",
            "127.0.0.1:0",
        ]
    ) as served:
        server = "127.0.0.1", str(served.port)
        files = [f"{DATA}/{name}.rows" for name in ("rpc", "lookup", "open", "lock")]
        for words in ["--portable", *server, DATA], [*server, *files]:
            status, said = send(*words)
            assert status == 0 and said.endswith(" rows: 0 failed\n")
        status, said = send(*server, file_of("byte.rows", OTHER_BYTE))
        assert status == 1 and ": of another reply\n" in said and said.endswith("1 rows: 1 failed\n")
        got = send(*server, file_of("sweep.rows", SWEEP))
        assert got == (0, "1 rows: 0 failed, 1 with orders left out\n")


def test_no_server():
    """Nobody else can listen on a port that is bound here."""
    with socket.socket() as bound:
        bound.bind(("127.0.0.1", 0))
        port = str(bound.getsockname()[1])
        got = send("127.0.0.1", port, f"{DATA}/rpc.rows")
    assert got == (1, f"send_rows: nothing listens on 127.0.0.1 port {port}\n")


# With a server for each row.


def is_refused(row):
    """Whether it wants its tree refused."""
    return any((connection.fault or "").startswith("tree refused") for connection in row.connections)


@needs_program
def test_alone(files, tell):
    rows = rows_in(files)
    sent = [row for row in rows if not row.is_ordering]
    refused = sum(map(is_refused, sent))
    told = f"{len(sent)} rows: 0 failed, {len(rows) - len(sent)} with orders left out"
    told += f"; {refused} of them want their tree refused" if refused else ""
    assert send("--serve", f"{PROGRAM} serve", *files) == (0, f"{told}\n")
    tell(told)


# Rows that have to fail by their names: of a reply that doesn't come, of one that isn't wanted, also where no reply is
# waited for; of a fault that there isn't, of another one, of one that isn't wanted; of a tree that is taken, and of one
# that is refused otherwise or without being wanted so; and of another lease and epoch.
NULL, TOO_LONG = "  send null 7\n", "  send bytes\n    0x80040001\n  want nothing\n"
TAKEN, REFUSED_TREE = (f'  tree [[file]]\n  tree path = "{path}"\n' for path in ("a", ".."))
WRONG_ALONE = {
    "another reply": NULL + "  want null 8\n",
    "no reply": NULL + "  want null 7\n  want null 8\n",
    "more replies": NULL + "  send null 8\n  want null 7\n",
    "nothing wanted": NULL + "  want nothing\n",
    "no fault": NULL + "  want null 7\n  fault record too long\n",
    "another fault": TOO_LONG + "  fault input ends inside a record\n",
    "a fault": TOO_LONG,
    "a tree that is taken": TAKEN + NULL + "  want nothing\n  fault tree refused (1)\n",
    "another refusal": REFUSED_TREE + NULL + "  want nothing\n  fault tree refused (1)\n",
    "a tree that is refused": REFUSED_TREE + NULL + "  want null 7\n",
    "another lease": """  lease 91
  send compound 9
    PUTROOTFH
    GETATTR 1 0x400
  want compound 9 NFS4_OK
    PUTROOTFH NFS4_OK
    GETATTR NFS4_OK 1 0x400 4 90
""",
}


@needs_program
def test_wrong_alone(file_of):
    path = file_of("wrong.rows", "".join(f"row {name}\n{lines}" for name, lines in WRONG_ALONE.items()))
    status, said = send("--serve", f"{PROGRAM} serve", path)
    assert [name for name in WRONG_ALONE if f": {name}\n" not in said] == []
    wanted = f"{len(WRONG_ALONE)} rows: {len(WRONG_ALONE)} failed; 2 of them want their tree refused\n"
    assert status == 1 and said.endswith(wanted)


def test_no_beginning(file_of):
    """A server that doesn't begin."""
    path = file_of("right.rows", OTHER_BYTE.replace("want null 8", "want null 7"))
    status, said = send("--serve", "false", path)
    assert status == 1 and ": of another reply\n" in said
