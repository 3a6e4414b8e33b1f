"""What tools/judge prints and writes, and its statuses: text, JSON by docs/verdict.schema.json, JUnit's XML; what
--allow, --warnings and --require change; beginnings, journals with an entry that can't follow, and files that are no
journals. And what a right client may do about recalls, and about a clientid that is dead."""
import json
import os
import subprocess
import sys
import time
from xml.etree import ElementTree

import pytest

from helpers.schemas import Schema
from nfs4tools.journal.journal import Recorder, journal_bytes
from nfs4tools.judge.command import run
from nfs4tools.judge.findings import SORTS, Severity
from nfs4tools.model.tree import Node, Policy, tree_of
from nfs4tools.processes import PATIENCE, TOP
from nfs4tools.wire import (
    Callback,
    Claim,
    Close,
    Getattr,
    Open,
    OpenConfirm,
    OpenOwner,
    Openhow,
    Opnum,
    Read,
    Setclientid,
    SetclientidConfirm,
    Stateid,
    Status,
)

pytestmark = pytest.mark.quick
SCHEMA = os.path.join(TOP, "docs/verdict.schema.json")
CALLBACK = Callback(0x40000000, b"tcp", b"127.0.0.1.8.1", 1)
PRINCIPAL, FILE = (1, 500), 1
# A journal of so many entries is judged in so much time.
LONG, SECONDS = 100000, 20


class Server:
    """A server on one file, with the calls of clients that are tried here."""

    def __init__(self, delegations="none"):
        tree = tree_of([Node(0, b"a", True, b"hello")], Policy(delegations, "assume", "free", "plain"))
        self.server = Recorder(tree, 90, 1)

    def call(self, opnum, arguments, filehandle=FILE):
        return self.server.apply(opnum, arguments, filehandle, PRINCIPAL)

    def introduce(self, name, verifier=bytes(8)):
        """The number of a new client."""
        given = self.call(Opnum.SETCLIENTID, Setclientid(verifier, name, CALLBACK), None).rest
        number, confirm = int.from_bytes(given[4:8], "big"), int.from_bytes(given[8:16], "big")
        self.call(Opnum.SETCLIENTID_CONFIRM, SetclientidConfirm(1, number, confirm), None)
        return number

    def open(self, client, seqid):
        claim = Claim(0, b"a", None)
        return self.call(Opnum.OPEN, Open(seqid, 3, 0, OpenOwner(1, client, b"A"), Openhow(0, None, None), claim), 0)

    def begin(self, client):
        """The client's owner opens the file and is confirmed: the stateid."""
        number = int.from_bytes(self.open(client, 1).rest[12:16], "big")
        self.call(Opnum.OPEN_CONFIRM, OpenConfirm(Stateid(1, 1, client, number), 2))
        return Stateid(2, 1, client, number)

    def close(self, stateid, seqid):
        return self.call(Opnum.CLOSE, Close(seqid, stateid))

    def bytes(self):
        return journal_bytes(self.server.journal())


def right():
    """A client that does right."""
    server = Server()
    server.close(server.begin(server.introduce(b"right")), 3)
    return server


def wrong():
    """Two clients: `left` leaves an open, and `skips` skips a sequence id; and a call that names none."""
    server = Server()
    server.begin(server.introduce(b"left"))
    skips = server.begin(server.introduce(b"skips"))
    assert server.close(skips, 7).status == Status.BAD_SEQID
    server.close(skips, 3)
    server.call(Opnum.GETATTR, Getattr((1,)))
    return server


def kept(had_recall=lambda server, keeps: server.server.mark_path(keeps, 1)):
    """`keeps` had the recall of its delegation, and another client meets DELAY for it at two moments."""
    server = Server("all")
    keeps, other = server.introduce(b"keeps"), server.introduce(b"other")
    server.begin(keeps)
    server.open(keeps, 3)
    assert server.open(other, 1).status == Status.DELAY
    had_recall(server, keeps)
    server.server.moment = 2
    assert server.open(other, 2).status == Status.DELAY
    return server


def restarted(*, reads_again):
    """A client that begins anew while a READ of it is under way; it may read the same bytes by its new open."""
    server = Server()
    before = server.begin(server.introduce(b"anew"))
    client = server.introduce(b"anew", b"verifier")
    assert server.call(Opnum.READ, Read(before, 0, 5)).status == Status.EXPIRED
    opened = server.begin(client)
    if reads_again:
        server.call(Opnum.READ, Read(opened, 0, 5))
    server.close(opened, 3)
    return server


def names_of(text, severity="error"):
    """The findings of this severity in a verdict."""
    return [words[1] for words in map(str.split, text.splitlines()) if words[0] == severity]


@pytest.fixture
def judge(file_of, monkeypatch, capsys):
    """Runs the command on bytes, with these options: its status, and what it printed, on both outputs."""

    def run_on(data, *options, name="run.journal"):
        monkeypatch.setattr(sys, "argv", ["judge", *options, file_of(name, data)])
        try:
            status = run()
        except SystemExit as ended:
            status = ended.code
        return status, *capsys.readouterr()

    return run_on


def faults_by_schema(fields):
    return Schema(SCHEMA).faults(fields)


# Statuses.


def test_right(judge):
    status, text, _ = judge(right().bytes())
    assert (status, text.splitlines()[-1]) == (0, "verdict: right")
    assert text.splitlines()[0] == (
        'client "right": 5 calls on the state, 1 open, 0 locks, 0 delegations, 0 retransmissions'
    )


def test_wrong(judge):
    status, text, _ = judge(wrong().bytes())
    lines = text.splitlines()
    assert (status, lines[-1]) == (1, "verdict: 1 error, 1 warning")
    heads = [line.partition(":")[0] for line in lines if line[:1] != " "]
    assert heads == ['client "left"', 'client "skips"', "of no client", "verdict"]
    found = [line for line in lines if line.startswith("  ") and line[2] != " "]
    assert found[0].startswith("  warning open-left (RFC 7530, 9.10), at the end, with entry 2: ")
    assert found[1].startswith("  error sequence-id-skipped (RFC 7530, 9.1.7), entry 8, with entry 7: ")
    assert len(found) == 2


@pytest.mark.parametrize(
    "options, status",
    [
        (["--warnings"], 1),
        (["--allow", "sequence-id-skipped"], 0),
        (["--allow", "sequence-id-skipped=skips"], 0),
        (["--allow", "sequence-id-skipped=left"], 1),
        (["--allow", "sequence-id-skipped="], 1),
        (["--allow", "sequence-id-skipped", "--warnings"], 1),
        (["--allow", "sequence-id-skipped", "--warnings", "--allow", "open-left=left"], 0),
        (["--allow", "sequence-id-skipped", "--require", "client-restarted"], 1),
        (["--allow", "sequence-id-skipped", "--require", "uncounted-bad-seqid"], 0),
        (["--allow", "no-such-finding"], 2),
        (["--require", "no-such-situation"], 2),
        (["--report", "report.txt"], 2),
    ],
)
def test_terms(options, status, judge):
    assert judge(wrong().bytes(), *options)[0] == status


def test_warnings_alone(judge):
    status, text, _ = judge(wrong().bytes(), "--allow", "sequence-id-skipped")
    assert (status, text.splitlines()[-1]) == (0, "verdict: right, 1 warning")
    assert "  allowed error sequence-id-skipped " in text


def test_required(judge):
    status, text, _ = judge(right().bytes(), "--require", "client-restarted")
    assert (status, text.splitlines()[-1]) == (1, "verdict: 1 error, 0 warnings")
    assert text.splitlines()[-2].startswith("error: client-restarted (RFC 7530, ")


# Files.


@pytest.mark.parametrize("data", [b"", b"NFS", b"no journal at all", right().bytes() + b"\0"])
def test_no_journal(data, judge):
    status, _, fault = judge(data)
    assert status == 2 and fault.startswith("fault: not a journal: ")


def test_no_file(path_of, monkeypatch, capsys):
    monkeypatch.setattr(sys, "argv", ["judge", path_of("no such file")])
    assert run() == 2
    assert capsys.readouterr().err.startswith("fault: file not read")


def test_beginnings(judge):
    """Any beginning that has the whole head is judged, and says how it ends."""
    data = wrong().bytes()
    status, text, _ = judge(data[:-1], name="run.journal.part")
    assert status == 1
    assert "\nthe file ends inside entry 10, of which it has " in text
    assert 'client "skips": 6 calls' in text and "of no client" not in text


def test_end_of_a_beginning(judge):
    """At the end of a beginning a client may still do what it hasn't done yet."""
    assert judge(kept().bytes())[0] == 1
    server = kept()
    server.call(Opnum.GETATTR, Getattr((1,)))
    status, text, _ = judge(server.bytes()[:-1])
    assert status == 0 and "  warning delegation-not-returned " in text


def test_wrong_answer(judge):
    """What comes before an entry that can't follow is judged, and the status is that of no journal."""
    server = right()
    entries = server.server.recorded
    entries[4] = entries[4]._replace(answer=entries[4].answer._replace(status=Status.OLD_STATEID, rest=b""))
    status, text, fault = judge(server.bytes())
    assert (status, fault) == (2, "fault: wrong answer at entry 4\n")
    assert 'client "right": 4 calls' in text


# JSON, and reports.


@pytest.mark.parametrize("make", [right, wrong, kept])
@pytest.mark.parametrize("cut", [0, 1, 40])
def test_schema(make, cut, judge):
    data = make().bytes()
    status, text, _ = judge(data[: len(data) - cut], "--json", "--require", "client-restarted")
    fields = json.loads(text)
    assert faults_by_schema(fields) == []
    assert (fields["verdict"], fields["missing"], status) == ("wrong", ["client-restarted"], 1)


def test_wrong_fields(judge):
    """What the schema doesn't allow is found."""
    _, text, _ = judge(wrong().bytes(), "--json")
    for change, fault in (
        (lambda it: it.update(errors="1"), ".errors: '1' is no integer"),
        (lambda it: it.update(errors=-1), ".errors: -1 is below 0"),
        (lambda it: it.update(verdict="Right"), ".verdict: 'Right' is none of ['right', 'wrong']"),
        (lambda it: it.update(more=1), ".more has no schema"),
        (lambda it: it.pop("missing"), ".missing is missing"),
        (lambda it: it["clients"][0].update(situations=[]), ".clients[0].situations: [] is no object"),
        (
            lambda it: it["clients"][0]["situations"].update({"lock-split": 0}),
            ".clients[0].situations.lock-split: 0 is below 1",
        ),
        (
            lambda it: it["clients"][0]["findings"][0].update(severity=None),
            ".clients[0].findings[0].severity: None is none of ['error', 'warning']",
        ),
    ):
        fields = json.loads(text)
        change(fields)
        assert faults_by_schema(fields) == [fault]


def test_json(judge, path_of):
    _, text, _ = judge(wrong().bytes(), "--json", "--allow", "open-left", "--report", path_of("verdict.json"))
    with open(path_of("verdict.json"), encoding="utf-8") as source:
        assert source.read() == text
    fields = json.loads(text)
    assert (fields["errors"], fields["warnings"], fields["entries"], fields["ends"]) == (1, 0, 11, None)
    assert [it["name"] for it in fields["clients"]] == ["left", "skips", None]
    left, skips, _ = [it["findings"] for it in fields["clients"]]
    assert [(it["finding"], it["severity"], it["entries"], it["others"], it["allowed"]) for it in left] == [
        ("open-left", "warning", [], [2], True)
    ]
    assert [(it["finding"], it["severity"], it["entries"], it["allowed"]) for it in skips] == [
        ("sequence-id-skipped", "error", [8], False)
    ]


def cases_of(path):
    """The cases of a report by their classes and names, with the elements in each."""
    suites = ElementTree.parse(path).getroot()
    assert [suites.tag, *(it.tag for it in suites)] == ["testsuites", "testsuite"]
    return suites[0], {(it.get("classname"), it.get("name")): [child.tag for child in it] for it in suites[0]}


def test_junit(judge, path_of):
    options = "--report", path_of("verdict.xml"), "--require", "client-restarted", "--require", "uncounted-bad-seqid"
    judge(wrong().bytes(), *options)
    suite, cases = cases_of(path_of("verdict.xml"))
    counts = [suite.get(name) for name in ("tests", "failures", "errors", "skipped")]
    assert counts == [str(3 * len(SORTS) + 2), "2", "0", "1"]
    assert {key: found for key, found in cases.items() if found} == {
        ('client "left"', "open-left"): ["skipped"],
        ('client "skips"', "sequence-id-skipped"): ["failure"],
        ("required situations", "client-restarted"): ["failure"],
    }


def test_junit_of_warnings(judge, path_of):
    judge(wrong().bytes(), "--report", path_of("verdict.xml"), "--warnings", "--allow", "sequence-id-skipped")
    _, cases = cases_of(path_of("verdict.xml"))
    assert {key: found for key, found in cases.items() if found} == {('client "left"', "open-left"): ["failure"]}


def test_unwritten_report(judge, path_of):
    status, _, fault = judge(right().bytes(), "--report", path_of("no folder/verdict.xml"))
    assert status == 2 and "not written" in fault


# What a right client may do.


def new_callback(server, keeps):
    """What a mark says then is of the new callback."""
    assert server.introduce(b"keeps") == keeps
    server.server.mark_path(keeps, 1)


@pytest.mark.parametrize(
    "had_recall", [lambda server, keeps: None, lambda server, keeps: server.server.mark_path(keeps, 0), new_callback]
)
def test_recall_that_may_not_have_come(had_recall, judge):
    """A client that may not have had the recall isn't to blame, also if the delegation is revoked and used."""
    server = kept(had_recall)
    assert names_of(judge(server.bytes())[1]) == []
    assert server.server.revoke(100) is not None
    server.call(Opnum.READ, Read(Stateid(1, 1, 1, 2), 0, 5))
    text = judge(server.bytes())[1]
    assert names_of(text) == [] and "recall-not-answered" in names_of(text, "warning")


def test_revoked(judge):
    """Uses of a delegation that was revoked are entries of one finding."""
    server = kept()
    assert server.server.revoke(100) is not None
    server.call(Opnum.READ, Read(Stateid(1, 1, 1, 2), 0, 5))
    text = judge(server.bytes())[1]
    assert names_of(text) == ["delegation-not-returned"]
    assert "  error delegation-not-returned (RFC 7530, 10.4.6), entries 10, 11, with entries 6, 7: " in text


def test_dead_clientid(judge):
    assert names_of(judge(restarted(reads_again=False).bytes())[1]) == ["continues-with-dead-clientid"]
    assert names_of(judge(restarted(reads_again=True).bytes())[1]) == []


# How long it takes.


def long_run(entries):
    """Clients that open the file, read it and close it, one after the other, until there are so many entries."""
    server = Server()
    clients = [server.introduce(b"%d" % number) for number in range(20)]
    stateids = [server.begin(client) for client in clients]
    seqid = 3
    while server.server.entries < entries:
        server.server.moment += 1
        for place, client in enumerate(clients):
            for _ in range(8):
                server.call(Opnum.READ, Read(stateids[place], 0, 5))
            server.close(stateids[place], seqid)
            opened = server.open(client, seqid + 1).rest
            stateids[place] = Stateid(1, 1, client, int.from_bytes(opened[12:16], "big"))
        seqid += 2
    return server


@pytest.mark.alone
def test_time(judge, tell):
    data, begun = long_run(LONG).bytes(), time.process_time()
    status, text, _ = judge(data)
    seconds = time.process_time() - begun
    tell(f"{LONG} entries are judged in {seconds:.1f} s of processor time")
    assert (status, names_of(text)) == (0, []) and seconds < SECONDS


# The table of findings, and the command itself.


def test_sorts():
    """Errors come before warnings, each with what a right client does in a sentence."""
    severities = [it.severity for it in SORTS.values()]
    assert severities == sorted(severities, key=lambda it: it == Severity.WARNING)
    assert all(it.advice.endswith(".") and it.section and name == it.name for name, it in SORTS.items())


def test_command(file_of):
    command = os.path.join(TOP, "tools/judge")
    ran = subprocess.run(
        [sys.executable, command, "--tried", "--words", file_of("run.journal", wrong().bytes())],
        capture_output=True,
        text=True,
        timeout=PATIENCE,
    )
    assert ran.returncode == 1 and "situations were met:" in ran.stdout and "CLOSE 7 2 1 2 2 -> " in ran.stdout
    listed = subprocess.run([sys.executable, command, "--situations"], capture_output=True, text=True, timeout=PATIENCE)
    assert listed.returncode == 0 and listed.stdout.startswith("setclientid-repeated (RFC 7530, ")
