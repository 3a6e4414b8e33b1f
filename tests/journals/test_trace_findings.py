"""What tools/judge finds in a trace: RENEWs by another clientid, or by a clientid that isn't confirmed, and renewals that
come late; of right clients it finds nothing, also of those that restart, reconnect, share a connection, or were there
before the trace. It judges a trace alone, from the model or from `tools/between` before either server, and with a
journal both. Then what it prints and writes, its statuses, and files that are no traces."""
import json
import os
import sys
import time
from xml.etree import ElementTree

import pytest

from helpers.traced_plays import ANOTHER, CASES, LATE, Play, UNCONFIRMED, begun
from nfs4tools.client import operations as op
from nfs4tools.client.client import Client
from nfs4tools.client.operations import Clientid
from nfs4tools.client.server import Listening, MODEL, Server
from nfs4tools.judge.command import run
from nfs4tools.judge.findings import SORTS, TRACE_SORTS
from nfs4tools.judge.verdicts import with_trace
from nfs4tools.processes import PROGRAM, TOP
from nfs4tools.trace.reader import read_trace

BETWEEN = [sys.executable, os.path.join(TOP, "tools/between")]
SERVERS = {"model": MODEL, "program": [PROGRAM, "serve"]}
KINDS = [pytest.param("model"), pytest.param("program", marks=pytest.mark.needs("nfs4state"))]


def played(play_case, path):
    play = Play(path, play_case.lease, play_case.told)
    play_case.play(play)
    return play


def name_of(client):
    return client and client.decode()


def found_in(path):
    """The findings in a trace, by the names of their clients."""
    verdict = with_trace(None, read_trace(path))
    return [(name_of(it.client), each.sort.name) for it in verdict.clients for each in it.findings]


@pytest.fixture
def judge(monkeypatch, capsys):
    """Runs the command with these words: its status, and what it printed, on both outputs."""

    def run_with(*words):
        monkeypatch.setattr(sys, "argv", ["judge", *words])
        try:
            status = run()
        except SystemExit as ended:
            status = ended.code
        return status, *capsys.readouterr()

    return run_with


# Cases.


def test_each_finding_has_a_case():
    assert {name for each in CASES for _, name in each.found} == set(TRACE_SORTS) == {ANOTHER, UNCONFIRMED, LATE}
    assert not TRACE_SORTS.keys() & SORTS.keys()
    assert sum(not each.found for each in CASES) > 10


@pytest.mark.quick
@pytest.mark.parametrize("play_case", CASES, ids=lambda each: each.play.__name__)
def test_case(play_case, path_of):
    played(play_case, path_of("run.trace"))
    assert sorted(found_in(path_of("run.trace"))) == sorted(play_case.found)


@pytest.mark.quick
def test_two_thirds(path_of):
    """Exactly two thirds of a lease aren't late, and a moment more is."""
    for seconds, is_late in ((59.99, False), (60.01, True)):
        play = Play(path_of("run.trace"))
        guest = begun(play)
        guest.open("a")
        play.wait(seconds)
        guest.renew()
        assert found_in(path_of("run.trace")) == [("right", LATE)] * is_late


@pytest.mark.quick
def test_ids_that_are_no_text(path_of, judge):
    """A client's id may be any bytes; it is the same one in the trace as in the journal."""
    play = Play(path_of("run.trace"))
    guest = play.guest(b'q"\\ \xff\x00 \xc3\xa9')
    guest.begin()
    guest.renew_by((7, 7))
    with open(path_of("run.journal"), "wb") as out:
        out.write(play.journal())
    status, text, _ = judge("--json", "--trace", path_of("run.trace"), path_of("run.journal"))
    client, nobody = json.loads(text)["clients"]
    assert (status, client["calls"], client["trace"]) == (1, 2, {"operations": 2, "renewals": 0})
    assert (nobody["name"], nobody["trace"]) == (None, {"operations": 1, "renewals": 1})
    assert [it["finding"] for it in client["findings"]] == [ANOTHER]


# By servers, through between.


def renew_another(client, other):
    client.open("a")
    return client.raw([op.renew(other.clientid)])


def renew_before(client, _):
    given = client.raw([op.setclientid(b"another.", client.id, client.callback)]).check().results[0].value
    return client.raw([op.renew(Clientid(given.epoch, given.client))])


def renew_late(client, _):
    client.open("a")
    time.sleep(8.5)
    return client.raw([op.renew(client.clientid)])


def renew_in_time(client, other):
    file = client.open("a")
    client.renew()
    other.renew()
    client.close(file)
    client.restart()
    client.renew()


@pytest.mark.parametrize("kind", KINDS)
@pytest.mark.parametrize(
    "does, lease, findings",
    [
        (renew_in_time, 60, []),
        (renew_another, 60, [ANOTHER]),
        (renew_before, 60, [UNCONFIRMED]),
        (renew_late, 12, [LATE]),
    ],
    ids=lambda value: getattr(value, "__name__", None),
)
def test_servers(kind, does, lease, findings, path_of, judge):
    """The same client at both servers, through between: the trace is enough, and with the journal both are judged."""
    trace, journal, words = path_of("run.trace"), path_of("run.journal"), ("--lease", str(lease))
    with Server(*words, journal=journal, command=SERVERS[kind]) as server:
        options = "--listen", "127.0.0.1:0", "--to", "%s:%d" % server.address, *words, "--trace", trace
        with Listening(*BETWEEN, *options) as between:
            with Client(between.host, between.port, "other") as other, Client(
                between.host, between.port, "this"
            ) as client:
                other.begin()
                client.begin()
                does(client, other)
    assert found_in(trace) == [("this", name) for name in findings]
    status, text, _ = judge("--json", "--trace", trace)
    errors = [name for name in findings if name != LATE]
    assert (status, json.loads(text)["errors"]) == (int(errors != []), len(errors))
    alone = json.loads(judge("--json", journal)[1])
    both = json.loads(judge("--json", "--trace", trace, journal)[1])
    assert both["entries"] == alone["entries"] > 0 and both["trace"]["lines"] > 8
    for one, two in zip(alone["clients"], both["clients"], strict=True):
        names = [each["finding"] for each in two["findings"]]
        assert names == [each["finding"] for each in one["findings"]] + findings * (two["name"] == "this")


def test_model_trace(path_of):
    """What the model itself writes says the same."""
    path = path_of("run.trace")
    with Server("--trace", path, command=MODEL) as server:
        with Client(*server.address, "other") as other, Client(*server.address, "this") as client:
            other.begin()
            client.begin()
            renew_another(client, other)
    assert found_in(path) == [("this", ANOTHER)]


# What is printed and written.


def wrong(path):
    """A trace with each of the three findings, of one client, and a second client without any."""
    play = Play(path)
    other, guest = begun(play, "other"), play.guest("wrong")
    clientid, confirm = guest.introduce()
    guest.renew_by(clientid)
    guest.begin()
    guest.open("a")
    play.wait(70)
    guest.renew()
    guest.renew_by(other.clientid)
    guest.renew_by(other.clientid)
    return play


TEXT = """\
client "other": 4 operations in the trace, 2 of them RENEW
client "wrong": 7 operations in the trace, 2 of them RENEW
  error renews-before-confirm (RFC 7530, 16.28), line 8 of the trace, with line 7: RENEW has clientid 1:2, which line 7 \
gave, and which isn't confirmed yet
    8: 0.000700 s, connection 2, xid 0x00000002: RENEW clientid=1:2 -> NFS4ERR_STALE_CLIENTID
    A right client sends RENEW only after SETCLIENTID_CONFIRM: an unconfirmed clientid has no lease.
  warning renewed-late (RFC 7530, 9.5), line 18 of the trace, with line 16: RENEW comes 70.0 s after the last renewal, \
and two thirds of the lease of 90 s are 60.0 s
    18: 70.001700 s, connection 2, xid 0x00000007: RENEW clientid=1:258 -> NFS4_OK
    A client that renews its lease when two thirds of it are over has time left to send a lost RENEW again.
  error renews-another-clientid (RFC 7530, 16.28), lines 20, 22 of the trace, with line 3: RENEW has clientid 1:1, which \
line 3 gave to client "other"
    20: 70.001900 s, connection 2, xid 0x00000008: RENEW clientid=1:1 -> NFS4_OK
    A right client sends RENEW with the clientid that its last confirmed SETCLIENTID was given, and with no other.
verdict: 2 errors, 1 warning
"""


@pytest.mark.quick
def test_text(path_of, judge):
    wrong(path_of("run.trace"))
    assert judge("--trace", path_of("run.trace")) == (1, TEXT, "")


@pytest.mark.quick
def test_terms(path_of, judge):
    path = path_of("run.trace")
    wrong(path)
    allowed = "--allow", UNCONFIRMED, "--allow", f"{ANOTHER}=wrong"
    assert judge("--trace", path, *allowed)[0] == 0
    assert judge("--trace", path, *allowed, "--warnings")[0] == 1
    assert judge("--trace", path, *allowed, "--warnings", "--allow", LATE)[0] == 0
    assert judge("--trace", path, "--allow", UNCONFIRMED, "--allow", f"{ANOTHER}=other")[0] == 1


@pytest.mark.quick
def test_reports(path_of, judge):
    wrong(path_of("run.trace"))
    _, text, _ = judge("--trace", path_of("run.trace"), "--json", "--report", path_of("verdict.xml"))
    fields = json.loads(text)
    assert fields["entries"] == 0 and fields["trace"] == {"lines": 23, "ends": None}
    (found,) = [it for it in fields["clients"][1]["findings"] if it["finding"] == ANOTHER]
    assert (found["entries"], found["lines"], found["other_lines"]) == ([], [20, 22], [3])
    suite = ElementTree.parse(path_of("verdict.xml")).getroot()[0]
    cases = {(it.get("classname"), it.get("name")): [child.tag for child in it] for it in suite}
    assert len(cases) == 2 * len(TRACE_SORTS)
    assert cases['client "wrong"', ANOTHER] == cases['client "wrong"', UNCONFIRMED] == ["failure"]
    assert cases['client "wrong"', LATE] == ["skipped"] and cases['client "other"', LATE] == []


@pytest.mark.quick
def test_with_a_journal(path_of, judge):
    """Findings of both, and each client once."""
    play = wrong(path_of("run.trace"))
    with open(path_of("run.journal"), "wb") as out:
        out.write(play.journal())
    status, text, _ = judge("--trace", path_of("run.trace"), path_of("run.journal"), "--report", path_of("v.xml"))
    lines = text.splitlines()
    assert status == 1 and lines[-1] == "verdict: 2 errors, 2 warnings"
    assert [line for line in lines if line.startswith('client "wrong": ')] == [
        'client "wrong": 5 calls on the state, 1 open, 0 locks, 0 delegations, 0 retransmissions; '
        "7 operations in the trace, 2 of them RENEW"
    ]
    assert "  warning open-left (RFC 7530, 9.10), at the end, with entry 5: " in text
    suite = ElementTree.parse(path_of("v.xml")).getroot()[0]
    assert len(suite) == 2 * (len(SORTS) + len(TRACE_SORTS))


# Files.


@pytest.mark.quick
def test_beginnings(path_of, file_of, judge):
    """A trace that ends inside a line is judged up to there."""
    wrong(path_of("run.trace"))
    with open(path_of("run.trace"), "rb") as source:
        data = source.read()
    for cut in (1, 30):
        status, text, _ = judge("--trace", file_of("cut.trace", data[:-cut]))
        assert status == 1 and text.splitlines()[-2] == "the trace ends in line 23, which isn't whole"
    assert judge("--trace", file_of("head.trace", data[: data.index(b"\n") + 1]))[:2] == (0, "verdict: right\n")


HEAD = b'{"time":1,"event":"trace","version":1,"by":"x","lease":90}\n'


@pytest.mark.quick
@pytest.mark.parametrize(
    "data, fault",
    [
        (b"", "it has no whole line"),
        (HEAD[:-1], "it has no whole line"),
        (b"NFSJRN03\n", "line 1 is no JSON"),
        (b"[]\n", "line 1 is no object of JSON"),
        (b"{}\n", 'line 1 isn\'t that of a trace, which has "event":"trace"'),
        (HEAD.replace(b":1,", b":2,").replace(b'time":2', b'time":1'), "line 1 has version 2; this reader has 1"),
        (HEAD.replace(b"90", b"0"), "line 1 has no lease, which is a number of seconds"),
        (HEAD + b"\xff\n", "line 2 is no JSON"),
        (HEAD + b'{"event":"call"}\n', 'line 2: it has no "time"'),
        (HEAD + b'{"time":1,"event":5}\n', 'line 2: "event" is no str'),
        (HEAD + b'{"time":1,"event":"call","operations":[1]}\n', "line 2: an operation is no object of JSON"),
    ],
)
def test_no_trace(data, fault, file_of, judge):
    path = file_of("run.trace", data)
    assert judge("--trace", path) == (2, "", f"fault: not a trace: {fault}: {path}\n")


@pytest.mark.quick
def test_options(path_of, judge):
    assert judge("--trace", path_of("none"))[0::2] == (2, f"fault: file not read: {path_of('none')}\n")
    assert judge()[0] == 2
    wrong(path_of("run.trace"))
    for option in ("--tried",), ("--require", "lock-denied"):
        status, _, fault = judge("--trace", path_of("run.trace"), *option)
        assert status == 2 and "--tried and --require need JOURNAL" in fault
