"""Statuses and reports of `tools/between` for a job, and what its --help begins with."""
import json
import os
import sys
from contextlib import ExitStack
from xml.etree import ElementTree

import pytest

from helpers.between_peers import Relay as Forwarding
from helpers.between_runs import Between, between_ends
from helpers.schemas import Schema
from nfs4tools import Outcome
from nfs4tools.messages import NULL, PUTROOTFH, call, compound, words
from nfs4tools.processes import Peer, TOP

SCHEMA = os.path.join(TOP, "docs/between.schema.json")

CLIENT = """
import socket, sys, time
peer = socket.create_connection((sys.argv[1], int(sys.argv[2])))
for data, count in {calls!r}:
    peer.sendall(data)
    peer.recv(count, socket.MSG_WAITALL)
time.sleep({seconds})
peer.close()
"""


def ran(server, *options, counts=(48,), seconds=0.0):
    """The status and the lines of the tool. Its command sends a call for each of these counts, waits each time for so
    many bytes, and ends its connection so many seconds after the last ones."""
    calls = [(compound(number, words(PUTROOTFH)), count) for number, count in enumerate(counts)]
    code = CLIENT.format(calls=calls, seconds=seconds)
    command = ["--to", "%s:%d" % server, *options, "--", sys.executable, "-c", code, "{host}", "{port}"]
    status, output, errors = between_ends(*map(str, command))
    assert errors.startswith("listening on 127.0.0.1:") and errors.count("\n") == 1, errors
    return status, output.splitlines()


def test_no_calls(server):
    """No call is a fault, unless it is allowed."""
    status, lines = ran(server, counts=())
    assert status == 1 and "no call passed" in lines
    assert ran(server, "--no-calls", counts=())[0] == 0
    assert ran(server)[0] == 0


def test_strict(server):
    """A client that hangs after split, and is ended then, has status 1 with --strict alone; a client that goes on has
    status 0."""
    for options, wanted in (((), 0), (("--strict",), 1)):
        status, lines = ran(server, "--rule", "split 6 PUTROOTFH 1", *options, counts=(68,), seconds=1.2)
        assert status == wanted, lines
        assert any("is ended by the client" in line for line in lines)
    assert ran(server, "--rule", "split 6 PUTROOTFH 1", "--strict", counts=(68, 48))[0] == 0


def test_strict_silence(server):
    """A client that says nothing more while its call is under way has status 1 with --strict alone."""
    for options, status in ((), 0), (("--strict",), 1):
        with Between(server, "hold 30 NULL 1", options=options) as between:
            silent = Peer(between.address)
            silent.send(call(1, NULL))
            between.wait_until_told("the reply is held")
        silent.socket.close()
        between.expect_told(status, told=["^1: the client says nothing more since$"])


RULES = ["--rule", "twice PUTROOTFH 2", "--rule", "lose-reply PUTROOTFH each 3", "--rule", "twice LOCK 1"]


def expect_by_schema(report):
    """The report is as the schema says, which has all outcomes."""
    schema = Schema(SCHEMA)
    assert schema.faults(report) == []
    assert list(report) == schema.all["required"]
    assert schema.all["$defs"]["outcome"]["properties"]["outcome"]["enum"] == [it.value for it in Outcome]


def test_json(server, tmp_path):
    """A report has each rule, how often it was met, and what came of each fault."""
    path = tmp_path / "report.json"
    status, lines = ran(server, *RULES, "--report", path, counts=(48, 48, 48))
    report = json.loads(path.read_text())
    expect_by_schema(report)
    assert status == 1 and report["verdict"] == "wrong"
    assert (report["calls"], report["faults"], report["wrong"], report["command"]) == (3, 2, 0, 0)
    assert [(it["rule"], it["calls"], it["met"], len(it["faults"])) for it in report["rules"]] == [
        ("twice PUTROOTFH 2", 3, 1, 1),
        ("lose-reply PUTROOTFH each 3", 3, 1, 1),
        ("twice LOCK 1", 0, 0, 0),
    ]
    faults = [fault for rule in report["rules"] for fault in rule["faults"]]
    assert [f"{it['number']}: {it['text']}" for it in faults] == [
        it for it in lines if "PUTROOTFH" in it and "->" in it
    ]
    assert [it["outcome"] for it in faults[0]["outcomes"]] == ["same-answer", "next-call"]
    assert [it["outcome"] for it in faults[1]["outcomes"]] == ["never-comes-again"]


def test_numbers(server, tmp_path):
    """The report counts connections, calls, faults, and the lines that are wrong or count with --strict, whether they
    are of a fault or not."""
    path = tmp_path / "report.json"
    rules, options = ("hold 30 NULL 1", "hold 30 PUTROOTFH 1", "twice LOCK 1"), ("--report", str(path))
    with Forwarding(server) as slow, ExitStack() as clients:
        with Between(slow.address, *rules, options=options) as between:
            hurries, silent, other = (clients.enter_context(Peer(between.address)) for _ in range(3))
            hurries.send(call(1, NULL))
            between.wait_until_told("^1: hold 30 NULL 1: ")
            hurries.send(call(1, NULL))
            silent.send(compound(2, words(PUTROOTFH)))
            between.wait_until_told("^2: hold 30 PUTROOTFH 1: ")
            slow.seconds = 5  # type: ignore[attr-defined]
            other.send(call(3, NULL) * 2)
            between.wait_until_told(r"^WRONG connection \d, NULL: comes again on its connection")
    report = json.loads(path.read_text())
    expect_by_schema(report)
    numbers = ("verdict", "connections", "calls", "faults", "wrong", "strict", "command")
    assert [report[name] for name in numbers] == ["wrong", 3, 5, 2, 2, 1, None]
    assert [(it["calls"], it["met"]) for it in report["rules"]] == [(2, 1), (1, 1), (0, 0)]
    faults = [fault for rule in report["rules"] for fault in rule["faults"]]
    outcomes = [(fault["number"], it) for fault in faults for it in fault["outcomes"]]
    assert [(number, it["outcome"]) for number, it in outcomes if it["wrong"]] == [(1, "comes-again-on-its-connection")]
    assert [(number, it["outcome"]) for number, it in outcomes if it["strict"]] == [(2, "silence")]
    assert [it["wrong"] for it in report["others"]] == [True]


def test_junit(server, tmp_path):
    """In JUnit each rule is a test case, which failed if it wasn't met."""
    path = tmp_path / "report.xml"
    assert ran(server, *RULES, "--report", path, counts=(48, 48, 48))[0] == 1
    suite = ElementTree.parse(path).getroot()[0]
    assert (suite.get("tests"), suite.get("failures")) == ("5", "1")
    failed = [case for case in suite if case.find("failure") is not None]
    assert [case.get("name") for case in failed] == ["twice LOCK 1"]
    assert failed[0].find("failure").get("message") == "never met (0 such calls)"
    assert ran(server, "--report", path, "--rule", "twice PUTROOTFH 1")[0] == 0
    assert ElementTree.parse(path).getroot()[0].get("failures") == "0"


def test_report_of_what_is_wrong(server, tmp_path):
    """WRONG lines of a rule are its failure; so are a command that fails, and no call."""
    path = tmp_path / "report.xml"
    status, _ = ran(server, "--rule", "hold 30 PUTROOTFH 1", "--report", path, counts=(0, 48))
    assert status == 0
    assert ran(server, "--report", path, counts=())[0] == 1
    names = [case.get("name") for case in ElementTree.parse(path).getroot()[0] if case.find("failure") is not None]
    assert names == ["calls"]


def test_wrong_report(server, tmp_path):
    status, output, errors = between_ends("--to", "%s:%d" % server, "--report", "report.txt")
    assert (status, output) == (2, "") and "a report ends in .json or .xml" in errors
    status, output, errors = between_ends(
        "--to", "%s:%d" % server, "--no-calls", "--report", str(tmp_path / "no/r.xml")
    )
    assert status == 1 and "No such file" in errors


def test_help():
    """--help begins with three whole commands, and has each status that is judged."""
    status, output, _ = between_ends("--help")
    lines = output.splitlines()
    assert status == 0 and lines[0].startswith("usage: between --to 127.0.0.1:2049 --rule 'lose-reply LOCK 1' -- ")
    assert all(line.startswith("       between --") for line in lines[1:3])
    for name in "DELAY GRACE RESOURCE EXPIRED STALE_CLIENTID STALE_STATEID BAD_STATEID ADMIN_REVOKED BAD_SEQID".split():
        assert any(line.startswith(f"    {name} ") for line in lines)
    assert all(
        word in output for word in ("CB_PATH_DOWN", "--strict", "--no-calls", "--report", "other-xid", "AUTH_TOOWEAK")
    )


@pytest.mark.parametrize("word, why", [("LOKC", 'no rule: "LOKC" is no operation, but LOCK is'), ("RENEW", "13.2")])
def test_refused_rule(word, why, model_server):
    status, output, errors = between_ends("--to", "%s:%d" % model_server, "--rule", f"answer DELAY {word} 1")
    assert (status, output) == (2, "") and why in errors
