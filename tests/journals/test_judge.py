"""`tools/judge` on the journals of two small clients at a server: one makes just one mistake, and the verdict on it has
the finding of this name, and no other error but those of the refusals that it follows; the other does right beside it,
and the verdict on it has none. Each case is played at the model, and at the program over TCP."""
import json
import os
import subprocess
import sys

import pytest

from helpers.judge_cases_held import CASES, LENDING_SHORT, SHORT
from helpers.judge_servers import ROOMS, Setting, guest
from nfs4tools.journal.journal import verdict
from nfs4tools.judge.findings import SORTS
from nfs4tools.processes import PROGRAM, TOP
from nfs4tools.program import bytes_of

pytestmark = pytest.mark.quick
JUDGE = [sys.executable, os.path.join(TOP, "tools/judge")]


def played(case, room, path):
    """Plays a case at a server of this kind; its journal is lawful."""
    with ROOMS[room](path, case.setting) as server:
        wrong, right = guest(server, b"wrong"), guest(server, b"right")
        case.play(server, wrong, right)
        for client in [right] + [wrong] * case.leaves:
            client.do(client.leaving())
    is_lawful, line = verdict(bytes_of(path))
    assert is_lawful, line


def judged(path, *options):
    """The verdict on a journal, and the status."""
    ran = subprocess.run([*JUDGE, "--json", *options, path], stdout=subprocess.PIPE, stderr=subprocess.PIPE, text=True)
    assert ran.returncode in (0, 1) and ran.stderr == "", ran
    return json.loads(ran.stdout), ran.returncode


def findings_of(found, severity, *names):
    """The names of the findings of these clients that have this severity; calls that name no client have no name."""
    return sorted(
        each["finding"]
        for client in found["clients"]
        if client["name"] in names
        for each in client["findings"]
        if each["severity"] == severity
    )


@pytest.mark.needs("nfs4state")
def test_program(path_of):
    """Where a case is played at the program, that is what runs."""
    with ROOMS["program"](path_of("run.journal"), Setting()) as server:
        served = getattr(server, "served")
        assert os.path.samefile(f"/proc/{served.program.pid}/exe", PROGRAM)


def test_each_finding_has_a_case():
    assert {case.finding for case in CASES} == set(SORTS)
    assert all(SORTS[case.finding].severity.value in (case.severity, "error") for case in CASES)


@pytest.mark.parametrize("room", ["model", pytest.param("program", marks=pytest.mark.needs("nfs4state"))])
@pytest.mark.parametrize("case", CASES, ids=lambda case: f"{case.finding}-{case.play.__name__}")
def test_case(case, room, path_of):
    path = path_of("run.journal")
    played(case, room, path)
    found, status = judged(path)
    wanted = [case.finding, *case.also] if case.severity == "error" else []
    assert findings_of(found, "error", "wrong", None) == sorted(wanted), found
    assert case.finding in findings_of(found, case.severity, "wrong", None), found
    assert [findings_of(found, severity, "right") for severity in ("error", "warning")] == [[], []], found
    assert (found["errors"], status) == (len(wanted), int(wanted != [])), found


def test_cases_that_wait():
    """Leases that end are those of cases that need it alone, so that the others are fast."""
    slow = {case.finding for case in CASES if case.setting in (SHORT, LENDING_SHORT)}
    assert slow == {"lease-lapsed", "continues-with-dead-clientid", "delegation-not-returned", "recall-not-answered"}
