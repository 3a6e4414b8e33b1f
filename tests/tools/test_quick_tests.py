"""`tools/quick_tests`: the model passes, and so does the program. A model with a changed rule, a program whose audit
says lawful of anything, and a run with too little time fail, and are told as what they are."""
import os
import re
import shutil
import subprocess
import sys

import pytest

from nfs4tools.processes import PROGRAM, TOP
from nfs4tools.quick.samples import SAMPLES
from nfs4tools.rows.reading import File, files_of
from nfs4tools.send.servers import is_refused

needs_program = pytest.mark.needs("nfs4state")
DATA = os.path.join(TOP, "crates/rows/data")
NAME = "the server of this test"
PARTS = "rows by the model", "rows over TCP", "samples", "journals", "changed journals"
# The model's server, by which no open keeps another one out.
WITHOUT_SHARES = """from nfs4tools.model.operations import open
from nfs4tools.model.serve import main

open.conflict = lambda *shares: False
main()
"""
# The program, but its audit says lawful of whatever it reads.
SAYS_LAWFUL = """#!/bin/sh
[ "$1" = audit ] && { echo "lawful: 5 entries"; exit 0; }
exec "$PROGRAM" "$@"
"""
# The seconds that the tests may have, on however busy a machine.
PATIENCE = 600


def run_tests(*words):
    """Their status, their lines, and by the name of each part how many passed and failed."""
    command = [sys.executable, os.path.join(TOP, "tools/quick_tests"), "--named", NAME, *words]
    environment = {**os.environ, "PYTHONPATH": os.path.join(TOP, "tools/src"), "PROGRAM": PROGRAM}
    ran = subprocess.run(
        command, stdout=subprocess.PIPE, stderr=subprocess.STDOUT, text=True, timeout=2 * PATIENCE, env=environment
    )
    print(ran.stdout)
    found = re.findall(r"(?m)^(.*): (\d+) passed, (\d+) failed", ran.stdout)
    return ran.returncode, ran.stdout, {part: (int(passed), int(failed)) for part, passed, failed in found}


def expect_sums(said, counts):
    """The last line has the sums, and the server's name."""
    passed, failed = map(sum, zip(*counts.values()))
    assert re.fullmatch(rf"{passed} passed, {failed} failed in \d+ s: {NAME}", said.splitlines()[-1])


@pytest.fixture
def few_rows(tmp_path):
    """A folder with a file of rows, of which each needs what a server has for OPEN."""
    shutil.copy(os.path.join(DATA, "open.rows"), tmp_path)
    return ["--rows", str(tmp_path)]


def expect_all(words, tell):
    status, said, counts = run_tests(*words, "--seconds", str(PATIENCE))
    assert status == 0 and tuple(counts) == PARTS
    assert all(passed and not failed for passed, failed in counts.values())
    expect_sums(said, counts)
    tell(said.splitlines()[-1].removesuffix(f": {NAME}"))
    return counts


def test_model(tell):
    server = f"{sys.executable} {TOP}/tools/model/serve.py"
    expect_all(["--server", server, "--kind", "model"], tell)


@needs_program
def test_program(tell):
    """Each row that can be sent is, and each but those with a refused tree leaves a journal."""
    counts = expect_all(["--server", f"{PROGRAM} serve"], tell)
    rows = [row for file in files_of(DATA) for row in File(file).rows]
    assert counts["rows by the model"][0] == len(rows)
    sent = [row for row in rows if not row.is_ordering]
    assert counts["rows over TCP"][0] == len(sent)
    assert counts["journals"][0] == sum(not is_refused(row) for row in sent) + len(SAMPLES)


@needs_program
def test_also(few_rows, tmp_path):
    """The server gets the rows of a folder, and another one those of this tree."""
    server = f"{PROGRAM} serve"
    status, said, counts = run_tests("--server", server, *few_rows, "--also", server, "--seconds", str(PATIENCE))
    assert status == 0 and counts["rows over TCP"] == (sendable_in(tmp_path), 0)
    assert counts["rows of this tree over TCP"] == (sendable_in(DATA), 0)
    expect_sums(said, counts)


def sendable_in(folder):
    return sum(not row.is_ordering for file in files_of(str(folder)) for row in File(file).rows)


def test_wrong_model(few_rows, file_of):
    """The rows and the sample that are answered otherwise fail, and their journals aren't lawful."""
    server = f"{sys.executable} {file_of('wrong.py', WITHOUT_SHARES)}"
    status, said, counts = run_tests("--server", server, "--kind", "model", *few_rows)
    assert status == 1 and "two owners of one file" in said and "wrong answer at entry 4\n" in said
    assert [bool(failed) for _, failed in counts.values()] == [False, True, True, True, True]
    expect_sums(said, counts)


@needs_program
def test_wrong_audit(few_rows, file_of):
    path = file_of("says_lawful", SAYS_LAWFUL)
    os.chmod(path, 0o755)
    status, said, counts = run_tests("--server", f"{path} serve", *few_rows)
    assert status == 1
    assert [bool(failed) for _, failed in counts.values()] == [False, False, False, True, True]
    assert counts["changed journals"][0] == 0
    expect_sums(said, counts)


def test_late():
    status, said, counts = run_tests("--seconds", "0.01")
    assert status == 1 and counts == {}
    late = "rows by the model: not done in time: all parts together have 0.01 s (--seconds)"
    assert re.fullmatch(rf"{re.escape(late)}\n0 passed, 1 failed in \d+ s: {NAME}\n", said)


@pytest.mark.parametrize(
    "words, fault",
    [
        (["--server", "/nowhere/nfs4state serve"], "there is no program /nowhere/nfs4state"),
        (["--server", "true"], "the server is `true`, whose last word isn't `serve`: --kind model?"),
        (["--rows", "/nowhere"], "there is no folder /nowhere"),
    ],
)
def test_words(words, fault):
    status, said, _ = run_tests(*words)
    assert status == 2 and said.endswith(f"quick_tests: error: {fault}\n")
