"""`samples/ci_job.sh`, a job that tests a client: it passes with one that is right, and fails with one that isn't, and
says why. Beside it `./start` finds the program, or the independent model alone."""
import os
import re
import subprocess

import pytest

from helpers.start_folders import is_named, room_for
from helpers.wrong_rows import WRONG_ID
from nfs4tools.processes import PROGRAM

CLIENT = ["tools/send_rows", "--names", "{host}", "{port}"]
RIGHT_ROWS = "samples/two_owners.rows"
NO_CALL = "ci_job.sh: no call on the state came\n"


@pytest.fixture(
    params=[pytest.param(PROGRAM, id="program", marks=pytest.mark.needs("nfs4state")), pytest.param(None, id="model")]
)
def run_job(request, tmp_path):
    """Runs the job with this client, in a minute or in so many seconds: its status, what it prints, and what it says on
    standard error."""
    room = tmp_path / "room"
    room.mkdir()
    room_for(str(room), request.param)

    def run(client, seconds=60):
        sample = room / "samples/ci_job.sh"
        if seconds != 60:
            text = sample.read_text()
            assert text.count("--seconds 60") == 1
            sample = room / "hurried/ci_job.sh"
            sample.parent.mkdir()
            sample.write_text(text.replace("--seconds 60", f"--seconds {seconds}"))
        ran = subprocess.run(
            ["sh", str(sample), str(tmp_path / "run.journal"), *client],
            cwd=room,
            capture_output=True,
            text=True,
            timeout=300,
        )
        assert is_named(ran.stderr, request.param), ran.stderr
        return ran.returncode, ran.stdout, ran.stderr

    return run


def test_right_client(run_job, tmp_path):
    status, output, told = run_job([*CLIENT, RIGHT_ROWS])
    assert (status, output) == (0, "1 rows: 0 failed\n" * 3), told
    assert "start: lawful: 24 entries\n" in told and "\nverdict: right" in told
    assert os.path.exists(tmp_path / "run.journal")


def test_client_that_fails(run_job):
    """The first client that fails ends the job, which has the client's status."""
    status, output, told = run_job(["sh", "-c", f"{' '.join(CLIENT)} {RIGHT_ROWS}; exit 3"])
    assert (status, output) == (3, "1 rows: 0 failed\n"), told
    assert "start: the command ended with status 3\n" in told


def test_client_that_goes_on(run_job):
    status, output, told = run_job(["sleep", "1000"], seconds=1)
    assert (status, output) == (124, ""), told
    assert "start: the command took more than 1 seconds\n" in told


def test_client_that_ignores_its_end(run_job):
    """It is killed."""
    status, output, told = run_job(["sh", "-c", "trap : TERM; while :; do sleep 1; done"], seconds=1)
    assert status == 124 and output == "", told
    assert f"start: the command ended with status {status}\n" in told


def test_client_that_calls_nothing(run_job):
    status, output, told = run_job(["true"])
    assert (status, output) == (1, "")
    assert told.endswith("start: lawful: 0 entries\nverdict: right\n" + NO_CALL)


def test_client_that_is_wrong(run_job, tmp_path):
    (tmp_path / "wrong.rows").write_text(WRONG_ID)
    status, output, told = run_job([*CLIENT, str(tmp_path / "wrong.rows")])
    assert (status, output) == (1, "1 rows: 0 failed\n" * 3)
    assert told.count("  error sequence-id-skipped (RFC 7530, 9.1.7), entry ") == 3
    assert re.search(r"\nverdict: 3 errors, [0-9]+ warnings\n$", told)
