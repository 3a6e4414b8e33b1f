"""The suite of samples/suite passes for its client, with the program and with the model; and it fails for each of its
broken clients, by the test that tries what is broken, with the reason, and the judge names the fault."""
import os
import re
import subprocess
import sys
import time
from typing import NamedTuple

import pytest

from helpers.server_helpers import Late, tried_again
from nfs4tools.client.server import environment
from nfs4tools.processes import PROGRAM, TOP

pytestmark = pytest.mark.quick

# The suite, how many tests it has, and in how many seconds they pass.
SUITE, TESTS, SECONDS = os.path.join(TOP, "samples/suite"), 10, 3
# What NFS4STATE is: of a program that isn't there the model takes the place.
SERVERS = [
    pytest.param(PROGRAM, id="program", marks=pytest.mark.needs("nfs4state")),
    pytest.param("/no program", id="model"),
]


class Broken(NamedTuple):
    """A broken client: the test that fails, what pytest prints of it, and what the judge finds in its journal."""

    name: str
    test: str
    reason: str
    finding: str


BROKEN = [
    Broken("SkipsIdAfterDelay", "test_waits_for_a_delegation", "NFS4ERR_BAD_SEQID", "error sequence-id-skipped"),
    Broken("KeepsFirstLockStateid", "test_locks", "NFS4ERR_OLD_STATEID", "error stateid-old"),
    Broken("NeverRenews", "test_renews", "NFS4ERR_EXPIRED", "error lease-lapsed"),
    Broken(
        "IgnoresRecalls", "test_returns_a_delegation", "the delegation was revoked", "error delegation-not-returned"
    ),
    Broken("Reclaims", "test_begins_anew", "NFS4ERR_NO_GRACE", "warning reclaim-without-grace"),
]


def run_suite(program, *words, **variables):
    """The status of the suite, and what it prints."""
    ran = subprocess.run(
        [sys.executable, "-m", "pytest", "-p", "no:cacheprovider", SUITE, *words],
        env=environment() | {"NFS4STATE": program} | variables,
        stdout=subprocess.PIPE,
        stderr=subprocess.STDOUT,
        text=True,
        timeout=300,
    )
    return ran.returncode, ran.stdout


@pytest.fixture(params=SERVERS)
def program(request):
    return request.param


@pytest.mark.alone
@pytest.mark.needs("nfs4state")
@tried_again
def test_time(tell):
    """With the program the suite takes less than so many seconds, from the start of pytest."""
    begun = time.monotonic()
    status, printed = run_suite(PROGRAM)
    took = time.monotonic() - begun
    assert status == 0, printed
    if took >= SECONDS:
        raise Late(f"the suite takes {took:.1f} seconds")
    tell(f"the suite took {took:.1f} s")


def test_right_client(program):
    status, printed = run_suite(program)
    assert status == 0 and re.search(rf"\b{TESTS} passed", printed), printed


@pytest.mark.parametrize("broken", BROKEN, ids=[it.name for it in BROKEN])
def test_broken_client(program, broken, tmp_path):
    client = {"SUITE_CLIENT": f"broken_clients:{broken.name}", "SUITE_JOURNALS": str(tmp_path)}
    status, printed = run_suite(program, "-k", broken.test, **client)
    assert status == 1 and f"FAILED samples/suite/test_client.py::{broken.test} " in printed, printed
    assert broken.reason in printed, printed
    judge = [sys.executable, os.path.join(TOP, "tools/judge"), str(tmp_path / f"{broken.test}.journal")]
    verdict = subprocess.run(judge, stdout=subprocess.PIPE, text=True)
    assert verdict.returncode == 1 and f"{broken.finding} " in verdict.stdout, verdict.stdout
