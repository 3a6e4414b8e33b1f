"""The line before `fault: not a journal`: the file, the byte, and what was expected there."""
import subprocess
import sys

import pytest

from nfs4tools.messages import words
from nfs4tools.processes import PROGRAM, TOP
from program.program_runs import CLIENT_IDS, journal_of

pytestmark = pytest.mark.quick

OPENING = ": byte 0: a journal begins with NFSJRN02, NFSJRN03 or NFSJRC03, epoch, lease and policy"
WHOLE = journal_of(*CLIENT_IDS)
PADDED = WHOLE.replace(b"c1\0\0", b"c1\0\1")
FIRST, SECOND, THIRD = (len(it) for it in CLIENT_IDS)
# The opening has 28 bytes; the number of nodes, and the first node with its text `hello`, 36 more.
CASES = [
    (b"", OPENING),
    (b"NFS", OPENING),
    (b"#!/bin/sh\n", OPENING),
    (WHOLE[:24], OPENING),
    (WHOLE[:28], ": byte 28: expected the number of nodes"),
    (WHOLE[:40], ": byte 32: expected node 1 of 4"),
    (WHOLE[:66], ": byte 60: expected node 2 of 4"),
    (WHOLE[: -FIRST - SECOND - THIRD - 2], f": byte {len(WHOLE) - FIRST - SECOND - THIRD - 4}: expected the number of entries"),
    (WHOLE[:-1], f": byte {len(WHOLE) - THIRD}: expected entry 3 of 3"),
    (WHOLE[: -THIRD - 1], f": byte {len(WHOLE) - SECOND - THIRD}: expected entry 2 of 3"),
    (WHOLE + b"x", f": byte {len(WHOLE)}: expected the end behind the last entry"),
    (journal_of(words(9)), f": byte {len(journal_of())}: expected entry 1 of 1"),
    (PADDED, f": byte {PADDED.index(b'c1') + 3}: expected 0, as padding"),
    (journal_of(lease=0), ": lease, nodes or entries that no journal has"),
]  # fmt: skip


def audit(command, path):
    ran = subprocess.run([*command, path], stdin=subprocess.DEVNULL, capture_output=True, timeout=300)
    assert (ran.returncode, ran.stdout) == (1, b"")
    return ran.stderr.decode()


@pytest.mark.needs("nfs4state")
@pytest.mark.parametrize("data, reason", CASES)
def test_reasons(file_of, data, reason):
    path = file_of("j", data)
    assert audit([PROGRAM, "audit"], path) == f"{path}{reason}\nfault: not a journal\n"


@pytest.mark.parametrize("data, _reason", CASES)
def test_reasons_by_the_model(file_of, data, _reason):
    """The model has words of its own."""
    path = file_of("j", data)
    reason, fault = audit([sys.executable, f"{TOP}/tools/model/journal.py"], path).splitlines()
    assert reason.startswith(f"{path}: ") and fault == "fault: not a journal"


@pytest.mark.needs("nfs4state")
def test_no_end():
    """What is no journal by its first bytes isn't read to its end, which may be none."""
    assert audit([PROGRAM, "audit"], "/dev/zero") == f"/dev/zero{OPENING}\nfault: not a journal\n"
