"""The tests on docs/SUITES.md run as they stand there, by the program and by the model."""
import os
import re
import subprocess
import sys

import pytest

from nfs4tools.client.server import MODEL, environment
from nfs4tools.processes import PROGRAM, TOP

pytestmark = pytest.mark.quick

with open(os.path.join(TOP, "docs/SUITES.md"), encoding="utf-8") as page:
    BLOCKS = re.findall(r"^```python\n(.*?)^```", page.read(), re.M | re.S)
NAMES = [re.search(r"def (\w+)", block)[1] for block in BLOCKS]
# The lines that the first one has at most, with its imports.
LINES = 20


def test_page():
    assert NAMES == ["test_shares", "test_sequence_id", "test_recall", "test_lease", "test_lost_reply"]
    assert BLOCKS[0].count("\n") <= LINES


def cases():
    for name in NAMES:
        yield pytest.param(name, PROGRAM, id=f"{name}-program", marks=pytest.mark.needs("nfs4state"))
        yield pytest.param(name, "/no program", id=f"{name}-model")


def environment_of(program):
    return environment() | {"NFS4STATE": program}


def expect_server(program):
    """The library serves with this program in this environment, or with the model if it isn't there."""
    code = "from nfs4tools.client.server import command_here; print(*command_here())"
    command = [sys.executable, "-c", code]
    said = subprocess.run(command, env=environment_of(program), stdout=subprocess.PIPE, check=True, text=True).stdout
    wanted = [program, "serve"] if os.path.isfile(program) else MODEL
    assert said.strip() == " ".join(wanted)


@pytest.mark.parametrize("name, program", cases())
def test_example(name, program, tmp_path):
    expect_server(program)
    path = tmp_path / f"{name}.py"
    path.write_text(BLOCKS[NAMES.index(name)], encoding="utf-8")
    ran = subprocess.run(
        [sys.executable, "-m", "pytest", "-q", "-p", "no:cacheprovider", path],
        cwd=tmp_path,
        env=environment_of(program),
        stdout=subprocess.PIPE,
        stderr=subprocess.STDOUT,
        text=True,
        timeout=120,
    )
    assert ran.returncode == 0 and re.search(r"\b1 passed", ran.stdout), ran.stdout
