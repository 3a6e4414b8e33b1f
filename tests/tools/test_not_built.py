"""If a program isn't built, no tool and no test builds or proves it: a tool says in a line what is missing and what to
do, with status 2; a test is skipped, or fails with --all-built. And which program is run, of those that may be
there."""
import os
import subprocess
import sys

import pytest

from helpers import needs
from nfs4tools import built
from nfs4tools.processes import PATIENCE, TOP

pytestmark = pytest.mark.quick
# Stands in place of the toolchain, and leaves a file if it is started.
TOOLCHAIN = '#!/bin/sh\ntouch "$STARTED"\nexit 1\n'
# What a folder of tests has in common with the gate's.
HOOKS = "from helpers.needs import pytest_addoption, pytest_runtest_setup\n"
# The tools that run a program, each with words with which it needs nothing else, and the program.
TOOLS = [
    ("rows", "rows"),
    ("dev/stress", "nfs4state"),
    ("dev/stress", "rows"),
    ("dev/fuzz_serve", "nfs4state"),
    ("dev/fuzz", "rows"),
]


@pytest.fixture
def nothing_built(path_of, file_of):
    """An environment that names programs which aren't there, and has a toolchain that tells whether it was started."""
    os.mkdir(path_of("bin"))
    os.chmod(file_of("bin/rt", TOOLCHAIN), 0o755)
    file_of("nfs4state", "")
    environment = {**os.environ, "PATH": f"{path_of('bin')}:{os.environ['PATH']}", "STARTED": path_of("started")}
    yield environment
    assert not os.path.exists(path_of("started")), "the toolchain was started"


def run(command, environment):
    ran = subprocess.run(
        [sys.executable, *command],
        env=environment,
        stdin=subprocess.DEVNULL,
        capture_output=True,
        text=True,
        timeout=PATIENCE,
    )
    return ran.returncode, ran.stdout, ran.stderr


@pytest.mark.parametrize("tool, program", TOOLS)
def test_tools(tool, program, nothing_built, path_of):
    missing = path_of("missing")
    found = {name.upper(): missing if name == program else path_of("nfs4state") for name in (built.SERVER, built.ROWS)}
    name = os.path.basename(tool)
    line = f"{name}: there is no program {missing}, which {program.upper()} names\n"
    assert run([os.path.join(TOP, "tools", tool)], {**nothing_built, **found}) == (2, "", line)


def test_bytes_need_no_program(nothing_built, path_of):
    row = os.path.join(TOP, "samples/two_owners.rows")
    environment = {**nothing_built, "ROWS": path_of("missing")}
    status, shown, errors = run([os.path.join(TOP, "tools/rows"), "--hex", row], environment)
    assert (status, errors) == (0, "") and shown.startswith("row two owners of one file\nsend 8")


@pytest.fixture
def top(tmp_path, monkeypatch):
    """A repository's folder with nothing in it, and an environment that names no program."""
    monkeypatch.setattr(built, "TOP", str(tmp_path))
    monkeypatch.setattr(needs, "TOP", str(tmp_path))
    for name in built.SERVER, built.ROWS:
        monkeypatch.delenv(name.upper(), raising=False)
    return tmp_path


def put(path):
    """A file is there."""
    path.parent.mkdir(parents=True, exist_ok=True)
    path.touch()


def test_order(top, monkeypatch):
    """The file that the environment names comes first, then a proved program, then another."""
    proved, unproved = top / "crates/rows/out/rows", top / "out/unproved/rows"
    assert built.program_path("rows") == str(proved)
    assert built.lack_of(str(proved)) == (
        "crates/rows/out/rows is not built: ./start --build rows, or `rt run` in " "crates/rows (a proof)"
    )
    assert built.lack_of(built.program_path("nfs4state")) == (
        "crates/nfs4state/out/nfs4state is not built: ./start --build, or `rt run` in crates/nfs4state (a proof)"
    )
    put(unproved)
    assert built.program_path("rows") == str(unproved) and built.lack_of(str(unproved)) is None
    put(proved)
    assert built.program_path("rows") == str(proved)
    put(top / "named")
    monkeypatch.setenv("ROWS", str(top / "named"))
    assert built.program_path("rows") == str(top / "named")


def test_reasons(top, monkeypatch):
    """Why tests are skipped, and that they aren't if all is there."""
    names = "nfs4state", "rows", "table_tests", "proved", "rt"
    why = [needs.why_not(name) for name in names]
    assert why == ["not built: ./start --build", "not built: ./start --build rows", *["not proved here: .ci/run"] * 3]
    for path in "nfs4state/out/nfs4state", "rows/out/rows", "table_tests/out/table_tests_tests", "xdr/out/rlib/stamp":
        put(top / "crates" / path)
    put(top / "rt")
    os.chmod(top / "rt", 0o755)
    monkeypatch.setenv("PATH", str(top))
    assert [needs.why_not(name) for name in names] == [None] * 5


def collect(environment, *words):
    """How a run of tests that need a program begins."""
    command = ["-m", "pytest", "-p", "no:xdist", os.path.join(TOP, "tests/program/test_limits.py"), *words]
    status, said, errors = run(command, {**os.environ, **environment})
    return status, said + errors


def test_missing_with_all_built(path_of, file_of):
    """No test is skipped then: the run doesn't begin, as it doesn't with another program than the proved one."""
    named = {"NFS4STATE": path_of("missing"), "ROWS": path_of("missing")}
    for words in [], ["--all-built"]:
        line = f"ERROR: there is no program {path_of('missing')}, which NFS4STATE names\n\n"
        assert collect(named, *words) == (4, line)
    there = {"NFS4STATE": file_of("other", ""), "ROWS": file_of("other", "")}
    status, said = collect(there, "--all-built")
    assert status == 4 and said.endswith(f"the tests would run {path_of('other')}\n\n")


def test_skipped_or_failed(file_of, path_of):
    """A test that needs what isn't there is skipped with the reason, or fails with it, by the gate's own hooks."""
    file_of("test_it.py", "import pytest\n\n\n@pytest.mark.needs('no_tests')\ndef test_it():\n    assert False\n")
    file_of("conftest.py", HOOKS)
    command = ["-m", "pytest", "-p", "no:xdist", "-p", "no:cacheprovider", "-rs", path_of("test_it.py")]
    environment = {
        **os.environ,
        "PYTHONPATH": os.pathsep.join(os.path.join(TOP, it) for it in ("tools/src", "tools", "tests")),
    }
    status, said, _ = run(command, environment)
    assert status == 0 and "1 skipped" in said and "not proved here: .ci/run" in said
    status, said, _ = run([*command, "--all-built"], environment)
    assert status == 1 and "not proved here: .ci/run" in said and "1 error" in said
