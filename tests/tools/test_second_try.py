"""Tests that fail beside others are run again if they are few: if they pass then, the run passes and names them."""
import os
import subprocess
import sys

import pytest

from nfs4tools.processes import PATIENCE, TOP

pytestmark = pytest.mark.quick
HOOKS = """\
import pytest
from helpers import needs, second_try


def pytest_addoption(parser):
    needs.pytest_addoption(parser)
    second_try.add_option(parser)


def pytest_configure(config):
    second_try.register(config)
"""
# Each of these fails at its first run; `always` fails at its second, too.
TESTS = """\
import os

import pytest


@pytest.mark.xdist_group("those")
@pytest.mark.parametrize("name", [{names}])
def test_it(name):
    path = os.path.join({folder!r}, name)
    was_run = os.path.exists(path)
    open(path, "w").close()
    assert was_run and name != "always"


def test_right():
    pass
"""


@pytest.fixture
def run(path_of, file_of):
    """Runs tests of which those with these names fail, with these options: the status, and what is said."""

    def run_tests(names, *options):
        os.makedirs(path_of("ran"), exist_ok=True)
        file_of("conftest.py", HOOKS)
        file_of("test_it.py", TESTS.format(names=", ".join(map(repr, names)), folder=path_of("ran")))
        paths = [os.path.join(TOP, folder) for folder in ("tools/src", "tools", "tests")]
        command = [sys.executable, "-m", "pytest", "-p", "no:cacheprovider", "-rf", *options, path_of("test_it.py")]
        ran = subprocess.run(
            command,
            cwd=path_of("."),
            env={**os.environ, "PYTHONPATH": os.pathsep.join(paths)},
            stdin=subprocess.DEVNULL,
            capture_output=True,
            text=True,
            timeout=PATIENCE,
        )
        return ran.returncode, ran.stdout

    return run_tests


@pytest.mark.parametrize("options", [(), ("-n", "2", "--dist", "loadgroup")], ids=["alone", "beside"])
def test_passes_then(run, options):
    status, said = run(["a@b"], "--second-try", "2", *options)
    assert status == 0 and "test_it.py::test_it[a@b]: failed beside other tests, and passed by itself\n" in said
    assert "FAILED" not in said


@pytest.mark.parametrize(
    "names, options",
    [
        (["once"], []),
        (["once"], ["--second-try", "0"]),
        (["always"], ["--second-try", "2"]),
        (["once", "always"], ["--second-try", "2"]),
        (["one", "two", "three"], ["--second-try", "2"]),
    ],
)
def test_fails(run, names, options):
    """Without the option, if one of them fails again, and if there are more than it says."""
    status, said = run(names, *options)
    assert status == 1 and f"FAILED test_it.py::test_it[{names[-1]}]" in said
    assert "passed by itself" not in said
