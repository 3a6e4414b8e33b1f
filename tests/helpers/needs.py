"""What a test needs that isn't in each clone: the built programs, the tests that `rt ci` builds, and the toolchain. A
test says so by the mark `needs`, and is skipped if they aren't there. With --all-built it fails then."""
import glob
import os
import shutil

import pytest

from nfs4tools.built import ROWS, SERVER, command_to_build, lack_of, program_path, proved_path
from nfs4tools.processes import TOP

# The name of the toolchain's command; how the names of crates end that have tests alone; and what stands for the server
# as a proof left it, wherever else a program is.
TOOLCHAIN, TESTS, PROVED = "rt", "_tests", "proved"
# Why a test is skipped that stands on a proof.
UNPROVED = "not proved here: .ci/run"


def why_not(name: str) -> str | None:
    """Why a test can't run that needs this, a program's name or the toolchain's, or None."""
    if name == TOOLCHAIN:
        is_there = bool(shutil.which(TOOLCHAIN) and glob.glob(os.path.join(TOP, "crates/*/out/rlib")))
    elif name == PROVED:
        is_there = os.path.isfile(proved_path(SERVER))
    elif name.endswith(TESTS):
        is_there = os.path.isfile(proved_path(name) + TESTS)
    else:
        return None if os.path.isfile(program_path(name)) else f"not built: {command_to_build(name)}"
    return None if is_there else UNPROVED


def expect_programs(is_each_there: bool) -> None:
    """Ends the run at its beginning if the environment names a program that isn't there; and, if each must be there as
    a proof left it, if any isn't, or the tests would run another program."""
    for name in (SERVER, ROWS):
        path = program_path(name)
        lack = lack_of(path)
        if lack and (is_each_there or os.environ.get(name.upper())):
            raise pytest.UsageError(lack)
        if is_each_there and path != proved_path(name):
            raise pytest.UsageError(f"--all-built is for {proved_path(name)}: the tests would run {path}")


def require(config: pytest.Config, name: str) -> None:
    """Skips the test that needs this, if it isn't there; or has it fail."""
    if why := why_not(name):
        if config.getoption("--all-built"):
            pytest.fail(why, pytrace=False)
        pytest.skip(why)


def pytest_addoption(parser: pytest.Parser) -> None:
    parser.addoption("--by-hand", action="store_true", help="also the tests that are too long for the gate")
    parser.addoption(
        "--all-built",
        action="store_true",
        help="the programs are those that were proved here; a test whose program isn't there fails",
    )


def pytest_runtest_setup(item: pytest.Item) -> None:
    for mark in item.iter_markers("needs"):
        for name in mark.args:
            require(item.config, name)
