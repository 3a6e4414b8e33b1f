"""What the tests have in common. `pytest tests -n 4` runs them side by side; those that are marked `alone`
are judged by a clock, by memory or by processor time, and run beside nothing else: `.ci/run` has both commands. With
`-m quick` those run that need no proof, in some minutes. No test builds a program."""
import os
import signal
import sys
import threading
from collections import Counter, defaultdict
from collections.abc import Callable, Iterator
from functools import cache, partial
from tempfile import TemporaryDirectory
from typing import Any

import pytest

from helpers import needs, second_try
from helpers.needs import expect_programs, pytest_runtest_setup, require
from helpers.preload import preloading
from helpers.refused_allocations import Memory
from nfs4tools.built import SERVER
from nfs4tools.processes import PROGRAM, TOP
from nfs4tools.program import Program

# This is a hook.
__all__ = ["pytest_runtest_setup"]


def pytest_addoption(parser: pytest.Parser) -> None:
    needs.pytest_addoption(parser)
    second_try.add_option(parser)


def pytest_configure(config: pytest.Config) -> None:
    second_try.register(config)
    config.addinivalue_line("markers", "alone: judged by a clock, by memory or by processor time")
    config.addinivalue_line("markers", "by_hand: too long for the gate, and run with --by-hand alone")
    config.addinivalue_line("markers", "long: begins before the others, which go on beside it")
    config.addinivalue_line(
        "markers",
        "needs(*names): skipped if these programs, crates' tests, the toolchain (rt) "
        "or the proved program (proved) aren't there; with --all-built it fails then",
    )
    config.addinivalue_line(
        "markers",
        "quick: needs no proof, no root and no toolchain: runs with the model, and with "
        "the program, however it was built, if it is there; those that are marked "
        "`alone` are left out with `-m quick`",
    )
    expect_programs(config.getoption("--all-built"))
    # If the tests are ended, so are the servers. A busy machine may begin a worker of xdist in another thread, which
    # can't set this.
    if threading.current_thread() is threading.main_thread():
        signal.signal(signal.SIGTERM, lambda *_: sys.exit(1))


def pytest_collection_modifyitems(config: pytest.Config, items: list[pytest.Item]) -> None:
    names = [] if config.getoption("--by-hand") else ["by_hand"]
    names += ["alone"] if config.getoption("markexpr") == "quick" else []
    left_out = [item for item in items if any(map(item.get_closest_marker, names))]
    config.hook.pytest_deselected(items=left_out)
    items[:] = [item for item in items if item not in left_out]
    items.sort(key=lambda item: item.get_closest_marker("long") is None)


def pytest_terminal_summary(terminalreporter: Any) -> None:
    """Behind the results, what the tests tell of themselves: a line each, under the test's name."""
    told = [
        (report.nodeid, line)
        for report in terminalreporter.getreports("passed")
        if report.when == "call"
        for name, line in report.user_properties
        if name == "told"
    ]
    sums: dict[str, Counter[str]] = defaultdict(Counter)
    for report in terminalreporter.getreports("passed"):
        for name, found in report.user_properties:
            if report.when == "call" and name == "counts":
                sums[report.nodeid.partition("[")[0]].update(found)
    told += [(test, ", ".join(f"{number} {what}" for what, number in sum.items())) for test, sum in sums.items() if sum]
    for test, line in sorted(told):
        terminalreporter.write_line(f"{test.rpartition('/')[2]}: {line}")


@pytest.fixture
def tell(record_property: Callable[[str, object], None]) -> Callable[[str], None]:
    """Takes a line that the end of the run shows: a figure, or how many checks there were."""
    return partial(record_property, "told")


@pytest.fixture
def add_up(record_property: Callable[[str, object], None]) -> Callable[[int, str], None]:
    """Takes a number and what it counts, of which the end of the run shows the sums over all cases of the test."""
    counts: dict[str, int] = {}
    record_property("counts", counts)

    def add(number: int, what: str) -> None:
        counts[what] = counts.get(what, 0) + number

    return add


@pytest.fixture(scope="session")
def program(pytestconfig: pytest.Config) -> Program:
    """The built program, to be judged by the model."""
    require(pytestconfig, SERVER)
    return Program(PROGRAM)


@pytest.fixture
def path_of() -> Iterator[Callable[[str], str]]:
    """The path of a file of this name in a folder that the test has for itself, and that is gone behind it."""
    with TemporaryDirectory() as room:
        yield partial(os.path.join, room)


@pytest.fixture(scope="session")
def preloaded(tmp_path_factory: pytest.TempPathFactory) -> Callable[..., dict[str, str]]:
    """The environment in which a program is loaded with a library that is made of this file of helpers/preloaded, once,
    and with these variables. CC names the compiler, if it isn't cc."""
    folder = str(tmp_path_factory.mktemp("libraries"))
    environment = cache(lambda source: preloading(os.path.join(TOP, "tests/helpers/preloaded", source), folder))
    return lambda source, **variables: {**environment(source), **variables}


@pytest.fixture(scope="session")
def memory(tmp_path_factory: pytest.TempPathFactory, preloaded: Callable[..., dict[str, str]]) -> Memory:
    """The memory of programs, of which allocations are refused."""
    return Memory(str(tmp_path_factory.mktemp("memory")), preloaded("refuse_allocation.c"))


@pytest.fixture
def file_of(path_of: Callable[[str], str]) -> Callable[[str, str | bytes], str]:
    """The path of a file of this name there, with this text or these bytes."""

    def write(name: str, content: str | bytes) -> str:
        with open(path_of(name), "wb") as out:
            out.write(content if isinstance(content, bytes) else content.encode())
        return path_of(name)

    return write
