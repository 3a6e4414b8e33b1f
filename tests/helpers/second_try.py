"""A second try for tests that failed beside others, where a busy machine may have been the reason. If no more failed
than `--second-try` says, they are run again, one after the other; the end of the run names those that pass then."""
import re
import subprocess
import sys
from typing import Any

import pytest

# What xdist writes behind the name of a test that belongs to a group.
GROUP = re.compile(r"@[^\[\]]*$")


def add_option(parser: pytest.Parser) -> None:
    parser.addoption(
        "--second-try",
        type=int,
        default=0,
        metavar="N",
        help="if at most N tests fail, they are run again, one after the other",
    )


class SecondTry:
    """Runs the tests that failed again, and tells which passed."""

    def __init__(self, config: pytest.Config) -> None:
        self.config = config
        self.most: int = config.getoption("--second-try")
        self.passed: list[str] = []

    def pytest_sessionfinish(self, session: pytest.Session, exitstatus: int) -> None:
        stats = self.config.pluginmanager.get_plugin("terminalreporter").stats
        names = sorted({GROUP.sub("", report.nodeid) for report in stats.get("failed", [])})
        if exitstatus != pytest.ExitCode.TESTS_FAILED or stats.get("error") or not 0 < len(names) <= self.most:
            return
        options = ["--all-built"] if self.config.getoption("--all-built") else []
        command = [sys.executable, "-m", "pytest", *options, *names]
        if subprocess.run(command, cwd=self.config.rootpath, check=False).returncode == 0:
            self.passed = names
            stats["failed"] = []
            session.exitstatus = pytest.ExitCode.OK

    def pytest_terminal_summary(self, terminalreporter: Any) -> None:
        for name in self.passed:
            terminalreporter.write_line(f"{name}: failed beside other tests, and passed by itself")


def register(config: pytest.Config) -> None:
    """Has failed tests run again by this run, if it isn't a worker of another one."""
    if config.getoption("--second-try") and not hasattr(config, "workerinput"):
        config.pluginmanager.register(SecondTry(config), "second try")
