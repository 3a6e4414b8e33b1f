"""What the tests of runs share: the journal that is made by hand as a file, and commands that run on files."""
from collections.abc import Callable
from pathlib import Path
from typing import Any

import pytest

from helpers.hand_made_run import hand_made
from nfs4tools.journal.journal import Journal, journal_bytes
from nfs4tools.runs.run import Entry, Naming

Put = Callable[[str, bytes], str]
Ran = tuple[int, list[str], str]


def run_of(journal: Journal) -> list[Entry]:
    return list(Naming(journal).entries(journal.entries, Entry))


@pytest.fixture
def put(tmp_path: Path) -> Put:
    """Writes a file: its path."""

    def write(name: str, data: bytes) -> str:
        (tmp_path / name).write_bytes(data)
        return str(tmp_path / name)

    return write


@pytest.fixture
def path(put: Put) -> str:
    return put("run.journal", journal_bytes(hand_made()))


@pytest.fixture
def call(monkeypatch: pytest.MonkeyPatch, capsys: pytest.CaptureFixture[str]) -> Callable[..., Ran]:
    """Runs a command with these words: its status, and the lines that it prints; what it says on standard error."""

    def run(main: Callable[[], Any], *words: str) -> Ran:
        monkeypatch.setattr("sys.argv", ["command", *words])
        try:
            status: Any = main()
        except SystemExit as ended:
            status = ended.code
        captured = capsys.readouterr()
        errors = captured.err + (f"{status}\n" if isinstance(status, str) else "")
        return (1 if isinstance(status, str) else status or 0), captured.out.splitlines(), errors

    return run
