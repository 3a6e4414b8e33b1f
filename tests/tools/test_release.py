"""A release that is unpacked elsewhere: the first examples of its README and its CLIENTS, and its suite of a client, in
an environment that has PATH alone. Its program is the one that is built, however it was built: what RELEASE says of a
proof is made up here."""
import io
import os
import subprocess
import sys
import tarfile
from functools import partial

import pytest

from dev.building.archive import COMMANDS, Proved, name_of, packed
from dev.building.copies import version_here
from helpers import page_sessions as pages
from nfs4tools.processes import PATIENCE, PROGRAM

pytestmark = [pytest.mark.needs("nfs4state"), pytest.mark.quick]
run = partial(subprocess.run, stdin=subprocess.DEVNULL, capture_output=True, text=True, timeout=PATIENCE)


@pytest.fixture(scope="module")
def unpacked(tmp_path_factory):
    """The folder of a release."""
    with open(PROGRAM, "rb") as file:
        made_up = Proved(file.read(), version_here(), "0" * 40, "a toolchain", "a proof\n")
    folder = tmp_path_factory.mktemp("elsewhere")
    with tarfile.open(fileobj=io.BytesIO(packed(version_here(), made_up))) as archive:
        archive.extractall(folder)
    return folder / name_of(version_here())


@pytest.fixture(autouse=True)
def is_there(unpacked, monkeypatch):
    """All that runs is run in that folder, whose pages are read."""
    monkeypatch.chdir(unpacked)
    monkeypatch.setattr(pages, "TOP", str(unpacked))
    for name in os.environ.keys() - {"PATH"}:
        monkeypatch.delenv(name)


@pytest.mark.parametrize("command", COMMANDS)
def test_command(command):
    """It finds all that it imports."""
    assert "Traceback" not in run([command, "--help"]).stderr


def test_server():
    """It serves with the program of the release, and takes it for proved."""
    said = f"start: nfs4state {version_here()} (00000000), proved; files: "
    assert run(["./start", "--", "true"]).stderr.startswith(said)


def test_page(tmp_path):
    """The page of a run has its style and its scripts."""
    journal, page = str(tmp_path / "run.journal"), tmp_path / "run.html"
    assert run(["./start", "--journal", journal, "--", "true"]).returncode == 0
    ran = run(["tools/show_journal", "--html", str(page), journal])
    assert (ran.returncode, ran.stderr) == (0, "") and page.read_text().count("function") > 20


def test_suite():
    """The suite passes as SUITES runs it."""
    ran = run([sys.executable, "-m", "pytest", "samples/suite"])
    assert ran.returncode == 0 and " passed" in ran.stdout, ran.stdout


@pytest.mark.parametrize("page", pages.PAGES)
def test_examples(page, tmp_path, unpacked):
    """The commands with a `$` of the first section that has some; and what they print."""
    session = pages.Session(str(tmp_path), str(unpacked))
    try:
        for command, shown in pages.sections(page)[0][1]:
            session.run(command, shown)
    finally:
        session.end()
