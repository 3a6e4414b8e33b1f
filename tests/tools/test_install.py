"""The package nfs4tools: `pip install` of this repository into a virtual environment of its own, without a network, and
each command that it gives. What they print is what the commands of this folder print, which need no installation."""
import os
import re
import signal
import subprocess
import sys
import tomllib

import pytest

from dev.building.copies import version_here
from nfs4tools.processes import PATIENCE, TOP, Process, Served

pytestmark = pytest.mark.xdist_group("install")
RECORDS, ROW = os.path.join(TOP, "samples/two_owners.records"), os.path.join(TOP, "samples/two_owners.rows")
# The commands that show a journal, with the path of each in this folder.
SHOWING = {
    "nfs4-journal": "model/journal.py",
    "nfs4-explain": "explain",
    "nfs4-judge": "judge",
    "nfs4-show-journal": "show_journal",
}
SHOW_JOURNAL = os.path.join(TOP, "tools/show_journal")


def project():
    with open(os.path.join(TOP, "pyproject.toml"), "rb") as file:
        return tomllib.load(file)["project"]


SCRIPTS = sorted(project()["scripts"])


def run(*words, **how):
    """What a command prints, which ends well; nothing of this run's Python is known to it. An environment is made of
    some thousand files, which takes its time on a busy disk."""
    ran = subprocess.run(words, capture_output=True, timeout=5 * PATIENCE, **how)
    assert ran.returncode == 0, ran.stderr.decode()
    return ran.stdout


@pytest.fixture(scope="module")
def bin_folder(tmp_path_factory):
    """The folder of the commands of an environment in which the package is installed."""
    folder = str(tmp_path_factory.mktemp("environment"))
    environment = {"PATH": os.environ["PATH"], "HOME": folder}
    run(sys.executable, "-m", "venv", folder, env=environment)
    run(f"{folder}/bin/pip", "install", "--no-index", "--disable-pip-version-check", "./", cwd=TOP, env=environment)
    return f"{folder}/bin"


@pytest.fixture
def installed(bin_folder, tmp_path, monkeypatch):
    """The path of an installed command of this name. It is run in another folder, and without this run's variables."""
    monkeypatch.chdir(tmp_path)
    for name in os.environ.keys() - {"PATH"}:
        monkeypatch.delenv(name)
    return lambda name: os.path.join(bin_folder, name)


def test_version():
    """The package has the version of the program."""
    assert project()["version"] == version_here()


def test_names(bin_folder):
    assert sorted(name for name in os.listdir(bin_folder) if name.startswith("nfs4-")) == SCRIPTS


@pytest.mark.parametrize("name", SCRIPTS)
def test_help(installed, name):
    assert run(installed(name), "--help").startswith(f"usage: {name} ".encode())


@pytest.mark.parametrize("name", SHOWING)
def test_journal(installed, name):
    with open(RECORDS, "rb") as records:
        run(installed("nfs4-model"), "once", "--journal", "run.journal", stdin=records)
    shown = run(installed(name), "run.journal")
    assert shown and shown == run(sys.executable, os.path.join(TOP, "tools", SHOWING[name]), "run.journal")


def test_page(installed):
    """The page of a run has the same parts as that which the command of this folder writes."""
    with open(RECORDS, "rb") as records:
        run(installed("nfs4-model"), "once", "--journal", "run.journal", stdin=records)
    pages = []
    for number, command in enumerate([[installed("nfs4-show-journal")], [sys.executable, SHOW_JOURNAL]]):
        run(*command, "--html", f"{number}.html", "run.journal")
        with open(f"{number}.html", "rb") as file:
            pages.append(file.read())
    assert pages[0] == pages[1] and b"</html>" in pages[0]


def test_rows_through_between(installed):
    """Rows to the model's server, through the command that stands between."""
    with Served([installed("nfs4-model"), "serve", "--listen", "127.0.0.1:0", "--until-killed"]) as server:
        told = run(
            installed("nfs4-between"),
            "--to",
            f"127.0.0.1:{server.port}",
            "--",
            installed("nfs4-send-rows"),
            "--names",
            "{host}",
            "{port}",
            ROW,
        )
        server.program.send_signal(signal.SIGTERM)
    assert re.fullmatch(
        rb"1 rows: 0 failed\nthe command ended with status 0\nbetween: \d+ connections?, .* 0 wrong\n", told
    )


def test_callbacks(installed):
    with Process([installed("nfs4-listen-callbacks")]) as listener:
        line = listener.program.stdout.readline()
    assert re.match(rb"listening on 127\.0\.0\.1:\d+: r_netid tcp, r_addr 127\.0\.0\.1\.\d+\.\d+\n", line)


def test_library(installed):
    """The library for suites of tests is there, with a server that needs no program of this folder."""
    code = (
        "from nfs4tools import Client, Server\n"
        "with Server() as server, Client(*server.address, 'c1') as client:\n"
        "    client.begin()\n"
        "    print(client.read(client.open('a')).data)\n"
    )
    assert run(installed("python"), "-c", code) == b"b'hello'\n"
