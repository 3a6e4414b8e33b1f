"""Each file of Python that is started says in one line which Python is needed, if it is started by an older one: it and
what it imports before it says so can be parsed by Python 3.6, and the line comes by a version that is pretended, and by
the older ones that are installed here."""
import ast
import glob
import os
import subprocess
import sys

import pytest

from nfs4tools.processes import PATIENCE, TOP
from nfs4tools.python_version import NEEDED

FIRST_LINE = "#!/usr/bin/env python3\n"
# What has to be able to parse these files.
OLDEST = (3, 6)
# Starts a file as if this were an older Python, and prints at the end which files of the repository it came to.
PRETENDS = """import runpy, sys
top, path, version = sys.argv[1:]
sys.version_info = (*map(int, version.split(".")), 0, "final", 0)
sys.argv[:] = [path]
try:
    runpy.run_path(path, run_name="__main__")
finally:
    files = [getattr(module, "__file__", None) or "" for module in list(sys.modules.values())]
    print(*[file for file in files if file.startswith(top)], sep="\\n")
"""


def started():
    """The files of Python that are started: those with this first line that may be executed, and links to them."""
    listed = subprocess.run(
        ["git", "ls-files", "-s", "tools", "samples"], cwd=TOP, stdout=subprocess.PIPE, check=True, text=True
    ).stdout
    for line in listed.splitlines():
        path = os.path.join(TOP, line.partition("\t")[2])
        if line.startswith(("100755", "120000")):
            with open(path, encoding="utf-8", errors="replace") as source:
                if source.readline() == FIRST_LINE:
                    yield path


STARTED = list(started())


def older():
    """The older versions that are installed here, as pairs of a version and a path, from the oldest on."""
    paths = glob.glob("/usr/bin/python3.*") + glob.glob(os.path.expanduser("~/.pyenv/versions/3.*/bin/python3"))
    found = {}
    for path in paths:
        ran = subprocess.run(
            [path, "-c", "import sys; print('%d.%d' % sys.version_info[:2])"],
            stdout=subprocess.PIPE,
            stderr=subprocess.DEVNULL,
            text=True,
        )
        if ran.returncode == 0 and OLDEST <= tuple(map(int, ran.stdout.split("."))) < NEEDED:
            found.setdefault(ran.stdout.strip(), path)
    return sorted(found.items(), key=lambda item: int(item[0].partition(".")[2]))


def expect_line(command, path, version):
    """This command, which starts the file, ends with the line: what it prints besides."""
    ran = subprocess.run(
        command,
        stdin=subprocess.DEVNULL,
        capture_output=True,
        text=True,
        timeout=PATIENCE,
        env={**os.environ, "PYTHONPATH": os.path.dirname(path)},
    )
    line = f"{os.path.basename(path)}: Python 3.11 or later is needed; this is {version}\n"
    assert (ran.returncode, ran.stderr) == (2, line), f"{path} by Python {version}"
    return ran.stdout


def test_some_are_started():
    names = {os.path.relpath(path, TOP) for path in STARTED}
    assert names >= {"tools/explain", "tools/rows", "tools/model/check_rows.py", "tools/bench/measure"}


@pytest.mark.parametrize("path", STARTED, ids=lambda path: os.path.relpath(path, TOP))
def test_pretended(path):
    for version in "3.6", "3.10":
        printed = expect_line([sys.executable, "-B", "-c", PRETENDS, TOP, path, version], path, version)
        for file in {path, *printed.split()}:
            with open(file, encoding="utf-8") as source:
                ast.parse(source.read(), file, feature_version=OLDEST)


def test_installed(tell):
    found = older()
    if not found:
        pytest.skip("no Python below 3.11 is installed here")
    for version, python in {found[0], found[-1]}:
        for path in STARTED:
            assert expect_line([python, path], path, version) == ""
    tell(f"{len(STARTED)} files, by Python {' and '.join(sorted({found[0][0], found[-1][0]}))}")
