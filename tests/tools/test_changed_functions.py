"""`tools/dev/changed_functions` names the functions in whose lines, or in the comment before them, something
changed."""
import os
import subprocess
import sys

import pytest

from dev import changed_functions
from dev.clause_index import functions_of, sources_of
from nfs4tools.built import TOP

pytestmark = pytest.mark.quick
CRATE = "xdr"


@pytest.fixture
def function():
    """A function of the crate with lines before and after it, and its file."""
    return next((source, it) for source in sources_of(CRATE) for it in functions_of(source) if it.body and it.first > 2)


def changed(monkeypatch, source, hunk):
    """The functions that changed if git has this hunk of the file, and of no other."""
    monkeypatch.setattr(changed_functions, "git", lambda *words: hunk * (words[-1] == f"crates/{source.path}"))
    return changed_functions.changed_functions("HEAD", CRATE)


def test_lines(monkeypatch, function):
    source, it = function
    path = "::".join(filter(None, (source.module(), str(it))))
    for hunk in f"@@ -1 +{it.first} @@", f"@@ -1,2 +{it.last} @@ fn", f"@@ -7,3 +{it.first},0 @@":
        assert path in changed(monkeypatch, source, hunk)
    for hunk in "", "@@ -1 +1 @@", "@@ -1 +999999,5 @@":
        assert path not in changed(monkeypatch, source, hunk)


def test_command():
    """A commit that isn't there is refused."""
    command = [sys.executable, os.path.join(TOP, "tools/dev/changed_functions")]
    ran = subprocess.run([*command, "no-such-commit"], capture_output=True, text=True)
    assert ran.returncode == 2 and ran.stderr.endswith("error: git knows no commit no-such-commit\n")
