"""The line before `fault: tree refused`: the file, the line, and what is wrong there, by program and model."""
import subprocess
import sys

import pytest

from nfs4tools.processes import PROGRAM, TOP

pytestmark = pytest.mark.quick

COMMANDS = {"model": [sys.executable, f"{TOP}/tools/model/once.py", "once"], "program": [PROGRAM, "once"]}

FILE = '[[file]]\npath = "a"\n'

# Documents by the number of their refusal, and what the line says behind the file's name.
DOCUMENTS = [
    (1, FILE + 'txet = "x"\n', ':3: unknown key "txet"; did you mean "text"?'),
    (1, FILE + '[[file]]\nname = "x"\n', ':4: unknown key "name"; there is "path" or "text"'),
    (1, '[[files]]\npath = "a"\n', ':1: unknown key "files"; did you mean "file"?'),
    (1, '[[directory]]\npath = "d"\ntext = ""\n', ':3: unknown key "text"; there is "path"'),
    (1, '[policy]\ncallback = "probe"\n', ':2: unknown key "callback"; did you mean "callbacks"?'),
    (1, '[policy]\n\ncallbacks = "no"\n', ':3: "callbacks" has to be "probe" or "assume"'),
    (1, '[policy]\ndelegations = true\n', ':2: "delegations" has to be "none" or "read" or "all"'),
    (1, FILE + '[[file]]\ntext = "a"\n', ':3: [[file]] has to have a "path"'),
    (1, "[[file]]\n# none\npath = 3\n", ':3: "path" has to be a string'),
    (1, "policy = 1\n", ':1: "policy" has to be a table'),
    (1, "\nfile = 1\n", ':2: "file" has to be an array of tables'),
    (1, "file = [1]\n", ':1: "file" has to be an array of tables'),
    (1, b'\n# \xff\n', ":2: a byte isn't UTF-8"),
    # What looks like a header within a text is none.
    (1, FILE + 'text = """\n[[file]]\n"""\n[[file]]\nname="x"\n', ':7: unknown key "name"; there is "path" or "text"'),
    # An inline table has no line of its own.
    (1, 'file = [{ path = "a", txt = "" }]\n', ': unknown key "txt"; did you mean "text"?'),
    (2, FILE + '[[file]]\npath = "b//c"\n' + FILE, ":3: a path is not 1 to 8 names (2)"),
    (3, FILE + f'[[file]]\npath = "b"\ntext = "{"t" * 65537}"\n', ":3: a text, the files or the directories are above their limit (3)"),
    (3, "".join(f'[[file]]\npath = "{i}"\n' for i in range(70)), ":129: a text, the files or the directories are above their limit (3)"),
    (4, FILE + '[[directory]]\npath = "d"\n\n[[file]]\npath = "a/b"\n', ":6: a path is taken by another node (4)"),
]  # fmt: skip

# Texts that are no TOML: the parser's own words follow the line.
NO_TOML = [(FILE + "[[file]\n", 3), ('a = "\n', 1), ("a = 1\na = 2\n", 2)]


@pytest.fixture(params=["model", pytest.param("program", marks=pytest.mark.needs("nfs4state"))])
def once(request):
    """The errors of `once` with this document as its tree."""

    def run(path):
        ran = subprocess.run([*COMMANDS[request.param], "--tree", path], input=b"", capture_output=True, timeout=300)
        assert (ran.returncode, ran.stdout) == (1, b"")
        return ran.stderr.decode()

    return run


@pytest.mark.parametrize("number, document, reason", DOCUMENTS)
def test_reasons(once, file_of, number, document, reason):
    path = file_of("tree.toml", document)
    assert once(path) == f"{path}{reason}\nfault: tree refused ({number})\n"


@pytest.mark.parametrize("document, line", NO_TOML)
def test_no_toml(once, file_of, document, line):
    path = file_of("tree.toml", document)
    reason, fault = once(path).splitlines()
    assert reason.startswith(f"{path}:{line}: ") and fault == "fault: tree refused (1)"


def test_too_long(once):
    """A file that is no end of bytes is read for 8 MiB."""
    assert once("/dev/zero") == "/dev/zero: a tree's file has at most 8 MiB\nfault: file not read\n"


def test_not_read(once, path_of):
    path = path_of("missing")
    assert once(path) == f"{path}: No such file or directory (os error 2)\nfault: file not read\n"
