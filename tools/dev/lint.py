"""Checks the Python of this repository without running it, and how the sources of the crates look.

pyflakes3 finds nothing in any file, mypy nothing in what pyproject.toml names, and black would change no file. The
commands have at most ten lines, and only they change where modules are found. Debian has pyflakes3, mypy and black.

Each file of a crate's src and specs has a head, and no line that is too wide (tools/dev/source_lines.py)."""
import argparse
import os
import subprocess

from dev.source_lines import faults_of, mark_of
from nfs4tools.processes import TOP

FIRST_LINE = "#!/usr/bin/env python3\n"
# The folders with Python.
FOLDERS = "tools", "tests", "samples"
# In two words, so that it isn't found here; and the most lines of a file that has it.
PATH, MOST = "sys" + ".path", 10


def text_of(path: str) -> str:
    """The text of a file."""
    with open(path, encoding="utf-8", errors="replace") as source:
        return source.read()


def python_in(path: str) -> str:
    """The text of a file of Python, or nothing."""
    text = text_of(path)
    return text if path.endswith(".py") or text.startswith(FIRST_LINE) else ""


def may_find(text: str) -> bool:
    """Whether the file may change where modules are found: a command of at most ten lines."""
    return text.startswith(FIRST_LINE) and text.count("\n") <= MOST


def listed(*folders: str) -> list[str]:
    """The files in these folders that git knows and that are there, without links."""
    command = ["git", "ls-files", *folders]
    paths = subprocess.run(command, stdout=subprocess.PIPE, check=True, text=True).stdout.split()
    return [path for path in paths if os.path.isfile(path) and not os.path.islink(path)]


def main() -> int:
    argparse.ArgumentParser(description=__doc__, formatter_class=argparse.RawDescriptionHelpFormatter).parse_args()
    os.chdir(TOP)
    texts = {path: python_in(path) for path in listed(*FOLDERS)}
    files = [path for path, text in texts.items() if text]
    wrong = [path for path in files if PATH in texts[path] and not may_find(texts[path])]
    for path in wrong:
        print(f"{path}: {PATH}")
    sources = [path for path in listed("crates") if mark_of(path)]
    faults = [fault for path in sources for fault in faults_of(path, text_of(path))]
    print("".join(f"{fault}\n" for fault in faults), end="")
    commands = [["pyflakes3", *files], ["mypy"], ["black", "--quiet", "--check", *files]]
    failed = [subprocess.run(command).returncode for command in commands]
    if wrong or faults or any(failed):
        return 1
    print(f"lint: {len(files)} files of Python and {len(sources)} sources of crates are in order")
    return 0
