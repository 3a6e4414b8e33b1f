"""How `start` ends: by a signal, by the end of its input, or killed; alone and beside a command."""
import os
import re
import signal
import subprocess
import time

import pytest

from nfs4tools.processes import PATIENCE
from tools.start_runs import PASSES, ROW, SHELLS, Tree, is_sleeping, own_seconds

pytestmark = pytest.mark.quick


def wait_until(holds):
    until = time.monotonic() + PATIENCE
    while not holds():
        assert time.monotonic() < until
        time.sleep(0.05)


def hear_signals():
    for number in signal.SIGTERM, signal.SIGINT, signal.SIGHUP:
        signal.signal(number, signal.SIG_DFL)


class Started:
    """`start` without a command, from its line `listening on`."""

    def __init__(self, tree, **how):
        self.journal = tree.folder / "run.journal"
        given = {"stdin": subprocess.DEVNULL, "cwd": tree.folder} | how
        words = how.pop("before", []) + tree.words("--listen", "127.0.0.1:0", "--journal", str(self.journal))
        given.pop("before", None)
        # A signal that a shell ignores from its beginning, as a run in the background may, is one that it never hears.
        self.process = subprocess.Popen(words, stderr=subprocess.PIPE, text=True, preexec_fn=hear_signals, **given)
        self.lines = ""
        while "listening on" not in self.lines:
            line = self.process.stderr.readline()
            assert line, self.lines
            self.lines += line

    def __enter__(self):
        return self

    def __exit__(self, *_):
        self.process.kill()
        self.process.wait()
        self.process.stderr.close()

    def port(self):
        return re.search(r"listening on 127\.0\.0\.1:([0-9]+)", self.lines)[1]

    def send_row(self, tree):
        words = [word.replace("{host}", "127.0.0.1").replace("{port}", self.port()) for word in ROW]
        ran = subprocess.run(words, cwd=tree.folder, stdout=subprocess.PIPE, text=True, timeout=PATIENCE)
        assert ran.stdout == PASSES

    def end(self):
        more = self.process.communicate(timeout=PATIENCE)[1]
        return self.process.returncode, self.lines + more


@pytest.mark.parametrize(
    "number, shell", [(signal.SIGINT, "sh"), (signal.SIGHUP, "sh"), *((signal.SIGTERM, shell) for shell in SHELLS)]
)
def test_signal(tmp_path, number, shell):
    """The run ends well, and the journal is whole; its input, which is /dev/null, ends nothing."""
    tree = Tree(tmp_path, shell)
    with Started(tree) as started:
        started.send_row(tree)
        started.process.send_signal(number)
        status, lines = started.end()
    assert status == 0 and lines.endswith("start: lawful: 5 entries\n"), lines
    assert "; it is written at the end: SIGTERM or Ctrl-C\n" in lines


@pytest.mark.parametrize("shell", SHELLS)
def test_end_of_input(tmp_path, shell):
    tree = Tree(tmp_path, shell)
    with Started(tree, stdin=subprocess.PIPE) as started:
        started.send_row(tree)
        started.process.stdin.close()
        started.process.stdin = None
        status, lines = started.end()
    assert status == 0 and lines.endswith("start: lawful: 5 entries\n"), lines
    assert "; it is written at the end: Ctrl-D, SIGTERM or Ctrl-C\n" in lines


HINT = "the input ended before a connection came"


def test_no_hint(tree):
    """The server's hint on its input says nothing to whoever runs `start`."""
    assert HINT not in tree.run("--", "true")[2]
    with Started(tree, stdin=subprocess.PIPE) as started:
        status, lines = started.end()
    assert status == 0 and HINT not in lines and lines.endswith("start: lawful: 0 entries\n"), lines


def test_signal_while_input_is_open(tree):
    with Started(tree, stdin=subprocess.PIPE) as started:
        started.send_row(tree)
        started.process.send_signal(signal.SIGTERM)
        assert started.end()[1].endswith("start: lawful: 5 entries\n")


def test_first_process_of_a_container(tree):
    """As process 1 of a namespace it hears SIGTERM."""
    before = ["unshare", "--fork", "--pid", "--kill-child"]
    if subprocess.run([*before, "true"], stderr=subprocess.DEVNULL).returncode:
        pytest.skip("a namespace of processes needs root")
    with Started(tree, before=before) as started:
        started.send_row(tree)
        [child] = subprocess.run(
            ["pgrep", "-P", str(started.process.pid)], stdout=subprocess.PIPE, text=True
        ).stdout.split()
        os.kill(int(child), signal.SIGTERM)
        assert started.end()[1].endswith("start: lawful: 5 entries\n")


def test_killed_beside_command(tree):
    """The server doesn't outlive it, and writes its journal."""
    journal, seconds = tree.folder / "run.journal", own_seconds(61)
    process = subprocess.Popen(
        tree.words("--journal", str(journal), "--", "sleep", seconds),
        cwd=tree.folder,
        stdin=subprocess.DEVNULL,
        stderr=subprocess.DEVNULL,
    )
    wait_until(lambda: is_sleeping(seconds))
    process.kill()
    process.wait()
    wait_until(journal.exists)
    subprocess.run(["pkill", "-xf", f"sleep {seconds}"])


def test_signal_beside_command(tree):
    seconds = own_seconds(60)
    process = subprocess.Popen(
        tree.words("--journal", "run.journal", "--", "sleep", seconds),
        cwd=tree.folder,
        stdin=subprocess.DEVNULL,
        stderr=subprocess.PIPE,
        text=True,
    )
    wait_until(lambda: is_sleeping(seconds))
    process.send_signal(signal.SIGTERM)
    lines = process.communicate(timeout=PATIENCE)[1]
    assert process.returncode == 143 and "start: lawful: 0 entries\n" in lines
