"""What becomes of the command that `start` runs: its words, its status, its time, and its journal."""
import re

import pytest

from tools.start_runs import PASSES, ROW, SHELLS, Tree, is_sleeping, own_seconds, program_text, without


@pytest.mark.parametrize("shell", SHELLS)
def test_row(tmp_path, shell):
    tree = Tree(tmp_path, shell)
    journal = tmp_path / "run.journal"
    status, output, lines = tree.run("--journal", str(journal), "--", *ROW)
    assert (status, output) == (0, PASSES), lines
    assert f"start: journal: {journal}\nstart: lawful: 5 entries\n" in lines
    assert "-> NFS4ERR_SHARE_DENIED\n    open owner" in lines and "\nverdict: right" in lines


@pytest.mark.parametrize(
    "words, status",
    [
        (["--never", "SHARE_DENIED", "--", *ROW], 1),
        (["--never", "NFS4ERR_SHARE_DENIED", "--", *ROW], 1),
        (["--never", "DENIED", "--", *ROW], 0),
        (["--never", "DENIED", "--never", "SHARE_DENIED", "--", *ROW], 1),
        (["--never", "SHARE_DENIED", "--", "sh", "-c", "exit 7"], 7),
        (["--", "sh", "-c", "exit 7"], 7),
        (["--seconds", "1", "--", "sleep", "60"], 124),
        (["--", "/nonexistent/command"], 127),
    ],
)
def test_status(tree, words, status):
    assert tree.run(*words)[0] == status


def test_command_that_hears_no_signal(tree):
    """It is killed, and so is what its shell leaves behind."""
    seconds = own_seconds(62)
    command = f"(trap '' TERM; exec sleep {seconds}) & trap '' TERM; wait"
    status, _, lines = tree.run("--seconds", "1", "--", "sh", "-c", command)
    assert status == 124 and "start: the command took more than 1 seconds\n" in lines
    assert not is_sleeping(seconds)


@pytest.mark.parametrize(
    "words, line",
    [
        *(
            (
                ["--never", name],
                f"--never {name}: no journal has this status; RFC 7530, 13.1, has names, and RESOURCE "
                "and BADXDR no entry",
            )
            for name in ("FOO", "RESOURCE", "NFS4ERR_BADXDR")
        ),
        (["--with", "best"], "--with best: proved, release, unproved or model"),
        (["--port"], "--port is no option: see " "start --help"),
        (["--journal"], "--journal wants a value"),
        (["--seconds", "x"], "--seconds x: a number of seconds"),
        (["--build", "--test"], "--test: only one of --build, --prove and --test"),
        (["--"], "a command has to follow --"),
        (["--tree", "/nonexistent"], "--tree /nonexistent: there is no such file, or it can't be read"),
    ],
)
def test_wrong_words(tree, words, line):
    assert tree.run(*words) == (2, "", f"start: {line}\n")


def test_journal_that_can_not_be_written(tree):
    status, _, lines = tree.run("--journal", "/nonexistent/run.journal", "--", *ROW)
    assert status == 2 and "/run.journal.part: No such file or directory" in lines
    assert lines.endswith("fault: file not written\nstart: the server didn't begin\n")


def test_unlawful_journal(tree):
    """A server that answers well and leaves another journal."""
    text = (
        program_text("liar")
        .replace("*) exec", '*) trap "" TERM;')
        .replace('serve.py "$@" ;;', 'serve.py "$@"; for word; do last=$word; done; printf x >> "$last" ;;')
    )
    tree.put("out/unproved/nfs4state", text, is_program=True)
    tree.put("out/unproved/commit", tree.head())
    status, output, lines = tree.run("--", *ROW)
    assert (status, output) == (1, PASSES)
    assert "lawful: 5" not in lines


def test_words_of_command(tree):
    """They come as they are, with host and port in their places, and so does standard input."""
    told = tree.folder / "told"
    script = f'for word; do printf "<%s>\\n" "$word" >> {told}; done; cat >> {told}'
    status, _, lines = tree.run(
        "--",
        "sh",
        "-c",
        script,
        "sh",
        "a b",
        "",
        "*",
        "http://{host}:{port}/",
        "{{host}}{{port}}",
        stdin=None,
        input="given",
    )
    assert status == 0, lines
    assert re.fullmatch(r"<a b>\n<>\n<\*>\n<http://127\.0\.0\.1:[0-9]+/>\n<{host}{port}>\ngiven", told.read_text())


def test_further_options(tree):
    status, output, lines = tree.run(
        "--lease",
        "7",
        "--serve",
        "--epoch 5",
        "--",
        "sh",
        "-c",
        "sleep 0.1; tools/send_rows {host} {port} samples/two_owners.rows",
    )
    assert status == 1 and "clientid wanted 1 1, got 5 1" in output, lines


def test_no_python(tree):
    tree.put_unproved()
    environment = without(tree, "python", "pypy")
    status, _, lines = tree.run("--", "true", env=environment)
    assert (status, lines.splitlines()[-1]) == (3, "start: no verdict: Python 3.11 is needed")
    assert tree.run("--", "false", env=environment)[0] == 1
    status, _, lines = tree.run("--with", "model", "--", "true", env=environment)
    assert status == 2 and "start: there is no Python 3.11, which the model needs\n" in lines
    assert tree.run("--test", env=environment)[2].endswith("start: --test needs Python 3.11\n")
