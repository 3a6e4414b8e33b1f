"""The verdict of `start` on a client, and its status."""
import pytest

from helpers.wrong_rows import WRONG_ID
from nfs4tools.judge.situations import SITUATIONS
from tools.start_runs import ROW


def client(tree):
    """A client that skips sequence ids."""
    tree.put("out/wrong.rows", WRONG_ID.replace('"c1"', '"it\'s c1"'))
    return ["--", "tools/send_rows", "{host}", "{port}", "out/wrong.rows"]


@pytest.mark.parametrize(
    "words, status",
    [
        ([], 1),
        (["--allow", "sequence-id-skipped=it's c1"], 0),
        (["--allow", "sequence-id-skipped", "--warnings"], 1),
        (["--allow", "sequence-id-skipped", "--allow", "open-left", "--warnings"], 0),
    ],
)
def test_verdict(tree, words, status):
    """The last line is the verdict, behind the explained refusals."""
    found, output, lines = tree.run(*words, *client(tree))
    assert (found, output) == (status, "1 rows: 0 failed\n"), lines
    assert "start: lawful: 5 entries\n" in lines and "sequence-id-skipped" in lines
    assert lines.index("-> NFS4ERR_BAD_SEQID\n") < lines.index('client "it\'s c1": ') < lines.index("\nverdict: ")
    assert lines.splitlines()[-1].startswith("verdict: ")


def test_verdict_of_a_right_client(tree):
    status, _, lines = tree.run("--", *ROW)
    assert status == 0 and lines.splitlines()[-1].startswith("verdict: ") and " error" not in lines


def test_status_of_command_and_verdict(tree):
    """The command's own status comes first; but a client that is killed is judged, too."""
    status, _, lines = tree.run("--", "sh", "-c", f"{' '.join(client(tree)[1:])}; exit 7")
    assert status == 7 and "error sequence-id-skipped" in lines


def test_what_was_tried(tree):
    """What a verdict is to have besides, by names that are known."""
    [name, *others] = SITUATIONS
    assert tree.run("--require", name, "--", "true")[0] == 1
    assert name in tree.run("--tried", "--", *ROW)[2]


@pytest.mark.parametrize("words", [["--allow", "no-such"], ["--require", "no-such"], ["--allow", "it's; $(touch out)"]])
def test_wrong_words_of_verdict(tree, words):
    """They are told before the run."""
    status, output, lines = tree.run(*words, "--", "touch", "out/ran")
    assert (status, output) == (2, "") and words[1] in lines
    assert not (tree.folder / "out").exists()
