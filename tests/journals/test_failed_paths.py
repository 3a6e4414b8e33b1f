"""A callback path that is marked down, as `tools/explain` shows it: why isn't in the journal."""
import json

import pytest

from helpers.hand_made_run import introduced
from helpers.run_commands import call, put
from nfs4tools.explain.command import main as explain
from nfs4tools.journal.entries import Path
from nfs4tools.journal.journal import Journal, journal_bytes
from nfs4tools.model.tree import DEFAULT, Tree

# These are fixtures.
__all__ = ["call", "put"]
pytestmark = pytest.mark.quick

WHY = (
    "    a callback to the client failed, or an order marked the path; the run's standard error has the reason of a "
    "callback, in a line `client {}: callback to ..` (RULES: Paths)"
)
DOWN = "the callback path of client {} is marked down"


def of_paths(*marks):
    """A journal of two clients, c1 and c2, whose paths are marked so, from entry 4 on."""
    entries = [*introduced(1, b"c1"), *introduced(2, b"c2"), *(Path(client, is_up) for client, is_up in marks)]
    return journal_bytes(Journal(1, 90, Tree(DEFAULT), entries))


def test_marked_down(call, put):
    """Each path that is marked down is shown, and where its reason is; not one that is marked up."""
    path = put("run.journal", of_paths((1, True), (2, False), (1, False)))
    two, one = [f"5: {DOWN.format(2)}", WHY.format(2)], [f"6: {DOWN.format(1)}", WHY.format(1)]
    assert call(explain, path) == (0, two + one, "")
    assert call(explain, "--client", "c1", path) == (0, one, "")
    status, lines, errors = call(explain, "--delegations", path)
    assert (status, errors) == (0, "") and [it for it in lines if it in two] == two
    assert call(explain, "--again", path) == (0, [], "")


def test_marked_again(call, put):
    """A path that is marked down again and again is told once, or each time if that is asked for."""
    path = put("run.journal", of_paths((2, False), (1, True), (2, False), (2, False)))
    two = [f"4: {DOWN.format(2)}", WHY.format(2)]
    assert call(explain, path) == (0, [*two, "    entries 4 to 7: 3 times"], "")
    status, lines, errors = call(explain, "--each", path)
    assert (status, len(lines), errors) == (0, 6, "")


def test_json(call, put):
    status, lines, errors = call(explain, "--json", put("run.journal", of_paths((1, True), (2, False))))
    found = [json.loads(line) for line in lines]
    assert (status, errors) == (0, "")
    assert [(it["entry"], it["kind"], it["client"], it["is_up"], it["reason"]) for it in found] == [
        (5, "path", "c2", False, None)
    ]
