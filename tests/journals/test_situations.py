"""Whether the situations of `tools/judge` are met when they should be: each by the row that shows it; and in stories of
clients that do right just those that the story brings about, by the client that meets them. Each has a name of its own,
a section of RFC 7530, and a row; and the lines that list them, count them and miss them say what they should."""
import argparse
from collections import Counter

import pytest

from helpers.row_journals import ROW_FILES, journal_of, rows_of
from journals.situation_stories import LENT, STORIES, STORIES_OF_DELEGATIONS, Story
from nfs4tools.explain import Replay
from nfs4tools.judge.findings import SORTS
from nfs4tools.judge.situations import (
    CLIENTS,
    DELEGATIONS,
    LOCKS,
    OPENS,
    SEQUENCE_IDS,
    SITUATIONS,
    listing,
    missing,
    require,
    situation_name,
    table,
)
from nfs4tools.judge.situations_met import SituationsMet
from nfs4tools.model.tree import DEFAULT

pytestmark = pytest.mark.quick

# How many sections the RFC has below each of these; in section 16 each operation has its own.
PARTS = {
    "": 21,
    "9": 14,
    "9.1": 11,
    "9.1.4": 6,
    "9.6": 3,
    "9.6.3": 4,
    "10": 9,
    "10.4": 7,
    "13": 4,
    "13.1": 12,
    "13.1.1": 7,
    "16": 38,
    **{f"16.{number}": 5 for number in range(1, 39)},
    "16.5": 4,
    "16.6": 4,
    "16.16": 6,
    "16.19": 4,
}


def counts_of(journal):
    """How often each client met each situation."""
    replay = Replay(journal)
    met = SituationsMet(replay.server)
    for _ in replay.run([met]):
        pass
    return {client: dict(counts) for client, counts in met.counts.items()}


def test_names():
    """One name for each, and none is a finding's."""
    rows = CLIENTS + SEQUENCE_IDS + OPENS + LOCKS + DELEGATIONS
    assert len(SITUATIONS) == len(rows) and not SITUATIONS.keys() & SORTS.keys()
    assert len({it.text for it in SITUATIONS.values()}) == len(rows)


def is_section(section):
    """Whether the RFC has it."""
    numbers = section.split(".")
    return all(1 <= int(number) <= PARTS.get(".".join(numbers[:place]), 0) for place, number in enumerate(numbers))


@pytest.mark.parametrize("name", SITUATIONS)
def test_row(name):
    """Its section is there, and its row, by which some client meets it."""
    situation = SITUATIONS[name]
    assert is_section(situation.section)
    file, row_name = situation.row.split(":", 1)
    assert file in ROW_FILES, "no such file of rows"
    found = [row for row in rows_of(file) if row.name == row_name]
    assert len(found) == 1, f"{len(found)} rows of {file} are called {row_name!r}"
    assert any(name in counts for counts in counts_of(journal_of(found[0])).values())


@pytest.mark.parametrize("tell", STORIES + STORIES_OF_DELEGATIONS, ids=lambda it: it.__name__)
def test_story(tell):
    """Just these situations are met, so often, and by these clients."""
    story = Story(LENT + DEFAULT if tell in STORIES_OF_DELEGATIONS else DEFAULT)
    wanted = tell(story)
    assert counts_of(story.server.journal()) == wanted


# The lines.


COUNTS = {
    b"c1": Counter({"lock-split": 2, "share-denied": 1}),
    b"c2": Counter({"lock-split": 1}),
    None: Counter({"special-stateid": 4}),
}


def test_table():
    """A line for each situation, with how often it was met, and by which clients."""
    first, *lines = table(COUNTS)
    assert first == f"3 of {len(SITUATIONS)} situations were met:"
    told = [line.split(None, 2) for line in lines]
    assert [name for name, *_ in told] == list(SITUATIONS)
    assert {name: words for name, *words in told if words != ["0"]} == {
        "lock-split": ["3", '"c1" 2, "c2" 1'],
        "share-denied": ["1", '"c1" 1'],
        "special-stateid": ["4", "of no client 4"],
    }


def test_listing():
    """Three lines for each: its name and section, its sentence, and its row."""
    lines = listing()
    assert lines[::3] == [f"{it.name} (RFC 7530, {it.section})" for it in SITUATIONS.values()]
    place = lines.index("share-denied (RFC 7530, 9.9)")
    assert lines[place + 1 : place + 3] == [
        "    OPEN is refused by SHARE_DENIED, because an open of another owner conflicts.",
        "    crates/rows/data/share.rows, row the deny of an open meets the access of an OPEN",
    ]


def test_required():
    """What is required and wasn't met is told, once."""
    names = ["lock-split", "share-denied", "lock-merged", "lock-merged"]
    assert [it.name for it in missing(names, COUNTS)] == ["lock-merged"]
    assert require(names, COUNTS) == [
        "lock-merged (RFC 7530, 16.10.5) was required, and no client met it: LOCK adds bytes to others that the "
        "owner holds in the same mode: the ranges become one. An example: crates/rows/data/lock.rows, row locks that "
        "touch"
    ]
    assert require(names[:2], COUNTS) == []


def test_wrong_name():
    """It is told with those that are near."""
    assert situation_name("lock-split") == "lock-split"
    for wrong, advice in {"lock-splits": "did you mean lock-split? ", "x": ""}.items():
        with pytest.raises(argparse.ArgumentTypeError) as told:
            situation_name(wrong)
        assert str(told.value) == f"there is no situation {wrong!r}: {advice}--situations lists all"
