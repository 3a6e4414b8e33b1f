"""Whether refusals are explained: each of the stories has the reasons that are wanted, and the kept answers; and of any
journal each refusal has a reason of the status that was answered, under a heading that docs/RULES.md has, no other call
has one but for a kept answer, and that is the answer to the same request."""
import argparse
import os
import re

import pytest

from dev.fuzz_calls import Caller
from helpers.reason_cases_delegations import STORIES_OF_DELEGATIONS
from helpers.expecting_client import expect
from helpers.reason_cases_files import STORIES_OF_FILES
from helpers.reason_cases import STORIES
from helpers.reason_cases_repeated import FOLDED, STORIES_OF_REQUESTS
from helpers.row_journals import ROW_FILES, journal_of, rows_of
from nfs4tools.explain import Replay, again_words, is_refusal, sentence
from nfs4tools.explain.lines import Paragraphs
from nfs4tools.journal.entries import Call, Path
from nfs4tools.processes import TOP
from nfs4tools.send.servers import is_refused as is_refused_tree
from nfs4tools.wire import Status

pytestmark = pytest.mark.quick

ALL_STORIES = STORIES + STORIES_OF_DELEGATIONS + STORIES_OF_FILES + STORIES_OF_REQUESTS


@pytest.fixture(scope="module")
def headings():
    """Those of the rules."""
    with open(os.path.join(TOP, "docs/RULES.md"), encoding="utf-8") as rules:
        return {line.lstrip("#").strip() for line in rules if line.startswith("#")}


def expect_reasons(journal, headings, add_up):
    """Each refusal in it has a reason, and each kept answer is one."""
    replay = Replay(journal)
    for number, entry, reason, _ in replay.run():
        expect_index(replay.server)
        if not isinstance(entry, Call):
            continue
        status = Status.OK if reason is None else reason.status
        expect(f"the status by which entry {number} is explained, {reason}", status, entry.answer.status)
        if is_refusal(entry):
            add_up(1, "refusals explained")
            assert reason.heading in headings, f"entry {number} is explained by a heading that the rules don't have"
            assert re.fullmatch(r"\d+(\.\d+)+", reason.section) and sentence(reason, replay.server)
        if reason and reason.again:
            add_up(1, "kept answers")
            first = journal.entries[reason.again.entry]
            assert isinstance(first, Call)
            expect(f"the request and the answer of entry {number}", same_in_both(entry), same_in_both(first))


def expect_index(server):
    """What the history keeps to find states sooner is what the server has."""
    expect("the states that there are", server.present, {it.number for it in server.states()})
    expect("those and the states that ended", server.present | set(server.ended), set(server.given))
    for file in server.opens_by_file:
        expect(f"the opens of node {file}", server.opens_of(file), [it for it in server.opens if it.file == file])


def same_in_both(call):
    """What a call has in common with the one whose kept answer it gets: who sent it, and when, may differ."""
    return call.opnum, call.arguments, call.filehandle, call.answer


@pytest.mark.parametrize("file", ROW_FILES)
def test_rows(file, headings, add_up):
    for row in rows_of(file):
        journal = journal_of(row)
        expect(f"whether {row.name} has no journal", journal is None, is_refused_tree(row))
        if journal is not None:
            expect_reasons(journal, headings, add_up)


@pytest.mark.parametrize("seed", range(12))
def test_any_calls(seed, headings, add_up):
    caller = Caller(seed)
    for _ in range(60):
        caller.next_step()
    expect_reasons(caller.server.journal(), headings, add_up)


@pytest.mark.parametrize("story_of", ALL_STORIES, ids=lambda it: it.__name__)
def test_story(story_of, headings, add_up):
    story = story_of()
    journal = story.server.journal()
    expect_reasons(journal, headings, add_up)
    replay, told, texts = Replay(journal), [], {}
    for it in replay.run():
        told.append(it)
        if is_refusal(it.entry):
            texts[it.number] = sentence(it.reason, replay.server), it.reason.heading
    assert texts == story.wanted
    # A sentence is the same when the replay has gone on.
    assert texts == {
        it.number: (sentence(it.reason, replay.server), it.reason.heading) for it in told if is_refusal(it.entry)
    }
    assert {it.number: it.events for it in told if it.events} == story.events
    assert {
        it.number: again_words(it.entry, it.reason.again)
        for it in told
        if it.reason and it.reason.again and isinstance(it.entry, Call)
    } == story.again


def folded(journal, is_each=False):
    """Of each paragraph of tools/explain the number of its entry, and what is said of equal refusals."""
    replay = Replay(journal)
    given = argparse.Namespace(again=False, delegations=False, each=is_each, whole=False, words=False)
    paragraphs = Paragraphs(given, replay.server)
    for told in replay.run():
        paragraphs.add(told)
    return {
        int(lines[0].split(":")[0]): [line.strip() for line in lines[2:]]
        for lines in (list(it.text()) for it in paragraphs.all)
    }


@pytest.mark.parametrize("story_of, wanted", FOLDED, ids=lambda it: getattr(it, "__name__", ""))
def test_folded(story_of, wanted):
    """Equal refusals are one paragraph; with --each all are shown, and each path that is marked down."""
    story = story_of()
    journal = story.server.journal()
    assert folded(journal) == wanted
    marked = [number for number, entry in enumerate(journal.entries) if isinstance(entry, Path) and not entry.is_up]
    assert folded(journal, is_each=True) == {number: [] for number in [*story.wanted, *marked]}
