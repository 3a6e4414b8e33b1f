"""What the pages say is there, and their sentences are as they should be (`tools/check_pages`). Each fault of a made-up
page is found. The numbers of the repository are printed."""
import pytest

from dev.release_numbers import number_lines
from dev.pages import Page, Sources, faults_of, files, helps, pages
from dev.sentences import (
    EXCEPTIONS,
    GLOSSARY,
    counted,
    faults_of_all,
    items_of,
    sentences_of,
    unused,
    wrong_sentences,
    wrong_words,
)

pytestmark = pytest.mark.quick

PATH = "docs/MAP.md"
# What a line may have, and what is told of it on that page.
RIGHT = [
    "[CLAIMS](CLAIMS.md), [its end](#a-page-in-2-parts), [elsewhere](https://example.org/nothing#nothing)",
    "`crates/nfs_core/src/core_state.rt`, `nfs_core/src`, `core_state.rt`, `tools/{floors,rows}`, `tools/explain FILE`",
    "`crates/NAME/mutants/*.edit`, `crates/*/out/rlib/stamp`, `docs/`, `d/c`, `src/core_state.rt`.",
    "`Core::apply`, `&Core`, `nfs_core::Core::apply()`, `Change::Forgets`, `IsRuled`, `decide`, `crates`, `JUST_A_WORD`",
    "`tools/show_journal --follow FILE`, `--journal FILE`, `nfs4state --version`, `rt try --foreign`, `--foreign`",
    "    $ ./start --with model --serve --trace -- tools/send_rows --only N {host} {port} samples/two_owners.rows",
    "    $ tools/between --to HOST --rule R -- tools/send_rows --only N {host} {port} samples/two_owners.rows",
    "    (cd crates/nfs4state && rt try -- serve --listen ADDR) | tools/model/serve.py --trace --lease 9",
]
WRONG = {
    "[a page](NOWHERE.md)": ["a link to NOWHERE.md, which isn't there"],
    "[a\nheading](CLAIMS.md#no-such)": ["a link to CLAIMS.md#no-such, and there is no such heading"],
    "[here](#no-such)": ["a link to #no-such, and there is no such heading"],
    "`crates/nfs_core/src/nothing.rt`": ["the path crates/nfs_core/src/nothing.rt"],
    "`nothing.py`, `nfs_core/nothing`": ["the path nfs_core/nothing", "the path nothing.py"],
    "`tools/{floors,stressed}`, `crates/NAME/nothing`": [
        "the path crates/NAME/nothing",
        "the path tools/{floors,stressed}",
    ],
    "    tools/nothing < samples/nothing.rows": ["the path samples/nothing.rows", "the path tools/nothing"],
    "```\nsamples/nothing.toml\n```": ["the path samples/nothing.toml"],
    "`Core::aply`": ["the name Core::aply"],
    "`Hold::apply()`": ["the name Hold::apply()"],
    "`Change::Forgotten`": ["the name Change::Forgotten"],
    "`IsRuledd`, `decidd`, `call_helt`": ["the name IsRuledd", "the name call_helt", "the name decidd"],
    "`--jurnal`": ["the option --jurnal"],
    "`tools/explain --agen`": ["the option --agen of tools/explain"],
    "`rows_index --serve`": ["the option --serve of tools/dev/rows_index"],
    "`serve --now 1`": ["the option --now of nfs4state serve"],
    "`./start --trace`": ["the option --trace of start"],
    "    rt run; crates/nfs4state/out/nfs4state once --listen 1 < x": ["the option --listen of nfs4state once"],
}
HEADING = "# A page, in 2 parts!\n\n"


@pytest.fixture(scope="module")
def sources():
    return Sources()


def test_pages(sources, tell):
    found = pages()
    assert {page.path for page in found} == {path for path in files() if path.endswith(".md")} - {"CHANGELOG.md"}
    faults = [fault for page in found for fault in faults_of(page, sources)]
    assert not faults, "\n".join(faults)
    tell(f"{len(found)} pages, {sum(len(page.spans) for page in found):,} words in backticks")


def test_sentences(tell):
    used, texts = set(), {page.path: page.text for page in pages()}
    faults = faults_of_all(texts, used) + unused(used)
    assert not faults, "\n".join(faults)
    counts = [counted(text) for text in texts.values()]
    tell(f"{sum(it.sentences for it in counts):,} sentences, of {sum(it.words for it in counts):,} words")


def test_helps():
    """The help of each command of tools is written as the pages are."""
    used, found = set(), helps()
    assert {"tools/src/nfs4tools/explain/command.py", "tools/dev/growth_limits.py"} <= found.keys()
    faults = [
        f"{path}:{line}: {fault}"
        for path, text in found.items()
        for line, fault in [*wrong_sentences(path, text, used), *wrong_words(path, text, used)]
    ]
    assert not faults, "\n".join(faults)


def test_numbers(tell):
    for line in number_lines():
        tell(line)


def test_made_up(sources):
    assert faults_of(Page(PATH, HEADING + "\n".join(RIGHT)), sources) == []
    for text, faults in WRONG.items():
        line = 4 if text.startswith("```") else 3
        assert faults_of(Page(PATH, HEADING + text), sources) == [f"{PATH}:{line}: {fault}" for fault in faults]
    # On a page for whoever writes a client, words of small letters may be anything.
    page = Page("docs/CLIENTS.md", "`nfs_lockf`, `gcc`, `IsRuledd`")
    assert faults_of(page, sources) == ["docs/CLIENTS.md:1: the name IsRuledd"]


LONG = "Word " + "word " * 29
# The text of a page, and its sentences as (line, words).
SENTENCES = {
    "One two. Three `four five. Six` and\nseven, e.g. eight; nine: ten.": [(1, 2), (1, 8)],
    'Is it so? (Yes!) "No." *Or* 3.5 - of 9.1.': [(1, 3), (1, 1), (1, 1), (1, 4)],
    "# A heading of words\n\n- an item\n  goes on\n- another. With two\n  1. nested\n\n  A paragraph.": [
        (3, 4),
        (5, 1),
        (5, 2),
        (6, 1),
        (8, 2),
    ],
    "> A quotation\n> goes on.\n\n[A link](to/a.page#part) of four.": [(1, 4), (4, 4)],
    "| A head | two |\n|---|:--|\n| a cell. Of two `a | b` | |": [(1, 2), (1, 1), (3, 2), (3, 3)],
    "Code:\n\n    $ one two three\n    four\n\n```\nfive six\n```\nAnd so on.": [(1, 1), (9, 3)],
    "- item\n\n      code in it\n\n- with - a dash": [(1, 1), (5, 3)],
}
# The same, and the faults of its sentences.
ILL_WRITTEN: dict[str, list[str]] = {
    f"Yes. {LONG}more.": ["1: a sentence of 31 words: Word word word word word word word word .."],
    f"- {LONG}\n- {LONG}\n\n| {LONG} | {LONG}more |": [
        "4: a sentence of 31 words: Word word word word word word word word .."
    ],
    "Right.\n\nIt comes\nBehind it, and `behind`, behind-hand.": ["3: the word 'Behind': after"],
    "It called the\nclient back; a lock in its way.": [
        "1: the word 'called the client back': recalled, sends a callback",
        "1: the word 'in its way': conflicts with",
    ],
    "It lets go of a growth.": ["1: the word 'growth': allocation", "1: the word 'lets go': cancels"],
    "A call of a client goes back. An understanding, behindhand, of standard input that misunderstood.": [],
    "A seat. A [seat](#seats).": ["1: 'seat' isn't linked at its first use"],
    "A [seat](../docs/GLOSSARY.md). Seats.": [],
    "A *seat* is a place, and a **mutant** a wrong body. `seat`": [],
    "# Seats\n\n[its place](seats.md); *so* the seat *is*": ["3: 'seat' isn't linked at its first use"],
}


def test_made_up_sentences():
    for text, expected in SENTENCES.items():
        found = [sentence for item in items_of(text) for sentence in sentences_of(item)]
        assert [(it.line, it.words) for it in found] == expected, text
    for text, faults in ILL_WRITTEN.items():
        assert faults_of_all({PATH: text}, set()) == [f"{PATH}:{fault}" for fault in faults], text
    assert faults_of_all({GLOSSARY: "A seat."}, set()) == []


def test_exceptions():
    one, used = EXCEPTIONS[0], set()
    assert faults_of_all({one.page or PATH: f"> {LONG}{one.words}, behind it"}, used) == []
    assert used == {one}
    assert unused(used) == [f"no page needs the exception {it.words!r} any more" for it in EXCEPTIONS[1:]]
    assert all(it.reason for it in EXCEPTIONS)


def test_counts():
    assert counted(f"Two words. {LONG}more") == (33, 2, 1)
    assert counted(f"Two words. {LONG}more").mean == 16.5
    assert counted("# Nothing\n").mean == 0
