"""The page of a run, drawn by a browser: it is skipped where Debian's chromium isn't there."""
import os
import re
import subprocess
from collections import defaultdict

import pytest

from helpers.browser import BROWSER, browser
from helpers.page_runs import busy
from helpers.row_journals import journal_of
from nfs4tools.journal.journal import journal_bytes
from nfs4tools.page.data import page_values
from nfs4tools.page.writing import page_text
from nfs4tools.processes import PATIENCE, TOP
from nfs4tools.rows.reading import File
from nfs4tools.runs.run import Entry, read_run

pytestmark = [
    pytest.mark.skipif(BROWSER is None, reason="no browser: apt-get install chromium"),
    pytest.mark.xdist_group("browser"),
]
SAMPLES = ["lent_file", "called_back", "recalled_file", "after_the_lease", "two_owners", "cut_file"]
EXPLAIN = os.path.join(TOP, "tools/explain")
ENTRIES = 600
# What the list of refusals has, once all are listed: the numbers, and the reasons.
LISTED = """(() => {
    document.querySelector("#refusals button.all")?.click();
    const items = [...document.querySelectorAll("#refusals li")];
    return items.map((it) => [Number(it.dataset.row), it.querySelector(".reason").textContent]);
})()"""
# Where the mark of an entry is in the window; it is scrolled there.
PLACE = """((entry) => {
    for (const svg of document.querySelectorAll("#picture svg")) {
        const hit = svg.hits?.find((it) => it.entry === entry && it.words.includes("NFS4ERR"));
        if (!hit) continue;
        svg.scrollIntoView();
        document.querySelector("#picture").scrollTop -= 40;
        const box = svg.getBoundingClientRect();
        return [box.left + (hit.x + hit.right) / 2, box.top + (hit.y + hit.bottom) / 2];
    }
})"""
# What is seen: the filters, the entries that are shown, the axis, the chosen entry and the lists.
SEEN = """["#chips", "#selected", "#shown", "#by", "#entry", "#table", "#refusals"]
    .map((it) => document.querySelector(it).innerText)
    .concat([...document.querySelectorAll("#filters input")].map((it) => it.value))"""


@pytest.fixture(scope="module")
def page():
    with browser() as found:
        found.size(1400, 900)
        yield found


def write_page(journal, folder, name="run"):
    """The paths of the journal and of its page."""
    path, target = (os.path.join(folder, f"{name}.{ending}") for ending in ("journal", "html"))
    with open(path, "wb") as file:
        file.write(journal_bytes(journal))
    with open(target, "w", encoding="utf-8") as file:
        file.write(page_text(page_values(read_run(path, Entry), f"{name}.journal")))
    return path, target


@pytest.fixture(scope="module")
def written(tmp_path_factory):
    """A busy run with a bad client: the paths of its journal and of its page."""
    return write_page(busy(ENTRIES), str(tmp_path_factory.mktemp("page")))


def explained(path, *words):
    """What `tools/explain` prints of the refusals that these filters leave: numbers and reasons."""
    ran = subprocess.run([EXPLAIN, "--each", *words, path], capture_output=True, timeout=PATIENCE, text=True)
    return [[int(number), reason] for number, reason in re.findall(r"(?m)^(\d+): .*\n    (.*)$", ran.stdout)]


def address(words):
    """The filters as the page's address has them."""
    return "#" + "&".join(f"{name[2:]}={value}" for name, value in zip(words[::2], words[1::2]))


@pytest.mark.parametrize("sample", SAMPLES)
def test_samples(page, sample, tmp_path):
    """The page of each sample is drawn without an error, and asks for nothing else."""
    row = File(os.path.join(TOP, f"samples/{sample}.rows")).rows[0]
    page.events.clear()
    path, target = write_page(journal_of(row), str(tmp_path), sample)
    page.open(target)
    assert page.messages() == [] and page.asked() == [f"file://{target}"]
    assert page.run(LISTED) == explained(path)
    assert page.run("document.querySelectorAll('#picture svg path').length") > 2


def test_click(page, written):
    """A click on a refusal shows what `tools/explain` prints of it: the first of each status that is drawn alone."""
    path, target = written
    page.open(target, "#view=0-99")
    reasons, kinds = dict(explained(path)), defaultdict(list)
    for entry in read_run(path, Entry).entries[:100]:
        if entry.is_refusal:
            kinds[entry.status].append(entry.number)
    assert len(kinds) >= 3
    for numbers in kinds.values():
        page.click(*page.run(f"{PLACE}({numbers[0]})"))
        assert page.run("document.querySelector('#entry .reason').textContent") == reasons[numbers[0]]
        assert page.run("location.hash").endswith(f"&entry={numbers[0]}")
    assert page.messages() == []


def test_in_the_way(page, written):
    """The states that a refusal names are bold: in its sentence, in a list, and in the picture."""
    path, target = written
    found = [
        it for it in page_values(read_run(path, Entry), "run")["rows"] if it.why and it.why.kind == "share-conflict"
    ]
    page.open(target, f"#entry={found[0].entry}")
    names = page.run("[...document.querySelectorAll('#entry li.chosen b')].map((it) => it.textContent)")
    listed = page.run("[...document.querySelectorAll('#entry ol > li > b')].map((it) => it.textContent)")
    for state in found[0].why.states:
        assert any(it.startswith(f"open {state} of ") for it in listed)
    assert set(names) <= {f"state {it}" for it in found[0].why.states}
    assert page.run("document.querySelectorAll('#picture path.bold-bar').length") > 0


@pytest.mark.parametrize(
    "words",
    [
        ["--client", "delta"],
        ["--client", "2"],
        ["--client", "alpha", "--client", "beta"],
        ["--file", "/db/main"],
        ["--file", "mail/inbox"],
        ["--owner", "pid1"],
        ["--status", "BAD_SEQID"],
        ["--status", "NFS4ERR_DELAY"],
        ["--entries", "60-130"],
        ["--entries", "500-"],
        ["--moments", "-30"],
        ["--status", "DELAY", "--context", "3"],
        ["--client", "delta", "--status", "BAD_SEQID", "--entries", "100-400"],
    ],
    ids=" ".join,
)
def test_filters(page, written, words):
    """Each filter leaves the refusals that `tools/explain` prints with it."""
    path, target = written
    page.open(target, address(words))
    wanted = explained(path, *words)
    assert wanted and page.run(LISTED) == wanted
    shown = page.run("document.querySelector('#shown').textContent")
    assert shown.endswith(f", {len(wanted)} refused")


@pytest.mark.parametrize(
    "wrong, said",
    [
        ("client=omega", 'no entry has the client "omega"'),
        ("entries=x", "entries: x is no FROM-TO, such as 60-130"),
        ("moments=9-3", "moments: 9-3 is no FROM-TO, such as 60-130"),
        ("context=-1", "context: -1 is no number"),
    ],
)
def test_wrong_filters(page, written, wrong, said):
    page.open(written[1], f"#{wrong}")
    assert page.run("document.querySelector('#wrong').innerText") == said and page.run(LISTED) == []


def test_address(page, written):
    """What is chosen by form, keys and links stands in the address, which restores it; and an address is followed."""
    page.open(written[1])
    page.run(
        """for (const it of ["client delta", "status BAD_SEQID", "entries 50-500", "context 1"]) {
        const [name, value] = it.split(" ");
        const field = document.querySelector("#filters").elements[name];
        field.value = value;
        field.dispatchEvent(new Event("change", { bubbles: true }));
    }"""
    )
    for key in "n+sn":
        page.press(key)
    seen, place = page.run(SEEN), page.run("location.hash")
    found = dict(it.split("=") for it in place[1:].split("&"))
    assert found.pop("view") and int(found.pop("entry")) > 50
    assert found == {"client": "delta", "status": "BAD_SEQID", "entries": "50-500", "context": "1", "by": "seconds"}
    page.open(written[1], place)
    assert page.run(SEEN) == seen
    page.open(written[1])
    changed = f"addEventListener('hashchange', () => done()); location.hash = '{place}';"
    page.run(f"new Promise((done) => {{ {changed} }})")
    assert page.run(SEEN) == seen and page.messages() == []


def test_axis_of_entries(page, written):
    """The axis shows the entries that the filter chooses, by the address and by the form; and all without it."""
    shown = "document.querySelector('#shown').textContent"
    page.open(written[1])
    whole = page.run(shown).partition(",")[0]
    page.open(written[1], "#entries=60-130")
    assert page.run(shown).startswith("entries 60 to 130, ")
    for entries, wanted in [("200-249", "entries 200 to 249"), ("", whole)]:
        page.run(
            f"""(() => {{
            const field = document.querySelector("#filters").elements.entries;
            field.value = "{entries}";
            field.dispatchEvent(new Event("change", {{ bubbles: true }}));
        }})()"""
        )
        assert page.run(shown).partition(",")[0] == wanted
        assert page.run("location.hash") == (f"#entries={entries}" if entries else "")
    page.open(written[1], "#entries=60-130&view=100-109")
    assert page.run(shown).startswith("entries 100 to 109, ") and page.messages() == []


def test_keys(page, written):
    """The keys choose refusals and entries, zoom, move, and leave the chosen entry."""
    path, target = written
    page.open(target, "#view=100-199")
    refused = [number for number, _ in explained(path) if number >= 100]
    chosen = []
    for key in ["n", "n", "p", ".", ","]:
        page.press(key)
        chosen.append(int(re.search(r"entry=(\d+)", page.run("location.hash"))[1]))
    assert chosen == [refused[0], refused[1], refused[0], refused[0] + 1, refused[0]]
    views = []
    for key in ["Escape", "+", "-", "ArrowRight", "0"]:
        page.press(key)
        views.append(page.run("location.hash"))
    assert views == ["#view=100-199", "#view=125-174", "#view=100-199", "#view=125-224", ""]


def test_sequence_ids(page, written):
    """Of few entries the picture has the owners' sequence ids: those that were wanted and sent."""
    path, target = written
    page.open(target, "#view=0-99")
    lane = "document.querySelector('#picture svg[aria-label=\"sequence ids\"]')"
    assert page.run(lane) is None
    wrong = next(it for it in page_values(read_run(path, Entry), "run")["sequences"] if it.outcome == "wrong")
    page.open(target, f"#view={wrong.entry - 9}-{wrong.entry + 20}")
    words = page.run(f"{lane}.hits.map((it) => it.words)")
    assert any(it.endswith(f"wanted {wrong.due}, sent {wrong.sent}: wrong") for it in words)


def test_looks(page, written):
    """Dark where that is preferred, and light on paper."""
    seen = []
    for scheme, media in [("light", "screen"), ("dark", "screen"), ("dark", "print")]:
        page.look(scheme, media)
        page.open(written[1])
        seen.append(page.run("getComputedStyle(document.body).backgroundColor"))
    assert seen[0] == seen[2] == "rgb(255, 255, 255)" != seen[1]
    assert page.run("getComputedStyle(document.querySelector('#filters label')).display") == "none"
    assert page.paper().startswith(b"%PDF-")
    page.look()


def test_span(page, tmp_path):
    """A page of some entries shows these alone, and follows no link to others."""
    with open(tmp_path / "run.journal", "wb") as file:
        file.write(journal_bytes(busy(ENTRIES)))
    target = str(tmp_path / "page.html")
    words = ["--html", target, "--entries", "200-299", "--status", "SHARE_DENIED", str(tmp_path / "run.journal")]
    assert subprocess.run([os.path.join(TOP, "tools/show_journal"), *words], timeout=PATIENCE).returncode == 0
    page.open(target)
    entries = [number for number, _ in page.run(LISTED)]
    assert entries and all(200 <= it < 300 for it in entries) and page.run("location.hash") == ""
    page.run("document.querySelector('#filters [type=reset]').click()")
    assert len(page.run(LISTED)) > len(entries) and page.run("location.hash") == "#all"
    assert page.run("document.querySelector('#title').innerText").startswith("run.journal: entries 200 to 299 of ")
    page.open(target, "#entry=12")
    assert page.run("document.querySelector('#entry').hidden") and page.messages() == []


def test_names(page, tmp_path):
    """Names are texts, whatever they are."""
    names = ["<img src=x onerror=alert(1)>", 'a"b&c', "\N{SNOWMAN}", "x" * 300]
    _, target = write_page(busy(200, names), str(tmp_path))
    page.open(target)
    shown = page.run("[...document.querySelectorAll('#filters select[name=client] option')].map((it) => it.value)")
    assert shown[1:4] == [names[0], 'a\\"b&c', names[2]]
    assert page.run("document.querySelectorAll('img').length") == 0 and page.messages() == []


def test_picture_of_the_pages(tmp_path):
    """The picture of CLIENTS is as large as one that is drawn now, and has less than 100 KB."""
    target = tmp_path / "run.png"
    ran = subprocess.run([os.path.join(TOP, "tools/dev/run_picture"), "--to", str(target)], timeout=5 * PATIENCE)
    assert ran.returncode == 0
    with open(os.path.join(TOP, "docs/run.png"), "rb") as file:
        kept = file.read()
    assert kept[:24] == target.read_bytes()[:24] and kept[:8] == b"\x89PNG\r\n\x1a\n" and len(kept) < 100_000


@pytest.mark.alone
def test_large(page, tmp_path, tell):
    """20,000 entries are drawn within 3 s of processor time."""
    _, target = write_page(busy(20_000), str(tmp_path))
    before = page.seconds()
    page.open(target)
    took = page.seconds() - before
    tell(f"20,000 entries, {os.path.getsize(target)} bytes: drawn in {took:.2f} s of processor time")
    assert took < 3 and page.messages() == []
