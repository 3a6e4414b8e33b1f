"""The page of a run that `tools/show_journal --html` writes: its values, and what the command says."""
import base64
import json
import os
import re
import subprocess
import sys
import zlib

import pytest

from helpers.page_runs import busy
from nfs4tools.journal.journal import journal_bytes
from nfs4tools.page import data
from nfs4tools.page.data import TooLarge, address_of, page_values
from nfs4tools.page.writing import page_text
from nfs4tools.processes import PATIENCE, PROGRAM, Served, TOP
from nfs4tools.runs.run import Entry, read_run
from nfs4tools.runs.selection import Selection, Span
from nfs4tools.wire import Status

pytestmark = pytest.mark.quick
SHOW, SEND = (os.path.join(TOP, "tools", name) for name in ("show_journal", "send_rows"))
SERVERS = {"model": [sys.executable, os.path.join(TOP, "tools/model/serve.py")], "program": [PROGRAM, "serve"]}
SAMPLE, TREE = (os.path.join(TOP, "samples", name) for name in ("lent_file.rows", "lending.toml"))


def run(*words):
    return subprocess.run(words, capture_output=True, timeout=PATIENCE, text=True)


def served(kind, path, sample=SAMPLE, tree=TREE):
    """Writes the journal of this server, to which the sample is sent."""
    words = ["--listen", "127.0.0.1:0", "--journal", path, "--until-input-ends", "--tree", tree]
    with Served([*SERVERS[kind], *words], stdin=subprocess.PIPE) as server:
        assert run(SEND, "127.0.0.1", str(server.port), sample).returncode == 0
        server.end_input()
        assert server.end()[0] == 0
    return path


def values_in(text):
    """The values that a page has."""
    found = re.search(r'id="data">([^<]*)<', text)
    return json.loads(zlib.decompress(base64.b64decode(found[1])))


@pytest.fixture
def path(tmp_path):
    """A function that writes a journal: its path."""

    def write(journal):
        target = tmp_path / "run.journal"
        target.write_bytes(journal_bytes(journal))
        return str(target)

    return write


@pytest.fixture
def lent(tmp_path):
    """The values of the sample in which a file is lent."""
    return page_values(read_run(served("model", str(tmp_path / "lent.journal")), Entry), "lent")


def fields(it, *names):
    return tuple(getattr(it, name) if hasattr(it, name) else it[name] for name in names)


def test_states(lent):
    """The opens and the delegation, by the entries of the sample: 4 is the OPEN that is granted the delegation, 9 the
    OPEN of the other client, which recalls it, and 10 its DELEGRETURN."""
    found = [fields(it, "kind", "state", "client", "file", "owner", "begin", "end", "recalled") for it in lent["bars"]]
    assert found[:4] == [
        ("open", 1, 1, "/b", "holder", 2, None, None),
        ("open", 2, 1, "/a", "holder", 4, None, None),
        ("delegation", 3, 1, "/a", "", 4, 10, 9),
        ("open", 4, 2, "/b", "asker", 7, None, None),
    ]
    assert [it["parts"] for it in lent["bars"][:3]] == [[(2, "R", "")], [(4, "RW", "")], [(4, "W", "")]]


def test_clients(lent):
    names = [fields(it, "number", "name", "given", "confirmed", "ended") for it in lent["clients"]]
    assert names == [(1, "c1", 0, 1, None), (2, "c2", 5, 6, None)]


def test_refusal(lent):
    """The OPEN that is DELAY: its client, its file, its owner, and the delegation that its reason names."""
    row = lent["rows"][9]
    assert fields(row, "client", "number", "file", "owners", "operation", "status") == (
        *("c2", 2, "/a", ("asker",)),
        *("OPEN", "NFS4ERR_DELAY"),
    )
    assert row.why.states == (3,) and row.why.text.endswith(" (RULES: Delegations; RFC 7530, 10.4.4)")


def test_sequence_ids(lent):
    """OPEN begins with any; then each owner's next ones come. The DELAY counts."""
    found = [fields(it, "entry", "owner", "sent", "due", "outcome") for it in lent["sequences"]]
    assert found[:6] == [
        (2, "holder", 1, None, "counted"),
        (3, "holder", 2, 2, "counted"),
        (4, "holder", 3, 3, "counted"),
        (7, "asker", 1, None, "counted"),
        (8, "asker", 2, 2, "counted"),
        (9, "asker", 3, 3, "counted"),
    ]


@pytest.mark.needs("nfs4state")
def test_program(lent, tmp_path):
    """The page of the program's journal has the same values, but for moments."""
    path = served("program", str(tmp_path / "program.journal"))
    assert timeless(page_values(read_run(path, Entry), "lent")) == timeless(lent)


def timeless(values):
    rows = [it._replace(moment=0, words=re.sub("moment [0-9]+", "", it.words)) for it in values["rows"]]
    return {**values, "rows": rows}


def test_wrong_sequence_ids(path):
    """The bad client's ids that are refused are those of its BAD_SEQIDs."""
    values = page_values(read_run(path(busy(400)), Entry), "busy")
    wrong = {it.entry for it in values["sequences"] if it.outcome == "wrong"}
    assert wrong == {it.entry for it in values["rows"] if it.status == "NFS4ERR_BAD_SEQID"} != set()


def test_span(path):
    """A page of some entries has these, and what stands meanwhile."""
    run = read_run(path(busy(400)), Entry)
    values = page_values(run, "busy", Selection(entries=Span(100, 150)))
    assert [it.entry for it in values["rows"]] == [*range(100, 151)] and values["total"] == len(run.entries)
    assert all(it["begin"] <= 150 and (it["end"] is None or it["end"] >= 100) for it in values["bars"])
    whole = page_values(run, "busy")
    assert values["rows"] == whole["rows"][100:151] and len(values["bars"]) < len(whole["bars"])


def test_many(path, monkeypatch):
    """Of many entries the page has the words of refusals alone; of too many there is none."""
    run = read_run(path(busy(400)), Entry)
    monkeypatch.setattr(data, "WITH_WORDS", 399)
    rows = page_values(run, "busy")["rows"]
    assert all((it.words is None) == (it.status in (None, "NFS4_OK")) for it in rows)
    monkeypatch.setattr(data, "MOST", 399)
    with pytest.raises(TooLarge, match="--entries"):
        page_values(run, "busy")
    assert len(page_values(run, "busy", Selection(entries=Span(1, 399)))["rows"]) == 399


def test_address():
    chosen = Selection(("a&b", "2"), ("/d/c",), (), (Status.DELAY,), Span(3, 9), Span(5, None), 2)
    assert address_of(chosen) == "client=a%26b&client=2&file=%2Fd%2Fc&status=DELAY&moments=5-&context=2"


def test_text(path):
    """The page has its values, is one file, and shows no name as more than a text."""
    run = read_run(path(busy(50, ["</script><b>&", "delta"])), Entry)
    values = page_values(run, "<a>&.journal")
    text = page_text(values)
    assert values_in(text) == json.loads(json.dumps(values))
    assert "<title>&lt;a&gt;&amp;.journal</title>" in text and text.count("</script>") == 2
    assert re.findall(r'\b(?:src|href)="[^"#]|@import|url\((?!#)', text) == []
    assert set(re.findall(r"https?://[^\"' ]*", text)) == {"http://www.w3.org/2000/svg"}


def test_command(path, tmp_path):
    target = str(tmp_path / "page.html")
    ran = run(SHOW, "--html", target, "--client", "delta", "--entries", "-99", path(busy(400)))
    assert (ran.returncode, ran.stderr, ran.stdout) == (0, "", "written: 100 entries\n")
    with open(target, encoding="utf-8") as source:
        values = values_in(source.read())
    assert (values["begin"], values["title"], len(values["rows"])) == ("client=delta", "run.journal", 100)


def test_beginning(path, tmp_path):
    """The page of a beginning has its entries, and says how it ends."""
    journal = path(busy(400))
    with open(journal, "r+b") as file:
        file.truncate(20_000)
    ran = run(SHOW, "--html", str(tmp_path / "page.html"), journal)
    last = ran.stdout.splitlines()[-1]
    assert ran.returncode == 0 and last.startswith("the file ends inside entry ")
    text = (tmp_path / "page.html").read_text()
    assert values_in(text)["end"] == last


def test_unlawful(path, tmp_path):
    """The page of a journal that isn't lawful has the entries before that which can't follow, and the status is 1."""
    journal = busy(400)
    entry = journal.entries[300]
    wrong = entry._replace(answer=entry.answer._replace(status=Status.BADXDR, rest=b""))
    ran = run(
        SHOW, "--html", str(tmp_path / "page.html"), path(journal._replace(entries=[*journal.entries[:300], wrong]))
    )
    assert (ran.returncode, ran.stderr) == (1, "fault: wrong answer at entry 300\n")
    values = values_in((tmp_path / "page.html").read_text())
    assert (len(values["rows"]), values["end"]) == (300, "fault: wrong answer at entry 300")


@pytest.mark.parametrize(
    "words, status, said",
    [
        (["/nowhere"], 1, "fault: file not read\n"),
        ([__file__], 2, "fault: not a journal: it begins with other bytes\n"),
    ],
)
def test_faults(words, status, said, tmp_path):
    ran = run(SHOW, "--html", str(tmp_path / "page.html"), *words)
    assert (ran.returncode, ran.stderr, ran.stdout) == (status, said, "")
    assert not (tmp_path / "page.html").exists()
