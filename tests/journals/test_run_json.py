"""Runs as JSON: `--json` of show_journal, explain and the audit, and docs/run.schema.json, by which entries and reasons of all
rows' journals are judged."""
import json
import os
import re
import shutil
import subprocess
from typing import Any

import pytest

from helpers.hand_made_run import entries, hand_made
from helpers.journal_cases import beginning_of, sample, sample_for_clients
from helpers.row_journals import ROW_FILES, journal_of, rows_of
from helpers.run_commands import call, path, put, run_of
from helpers.schemas import Schema
from nfs4tools.explain.command import main as explain
from nfs4tools.journal.journal import journal_bytes, json_of
from nfs4tools.processes import TOP
from nfs4tools.rows.reading import File as rows_in
from nfs4tools.runs.data import entry_data, line_of
from nfs4tools.runs.reasons import reason_data
from nfs4tools.runs.replayed import Replayed
from nfs4tools.runs.run import Run
from nfs4tools.show.command import main as show_journal

# These are fixtures.
__all__ = ["call", "path", "put"]
pytestmark = pytest.mark.quick
SCHEMA = os.path.join(TOP, "docs/run.schema.json")

JSON_OF_6: dict[str, Any] = {
    "entry": 6,
    "kind": "call",
    "moment": 3,
    "client": "c2",
    "client_number": 2,
    "path": "/a",
    "owners": [{"kind": "open", "client": 2, "name": "B"}],
    "principal": {"flavor": "AUTH_NONE", "uid": 0},
    "filehandle": "/",
    "operation": "OPEN",
    "arguments": {
        "seqid": 5,
        "share_access": "WRITE",
        "share_deny": "NONE",
        "owner": {"clientid": "4294967298", "owner": "B"},
        "opentype": "OPEN4_NOCREATE",
        "claim": "CLAIM_NULL",
        "file": "a",
    },
    "answered": "OPEN",
    "status": "NFS4ERR_SHARE_DENIED",
    "result": None,
}
REASON_OF_6: dict[str, Any] = {
    "kind": "share-conflict",
    "status": "NFS4ERR_SHARE_DENIED",
    "entries": [4],
    "states": [1],
    "owners": [{"kind": "open", "client": 1, "name": "A"}],
    "heading": "Share reservations",
    "section": "9.9",
    "text": 'open owner "A" of client 1 denies WRITE of file "/a" since entry 4',
}


def test_json(path, call):
    lines = [json.loads(it) for it in call(show_journal, "--json", path)[1]]
    assert [it["entry"] for it in lines] == list(range(14)) and lines[6] == JSON_OF_6
    assert lines[8]["arguments"]["open_stateid"] == {
        "seqid": 2,
        "other": "000000010000000100000001",
        "epoch": 1,
        "client": 1,
        "state": 1,
    }
    assert (lines[8]["arguments"]["length"], lines[7]["result"]) == ("10", {"obj_attributes": {"size": "0"}})
    assert lines[0]["result"] == {"clientid": "4294967297", "setclientid_confirm": "1"}
    assert lines[11] == {
        "entry": 11,
        "kind": "expire",
        "moment": 94,
        "client": "c2",
        "client_number": 2,
        "path": None,
        "owners": [],
        "seen": 3,
    }
    refused = [json.loads(it) for it in call(explain, "--json", path)[1]]
    assert [it["entry"] for it in refused] == [6, 9, 10, 12, 13]
    assert refused[0] == {**JSON_OF_6, "reason": REASON_OF_6}
    assert (refused[1]["reason"]["expected"], refused[1]["reason"]["given"]) == (4, 5)


def test_json_of_ends(put, call):
    """The last line says how a beginning ends, what is no entry, and which entry can't follow."""
    whole = journal_bytes(hand_made())
    begun = beginning_of(hand_made())
    schema = Schema(SCHEMA)
    unlawful = hand_made()._replace(entries=entries()[1:])
    for main, name, data, status, wanted in (
        (
            show_journal,
            "cut",
            whole[:-4],
            2,
            {"ending": "the file ends inside entry 13, of which it has", "fault": None},
        ),
        (explain, "cut", whole[:-4], 2, {"ending": "the file ends inside entry 13, of which it has", "fault": None}),
        (
            show_journal,
            "more",
            whole + bytes(4),
            2,
            {"ending": None, "fault": "fault: not a journal: entry 14: bytes after the last one"},
        ),
        (explain, "beginning", begun[:-4], 0, {"ending": "the file ends inside entry 13", "fault": None}),
        (explain, "unlawful", journal_bytes(unlawful), 1, {"ending": None, "fault": "fault: wrong answer at entry 0"}),
    ):
        ended, lines, _ = call(main, "--json", put(name, data))
        last = json.loads(lines[-1])
        assert not schema.faults(last) and ended == status
        assert all(value is None or last[key].startswith(value) for key, value in wanted.items())


def test_json_of_an_audit():
    whole, schema = journal_bytes(hand_made()), Schema(SCHEMA)
    for data, wanted in (
        (whole, (True, 14, None, None)),
        (whole[:-4], (False, 13, None, "fault: not a journal")),
        (journal_bytes(hand_made()._replace(entries=entries()[1:])), (False, 13, 0, "fault: wrong answer at entry 0")),
        (b"", (False, 0, None, "fault: not a journal")),
        (b"NFSJRN09", (False, 0, None, "fault: not a journal")),
    ):
        found = json_of(data)
        assert not schema.faults(found)
        assert (found["lawful"], found["entries"], found["wrong"], found["fault"]) == wanted
        assert (found["ending"] is None) == (wanted[3] != "fault: not a journal")


def journals():
    """Those of all rows, and some with all forms of operations."""
    yield from (sample(), sample_for_clients(), hand_made())
    for name in ROW_FILES:
        yield from (it for it in map(journal_of, rows_of(name)) if it is not None)


def test_json_by_the_schema(add_up):
    """Each entry and each reason of the rows' journals is as docs/run.schema.json says; what was seen so isn't judged
    again."""
    schema, seen = Schema(SCHEMA), set()
    for journal in journals():
        replayed = Replayed(Run(journal._replace(entries=[]), run_of(journal), None), has_events=True)
        for entry, told in replayed.told():
            data = entry_data(entry) | {"events": told.events}
            data["reason"] = None if told.reason is None else reason_data(told.reason, replayed.server)
            add_up(1, "entries")
            line = line_of(data | {"entry": 0})
            if line not in seen:
                seen.add(line)
                assert not schema.faults(json.loads(line_of(data))), line
        assert replayed.fault is None
    assert schema.faults(json.loads(line_of({**JSON_OF_6, "moment": "3"}))) == [".moment: '3' is no integer"]


@pytest.mark.skipif(shutil.which("jq") is None, reason="jq isn't installed")
def test_jq(put):
    """The example of CLIENTS, of the journal that is made there."""
    with open(os.path.join(TOP, "docs/CLIENTS.md"), encoding="utf-8") as page:
        command, *wanted = re.search(r"^    (tools/explain --json .*)\n    (.*)\n    (.*)$", page.read(), re.M).groups()
    row = rows_in(os.path.join(TOP, "samples/two_faults.rows")).rows[0]
    path = put("run.journal", journal_bytes(journal_of(row)))
    ran = subprocess.run(["bash", "-c", command.replace("/tmp/run.journal", path)], capture_output=True, cwd=TOP)
    assert (ran.stdout.decode().splitlines(), ran.stderr) == (wanted, b"")
