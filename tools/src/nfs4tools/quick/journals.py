"""The checks of journals: each that a run left is lawful by the model and by the program's own audit, and one that is
changed is refused by both, with the same line."""
import os
import subprocess
from collections.abc import Iterator
from dataclasses import dataclass

from nfs4tools.journal.entries import Answer, Call
from nfs4tools.journal.journal import Journal, journal_bytes, read_journal, verdict
from nfs4tools.processes import PATIENCE
from nfs4tools.program import ending_of, without_reason
from nfs4tools.quick.judged_server import JudgedServer, Outcome
from nfs4tools.wire import Opnum, Status

NO_JOURNAL = "fault: not a journal"


@dataclass(frozen=True)
class Audit:
    """Journals that are audited by one task: what each is called, and its path."""

    judged: JudgedServer
    journals: list[tuple[str, str]]


def lawful(audit: Audit) -> Outcome:
    """Each journal is lawful."""
    outcome = Outcome()
    for name, path in audit.journals:
        with open(path, "rb") as source:
            found = verdict(source.read())
        fault = None if found[0] else f"the journal of {name}: the model says: {found[1]}"
        outcome.check(fault or other_verdict(audit.judged, name, path, found))
    return outcome


def refused(audit: Audit) -> Outcome:
    """Each change of each journal is refused."""
    outcome = Outcome()
    for name, path in audit.journals:
        with open(path, "rb") as source:
            changes = list(changed(source.read()))
        for what, data, wanted in changes:
            other = f"{path}.changed"
            with open(other, "wb") as file:
                file.write(data)
            called, found = f"{name}, {what}", verdict(data)
            is_refused = not found[0] and wanted in (None, found[1])
            fault = None if is_refused else f"the journal of {called}: wanted {wanted}; the model says: {found[1]}"
            outcome.check(fault or other_verdict(audit.judged, called, other, found))
            os.remove(other)
    return outcome


def other_verdict(judged: JudgedServer, name: str, path: str, found: tuple[bool, str]) -> str | None:
    """How the program's audit differs from what the model found, if it does."""
    command = judged.audit()
    if command is None:
        return None
    try:
        ran = subprocess.run([*command, path], capture_output=True, timeout=PATIENCE)
    except subprocess.TimeoutExpired:
        return f"the journal of {name}: the audit doesn't end"
    got = ran.returncode, ran.stdout, without_reason(path, ran.stderr)
    return None if got == ending_of(found) else f"the journal of {name}: the model says {found}; the audit {got}"


def changed(data: bytes) -> Iterator[tuple[str, bytes, str | None]]:
    """What is changed, the file then, and the line with which it has to be refused, if that is known beforehand."""
    journal = read_journal(data)
    yield "with another first letter", bytes([data[0] ^ 1]) + data[1:], NO_JOURNAL
    yield "without its last byte", data[:-1], NO_JOURNAL
    yield "with a byte more", data + b"\0", NO_JOURNAL
    calls = [(number, entry) for number, entry in enumerate(journal.entries) if isinstance(entry, Call)]
    for number, call in dict([*calls[:1], *calls[-1:]]).items():
        status = Status.DELAY if call.answer.status != Status.DELAY else Status.EXPIRED
        other = call._replace(answer=Answer(call.opnum, status, b""))
        line = f"fault: wrong answer at entry {number}"
        yield f"with {status.name} in entry {number}", with_entries(journal, {number: other}), line
    for number in [number for number, call in calls if call.opnum == Opnum.SETCLIENTID][:1]:
        # Its confirmation is then that of an unknown client.
        yield f"without entry {number}", with_entries(journal, {number: None}), None


def with_entries(journal: Journal, others: dict[int, Call | None]) -> bytes:
    """The file with these entries in the place of some, or without them."""
    entries = [others.get(number, entry) for number, entry in enumerate(journal.entries)]
    return journal_bytes(journal._replace(entries=[entry for entry in entries if entry is not None]))
