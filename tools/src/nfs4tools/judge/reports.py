"""A verdict as lines of text, as JSON (docs/verdict.schema.json) and as JUnit's XML, with the elements that pytest's
--junitxml writes."""
import json
from collections.abc import Callable, Iterator
from typing import Any

from nfs4tools.judge.findings import ALL_SORTS, Finding, SORTS, Severity, TRACE_SORTS
from nfs4tools.judge.situations import SITUATIONS, require, table
from nfs4tools.judge.terms import Terms, text_of, title_of
from nfs4tools.judge.verdicts import ClientVerdict, Verdict
from nfs4tools.judge.watching import counted
from nfs4tools.junit import Suite, mark

# So many entries are named in a line.
NAMED = 4
# An entry, or a line of a trace, as it is shown.
Show = Callable[[int], str]


# Text.


def lines_of(verdict: Verdict, terms: Terms, show_entry: Show, show_line: Show) -> Iterator[str]:
    """Each client with what was found of it; what was required; and the verdict."""
    for client in verdict.clients:
        yield f"{title_of(client)}: {client_words(client, verdict.is_of_journal)}"
        for finding in client.findings:
            yield from finding_lines(finding, terms, show_line if finding.lines else show_entry)
    yield from (f"error: {line}" for line in require(terms.required, counts_of(verdict)))
    if verdict.ends is not None:
        yield verdict.ends
    if verdict.trace is not None and verdict.trace.ends is not None:
        yield verdict.trace.ends
    yield f"verdict: {verdict_words(verdict, terms)}"


def client_words(client: ClientVerdict, is_of_journal: bool) -> str:
    """What it did by the journal, and in the trace."""
    parts = ([client.activity.words()] if is_of_journal else []) + ([client.traced.words()] if client.traced else [])
    return "; ".join(parts)


def finding_lines(finding: Finding, terms: Terms, show: Show) -> Iterator[str]:
    """What was found, the first entry of it, and what a right client does."""
    allowed = "allowed " if terms.is_allowed(finding) else ""
    yield (
        f"  {allowed}{finding.severity.value} {finding.sort.name} (RFC 7530, {finding.sort.section}), "
        f"{place_words(finding)}: {finding.text}"
    )
    shown = next(iter(finding.lines or finding.entries or finding.others), None)
    if shown is not None:
        yield f"    {shown}: {show(shown)}"
    yield f"    {finding.sort.advice}"


def place_words(finding: Finding) -> str:
    """The entries of a finding, and the others that it speaks of; or the lines of the trace."""
    if finding.lines:
        place, others = f"{lines_words(finding.lines)} of the trace", lines_words(finding.other_lines)
    else:
        place = entries_words(finding.entries) if finding.entries else "at the end"
        others = entries_words(finding.others)
    return place + (f", with {others}" if finding.others or finding.other_lines else "")


def entries_words(entries: tuple[int, ...]) -> str:
    return ("entry " if len(entries) == 1 else "entries ") + numbers_words(entries)


def lines_words(lines: tuple[int, ...]) -> str:
    return ("line " if len(lines) == 1 else "lines ") + numbers_words(lines)


def numbers_words(numbers: tuple[int, ...]) -> str:
    more = f" and {len(numbers) - NAMED} more" if len(numbers) > NAMED else ""
    return ", ".join(map(str, numbers[:NAMED])) + more


def verdict_words(verdict: Verdict, terms: Terms) -> str:
    errors, warnings = terms.errors(verdict), counted(terms.warnings(verdict), "warning")
    if not terms.is_right(verdict):
        return f"{counted(errors, 'error')}, {warnings}"
    return f"right, {warnings}" if terms.warnings(verdict) else "right"


def counts_of(verdict: Verdict) -> dict[bytes | None, Any]:
    """How often each client met each situation."""
    return {it.client: it.situations for it in verdict.clients}


def tried_lines(verdict: Verdict) -> list[str]:
    """Which situations were met."""
    return table(counts_of(verdict))


# JSON.


def json_of(verdict: Verdict, terms: Terms) -> str:
    """The verdict by docs/verdict.schema.json."""
    return json.dumps(verdict_fields(verdict, terms), indent=2) + "\n"


def verdict_fields(verdict: Verdict, terms: Terms) -> dict[str, Any]:
    return {
        "verdict": "right" if terms.is_right(verdict) else "wrong",
        "errors": terms.errors(verdict),
        "warnings": terms.warnings(verdict),
        "missing": terms.missing(verdict),
        "entries": verdict.entries,
        "trace": None if verdict.trace is None else {"lines": verdict.trace.lines, "ends": verdict.trace.ends},
        "ends": verdict.ends,
        "fault": verdict.fault,
        "clients": [client_fields(client, terms) for client in verdict.clients],
    }


def client_fields(client: ClientVerdict, terms: Terms) -> dict[str, Any]:
    done, traced = client.activity, client.traced
    return {
        "name": None if client.client is None else text_of(client.client),
        "calls": done.calls,
        "opens": done.opens,
        "locks": done.locks,
        "delegations": done.delegations,
        "retransmissions": done.retransmissions,
        "trace": None if traced is None else {"operations": traced.operations, "renewals": traced.renewals},
        "findings": [finding_fields(finding, terms) for finding in client.findings],
        "situations": dict(client.situations),
    }


def finding_fields(finding: Finding, terms: Terms) -> dict[str, Any]:
    sort = finding.sort
    return {
        "finding": sort.name,
        "severity": finding.severity.value,
        "section": sort.section,
        "entries": list(finding.entries),
        "others": list(finding.others),
        "lines": list(finding.lines),
        "other_lines": list(finding.other_lines),
        "text": finding.text,
        "advice": sort.advice,
        "allowed": terms.is_allowed(finding),
    }


# JUnit.


def junit_of(verdict: Verdict, terms: Terms) -> str:
    """A case for each client and sort of findings: passed, failed for an error, skipped for a warning; and one for each
    situation that is required."""
    suite = Suite("verdict")
    judged = [*(SORTS if verdict.is_of_journal else ()), *(TRACE_SORTS if verdict.trace is not None else ())]
    for client in verdict.clients:
        for name in judged:
            add_case(suite, title_of(client), name, terms, [it for it in client.findings if it.sort.name == name])
    missing = terms.missing(verdict)
    for name in dict.fromkeys(terms.required):
        case = suite.case("required situations", name)
        if name in missing:
            mark(case, "failure", "no client met it", SITUATIONS[name].text)
    if verdict.fault is not None:
        mark(suite.case("journal", "journal"), "error", verdict.fault, verdict.fault)
    return suite.text()


def add_case(suite: Suite, title: str, name: str, terms: Terms, findings: list[Finding]) -> None:
    """The case of one sort of findings and one client."""
    case = suite.case(title, name)
    errors, warnings = terms.left(findings, Severity.ERROR), terms.left(findings, Severity.WARNING)
    if not errors and not warnings:
        return
    is_failed = bool(errors) or terms.warnings_count
    texts = [f"{place_words(it)}: {it.text}" for it in errors + warnings]
    mark(case, "failure" if is_failed else "skipped", texts[0], "\n".join([*texts, ALL_SORTS[name].advice]))
