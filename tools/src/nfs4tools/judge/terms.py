"""By which terms a verdict counts: which findings are allowed, whether warnings count, and which situations have to be
met."""
import argparse
import difflib
from collections.abc import Iterable, Iterator
from dataclasses import dataclass

from nfs4tools.journal.words import name_words
from nfs4tools.judge.findings import ALL_SORTS, Finding, Severity
from nfs4tools.judge.situations import missing
from nfs4tools.judge.verdicts import ClientVerdict, Verdict

OF_NO_CLIENT = "of no client"


@dataclass(frozen=True)
class Allowance:
    """A sort of findings that is allowed: of all clients, or of the one that is named; "" is that of no client."""

    sort: str
    client: str | None

    def has(self, finding: Finding) -> bool:
        return self.sort == finding.sort.name and self.client in (None, text_of(finding.client))


@dataclass(frozen=True)
class Terms:
    allowances: tuple[Allowance, ...] = ()
    warnings_count: bool = False
    required: tuple[str, ...] = ()

    def is_allowed(self, finding: Finding) -> bool:
        return any(allowance.has(finding) for allowance in self.allowances)

    def left(self, findings: Iterable[Finding], severity: Severity) -> list[Finding]:
        """Those of this severity that aren't allowed."""
        return [it for it in findings if it.severity == severity and not self.is_allowed(it)]

    def missing(self, verdict: Verdict) -> list[str]:
        """The situations that are required and that no client met."""
        counts = {it.client: it.situations for it in verdict.clients}
        return [it.name for it in missing(self.required, counts)]

    def errors(self, verdict: Verdict) -> int:
        return len(self.left(findings_of(verdict), Severity.ERROR)) + len(self.missing(verdict))

    def warnings(self, verdict: Verdict) -> int:
        return len(self.left(findings_of(verdict), Severity.WARNING))

    def is_right(self, verdict: Verdict) -> bool:
        """Whether nothing is left that counts."""
        return not self.errors(verdict) and not (self.warnings_count and self.warnings(verdict))

    def status(self, verdict: Verdict) -> int:
        """The status of the command."""
        return 2 if verdict.fault is not None else 0 if self.is_right(verdict) else 1


def findings_of(verdict: Verdict) -> Iterator[Finding]:
    """Those of all clients."""
    for client in verdict.clients:
        yield from client.findings


def text_of(client: bytes | None) -> str:
    """The id of a client as text, as `name_words` has it without the quotes; "" for no client."""
    if client is None:
        return ""
    words = name_words(client)
    return words[1:-1] if words.startswith('"') else words


def title_of(client: ClientVerdict) -> str:
    """What a client is called in a verdict."""
    return OF_NO_CLIENT if client.client is None else f"client {name_words(client.client)}"


def allowance(text: str) -> Allowance:
    """FINDING or FINDING=CLIENT, as argparse's `type` of an option."""
    name, has_client, client = text.partition("=")
    if name in ALL_SORTS:
        return Allowance(name, client if has_client else None)
    near = " or ".join(difflib.get_close_matches(name, ALL_SORTS, 2))
    advice = f"{near} is meant, maybe; " if near else ""
    raise argparse.ArgumentTypeError(f"there is no finding {name!r}: {advice}--help lists all")
