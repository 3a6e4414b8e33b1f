"""What came of a run: whether all went well, and a report as JSON (docs/between.schema.json) or as JUnit's XML."""
import json
from dataclasses import dataclass
from typing import Any

from nfs4tools.between.outcomes import Case
from nfs4tools.between.rules import Counted
from nfs4tools.between.tale import Tale
from nfs4tools.junit import Suite


@dataclass(frozen=True)
class Result:
    """A run that has ended: what was told; the status of its command, or None without one; and what counts."""

    tale: Tale
    command: int | None = None
    is_strict: bool = False
    may_be_idle: bool = False

    @property
    def is_idle(self) -> bool:
        """Whether no call passed, though calls were to."""
        return not self.tale.calls and not self.may_be_idle

    @property
    def is_right(self) -> bool:
        tale = self.tale
        is_clear = not (self.is_strict and tale.strict)
        return is_clear and not (tale.wrong or tale.never() or self.command or self.is_idle)

    def faults(self, case: Case) -> list[str]:
        """What of a fault's outcomes counts against the run."""
        return [it.text for it in case.told if it.is_wrong or self.is_strict and it.is_strict]


def cases_of(tale: Tale, counted: Counted) -> list[Case]:
    """The faults of a rule."""
    return [case for case in tale.cases if case.counted is counted]


# JSON.


def json_of(result: Result) -> str:
    return json.dumps(fields(result), indent=2) + "\n"


def fields(result: Result) -> dict[str, Any]:
    tale = result.tale
    return {
        "verdict": "right" if result.is_right else "wrong",
        "connections": tale.connections,
        "calls": tale.calls,
        "faults": len(tale.cases),
        "wrong": tale.wrong,
        "strict": tale.strict,
        "command": result.command,
        "rules": [rule_fields(tale, it) for it in tale.rules],
        "others": [{"wrong": is_wrong, "text": text} for is_wrong, text in tale.others],
    }


def rule_fields(tale: Tale, it: Counted) -> dict[str, Any]:
    return {
        "rule": str(it.rule),
        "calls": it.count,
        "met": it.met,
        "faults": [case_fields(case) for case in cases_of(tale, it)],
    }


def case_fields(case: Case) -> dict[str, Any]:
    """A fault, and its outcomes in their order."""
    outcomes = [
        {"outcome": it.outcome.value, "wrong": it.is_wrong, "strict": it.is_strict, "text": it.text} for it in case.told
    ]
    return {
        "number": case.number,
        "connection": case.place,
        "call": case.words,
        "text": case.done,
        "outcomes": outcomes,
    }


# JUnit.


def junit_of(result: Result) -> str:
    """A case for each rule, one for what is of no rule, and one for the command."""
    tale, suite = result.tale, Suite("between")
    for it in tale.rules:
        cases = cases_of(tale, it)
        lines = [f"{case.number}: {line}" for case in cases for line in [case.done, *(told.text for told in case.told)]]
        wrong = [f"{case.number}: {line}" for case in cases for line in result.faults(case)]
        if not it.met:
            wrong = [f"never met ({it.count} such calls)"]
        suite.add("rules", str(it.rule), wrong, lines)
    others = [text for is_wrong, text in tale.others if is_wrong] + ["no call passed"] * result.is_idle
    suite.add("connections", "calls", others)
    if result.command is not None:
        suite.add("command", "status", [f"the command ended with status {result.command}"] * (result.command != 0))
    return suite.text()


# The ways to write a report, by the ending of its file's name.
REPORTS = {".json": json_of, ".xml": junit_of}
