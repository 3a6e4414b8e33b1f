"""What the prover says of functions with edits, and what that makes of each edit.

An edit is REFUSED where a goal that its function has without the edit too isn't proved: the prover's own search did not
prove it, or a tactic of its written answer. Where only written answers broke, as they name what is gone or have another
type now, that is the proof's shape, and says nothing of the contract."""
import os
import re
from collections.abc import Collection, Iterable, Sequence
from typing import Any, NamedTuple

from dev.edits import Edit

REFUSED = "REFUSED"
SHAPE = "PROOF'S SHAPE"
CALLEE = "CALLEE"
MISSED = "NOT REFUSED"
BAD = "BAD EDIT"
UNSURE = "COULD NOT TELL"
MEND = "mend"
ASK = "ask"


class Verdict(NamedTuple):
    """What an edit comes to, and why. Where it is to be tried again, `more` says with what."""

    kind: str
    text: str
    more: Any = None


class Fault(NamedTuple):
    """One error of the prover: the place, the declaration that it stands in, if that is told, and all that is said."""

    path: str
    line: int
    column: int
    name: str
    text: str


# The kinds of errors in written answers, each with the words that tell it; the first that fits counts.
AFTER = "after another"
GONE = "gone"
LIMIT = "limit"
OPEN = "open"
TYPE = "type"
KINDS = [
    # It rests on what was refused, and says no more.
    (AFTER, r"^\d+ declarations? that depends? on "),
    # It names a goal, a place or a field that isn't there.
    (GONE, r"^record \S+ has no field |has no \S+ that can be named from here|is not in scope"),
    # A tactic gave up, and values that break the goal aren't known.
    (LIMIT, r"stopped at its own limit(?!.*the goal fails)|`cc` met a bound of its own before"),
    # A tactic doesn't prove the goal.
    (
        OPEN,
        r"^`\w+`: the goal does not follow |^`\w+`: no proof of |^`\w+` found no proof|the goal fails"
        r"|^`cc` proves a path .* and the goal \S+ is not one",
    ),
    # It proves something else than is wanted.
    (TYPE, r"the two types (first |only )?differ\b|^expected type |^on the face "),
]

FUNCTION = re.compile(r"fn (\S+): (proved|not proved|no proof|could not tell)\b(.*)")
OPENED = re.compile(r"note: \S+?:\d+:\d+: it is not proved that .*\(`([^`]+)`\)(.*)")
FAULT = re.compile(r"(?:\./)?(\S+?):(\d+):(\d+): error(\[[\w-]+\])?: (?:`([^`]*)`: )?(.*)")
VALUES = re.compile(r"note: `([^`]+)` of proofs/(\S+)/Answers\.antt may be false: the known facts allow (.*)")
ASKED = re.compile(r"help: `Goals` has no `(\S+)`; rattle asks for (.*?)(?:;|$)")


class Said:
    """What is said of one function: the goals that aren't proved, each with the values that break it, as far as they
    are told; and what is wrong in its written answers."""

    def __init__(self) -> None:
        self.word, self.reason = "", ""
        self.callees: list[str] = []
        self.open: dict[str, str] = {}
        self.faults: list[Fault] = []


class Report:
    """What one check says: of each function, in general, and of the goals that were asked for."""

    def __init__(self, status: int | None, text: str, crate: str) -> None:
        self.status, self.text, self.crate = status, text, crate
        self.functions: dict[str, Said] = {}
        self.asked: dict[str, set[str]] = {}
        self.compiler: list[Fault] = []
        self.is_told = status in (0, 1) and bool(re.search("(?m)^only=[0-9]+ ", text))
        # The notes on a function's goals stand before its line.
        goals: dict[str, str] = {}
        lines = text.split("\n")
        for number, line in enumerate(lines):
            if found := OPENED.match(line):
                goals[found[1]] = "values break it" if "allow values" in found[2] else ""
            elif found := FUNCTION.match(line):
                self.add_function(found[1], found[2], found[3], goals)
                goals = {}
            elif found := VALUES.match(line):
                self.of(path_name(found[2])).open[found[1]] = found[3].partition(": help: ")[0]
            elif found := ASKED.match(line):
                self.asked[found[1]] = set(re.findall("`([^`]+)`", found[2]))
            elif found := FAULT.match(line):
                self.add_fault(found, lines[number + 1 :])

    def of(self, function: str) -> Said:
        return self.functions.setdefault(function, Said())

    def name(self, symbol: str) -> str:
        return symbol.removeprefix(f"{self.crate}::")

    def add_function(self, symbol: str, word: str, more: str, goals: dict[str, str]) -> None:
        said = self.of(self.name(symbol))
        reason, _, called = more.partition("it calls ")
        said.word, said.reason = word, more
        said.callees = [self.name(it) for it in re.findall("`([^`]+)`", called)]
        named = re.findall("`([^`]+)`", reason.partition("did not prove")[2])
        said.open = dict.fromkeys(named, "") | goals

    def add_fault(self, found: re.Match[str], behind: list[str]) -> None:
        path, line, column, code, name, text = found.groups()
        for more in behind:
            if not more.startswith("  "):
                break
            text += "\n" + more
        fault = Fault(path, int(line), int(column), name or "", text)
        of = re.fullmatch(r"proofs/(.+)/(?:Answers|Invariants|Proof)\.antt", path)
        if code:
            self.compiler.append(fault)
        elif of:
            self.of(path_name(of[1])).faults.append(fault)


def path_name(path: str) -> str:
    return path.replace("/", "::")


def parts_of(function: str, report: Report) -> list[str]:
    """The function, and the closures in it."""
    return [
        name for name in report.functions if name == function or name.replace("fn::", "").startswith(f"{function}::")
    ]


def kind_of(fault: Fault) -> str | None:
    text = re.sub(r"\s+", " ", fault.text)
    return next((kind for kind, words in KINDS if re.search(words, text)), None)


def is_clause(goal: str) -> bool:
    """Whether the goal is a clause of the contract, an invariant of a type or of a loop, and not what a call or an
    operation needs."""
    return bool(re.search("^(returns|invariant_of)(-|$)|-(init|preserved)(-|$)", goal))


def callees_with_edits(function: str, report: Report, edited: Collection[str]) -> tuple[set[str], set[str]]:
    """The functions with an edit that keep this one from being proved, and those that do so without an edit."""
    own, seen, blame, others = parts_of(function, report), set(), set(), set()
    waiting = [callee for part in own for callee in report.functions[part].callees]
    while waiting:
        callee = waiting.pop()
        if callee in own or callee in seen:
            continue
        seen.add(callee)
        said = report.functions.get(callee, Said())
        holder = next((name for name in edited if callee in parts_of(name, report)), None)
        if holder:
            blame.add(holder)
        elif said.callees:
            waiting += said.callees
        else:
            others.add(callee)
    return blame - {function}, others


def judge(edit: Edit, report: Report, edited: Collection[str], asked: dict[str, bool], is_mended: bool) -> Verdict:
    """What a check makes of the edit. `edited` are the functions with edits in it; `asked` has the goals of the edit's
    function that were asked for, and whether it has them without the edit."""
    said = [report.functions[part] for part in parts_of(edit.function, report)]
    words = {it.word for it in said} - {None}
    if not words:
        return Verdict(UNSURE, "the check has no line for its function")
    if words == {"proved"}:
        more = ", where its written answers go to `grind` as facts: it means the same" if is_mended else ""
        return Verdict(MISSED, f"`{edit.function}` is proved with it{more}")
    if "could not tell" in words:
        return Verdict(UNSURE, "the prover could not tell")
    goals = {goal: values for it in said for goal, values in it.open.items()}
    faults = [fault for it in said for fault in it.faults]
    blame, others = callees_with_edits(edit.function, report, edited)
    verdict = (
        judge_answers(faults, is_mended)
        or judge_goals(goals, faults, asked)
        or judge_rest(goals, faults, others, is_mended)
    )
    # Goals are tried by the contracts of what is called, also where that isn't proved.
    if blame and (not verdict or verdict.kind not in (REFUSED, MEND, ASK)):
        return Verdict(CALLEE, f"it calls {listed(blame)}, which has an edit", blame)
    return verdict or Verdict(UNSURE, f"{said[0].word}{said[0].reason}")


def judge_answers(faults: list[Fault], is_mended: bool) -> Verdict | None:
    """By written answers whose tactics don't prove their goals. Where a tactic was put in, its limits say nothing."""
    counted = (OPEN,) if is_mended else (OPEN, LIMIT)
    return next((Verdict(REFUSED, told_fault(fault)) for fault in faults if kind_of(fault) in counted), None)


def judge_goals(goals: dict[str, str], faults: list[Fault], asked: dict[str, bool]) -> Verdict | None:
    """By the goals that the prover's search doesn't prove."""
    # Where no written answer broke, a clause of the contract counts wherever it is to be shown.
    known = [goal for goal in goals if asked.get(goal) or not faults and is_clause(goal)]
    if known:
        # Best one that values break, and else a clause.
        goal = max(known, key=lambda goal: (len(goals[goal]), is_clause(goal)))
        return Verdict(REFUSED, f"`{goal}` isn't proved" + (f": {goals[goal][:160]}" if goals[goal] else ""))
    unknown = [goal for goal in goals if goal not in asked]
    return Verdict(ASK, "", unknown) if unknown else None


def judge_rest(goals: dict[str, str], faults: list[Fault], others: Any, is_mended: bool) -> Verdict | None:
    """Where no goal that the function has without the edit too is told as not proved."""
    kinds = {kind_of(fault): fault for fault in reversed(faults)}
    if is_mended and kinds:
        return Verdict(SHAPE, f"{told_fault(faults[0])}; tried as a fact it doesn't decide")
    if None in kinds:
        return Verdict(UNSURE, f"these words aren't known: {told_fault(kinds[None])}")
    if GONE in kinds:
        return Verdict(SHAPE, told_fault(kinds[GONE]))
    if TYPE in kinds:
        return Verdict(MEND, "", faults)
    if goals:
        return Verdict(SHAPE, f"only goals that it doesn't have without the edit: {listed(goals)}")
    if others:
        return Verdict(UNSURE, f"it calls {listed(others)}, which has no edit and isn't proved")
    return None


def listed(names: Iterable[str]) -> str:
    return ", ".join(f"`{name}`" for name in sorted(names))


def told_fault(fault: Fault) -> str:
    text = re.sub(r"\s+", " ", fault.text)
    at = text.find("the goal fails")
    return f"`{fault.name}`: {text[:100]}{' .. ' + text[at:at + 120] if at > 100 else text[100:200]}"


def answers_path(folder: str, function: str) -> str:
    return os.path.join(folder, "proofs", *function.split("::"), "Answers.antt")


def mend(folder: str, function: str, faults: list[Fault]) -> None:
    """In a copy of the crate, has each term of the function's written answers whose type is wrong tried as a fact, from
    which `grind` may prove what is wanted there."""
    path = answers_path(folder, function)
    with open(path, encoding="utf-8") as source:
        text = source.read()
    lines = text.split("\n")
    # From the last one on, so that the places of those before stay.
    for fault in sorted(faults, key=lambda fault: (fault.line, fault.column), reverse=True):
        if kind_of(fault) == TYPE and path.endswith(f"/{fault.path}"):
            begin = sum(len(line) + 1 for line in lines[: fault.line - 1]) + fault.column - 1
            end = end_of_term(text, begin)
            text = f"{text[:begin]}(grind (arith, common_steps, ({text[begin:end]}))){text[end:]}"
    for module, name in (("Common", "arith"), ("lemmas.Grind", "common_steps")):
        if not re.search(rf"(?m)^use Rattle\.std\.proofs\.{module}\.{{[^}}]*\b{name}\b", text):
            text = f"use Rattle.std.proofs.{module}.{{{name}}}\n{text}"
    with open(path, "w", encoding="utf-8") as out:
        out.write(text)


def end_of_term(text: str, begin: int) -> int:
    """Where the term ends that begins there: as an argument of a function with its own brackets or its name, and else
    with the brackets or the part of a list that it stands in, or with the declaration."""
    before = text[:begin].rstrip()
    is_argument = bool(re.search(r"[\w)\]}]$", before)) and not re.search(r"\bin$", before)
    is_let = text.startswith("let ", begin)
    depth, at = 0, begin
    for at in range(begin, len(text) + 1):
        sign, behind = text[at : at + 1], text[at : at + 200]
        if depth == 0 and (
            sign in tuple(")]},|")
            or re.match(r"\n+(\S|$)", behind)
            or not is_let
            and re.match(r"\sin\s", behind)
            or is_argument
            and sign.isspace()
        ):
            break
        depth += sign in tuple("([{")
        depth -= sign in tuple(")]}")
    return begin + len(text[begin:at].rstrip())


def ask_for_goals(folder: str, function: str, crate: str, names: Sequence[str]) -> None:
    """In a copy of the crate, has the prover tell which goals of the function have names like these, which aren't
    there."""
    path = answers_path(folder, function)
    text, alias = "", None
    if os.path.exists(path):
        with open(path, encoding="utf-8") as source:
            text = source.read()
        alias = re.search(r"(?m)^use \S+\.Goals as (\S+)$", text)
    if not alias:
        os.makedirs(os.path.dirname(path), exist_ok=True)
        text = f"use Rattle.{crate}.proofs.{function.replace('::', '.')}.Goals as goal\n{text}"
    asked = "".join(f"\n{name} : {alias[1] if alias else 'goal'}.{name}\n{name} c = ?\n" for name in names)
    with open(path, "w", encoding="utf-8") as out:
        out.write(text + asked)
