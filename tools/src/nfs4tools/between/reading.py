"""Rules as they are written in a plan or an option."""
import difflib
import re
from collections.abc import Callable, Iterable
from typing import Any

from nfs4tools.between.rules import Aim, Choice, NoRule, OfClient, OfConnection, OfFile, OfOwner, Rule, WhichCalls
from nfs4tools.between.vocabulary import FAULTS, Fault, NAMED, RPC_ERRORS, STATUSES
from nfs4tools.wire import Status

# A word, or bytes in quotes; a comment ends the line.
TOKEN = re.compile(r'\s*(?:(?P<comment>#.*)|(?P<quoted>"(?:[^"\\]|\\.)*")|(?P<word>[^\s"]+)|(?P<other>"))')
ESCAPE = re.compile(rb"\\(?:x([0-9a-fA-F]{2})|(.))", re.DOTALL)
AIMS: dict[str, Callable[[bytes], Aim]] = {"client": OfClient, "owner": OfOwner}
WHICH = '3, "each", "each 10" or "1 in 10"'
AIMED = '"NAME", connection N, client "NAME" or owner "NAME"'


def rules_of(lines: Iterable[str]) -> list[Rule]:
    """The rules of these lines, which may have comments; or NoRule."""
    found = [(line, tokens_of(line)) for line in lines]
    return [Reading(line, tokens).rule() for line, tokens in found if tokens]


def rule_of(text: str) -> Rule:
    """The rule of a text; or NoRule."""
    found = rules_of([text])
    if len(found) != 1:
        raise NoRule("there is no word")
    return found[0]


def tokens_of(line: str) -> list[str]:
    """The words of a line, up to its comment. Those in quotes keep them."""
    tokens, at = [], 0
    while found := TOKEN.match(line, at):
        at = found.end()
        if found["comment"] is not None:
            break
        if found["other"] is not None:
            raise NoRule(f"a quote has no end; in: {line.strip()}")
        tokens.append(found["quoted"] or found["word"])
    return tokens


def quoted(word: str) -> bytes:
    """The bytes in quotes, in which a backslash stands before a quote, a backslash, and `xNN`."""

    def replaced(found: re.Match[bytes]) -> bytes:
        return bytes([int(found[1], 16)]) if found[1] is not None else found[2]

    return ESCAPE.sub(replaced, word[1:-1].encode())


def near(word: str, known: Iterable[str]) -> str:
    """What may be meant, as the end of a sentence."""
    found = difflib.get_close_matches(word.upper(), {it.upper(): it for it in known}, 1)
    return f", but {next(it for it in known if it.upper() == found[0])} is" if found else ""


def number_of(word: str) -> int | None:
    """A number of 1 or more, in digits."""
    return int(word) if re.fullmatch("[1-9][0-9]{0,9}", word) else None


class Reading:
    """The words of a rule, of which the next one is taken again and again."""

    def __init__(self, line: str, tokens: list[str]) -> None:
        self.words, self.text = list(tokens), " ".join(tokens)

    def rule(self) -> Rule:
        """FAULT OPERATION WHICH, with what it is aimed at; or NoRule."""
        try:
            fault = self.fault()
            given: dict[str, Any] = {"fault": fault, "value": self.value(fault), "operation": self.operation()}
            given |= {"which": self.which(), "aim": self.aim(), "status": self.status(), "text": self.text}
            if self.words:
                raise NoRule(f'"{self.words[0]}" is more than a rule has')
            return Rule(**given)
        except NoRule as error:
            raise NoRule(f"{error}; in: {self.text}") from None

    def next(self, what: str) -> str:
        if not self.words:
            raise NoRule(f"{what} is missing")
        return self.words.pop(0)

    def fault(self) -> Fault:
        word = self.next("the fault")
        if word not in FAULTS:
            raise NoRule(f'"{word}" is no fault{near(word, FAULTS)}; there are {", ".join(FAULTS)}')
        return FAULTS[word]

    def value(self, fault: Fault) -> int | float | str | None:
        if fault is Fault.SPLIT:
            word = self.next("the number of fragments")
            return number_of(word) or word
        if fault in (Fault.HOLD, Fault.AWAY):
            word = self.next("the number of seconds")
            return re.fullmatch(r"[0-9]+(\.[0-9]+)?", word) and float(word) or word
        if fault is not Fault.ANSWER:
            return None
        word = self.next("the status")
        if word not in STATUSES and word not in RPC_ERRORS:
            known = [*STATUSES, *RPC_ERRORS]
            raise NoRule(f'"{word}" is no status of RFC 7530 and no error of RPC{near(word, known)}')
        return word

    def operation(self) -> str:
        word = self.next("the operation")
        if word not in NAMED:
            raise NoRule(f'"{word}" is no operation{near(word, NAMED)}')
        return word

    def which(self) -> WhichCalls:
        word = self.next(f"which calls ({WHICH})")
        said, choice = " ".join([word, *self.words]), Choice.NTH
        number: int | None
        if word == "each":
            is_alone = not self.words or self.words[0] in ("of", "with")
            number, choice = 1 if is_alone else number_of(self.words.pop(0)), Choice.EACH
        elif self.words[:1] == ["in"]:
            number = number_of(self.words[1]) if word == "1" and len(self.words) > 1 else None
            self.words, choice = self.words[2:], Choice.CHANCE
        else:
            number = number_of(word)
        if number is None:
            raise NoRule(f'"{said}" doesn\'t say which calls; {WHICH} does')
        return WhichCalls(number, choice)

    def aim(self) -> Aim | None:
        if self.words[:1] != ["of"]:
            return None
        self.words.pop(0)
        word = self.next(f"what it is aimed at ({AIMED})")
        if word.startswith('"'):
            return OfFile(quoted(word))
        name = self.next(f"the name or number of its {word}") if word in ("connection", *AIMS) else ""
        if word in AIMS and name.startswith('"'):
            return AIMS[word](quoted(name))
        number = number_of(name)
        if word != "connection" or number is None:
            raise NoRule(f'"of {word}{" " * bool(name)}{name}" aims at nothing; "of" stands before {AIMED}')
        return OfConnection(number)

    def status(self) -> str | None:
        if self.words[:1] != ["with"]:
            return None
        self.words.pop(0)
        if self.next('"status"') != "status":
            raise NoRule('"with" stands before "status" alone')
        word = self.next("the status")
        known = [it.name for it in Status]
        if word not in known:
            raise NoRule(f'"{word}" is no status of RFC 7530{near(word, known)}')
        return word
