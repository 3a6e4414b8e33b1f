"""How the pages are written: how long their sentences are, which words they have, and which own words they link.

An *item* is a paragraph, also of a quotation, an item of a list, or a cell of a table. Headings, blocks of code and the
line below a table's head are none. A paragraph that belongs to an item of a list is an item of its own.

A *sentence* ends at `.`, `?` or `!`, with the quotation marks, brackets and asterisks that close there, if a blank
follows and then a capital, a digit, a backtick, a quotation mark, an opening bracket or an asterisk. It ends with its
item, too. A colon and a semicolon end no sentence.

A *word* has a letter or a digit, and blanks around it. What is in backticks is one word with what is joined to it. Of a
link its text counts.

Words of `REFUSED` aren't there, and sentences have at most `LIMIT` words, outside of `EXCEPTIONS`. Words in backticks
are no words of the page. An own word (`OWN`) is linked at its first use on a page, or that sentence defines it: then it
is in italics or in bold. docs/GLOSSARY.md defines them all."""
import re
from collections.abc import Iterator
from typing import NamedTuple

LIMIT = 30

# What is refused, in any case of letters, and what to write.
REFUSED = {
    r"behind": "after",
    r"stand(?:s|ing)?|stood": "is, has",
    r"h[au]ngs? on": "depends on",
    r"call(?:s|ed|ing)? (?:[\w`-]+ ){0,3}back": "recalled, sends a callback",
    r"in (?:the|its|their|another's) way": "conflicts with",
    r"g(?:ive|ives|ave|iven|iving) way": "is dropped",
    r"growths?": "allocation",
    r"kept (?:answer|request)s?": "stored reply, last request",
    r"rooms": "crates",
    r"let(?:s|ting)? go": "cancels",
    r"books? of leases": "lease table",
    r"anew": "again, restarts",
    r"for want of": "because .. is lacking",
    r"but for": "except",
    r"aside": "except",
}

# Own words: how each may be spelt. Those that are also plain English (row, node, device, entry) aren't looked for.
OWN = {
    "slot": r"slots?",
    "generation": r"generations?",
    "epoch": r"epochs?",
    "sweep": r"sweep(?:s|er|ers|ing)?",
    "to forget": r"forg[eo]t(?:s|ten|ting)?",
    "idle": r"idle",
    "policy": r"polic(?:y|ies)",
    "profile": r"profiles?",
    "path mark": r"path marks?",
    "journal": r"journals?",
    "lawful": r"lawful",
    "audit": r"audit(?:s|ed|ing)?",
    "seat": r"seats?",
    "receipt": r"receipts?",
    "roll": r"roll",
    "lease word": r"lease words?",
    "keeper": r"keeper",
    "to retire": r"retire(?:s|d)?",
    "mutant": r"mutants?",
    "independent model": r"independent model",
}
GLOSSARY = "docs/GLOSSARY.md"


class Allowed(NamedTuple):
    """An exception: on which page, or on all, with which words in it a sentence is allowed, and why."""

    page: str
    words: str
    reason: str


EXCEPTIONS = [
    Allowed("", "Whenever the lock of the shared state is free", "the headline, word for word as it was asked for"),
    Allowed("", "no write delegation stands beside", "a part of the headline"),
]

FENCE = re.compile(r"\s*(```|~~~)")
MARK = re.compile(r"(\s*)((?:[-*+]|\d+[.)])\s+)")
RULE = re.compile(r"\|[\s:|-]*\|?$")
SPAN = re.compile(r"(`+).+?\1")
LINK = re.compile(r"!?\[([^\]]*)\](?:\([^)\s]*\)|\[[^\]]*\])")
END = re.compile(r"""[.?!]["'”’)\]*_]*(?=\s+["'“‘(\[*_A-Z0-9`])""")
CODE = "`C`"
TARGET = re.compile(r"\]\([^)\s]*\)")
TOLD = re.compile(r"\[[^\]]*\]|(?<![\w*])(\*\*?)[^*\s][^*]*\1")


class Item(NamedTuple):
    """A piece of a page: the line where it begins, and its text on one line, with a sign in place of each code."""

    line: int
    text: str


class Sentence(NamedTuple):
    line: int
    text: str
    words: int


class Reader:
    """Parts the text of a page into items, line by line."""

    def __init__(self) -> None:
        self.items: list[Item] = []
        self.pieces: list[str] = []
        self.began, self.indent, self.is_after_blank, self.fence = 0, 0, True, ""

    def end_item(self) -> None:
        if text := " ".join(self.pieces):
            self.items.append(Item(self.began, SPAN.sub(CODE, text)))
        self.pieces = []

    def begin(self, number: int, text: str) -> None:
        self.end_item()
        self.began, self.pieces = number, [text.strip()]

    def take_row(self, number: int, row: str) -> None:
        self.end_item()
        cells = SPAN.sub(CODE, row).strip().strip("|").split("|")
        if not RULE.fullmatch(row.strip()):
            self.items += [Item(number, cell.strip()) for cell in cells if cell.strip()]

    def take(self, number: int, line: str) -> None:
        text = re.sub(r"^\s*>\s?", "", line)
        depth = len(text) - len(text.lstrip())
        mark = MARK.match(text)
        if found := FENCE.match(line):
            self.end_item()
            self.fence = "" if self.fence else found[1]
        elif self.fence:
            return
        elif not text.strip() or text.startswith("#"):
            self.end_item()
        elif text.lstrip().startswith("|"):
            self.take_row(number, text)
        elif mark and (depth < self.indent + 4 or not self.is_after_blank):
            self.begin(number, text[mark.end() :])
            self.indent = mark.end()
        elif self.pieces:
            self.pieces.append(text.strip())
        elif depth < self.indent + 4:
            self.indent = self.indent if depth else 0
            self.begin(number, text)
        self.is_after_blank = not text.strip()


def items_of(text: str) -> list[Item]:
    reader = Reader()
    for number, line in enumerate(text.split("\n"), 1):
        reader.take(number, line)
    reader.end_item()
    return reader.items


def words_in(sentence: str) -> int:
    return sum(bool(re.search(r"\w", word)) for word in sentence.split())


def sentences_of(item: Item) -> Iterator[Sentence]:
    text, at = LINK.sub(r"\1", item.text), 0
    ends = [*(found.end() for found in END.finditer(text)), len(text)]
    for end in ends:
        sentence, at = text[at:end].strip(), end
        if count := words_in(sentence):
            yield Sentence(item.line, sentence, count)


def is_allowed(path: str, text: str, used: set[Allowed]) -> bool:
    found = {it for it in EXCEPTIONS if it.page in ("", path) and it.words in text}
    used |= found
    return bool(found)


def wrong_sentences(path: str, text: str, used: set[Allowed]) -> Iterator[tuple[int, str]]:
    for sentence in (it for item in items_of(text) for it in sentences_of(item)):
        if sentence.words > LIMIT and not is_allowed(path, sentence.text, used):
            yield sentence.line, f"a sentence of {sentence.words} words: {' '.join(sentence.text.split()[:8])} .."


def wrong_words(path: str, text: str, used: set[Allowed]) -> Iterator[tuple[int, str]]:
    for sentence in (it for item in items_of(text) for it in sentences_of(item)):
        for word, better in REFUSED.items():
            for found in re.finditer(rf"(?<![\w-])(?:{word})(?![\w-])", sentence.text, re.I):
                if not is_allowed(path, sentence.text, used):
                    yield sentence.line, f"the word {found[0]!r}: {better}"


def first_use(items: list[Item], spelt: str) -> tuple[int, bool] | None:
    """The line of the first use, and whether it is in a link, in italics or in bold. A link's target is no use."""
    for line, text in items:
        shown = TARGET.sub(lambda found: "]" + " " * (len(found[0]) - 1), text)
        if found := re.search(rf"(?<![\w-])(?:{spelt})(?![\w-])", shown, re.I):
            return line, any(it.start() <= found.start() < it.end() for it in TOLD.finditer(shown))
    return None


def wrong_first_uses(path: str, text: str) -> Iterator[tuple[int, str]]:
    items = [] if path == GLOSSARY else items_of(text)
    for name, spelt in OWN.items():
        found = first_use(items, spelt)
        if found and not found[1]:
            yield found[0], f"{name!r} isn't linked at its first use"


def faults_of_all(texts: dict[str, str], used: set[Allowed]) -> list[str]:
    """What is wrong with the sentences of the pages. The exceptions that they need come to `used`."""
    return [
        f"{path}:{line}: {fault}"
        for path, text in texts.items()
        for line, fault in sorted(
            [*wrong_sentences(path, text, used), *wrong_words(path, text, used), *wrong_first_uses(path, text)]
        )
    ]


def unused(used: set[Allowed]) -> list[str]:
    return [f"no page needs the exception {it.words!r} any more" for it in EXCEPTIONS if it not in used]


class Counted(NamedTuple):
    """Of a page: how many words, sentences, and sentences above the limit it has."""

    words: int
    sentences: int
    long: int

    @property
    def mean(self) -> float:
        return self.words / max(self.sentences, 1)


def counted(text: str) -> Counted:
    found = [sentence.words for item in items_of(text) for sentence in sentences_of(item)]
    return Counted(sum(found), len(found), sum(words > LIMIT for words in found))
