"""The index of a crate's clauses, read from its sources by their words and braces alone: what stands between them isn't
understood. Tests, and what macros write, aren't in it."""
import re
from collections.abc import Iterator
from dataclasses import dataclass, field
from pathlib import Path

TOP = Path(__file__).resolve().parent.parent.parent
CRATES = TOP / "crates"

# What is no code: comments, and what stands between quotes. A lifetime isn't between two.
HIDDEN = {
    ".rt": re.compile(r"""//[^\n]*|"(?:\\.|[^"\\])*"|'(?:\\.[^']*|[^'\\\n])'""", re.S),
    ".antt": re.compile(r"--[^\n]*"),
}
HEAD = re.compile(
    r"(?:#!?\[[^\]]*\]\s*)*"  # attributes
    r"(?P<seen>pub(?:\([\w: ]+\))?\s+)?(?:unsafe\s+|default\s+|const\s+(?=fn\b))*"
    r"(?P<kind>fn|struct|enum|trait|impl|mod|use|ghost\s+use|ghost|const|static|type|macro_rules\s*!)"
    r"(?!\w)\s*(?P<name>\w+)?"
)
CLAUSE = re.compile(r"\b(?P<kind>(?:requires|ensures)\*?)(?:\s+(?P<name>\w+))?\s*(?=\{)")
GHOST = re.compile(r"\bghost\s+(?!use\b)(?P<name>\w+)\s*(?P<sign>[:=])\s*(?=\{)")
UP_TO_SEMICOLON = {"use", "ghost use", "ghost", "const", "static", "type"}


@dataclass(frozen=True)
class Clause:
    """A `requires` or `ensures`, or a ghost member of a type or a trait, with its text on one line."""

    kind: str
    name: str
    text: str

    def __str__(self) -> str:
        return f"{self.kind} {self.name} {{ {self.text} }}" if self.name else f"{self.kind} {{ {self.text} }}"


@dataclass(frozen=True)
class Entry:
    """A function, a type, a trait or an implementation of a trait. Private is what no other crate can name."""

    crate: str
    kind: str
    path: str
    place: str
    doc: str
    clauses: tuple[Clause, ...]
    is_public: bool

    def matches(self, words: list[str]) -> bool:
        """Whether each of the words, which are in lower case, is somewhere in what is printed of it."""
        return all(word in str(self).lower() for word in words)

    def __str__(self) -> str:
        kind = "" if self.kind == "fn" else f"{self.kind} "
        lines = [self.doc] if self.doc else []
        return "\n    ".join([f"{kind}{self.path}  ({self.place})", *lines, *map(str, self.clauses)])


@dataclass(frozen=True)
class Item:
    """A piece of a file, from `start`, where its attributes begin, to `end`. The word of its kind is at `word`, and its
    block, if it has one, at `block`."""

    kind: str
    name: str
    is_public: bool
    start: int
    word: int
    block: int
    end: int


@dataclass
class Source:
    """A file of a crate, also with blanks in place of what is no code."""

    crate: str
    file: Path
    text: str
    code: str = field(init=False)

    def __post_init__(self) -> None:
        self.code = HIDDEN[self.file.suffix].sub(lambda found: re.sub(r"[^\n]", " ", found[0]), self.text)

    @property
    def path(self) -> str:
        """Where it is below `crates/`."""
        return str(self.file.relative_to(CRATES))

    def module(self) -> str:
        """The path of its module below the crate, which is empty for that of the crate itself."""
        parts = self.file.relative_to(CRATES / self.crate / "src").with_suffix("").parts
        return "" if parts in (("lib",), ("main",)) else "::".join(parts)

    def place(self, at: int) -> str:
        return f"{self.file.relative_to(TOP)}:{self.code.count(chr(10), 0, at) + 1}"

    def doc(self, at: int) -> str:
        """The first sentence of the comment that ends before `at`."""
        comment: list[str] = []
        for line in reversed(self.text[:at].rstrip().split("\n")):
            if not (found := re.match(r"\s*///(.*)", line)):
                break
            comment.insert(0, found[1].strip())
        return re.split(r"(?<=\.) (?=[A-Z`])", " ".join(comment).strip())[0]


def crates() -> dict[str, list[str]]:
    """The crates of crates.txt, in order, with those that each may name."""
    lines = (TOP / "crates.txt").read_text(encoding="utf-8").splitlines()
    parts = [line.partition(":") for line in lines if line.strip() and not line.startswith("#")]
    return {name: below.split() for name, _, below in parts}


def sources_of(crate: str, pattern: str = "src/**/*.rt") -> list[Source]:
    """A crate's files of one part, without those of its tests."""
    files = [
        file
        for file in sorted((CRATES / crate).glob(pattern))
        if file.stem != "tests" and "tests" not in file.relative_to(CRATES).parts[2:-1]
    ]
    return [Source(crate, file, file.read_text(encoding="utf-8")) for file in files]


def definitions_of(crate: str) -> Iterator[str]:
    """The files of a crate's definitions, each with what its first line says."""
    for file in sorted((CRATES / crate / "specs").rglob("*.antt")):
        first = file.read_text(encoding="utf-8").partition("\n")[0]
        if first.startswith("--"):
            yield f"{file.relative_to(TOP)}: {first.removeprefix('--').strip()}"


def behind(code: str, start: int) -> int:
    """The place behind the bracket that closes the one at `start`."""
    depth = 0
    for mark in re.compile(r"[()\[\]{}]").finditer(code, start):
        depth += 1 if mark[0] in "([{" else -1
        if depth == 0:
            return mark.end()
    return len(code)


def block_of(code: str, kind: str, start: int) -> tuple[int, int]:
    """Where the block of an item begins whose head ends at `start`, and where the item ends. The block of one that ends
    with a semicolon is empty, and at its end."""
    at = start
    while found := re.compile(r"[(\[{;]").search(code, at):
        if found[0] == ";":
            return found.end(), found.end()
        at = behind(code, found.start())
        is_clause = re.search(r"\b(?:requires|ensures)\*?(?:\s+\w+)?\s*$", code[start : found.start()])
        if found[0] == "{" and kind not in UP_TO_SEMICOLON and not (kind == "fn" and is_clause):
            return found.start(), at
    return len(code), len(code)


def items_in(code: str, start: int, end: int) -> Iterator[Item]:
    """The items that stand between the two places, without those within others."""
    at = start
    while found := HEAD.search(code, at, end):
        kind = re.sub(r"\s+", " ", found["kind"])
        block, at = block_of(code, kind, found.end())
        seen = (found["seen"] or "").strip()
        yield Item(kind, found["name"] or "", seen == "pub", found.start(), found.start("kind"), block, min(at, end))


def one_line(source: Source, start: int, end: int) -> str:
    """What stands between the two places, without comments."""
    joined = " ".join(re.sub(r"//[^\n]*", "", source.text[start:end]).split())
    return re.sub(r"(?<=[(\[]) | (?=[)\]])", "", joined)


def clauses_in(source: Source, start: int, end: int) -> Iterator[Clause]:
    at = start
    while found := CLAUSE.search(source.code, at, end):
        at = behind(source.code, found.end())
        yield Clause(found["kind"], found["name"] or "", one_line(source, found.end() + 1, at - 1))


def ghosts_in(source: Source, start: int, end: int) -> Iterator[Clause]:
    """The ghost members of a block, of a trait, an implementation or a type's fields, without those of functions in
    it."""
    bodies = [item for item in items_in(source.code, start, end) if item.kind == "fn"]
    for found in GHOST.finditer(source.code, start, end):
        if not any(body.word < found.start() < body.end for body in bodies):
            close = behind(source.code, found.end())
            yield Clause(
                "ghost",
                found["name"] + (":" if found["sign"] == ":" else " ="),
                one_line(source, found.end() + 1, close - 1),
            )


def without_generics(head: str) -> str:
    head, count = head.replace("->", ""), 1
    while count:
        head, count = re.subn(r"<[^<>]*>", "", head)
    return head


def owner_of(head: str) -> tuple[str, str]:
    """The trait, or nothing, and the type of an implementation, by what stands between `impl` and its block."""
    head = re.split(r"\bwhere\b", without_generics(head))[0]
    trait, is_of_trait, owner = head.rpartition(" for ")
    return (last_name(trait) if is_of_trait else ""), last_name(owner)


def last_name(path: str) -> str:
    return re.split(r"::", " ".join(path.replace("&", "").split()))[-1].strip()


@dataclass(frozen=True)
class Function:
    """A function of a file, whose path begins below `crates/`. The owner is the type or the trait that it is a method
    of, if any. The lines are those from the comment before it to its end; the body of a declaration is empty."""

    path: str
    name: str
    owner: str
    first: int
    last: int
    clauses: int
    body: str

    def __str__(self) -> str:
        return f"{self.owner}::{self.name}" if self.owner else self.name


def functions_of(source: Source) -> Iterator[Function]:
    """The functions of a file, without those that stand in others."""
    code, rows, found = source.code, source.text.split("\n"), list[tuple[str, Item]]()
    for item in items_in(code, 0, len(code)):
        if item.kind == "fn":
            found.append(("", item))
        elif item.kind in ("impl", "trait"):
            owner = item.name if item.kind == "trait" else owner_of(code[item.word + len("impl") : item.block])[1]
            found += [(owner, it) for it in items_in(code, item.block + 1, item.end - 1) if it.kind == "fn"]
    for owner, item in found:
        first, last = (code.count("\n", 0, at) + 1 for at in (item.start, item.end - 1))
        while first > 1 and re.match(r"\s*(//|#\[)", rows[first - 2]):
            first -= 1
        clauses = len(CLAUSE.findall(code, item.word, item.end))
        yield Function(source.path, item.name, owner, first, last, clauses, code[item.block : item.end])


def exports_of(sources: list[Source]) -> tuple[set[str], set[str]]:
    """The names that a crate hands on from its modules, and its public modules."""
    names: set[str] = set()
    modules: set[str] = set()
    for source in sources:
        if source.module():
            continue
        for item in items_in(source.code, 0, len(source.code)):
            if item.is_public and item.kind == "use":
                used = source.code[item.start : item.end]
                names |= {found[1] for found in re.finditer(r"(\w+)\s*(?=[,;}])", used)}
            elif item.is_public and item.kind == "mod":
                modules.add(item.name)
            elif item.is_public:
                names.add(item.name)
    return names, modules


class Index:
    """The entries of a crate, in the order of its files."""

    def __init__(self, crate: str) -> None:
        self.crate = crate
        self.sources = sources_of(crate)
        self.names, self.modules = exports_of(self.sources)
        self.defined = {
            item.name
            for source in self.sources
            for item in items_in(source.code, 0, len(source.code))
            if item.kind in ("struct", "enum", "trait", "type")
        }
        self.entries = [entry for source in self.sources for entry in self.entries_of(source)]

    def entries_of(self, source: Source) -> Iterator[Entry]:
        for item in items_in(source.code, 0, len(source.code)):
            if item.kind == "fn":
                yield self.entry(source, item, item.name, item.is_public and self.is_exported(source, item.name))
            elif item.kind in ("struct", "enum", "type"):
                yield self.entry(source, item, item.name, item.is_public and self.is_exported(source, item.name))
            elif item.kind == "trait":
                yield from self.of_trait(source, item)
            elif item.kind == "impl":
                yield from self.of_implementation(source, item)

    def is_exported(self, source: Source, name: str) -> bool:
        module = source.module()
        return name in self.names or module in self.modules or not module

    def can_be_named(self, source: Source, name: str) -> bool:
        """Whether others can name the type or trait, which may be one of another crate."""
        return name not in self.defined or self.is_exported(source, name)

    def of_trait(self, source: Source, item: Item) -> Iterator[Entry]:
        is_public = item.is_public and self.is_exported(source, item.name)
        yield self.entry(source, item, item.name, is_public)
        for method in items_in(source.code, item.block + 1, item.end - 1):
            if method.kind == "fn":
                yield self.entry(source, method, f"{item.name}::{method.name}", is_public)

    def of_implementation(self, source: Source, item: Item) -> Iterator[Entry]:
        head = source.code[item.start : item.block]
        trait, owner = owner_of(re.split(r"\bimpl\b", head, maxsplit=1)[1])
        can_be_named = self.can_be_named(source, owner)
        if trait:
            can_be_named = can_be_named and self.can_be_named(source, trait)
            owner = f"<{owner} as {trait}>"
            members = self.entry(source, item, owner, can_be_named)
            if members.clauses:
                yield members
        for method in items_in(source.code, item.block + 1, item.end - 1):
            if method.kind == "fn":
                entry = self.entry(
                    source, method, f"{owner}::{method.name}", can_be_named and (method.is_public or bool(trait))
                )
                # Of a trait's function all clauses of the trait hold: it is told where it has others beside them.
                if entry.clauses or not trait:
                    yield entry

    def entry(self, source: Source, item: Item, name: str, is_public: bool) -> Entry:
        if item.kind == "fn":
            clauses = tuple(clauses_in(source, item.word, item.block))
        else:
            clauses = tuple(ghosts_in(source, item.block + 1, item.end - 1))
        module = f"{source.module()}::" if source.module() in self.modules else ""
        return Entry(
            self.crate,
            item.kind,
            f"{self.crate}::{module}{name}",
            source.place(item.word),
            source.doc(item.start),
            clauses,
            is_public,
        )

    def is_program(self) -> bool:
        return all(source.file.name != "lib.rt" for source in self.sources)

    def shown(self, with_private: bool) -> list[Entry]:
        """What is printed: what other crates can name; of a program, which none can, whatever has a clause."""
        if with_private or self.is_program():
            return [entry for entry in self.entries if entry.is_public or entry.clauses]
        return [entry for entry in self.entries if entry.is_public and (entry.clauses or entry.kind != "type")]
