"""Checks the index of clauses that tools/clauses prints:

- it has each function and each clause, by the lines of the files as the formatter writes them
- no function has two clauses of one name
- the contract that docs/CONTRACTS.md reads is the function's contract
- the functions that docs/CLAIMS.md names have the clauses that it names with them
- the functions that the examples of the crates' pages call are there"""
import re
import sys
from collections import Counter
from collections.abc import Iterator

from dev.clause_index import CRATES, TOP, Entry, Index, crates

# A closure's clauses, which stand further in, are no function's.
FUNCTION = re.compile(r"^(?: {4})?pub (?:const )?fn (\w+)", re.M)
CLAUSE = re.compile(r"^(?: {4}){1,2}(?:requires|ensures)\*?(?: \w+)? \{", re.M)
READ = "nfs_core::Core::answer"
CALLED = re.compile(r"(?:\b([A-Z]\w*)(?:::<\w+>)?::|(?<![.:\w]))([a-z]\w*)\(")
METHOD = re.compile(r"\.([a-z]\w*)\(")
OF_STD = {
    "alloc",
    "as_slice",
    "as_str",
    "clone",
    "is_none",
    "iter",
    "len",
    "ok",
    "pop",
    "push",
    "saturating_sub",
    "stdin",
    "stdout",
}
CITED = re.compile(r"`(?:\w+::)*(\w+)` \(((?:`\w+`,? ?(?:and )?)+)[);]")


def without_macros(text: str) -> str:
    return re.sub(r"^macro_rules! .*?^\}", lambda found: re.sub(r"[^\n]", " ", found[0]), text, flags=re.M | re.S)


def missing(index: Index) -> Iterator[str]:
    """What the files of the crate have, by their rows, and the index hasn't."""
    for source in index.sources:
        text = without_macros(source.text)
        entries = [entry for entry in index.entries if entry.place.rpartition(":")[0] == source.place(0)[:-2]]
        places = {entry.place for entry in entries}
        for found in FUNCTION.finditer(text):
            if source.place(found.start(1)) not in places:
                yield f"{source.place(found.start(1))}: {found[1]} isn't in the index"
        clauses = sum(clause.kind != "ghost" for entry in entries for clause in entry.clauses)
        rows = len(CLAUSE.findall(text))
        if clauses != rows:
            yield f"{source.file.relative_to(TOP)}: {rows} clauses, of which the index has {clauses}"


def doubled(entries: list[Entry]) -> Iterator[str]:
    """Names that a function has for two of its clauses of one kind; one without a name has to be the only one."""
    for entry in entries:
        counts = Counter((clause.kind, clause.name) for clause in entry.clauses)
        kinds = Counter(clause.kind for clause in entry.clauses)
        for (kind, name), count in counts.items():
            if count > 1 or not name and kinds[kind] > 1:
                yield f"{entry.place}: {entry.path} has {kinds[kind]} {kind}, and {count} named {name or 'nothing'}"


def page(name: str) -> str:
    return (TOP / "docs" / name).read_text(encoding="utf-8")


def misread(entries: list[Entry]) -> Iterator[str]:
    """What CONTRACTS says of the contract that it reads, and isn't so."""
    examples = re.findall(r"^```rust\n(.*?)^```", page("CONTRACTS.md"), re.M | re.S)
    clauses = [str(clause) for entry in entries if entry.path == READ for clause in entry.clauses]
    told = [
        " ".join(text.split())
        for example in examples
        for text in re.findall(r"(?:requires|ensures)[^\n]*(?:\n {8}[^\n]*)*", example)
    ]
    if told != clauses:
        yield f"CONTRACTS has {told}\n    where {READ} has {clauses}"


def miscited(entries: list[Entry]) -> Iterator[str]:
    """Clauses that CLAIMS names with a function, and that none of this name has."""
    clauses: dict[str, set[str]] = {}
    for entry in entries:
        if entry.kind == "fn":
            clauses.setdefault(entry.path.rpartition("::")[2], set()).update(it.name for it in entry.clauses)
    cited = 0
    for function, names in CITED.findall(" ".join(page("CLAIMS.md").split())):
        for name in re.findall(r"\w+", names.replace(" and ", " ")) if function in clauses else []:
            cited += 1
            if name not in clauses[function]:
                yield f"CLAIMS names {name} of {function}, which has {' '.join(sorted(clauses[function]))}"
    if cited < 20:
        yield f"only {cited} clauses are found in CLAIMS"


def uncalled(indexes: list[Index]) -> Iterator[str]:
    """Functions that a crate's page calls, by their own names or behind that of a type, and that there aren't."""
    entries = [entry for index in indexes for entry in index.entries]
    kinds = {"struct", "enum", "trait"}
    types = {entry.path.rpartition("::")[2]: entry.kind for entry in entries if entry.kind in kinds}
    names = {tuple(entry.path.split("::")[-2:]) for entry in entries if entry.kind == "fn"}
    free = {name for _, name in names}
    of_traits = {name for owner, name in names if types.get(owner) == "trait"}
    for index in indexes:
        text = (CRATES / index.crate / "README.md").read_text(encoding="utf-8")
        for example in re.findall(r"^```rust\n(.*?)^```", text, re.M | re.S):
            code = re.sub(r"//.*", "", example)
            for name in set(METHOD.findall(code)) - free - OF_STD:
                yield f"the page of {index.crate} calls .{name}"
            for owner, name in CALLED.findall(code):
                is_there = (owner, name) in names or name in of_traits if owner in types else owner or name in free
                if not is_there:
                    yield f"the page of {index.crate} calls {owner}::{name}"


def main() -> None:
    indexes = [Index(name) for name in crates()]
    entries = [entry for index in indexes for entry in index.entries]
    faults = [fault for index in indexes for fault in missing(index)]
    faults += [*doubled(entries), *misread(entries), *miscited(entries), *uncalled(indexes)]
    for fault in faults:
        print(f"check_clauses: {fault}")
    count = sum(len(entry.clauses) for entry in entries)
    print(f"check_clauses: {len(entries)} entries with {count} clauses, {len(faults)} faults")
    sys.exit(1 if faults else 0)
