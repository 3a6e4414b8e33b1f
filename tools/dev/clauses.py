"""Prints the index of a crate's clauses, from its sources:

- each function that other crates can name: the first sentence of its comment, its `requires` and its `ensures`
- each type and trait: what it is to contracts, and what holds of its values
- the files of definitions

A law is a function of which only the `ensures` count. docs/CONTRACTS.md says how to read clauses.

With words, only what has each word in its path, comment or clauses is printed. Capitals don't matter."""
import argparse
import signal

from dev.clause_index import Entry, Index, crates as all_crates, definitions_of


def count(crate: str, entries: list[Entry]) -> str:
    kinds = [clause.kind.rstrip("*") for entry in entries for clause in entry.clauses]
    functions = sum(entry.kind == "fn" for entry in entries)
    return (
        f"{crate}: {functions} functions, {len(entries) - functions} types and traits; "
        f"{kinds.count('requires')} requires, {kinds.count('ensures')} ensures, {kinds.count('ghost')} ghost"
    )


def main() -> None:
    parser = argparse.ArgumentParser(
        prog="clauses", description=__doc__, formatter_class=argparse.RawDescriptionHelpFormatter
    )
    parser.add_argument("crate", nargs="?", metavar="NAME", help="a crate of crates.txt")
    parser.add_argument("words", nargs="*", metavar="WORD", help="print only what has each of these")
    parser.add_argument("--all", action="store_true", help="all crates; then NAME is a word, too")
    parser.add_argument("--private", action="store_true", help="also what has clauses and no other crate can name")
    parser.add_argument("--count", action="store_true", help="print how many there are, for each crate")
    given = parser.parse_args()
    crates, words = list(all_crates()), [word.lower() for word in given.words]
    if given.all and given.crate:
        words.append(given.crate.lower())
    if given.crate and not given.all:
        if given.crate not in crates:
            parser.error(f"there is no crate {given.crate}: {' '.join(crates)}")
        crates = [given.crate]
    elif not given.all and not given.count:
        parser.error("name a crate, or say --all")
    signal.signal(signal.SIGPIPE, signal.SIG_DFL)  # Whoever reads may stop.
    found: list[Entry] = []
    for crate in crates:
        entries = [entry for entry in Index(crate).shown(given.private) if entry.matches(words)]
        found += entries
        for line in [count(crate, entries)] if given.count else map(str, entries):
            print(line)
        if not words and not given.count:
            print(*definitions_of(crate), sep="\n")
    if given.count and len(crates) > 1:
        print(count("all", found))
