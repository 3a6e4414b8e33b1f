"""Checks the pages: README, docs, and the README of each crate and of each folder of tools.

These are faults, and with a fault the status is 1:

- a link, a path, a name or an option that leads to nothing (tools/dev/pages.py has the rules)
- a sentence that is too long, or a refused word
- an own word that isn't linked at its first use

tools/dev/sentences.py has the limit, the words, and the exceptions with their reasons."""
import argparse

from dev.pages import Page, Sources, faults_of, pages
from dev.sentences import LIMIT, Allowed, counted, faults_of_all, unused


def print_counts(found: list[Page]) -> None:
    """A line for each page, and the sums without the pages of tools."""
    counts = {page.path: counted(page.text) for page in found}
    print(f"{'page':36} {'words':>6} {'sentences':>9} {'mean':>5} {'above ' + str(LIMIT):>8}")
    for path, count in counts.items():
        print(f"{path:36} {count.words:6,} {count.sentences:9,} {count.mean:5.1f} {count.long:8}")
    of_users = [count for path, count in counts.items() if not path.startswith("tools/")]
    print(
        f"README, docs and crates: {sum(it.long for it in of_users)} sentences above {LIMIT} words, of "
        f"{sum(it.sentences for it in of_users):,}; {sum(it.words for it in of_users):,} words"
    )


def main() -> int:
    parser = argparse.ArgumentParser(description=__doc__, formatter_class=argparse.RawDescriptionHelpFormatter)
    parser.add_argument(
        "--counts",
        action="store_true",
        help="print words, sentences, and the mean words a sentence of each page; check nothing",
    )
    parser.add_argument("pages", nargs="*", metavar="PAGE", help="only these pages, for example docs/CLAIMS.md")
    given = parser.parse_args()
    found = pages()
    missing = set(given.pages) - {page.path for page in found}
    if missing:
        parser.error(f"no such page: {', '.join(sorted(missing))}")
    chosen = [page for page in found if not given.pages or page.path in given.pages]
    if given.counts:
        print_counts(chosen)
        return 0
    sources, used = Sources(), set[Allowed]()
    faults = [fault for page in chosen for fault in faults_of(page, sources)]
    faults += faults_of_all({page.path: page.text for page in chosen}, used)
    faults += [] if given.pages else unused(used)
    print(*faults, f"check_pages: {len(chosen)} pages, {len(faults)} faults", sep="\n")
    return 1 if faults else 0
