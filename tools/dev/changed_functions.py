"""Prints for each crate with changed functions the command that proves them, over the libraries that are built.

Changed is what differs from the commit BASE, whether it is committed or not. Without BASE that is the commit where this
branch left `main` (or `origin/main`), or the commit before this one. A function changed if a line of it did, or of the
comment before it.

If definitions or proofs of a crate changed, a line says so: then only a check of the whole crate says all."""
import argparse
import os
import re
import subprocess
from collections import defaultdict

from dev.clause_index import crates, functions_of, sources_of
from nfs4tools.built import TOP

HUNK = re.compile(r"^@@ -\S+ \+(\d+)(?:,(\d+))? @@", re.M)
BRANCHES = "main", "origin/main"


def git(*words: str) -> str | None:
    """What git prints, or None if it fails."""
    ran = subprocess.run(["git", "-C", TOP, *words], capture_output=True, text=True)
    return ran.stdout.strip() if ran.returncode == 0 else None


def base_here() -> str:
    """The commit from which this branch goes on; on `main` the commit before this one."""
    head = git("rev-parse", "HEAD")
    bases = [git("merge-base", "HEAD", branch) for branch in BRANCHES]
    return next((base for base in bases if base and base != head), "HEAD^")


def changed_lines(base: str, path: str) -> set[int]:
    """The numbers of the lines that differ from that commit; if lines went, the lines around."""
    lines: set[int] = set()
    for first, count in HUNK.findall(git("diff", "-U0", base, "--", path) or ""):
        start, length = int(first), int(count or 1)
        lines |= set(range(start, start + length)) if length else {start, start + 1}
    return lines


def changed_functions(base: str, crate: str) -> list[str]:
    """The functions of the crate that changed, by the paths that `rt check` gives them."""
    found = []
    for source in sources_of(crate):
        lines = changed_lines(base, f"crates/{source.path}")
        for function in functions_of(source) if lines else ():
            if function.body and lines.intersection(range(function.first, function.last + 1)):
                found.append("::".join(it for it in (source.module(), function.owner, function.name) if it))
    return found


def main() -> int:
    parser = argparse.ArgumentParser(description=__doc__, formatter_class=argparse.RawDescriptionHelpFormatter)
    parser.add_argument("base", metavar="BASE", nargs="?", help="the commit to compare with")
    base = parser.parse_args().base or base_here()
    listed = git("diff", "--name-only", base, "--", "crates")
    if listed is None:
        parser.error(f"git knows no commit {base}")
    paths = defaultdict[str, list[str]](list)
    for path in listed.split():
        paths[path.split("/")[1]].append(os.path.join(*path.split("/")[2:]))
    told = 0
    for crate in (it for it in crates() if it in paths):
        if only := changed_functions(base, crate):
            print(f"(cd crates/{crate} && rt check {' '.join(f'--only {name}' for name in only)})")
        if any(path.startswith(("specs/", "proofs/")) for path in paths[crate]):
            print(f"(cd crates/{crate} && rt check)    # definitions or proofs changed")
            only = only or [crate]
        told += len(only)
    if not told:
        print(f"changed_functions: no function, definition or proof differs from {base}")
    return 0
