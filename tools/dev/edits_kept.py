"""What verdicts on edits stand on: the toolchain, and the libraries of the crates below; and which edits were refused
before."""
import hashlib
import importlib.machinery
import importlib.util
import os
import stat
import subprocess
import sys
import tempfile
from collections.abc import Callable, Iterable
from typing import Any

from dev.edits import Edit

PARTS = ("src", "specs", "proofs")
HERE = os.path.dirname(os.path.abspath(__file__))
SCRIPTS = ("try_edits.py", "edits.py", "edit_verdicts.py", "edits_kept.py")


def toolchain() -> tuple[Any, Any]:
    """The kit's folder, and its module of crates, by which `rt ci` too calls the prover."""
    kit = os.path.dirname(subprocess.run(["rt", "doc"], capture_output=True, text=True, check=True).stdout.strip())
    loader = importlib.machinery.SourceFileLoader("rtlib", f"{kit}/bin/rtlib.py")
    spec = importlib.util.spec_from_loader("rtlib", loader)
    assert spec is not None
    module: Any = importlib.util.module_from_spec(spec)
    sys.modules["rtlib"] = module
    loader.exec_module(module)
    # Libraries are built as `rt ci` does it.
    module.Crate.cuts_libraries = True
    # Its first call sets a signal's handler, which the main thread alone may do.
    module.guarded()
    return kit, module


def sum_of(what: object) -> str:
    return hashlib.sha256(repr(what).encode()).hexdigest()


def sum_of_file(path: str) -> str:
    with open(path, "rb") as source:
        return hashlib.file_digest(source, "sha256").hexdigest()


def sum_of_folder(top: str) -> str:
    """Of the files below, by their paths there."""
    found = []
    for at, folders, names in os.walk(top):
        folders.sort()
        found += [(os.path.relpath(path, top), sum_of_file(path)) for path in (f"{at}/{it}" for it in sorted(names))]
    return sum_of(found)


def sum_of_crate(crate: Any) -> str:
    """Of the crate's files, and of what its line of crates.txt says."""
    parts = [sum_of_folder(f"{crate.folder}/{part}") for part in PARTS]
    return sum_of((crate.name, parts, crate.said, crate.of_kit))


class Sums:
    """Sums of what verdicts stand on, each taken once."""

    def __init__(self, kit: str) -> None:
        self.kit = sum_of([sum_of_file(f"{kit}/{name}") for name in ("KIT-ID", "WHAT", "bin/rattle", "bin/rtlib.py")])
        self.scripts = sum_of([sum_of_file(os.path.join(HERE, name)) for name in SCRIPTS])
        self.crates, self.rlibs = dict[str, str](), dict[str, str]()

    def of_crate(self, crate: Any) -> str:
        if crate.name not in self.crates:
            self.crates[crate.name] = sum_of_crate(crate)
        return self.crates[crate.name]

    def of_rlib(self, crate: Any) -> str:
        """Of the crate's library as it was built."""
        if crate.name not in self.rlibs:
            self.rlibs[crate.name] = sum_of_folder(crate.rlib)
        return self.rlibs[crate.name]

    def of_below(self, crate: Any) -> str:
        return sum_of((self.kit, self.of_crate(crate), [(it.name, self.of_rlib(it)) for it in crate.below()]))

    def of_edit(self, crate: Any, edit: Edit, control: str) -> str:
        return sum_of((self.of_below(crate), self.scripts, edit.text, control))


def mark_path(crate: Any) -> str:
    """The file that tells from what a library was built. What builds the library anew removes it."""
    return f"{os.path.dirname(crate.rlib)}/built-from"


def mark(crate: Any, sums: Sums) -> None:
    with open(mark_path(crate), "w", encoding="utf-8") as out:
        out.write(sum_of((sums.of_below(crate), sums.of_rlib(crate))))


def is_built(crate: Any, sums: Sums) -> bool:
    """Whether the library stands there, of the crate's files as they are now and over those below."""
    try:
        with open(mark_path(crate), encoding="utf-8") as source:
            return source.read() == sum_of((sums.of_below(crate), sums.of_rlib(crate)))
    except FileNotFoundError:
        return False


def are_built(crates: Iterable[Any], sums: Sums, as_they_stand: bool, say: Callable[[str], None]) -> bool:
    """Builds those of the libraries that aren't built of what there is now, each behind those below it; or takes all
    that there are as they stand. Returns whether all are built."""
    for crate in crates:
        if as_they_stand and os.path.isdir(crate.rlib):
            mark(crate, sums)
        if is_built(crate, sums):
            continue
        say(f"try_edits: building the library {crate.name}")
        with tempfile.TemporaryFile("w+", errors="replace") as crate.out:
            if crate.build_rlib(["--jobs", "2"], anew=True):
                crate.out.seek(0)
                say(f"{crate.out.read()}\ntry_edits: the library {crate.name} doesn't build")
                return False
        sums.rlibs.pop(crate.name, None)
        mark(crate, sums)
    return True


class Kept:
    """The edits that were refused before, by the sums of all that they stand on."""

    def __init__(self) -> None:
        top = os.environ.get("XDG_CACHE_HOME") or os.path.expanduser("~/.cache")
        self.folder = os.path.join(top, "nfs4state", "edits")
        os.makedirs(self.folder, 0o700, exist_ok=True)
        os.chmod(self.folder, 0o700)
        found = os.lstat(self.folder)
        if not stat.S_ISDIR(found.st_mode) or found.st_uid != os.geteuid():
            sys.exit(f"try_edits: {self.folder} is no folder of this user's")

    def has(self, name: str) -> bool:
        return os.path.isfile(os.path.join(self.folder, name))

    def keep(self, name: str, text: str) -> None:
        with tempfile.NamedTemporaryFile("w", dir=self.folder, delete=False, encoding="utf-8") as out:
            out.write(f"{text}\n")
        os.replace(out.name, os.path.join(self.folder, name))
