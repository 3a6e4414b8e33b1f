"""The archive of a release: the proved program and what whoever writes a client needs, as the same bytes for the same
files. It stands by itself: its pages have no link to what isn't in it."""
import glob
import gzip
import hashlib
import io
import os
import re
import tarfile
from dataclasses import dataclass
from functools import cache

from dev.pages import LINK, with_imported
from nfs4tools.processes import TOP

COMMANDS = [
    f"tools/{name}"
    for name in (
        "between",
        "explain",
        "judge",
        "listen_callbacks",
        "quick_tests",
        "rows",
        "send_rows",
        "show_journal",
        "model/check_rows.py",
        "model/journal.py",
        "model/once.py",
        "model/serve.py",
    )
]
# Files, and folders with all that is in them.
OTHERS = [
    "start",
    "README.md",
    "CHANGELOG.md",
    "docs/CLAIMS.md",
    "docs/CLIENTS.md",
    "docs/GLOSSARY.md",
    "docs/JOURNAL.md",
    "docs/PROGRAM.md",
    "docs/RULES.md",
    "docs/SUITES.md",
    "docs/run.png",
    "docs/run.schema.json",
    "docs/verdict.schema.json",
    "tools/model/README.md",
    "pyproject.toml",
    "tools/README.md",
    "tools/dev/wheel_backend.py",
    "tools/src/nfs4tools/**/*.py",
    "tools/src/nfs4tools/**/*.pyi",
    "tools/src/nfs4tools/**/py.typed",
    "tools/src/nfs4tools/page/*.html",
    "tools/src/nfs4tools/page/*.css",
    "tools/src/nfs4tools/page/*.js",
    "samples/*.*",
    "samples/suite/*.py",
    "crates/rows/README.md",
    "crates/rows/INDEX",
    "crates/rows/data/*",
]
PROGRAM, RELEASE, PROOF = "nfs4state", "RELEASE", "PROOF"
# The most bytes that an archive may have.
LIMIT = 2 << 20
SAID = """version: {version}
program-version: {program_version}
commit: {commit}
kit: {kit}
program: {program}

This is nfs4state {version}. The toolchain above proved its program, `nfs4state`, from the sources of the commit
above. The libraries below the program may be those that the gate proved from the same sources. The program was then
linked statically for Linux on x86-64. `program` is the program's SHA-256. PROOF has what the toolchain said of each
crate. docs/CLAIMS.md says what is proved, and what is trusted.
{note}
The owner of nfs4state has given no licence yet.
"""
PACKED_AGAIN = """
No source of the program has changed since release {program_version}.
So the program is that of release {program_version}, and its `--version` says so.
"""


@dataclass(frozen=True)
class Proved:
    """A program to be packed, with what RELEASE and PROOF say of it."""

    program: bytes
    version: str
    commit: str
    kit: str
    proof: str

    def sum(self) -> str:
        return hashlib.sha256(self.program).hexdigest()


def name_of(version: str) -> str:
    """The folder that an archive of this version has."""
    return f"nfs4state-{version}"


def archive_of(version: str) -> str:
    return f"{name_of(version)}-x86_64-linux.tar.gz"


@cache
def paths() -> list[str]:
    """The files of the repository that stand in a release."""
    found = {path for pattern in OTHERS for path in glob.glob(pattern, root_dir=TOP, recursive=True)}
    return sorted(found.union(*map(with_imported, COMMANDS)))


def without_dead_links(page: str, text: str, there: set[str]) -> str:
    """The page's text, in which a link to what isn't there is its words alone."""

    def replaced(found: re.Match[str]) -> str:
        target = found[1].partition("#")[0]
        path = os.path.normpath(os.path.join(os.path.dirname(page), target))
        is_there = not target or "://" in target or path in there or any(it.startswith(f"{path}/") for it in there)
        return found[0] if is_there else found[0][1 : found[0].index("](")]

    return LINK.sub(replaced, text)


def files_of(version: str, proved: Proved) -> dict[str, tuple[bytes, int]]:
    """The bytes and the mode of each file, by its path."""
    listed = paths()
    there, found = {*listed, PROGRAM, RELEASE, PROOF}, {}
    for path in listed:
        with open(os.path.join(TOP, path), "rb") as file:
            data = file.read()
        if path.endswith(".md"):
            data = without_dead_links(path, data.decode(), there).encode()
        found[path] = data, 0o755 if os.access(os.path.join(TOP, path), os.X_OK) else 0o644
    note = "" if version == proved.version else PACKED_AGAIN.format(program_version=proved.version)
    said = SAID.format(
        version=version,
        program_version=proved.version,
        commit=proved.commit,
        kit=proved.kit,
        program=proved.sum(),
        note=note,
    )
    return found | {
        PROGRAM: (proved.program, 0o755),
        RELEASE: (said.encode(), 0o644),
        PROOF: (proved.proof.encode(), 0o644),
    }


def packed(version: str, proved: Proved) -> bytes:
    """The archive's bytes: sorted, without times or owners."""
    tar = io.BytesIO()
    with tarfile.open(fileobj=tar, mode="w", format=tarfile.USTAR_FORMAT) as archive:
        for path, (data, mode) in sorted(files_of(version, proved).items()):
            entry = tarfile.TarInfo(f"{name_of(version)}/{path}")
            entry.size, entry.mode, entry.mtime = len(data), mode, 0
            archive.addfile(entry, io.BytesIO(data))
    return gzip.compress(tar.getvalue(), compresslevel=9, mtime=0)


def unpacked(archive: str) -> Proved:
    """The program of a release that was made before."""
    with tarfile.open(archive) as source:

        def content(name: str) -> bytes:
            file = source.extractfile(f"{source.getnames()[0].partition('/')[0]}/{name}")
            assert file is not None
            return file.read()

        said = dict(line.split(": ", 1) for line in content(RELEASE).decode().split("\n\n")[0].splitlines())
        return Proved(content(PROGRAM), said["program-version"], said["commit"], said["kit"], content(PROOF).decode())


def missing() -> list[str]:
    """Of the files that are asked for by name, those that the repository hasn't."""
    return [path for path in (*COMMANDS, *OTHERS) if "*" not in path and not os.path.exists(os.path.join(TOP, path))]


def is_version(text: str) -> bool:
    return re.fullmatch(r"0\.[0-9]+", text) is not None
