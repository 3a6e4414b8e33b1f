"""How a release is made and looked at: from a clean tree whose gate was green, with a program that was proved for it,
or, if no source of the program has changed, with that of the last release."""
import glob
import hashlib
import os
import re
import subprocess
import tempfile
from dataclasses import dataclass

from dev.building import archive, proved
from dev.building.archive import Proved
from dev.building.copies import BUILD_FILE, BUILD_TEXT, Unbuildable, commit_here, git, version_here
from dev.building.telling import tell
from dev.building.unproved import kit_folder
from dev.release_numbers import NUMBERS_FILE, keep_numbers, numbers
from nfs4tools.processes import TOP

DIST, SUMS = os.path.join(TOP, "dist"), os.path.join(TOP, "dist/SHA256SUMS")
# What the gate leaves where it was green: the commit, and what the toolchain said.
GREEN, GATE_LOG = os.path.join(TOP, "out/gate/commit"), os.path.join(TOP, "out/gate/log")
# Where the version of the tools stands, and how; and the numbers of the release.
PROJECT_FILE, PROJECT_TEXT = "pyproject.toml", re.compile(r'\nversion = "[0-9.]+"\n')
NUMBERS = os.path.relpath(NUMBERS_FILE, TOP)
# What the toolchain says of a crate that it proves.
CRATE = re.compile(r"^== (\w+)$(?:(?!^== )[\s\S])*?^logic=proved functions=([0-9]+)", re.M)
ENDED = re.compile(r"^[0-9]+ passed, 0 failed", re.M)


def archive_here() -> str | None:
    """The archive of the last release in the tree."""
    found = glob.glob(os.path.join(DIST, archive.archive_of("*")))
    return found[0] if found else None


def next_version() -> str:
    """The number behind the last release's, or that of the sources if there is none."""
    last = archive_here()
    if last is None:
        return version_here()
    found = re.search(r"nfs4state-0\.([0-9]+)-", last)
    assert found is not None
    return f"0.{int(found[1]) + 1}"


def text_of(path: str) -> str:
    with open(path, encoding="utf-8", errors="replace") as file:
        return file.read()


def proof_text(logs: list[str], commit: str, kit: str) -> str:
    """What the toolchain said of each crate of the program, by the logs of runs over the same sources."""
    texts = [text_of(path) for path in logs if os.path.exists(path)]
    functions = {name: count for text in texts for name, count in CRATE.findall(text)}
    wanted = proved.crates_below(text_of(os.path.join(TOP, "crates.txt")).splitlines(), archive.PROGRAM)
    if lacking := sorted(wanted - functions.keys()):
        raise Unbuildable(
            f"no log has the functions of {', '.join(lacking)}: give the log of the run that proved them " "by --log"
        )
    if not all(ENDED.search(text) for text in texts):
        raise Unbuildable("a log doesn't end with `N passed, 0 failed`")
    rows = "".join(f"{name:<16}{functions[name]:>5}\n" for name in sorted(wanted))
    total = sum(int(functions[name]) for name in wanted)
    return (
        f"Functions that the toolchain proved, by crate; the sources are those of commit {commit}, and `rt version`\n"
        f"says {kit}.\n\n{rows}{'all':<16}{total:>5}\n"
    )


def linked_statically(folder: str) -> bytes:
    """The program from the object of a proved one, linked statically."""
    kit = kit_folder()
    with tempfile.TemporaryDirectory(prefix="release-") as room:
        out = os.path.join(room, archive.PROGRAM)
        ran = subprocess.run(
            [
                "gcc",
                "-static",
                "-o",
                out,
                os.path.join(folder, proved.OBJECT_FILE),
                f"{kit}/c/liblibc_c.a",
                f"{kit}/c/libos_c.a",
                "-lpthread",
            ],
            capture_output=True,
            text=True,
        )
        if ran.returncode:
            raise Unbuildable(f"the program can't be linked:\n{ran.stderr}")
        subprocess.run(["strip", "-g", out], check=True)
        with open(out, "rb") as file:
            return file.read()


def kit_version() -> str:
    """What the toolchain says that it is."""
    return subprocess.run(["rt", "version"], stdout=subprocess.PIPE, text=True, check=True).stdout.strip()


def packed_from(folder: str, version: str, logs: list[str]) -> Proved:
    """The program in this folder, if it has a stamp, as it is to be packed."""
    if not proved.is_stamped(folder):
        raise Unbuildable(f"{folder} has no stamp of its program, so nothing says that it was proved")
    commit = text_of(os.path.join(folder, proved.COMMIT_FILE)).strip()
    kit = kit_version()
    # The log of a program that was proved alone tells of that crate; the libraries are told of by the gate's.
    own = os.path.join(folder, proved.LOG_FILE)
    proof = proof_text([*logs, *([own] if ENDED.search(text_of(own)) else [])], commit, kit)
    return Proved(linked_statically(folder), version, commit, kit, proof)


def has_same_sources(commit: str) -> bool:
    """Whether no source of the program has changed since that commit but for the version."""
    changed = set(git("diff", "--name-only", commit, "--", "crates").split())
    return changed <= {BUILD_FILE}


@dataclass(frozen=True)
class Wanted:
    """What is asked for: the number, logs of proofs, and whether another gate than that of this machine is trusted."""

    version: str
    logs: list[str]
    is_gate_elsewhere: bool


def program_for(wanted: Wanted) -> Proved:
    """The program of the release: that of the last one, or one that is proved now."""
    last = archive_here()
    if last is not None and has_same_sources(archive.unpacked(last).commit):
        tell(f"no source of the program has changed since {os.path.basename(last)}: its program is packed again")
        return archive.unpacked(last)
    folder = os.path.join(TOP, "out/released", wanted.version)
    if not proved.is_of(folder, commit_here()):
        proved.build_proved(folder, wanted.version)
    return packed_from(folder, wanted.version, [*wanted.logs, GATE_LOG])


def release(wanted: Wanted) -> None:
    """Makes dist/, and sets version and numbers. All of it is to be committed, alone."""
    commit = commit_here()
    if not commit.is_clean:
        raise Unbuildable("the tree isn't clean: a release is of a commit")
    if not wanted.is_gate_elsewhere and (not os.path.exists(GREEN) or text_of(GREEN).strip() != commit.full):
        raise Unbuildable(f"no gate was green here for {commit.full}: run .ci/run, or give --gate-elsewhere")
    if wanted.version != next_version():
        raise Unbuildable(f"{wanted.version} isn't the next version, which is {next_version()}")
    if f"## {wanted.version}" not in text_of(os.path.join(TOP, "CHANGELOG.md")):
        raise Unbuildable(f"CHANGELOG.md has no heading `## {wanted.version}`")
    if lacking := archive.missing():
        raise Unbuildable(f"the repository has no {', '.join(lacking)}")
    data = archive.packed(wanted.version, program_for(wanted))
    if len(data) > archive.LIMIT:
        raise Unbuildable(f"the archive has {len(data)} bytes, above {archive.LIMIT}")
    write_dist(archive.archive_of(wanted.version), data)
    set_version(wanted.version)
    keep_numbers("release", numbers())
    tell(
        f"dist/{archive.archive_of(wanted.version)}: {len(data)} bytes; commit dist, {BUILD_FILE}, {PROJECT_FILE} and {NUMBERS}"
    )


def write_dist(name: str, data: bytes) -> None:
    """Puts the archive and its sum in the place of those of the last release."""
    os.makedirs(DIST, exist_ok=True)
    for old in glob.glob(os.path.join(DIST, "*")):
        os.remove(old)
    with open(os.path.join(DIST, name), "wb") as file:
        file.write(data)
    with open(SUMS, "w", encoding="utf-8") as file:
        file.write(f"{hashlib.sha256(data).hexdigest()}  {name}\n")


def set_version(version: str) -> None:
    """Of the program, and of the package of the tools."""
    for name, pattern, wanted in (
        (BUILD_FILE, BUILD_TEXT, f'"nfs4state {version}, of no release\\n"'),
        (PROJECT_FILE, PROJECT_TEXT, f'\nversion = "{version}"\n'),
    ):
        text = text_of(os.path.join(TOP, name))
        with open(os.path.join(TOP, name), "w", encoding="utf-8") as file:
            file.write(pattern.sub(lambda _: wanted, text))


def faults_here() -> list[str]:
    """What is wrong with the release in the tree: sums, size, the version of the sources, and, unless the clone is
    shallow, that it is of a commit before this one."""
    found = archive_here()
    if found is None:
        return []
    with open(found, "rb") as file:
        data = file.read()
    name, last = os.path.basename(found), archive.unpacked(found)
    faults = []
    if text_of(SUMS) != f"{hashlib.sha256(data).hexdigest()}  {name}\n":
        faults.append(f"dist/SHA256SUMS isn't that of dist/{name}")
    if len(data) > archive.LIMIT:
        faults.append(f"dist/{name} has {len(data)} bytes, above {archive.LIMIT}")
    if name != archive.archive_of(version_here()):
        faults.append(f"{BUILD_FILE} has version {version_here()}, and dist/ has {name}")
    if git("rev-parse", "--is-shallow-repository").strip() == "false":
        ran = subprocess.run(["git", "-C", TOP, "merge-base", "--is-ancestor", last.commit, "HEAD"])
        faults += [f"dist/{name} is of commit {last.commit}, which isn't before this one"] if ran.returncode else []
    return faults


def check_again() -> list[str]:
    """Proves the commit of the release in the tree once more: whether the program is the same, byte for byte."""
    found = archive_here()
    if found is None:
        raise Unbuildable("there is no release in dist/")
    last, folder = archive.unpacked(found), os.path.join(TOP, "out/checked")
    proved.build_commit(folder, last.version, last.commit)
    is_same = hashlib.sha256(linked_statically(folder)).hexdigest() == last.sum()
    return [] if is_same else [f"the program of dist/{os.path.basename(found)} has another sum than that proved now"]
