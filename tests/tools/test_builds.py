"""What a program says of its build, and that only a proved program is taken for one: by its stamp, never by its
word."""
import os
import re
import shutil
import signal
import subprocess
import tarfile
import time
from types import SimpleNamespace

import pytest

from dev import edits_kept
from dev.building import archive, copies, libraries, proved, release
from dev.building.archive import Proved
from dev.building.copies import BUILD_FILE, BUILD_TEXT, Unbuildable
from dev.pages import LINK
from nfs4tools.processes import PATIENCE, TOP

quick = pytest.mark.quick
COMMIT = "0123456789abcdef0123456789abcdef01234567"
LOG = """== xdr
logic /opt/logic: libraries=16
logic=proved functions=85 sum=0
rt: xdr proved
== nfs4state
fn nfs4state::main: proved
logic=proved functions=3 sum=0
rt: nfs4state proved
2 passed, 0 failed
"""


def text_of_tree():
    with open(os.path.join(TOP, BUILD_FILE), encoding="utf-8") as file:
        return file.read()


@quick
def test_committed_text():
    """The sources claim nothing of a build."""
    assert re.findall(r'"([^"]*)"', text_of_tree()) == [f"nfs4state {copies.version_here()}, of no release\\n"]


@quick
def test_copy_has_its_text(tmp_path):
    before = text_of_tree()
    copies.copy_sources(str(tmp_path), "nfs4state 0.2 (01234567), NOT proved")
    copied = (tmp_path / BUILD_FILE).read_text()
    assert '"nfs4state 0.2 (01234567), NOT proved\\n"' in copied and not BUILD_TEXT.search(copied)
    assert text_of_tree() == before
    listed = subprocess.run(["git", "ls-files", "crates"], cwd=TOP, stdout=subprocess.PIPE, text=True).stdout.split()
    assert all((tmp_path / path).exists() for path in listed if os.path.exists(os.path.join(TOP, path)))


@quick
def test_program_alone_is_left(tmp_path):
    """For a proof of the program: it and what is below it."""
    copies.copy_sources(str(tmp_path), "nfs4state 0.2 (01234567), NOT proved")
    count = proved.keep_program_alone(str(tmp_path))
    left = sorted(os.listdir(tmp_path / "crates"))
    assert len(left) == count and "nfs4state" in left and "rows" not in left and "link_tests" not in left
    assert sorted(line.partition(":")[0] for line in (tmp_path / "crates.txt").read_text().splitlines()) == left
    assert not list(tmp_path.glob("crates/*/must-fail"))


def put_program(folder, stamp=None, program=b"program"):
    """A folder as a proof leaves it."""
    folder.mkdir(exist_ok=True)
    (folder / proved.PROGRAM_FILE).write_bytes(program)
    (folder / proved.COMMIT_FILE).write_text(f"{COMMIT}\n")
    (folder / proved.LOG_FILE).write_text(LOG)
    if stamp is not None:
        (folder / proved.STAMP_FILE).write_text(stamp)
    return str(folder)


@quick
@pytest.mark.parametrize("stamp", [None, "", "rattle-kit-13", "rattle-kit-13 " + "0" * 64])
def test_without_its_stamp(tmp_path, stamp):
    """A program without a stamp, or with that of another one, is packed into no release."""
    folder = put_program(tmp_path / "out", stamp)
    assert not proved.is_stamped(folder)
    with pytest.raises(Unbuildable, match="has no stamp of its program"):
        release.packed_from(folder, "0.2", [])


@quick
def test_changed_byte(tmp_path):
    folder = put_program(tmp_path / "out")
    put_program(tmp_path / "out", f"rattle-kit-13 {proved.sum_of(os.path.join(folder, proved.PROGRAM_FILE))}")
    assert proved.is_stamped(folder)
    (tmp_path / "out" / proved.PROGRAM_FILE).write_bytes(b"progrbm")
    assert not proved.is_stamped(folder)


@quick
def test_program_of_a_commit(tmp_path):
    """What was proved is proved for its commit alone, and for a clean tree."""
    folder = put_program(tmp_path / "out")
    put_program(tmp_path / "out", f"rattle-kit-13 {proved.sum_of(os.path.join(folder, proved.PROGRAM_FILE))}")
    assert proved.is_of(folder, copies.Commit(COMMIT, True))
    assert not proved.is_of(folder, copies.Commit(COMMIT, False))
    assert not proved.is_of(folder, copies.Commit(COMMIT[::-1], True))
    assert not proved.is_of(str(tmp_path / "none"), copies.Commit(COMMIT, True))


@quick
def test_log_of_proof(tmp_path, monkeypatch):
    """Each crate has its functions, or there is no release."""
    log = tmp_path / "log"
    log.write_text(LOG)
    monkeypatch.setattr(proved, "crates_below", lambda *_: {"xdr", "nfs4state"})
    told = release.proof_text([str(log)], COMMIT, "rattle-kit-13f logic 0")
    assert re.search(r"^nfs4state\s+3\nxdr\s+85\nall\s+88\n", told, re.M) and COMMIT in told
    monkeypatch.setattr(proved, "crates_below", lambda *_: {"xdr", "nfs_core"})
    with pytest.raises(Unbuildable, match="no log has the functions of nfs_core"):
        release.proof_text([str(log)], COMMIT, "rattle-kit-13f logic 0")
    log.write_text(LOG.replace("2 passed, 0 failed", "1 passed, 1 failed"))
    monkeypatch.setattr(proved, "crates_below", lambda *_: {"xdr"})
    with pytest.raises(Unbuildable, match="doesn't end with"):
        release.proof_text([str(log)], COMMIT, "rattle-kit-13f logic 0")


@quick
def test_log_of_the_program_alone(tmp_path, monkeypatch):
    """It counts for no crate; the gate's log has them all."""
    folder = put_program(tmp_path / "out")
    put_program(tmp_path / "out", f"rattle-kit-13 {proved.sum_of(os.path.join(folder, proved.PROGRAM_FILE))}")
    (tmp_path / "out" / proved.LOG_FILE).write_text("logic=proved functions=3 sum=0\n")
    (tmp_path / "gate").write_text(LOG)
    monkeypatch.setattr(proved, "crates_below", lambda *_: {"xdr", "nfs4state"})
    monkeypatch.setattr(release, "linked_statically", lambda _: b"program")
    monkeypatch.setattr(release, "kit_version", lambda: "rattle-kit-13f logic 0")
    assert "all                88\n" in release.packed_from(folder, "0.2", [str(tmp_path / "gate")]).proof
    with pytest.raises(Unbuildable, match="no log has the functions of nfs4state, xdr"):
        release.packed_from(folder, "0.2", [])


def put_crate(top, name, text="fn f() {}\n"):
    """A crate of a checkout, with its library, or of a copy, which has none."""
    (top / name / "src").mkdir(parents=True)
    (top / name / "src/lib.rt").write_text(text)
    return SimpleNamespace(
        name=name,
        folder=str(top / name),
        rlib=str(top / name / "out/rlib/it.rlib"),
        said={},
        of_kit=[],
        below=lambda: [],
        stamp=lambda: f"stamp of {name}",
    )


@pytest.fixture
def lending(tmp_path, monkeypatch):
    """Two crates of a checkout and of a copy, of which the second is the program; and who lends the first one's
    library."""
    here, there = ([put_crate(tmp_path / top, name) for name in ("low", "program")] for top in ("here", "there"))
    toolchain = SimpleNamespace(crates_below=lambda top: there if top == "there" else here)
    monkeypatch.setattr(edits_kept, "toolchain", lambda: (str(tmp_path), toolchain))
    monkeypatch.setattr(
        edits_kept,
        "Sums",
        lambda _: SimpleNamespace(
            of_below=edits_kept.sum_of_crate, of_rlib=lambda crate: edits_kept.sum_of_folder(crate.rlib)
        ),
    )
    os.makedirs(here[0].rlib)
    with open(os.path.join(here[0].rlib, "code"), "w", encoding="utf-8") as code:
        code.write("code")
    return SimpleNamespace(here=here[0], there=there[0], libraries=libraries.Libraries)


@quick
def test_libraries_of_the_same_sources_are_lent(lending):
    assert not lending.libraries().lend("there", "program")
    lending.libraries().mark()
    assert lending.libraries().lend("there", "program")
    assert os.listdir(lending.there.rlib) == ["code"]
    with open(os.path.join(os.path.dirname(lending.there.rlib), "stamp"), encoding="utf-8") as stamp:
        assert stamp.read() == "stamp of low"


@quick
@pytest.mark.parametrize("path", ["here.folder/src/lib.rt", "there.folder/src/lib.rt", "here.rlib/code"])
def test_other_libraries_are_not_lent(lending, path):
    """A library that was changed, or whose sources were, here or in the copy."""
    lending.libraries().mark()
    which, part = path.split(".", 1)
    attribute, rest = part.split("/", 1)
    with open(os.path.join(getattr(getattr(lending, which), attribute), rest), "a", encoding="utf-8") as changed:
        changed.write("// other\n")
    assert not lending.libraries().lend("there", "program")
    assert not os.path.exists(lending.there.rlib)


PACKED = Proved(b"program", "0.2", COMMIT, "rattle-kit-13f logic 0", "xdr 85\n")


@quick
def test_archive_is_reproducible(tmp_path):
    """The same files give the same bytes; they are sorted, and have no times and no owners."""
    data = archive.packed("0.2", PACKED)
    assert data == archive.packed("0.2", PACKED)
    path = tmp_path / archive.archive_of("0.2")
    path.write_bytes(data)
    with tarfile.open(path) as source:
        members = source.getmembers()
    assert [it.name for it in members] == sorted(it.name for it in members)
    assert {(it.mtime, it.uid, it.gid, it.uname, it.gname) for it in members} == {(0, 0, 0, "", "")}
    assert archive.unpacked(str(path)) == PACKED
    assert archive.missing() == []


@quick
def test_archive_has_no_dead_link(tmp_path):
    """Its pages lead to what is in it."""
    found = archive.files_of("0.2", PACKED)
    for page in (path for path in found if path.endswith(".md")):
        for target in LINK.findall(found[page][0].decode()):
            if "://" not in target and not target.startswith("#"):
                path = os.path.normpath(os.path.join(os.path.dirname(page), target.partition("#")[0]))
                assert path in found or any(it.startswith(f"{path}/") for it in found), (page, target)


@quick
def test_packed_again():
    """A release whose program is an older one's says so."""
    said = archive.files_of("0.3", PACKED)[archive.RELEASE][0].decode()
    assert said.startswith(f"version: 0.3\nprogram-version: 0.2\ncommit: {COMMIT}\n")
    assert "the program is that of release 0.2" in said
    assert "no licence yet" in said


@quick
def test_release_in_the_tree():
    """Its sum, size, version and commit."""
    assert release.faults_here() == []


@quick
@pytest.mark.parametrize(
    "changes, refusal",
    [
        (
            lambda patch: patch.setattr(release, "commit_here", lambda: copies.Commit(COMMIT, False)),
            "the tree isn't clean",
        ),
        (
            lambda patch: patch.setattr(release, "commit_here", lambda: copies.Commit(COMMIT, True)),
            "no gate was green here",
        ),
    ],
)
def test_refused_release(monkeypatch, changes, refusal):
    changes(monkeypatch)
    with pytest.raises(Unbuildable, match=refusal):
        release.release(release.Wanted(release.next_version(), [], False))


def test_refused_version(monkeypatch):
    monkeypatch.setattr(release, "commit_here", lambda: copies.Commit(COMMIT, True))
    with pytest.raises(Unbuildable, match="9 isn't the next version"):
        release.release(release.Wanted("0.9999", [], True))


def built(words, out):
    """Runs a build: its lines, with the seconds between each two."""
    process = subprocess.Popen([*words, str(out)], cwd=TOP, stderr=subprocess.PIPE, text=True)
    begun, lines = time.monotonic(), []
    for line in process.stderr:
        lines.append((time.monotonic() - begun, line))
    assert process.wait() == 0, lines
    return lines


@pytest.mark.by_hand
def test_unproved_build(tmp_path):
    """It says that it isn't proved, and is in no way a proved one; it says what it does at least every five seconds."""
    if shutil.which("rt") is None:
        pytest.skip("the toolchain isn't here")
    lines = built(["tools/build_unproved"], tmp_path / "nfs4state")
    moments = [moment for moment, _ in lines]
    assert max(after - before for before, after in zip([0, *moments], moments)) < 6, lines
    version = subprocess.run([tmp_path / "nfs4state", "--version"], stdout=subprocess.PIPE, text=True).stdout
    assert re.fullmatch(r"nfs4state 0\.[0-9]+ \([0-9a-f]{8}\+?\), NOT proved\n", version)
    assert not proved.is_stamped(str(tmp_path))


@pytest.mark.by_hand
def test_build_that_is_ended(tmp_path):
    """It leaves nothing in the temporary folder."""
    if shutil.which("rt") is None:
        pytest.skip("the toolchain isn't here")
    room = tmp_path / "room"
    room.mkdir()
    process = subprocess.Popen(
        ["tools/build_unproved", str(tmp_path / "it")],
        cwd=TOP,
        stderr=subprocess.DEVNULL,
        env={**os.environ, "TMPDIR": str(room)},
        start_new_session=True,
    )
    time.sleep(8)
    assert list(room.iterdir())
    os.kill(process.pid, signal.SIGTERM)
    process.wait(PATIENCE)
    assert list(room.iterdir()) == []
