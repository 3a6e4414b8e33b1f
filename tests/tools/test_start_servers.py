"""Which server `start` takes, and what it says of it."""
import hashlib
import os
import shutil
import subprocess

import pytest

from dev.building import archive
from nfs4tools.processes import PATIENCE, TOP
from tools.start_runs import PASSES, ROW, Tree, program_text, without


def test_best_server(tree):
    """The first of the kinds that are there, and what each lacks."""
    head = tree.head()[:8]
    tree.put_proved(), tree.put_release(), tree.put_unproved()
    assert tree.first_line() == f"start: nfs4state ({head}), proved here"
    shutil.rmtree(tree.folder / "out/proved")
    assert tree.first_line() == f"start: nfs4state 0.2 ({head}), proved"
    shutil.rmtree(tree.folder / "dist")
    assert tree.first_line() == (f"start: nfs4state ({head}), NOT proved: built here; there is no release in dist/")
    shutil.rmtree(tree.folder / "out/unproved")
    assert tree.first_line().startswith("start: the independent model in Python, NOT proved")


@pytest.mark.parametrize(
    "kind, says",
    [("proved", ", proved here"), ("release", "0.2 ("), ("unproved", "NOT proved"), ("model", "the independent model")],
)
def test_chosen_server(tree, kind, says):
    tree.put_proved(), tree.put_release(), tree.put_unproved()
    assert says in tree.first_line("--with", kind)


@pytest.mark.parametrize("kind", ["proved", "release", "unproved"])
def test_missing_server(tree, kind):
    status, _, lines = tree.run("--with", kind, "--", "true")
    assert (status, lines.splitlines()[-1]) == (2, f"start: there is no server of the kind {kind}")


def test_what_the_gate_built_is_no_server(tree):
    """A program at the place where a build leaves it has no stamp in out/proved, whatever it says of itself."""
    tree.put("out/nfs4state", program_text("claims to be proved"), is_program=True)
    assert "the independent model" in tree.first_line()


@pytest.mark.parametrize(
    "path, refusal",
    [
        ("out/proved/nfs4state", "out/proved/nfs4state has another sum than its stamp, so it isn't the proved program"),
        (
            "dist/nfs4state-0.2-x86_64-linux.tar.gz",
            "dist/nfs4state-0.2-x86_64-linux.tar.gz has another sum than dist/SHA256SUMS says, so it isn't the release",
        ),
    ],
)
def test_changed_byte(tree, path, refusal):
    """A program or an archive in which a byte was changed is refused with a line, and the next kind serves."""
    if path.startswith("out"):
        tree.put_proved()
    else:
        tree.put_release()
    tree.put_unproved()
    data = bytearray((tree.folder / path).read_bytes())
    data[len(data) // 2] ^= 1
    (tree.folder / path).write_bytes(data)
    _, _, lines = tree.run("--", "true")
    assert lines.startswith(f"start: {refusal}\nstart: nfs4state ({tree.head()[:8]}), NOT proved")


def test_changed_program_in_out(tree):
    """It is unpacked again from the archive, which is the release's still."""
    tree.put_release(), tree.put_unproved()
    assert ", proved" in tree.first_line()
    [program] = tree.folder.glob("out/release/*/nfs4state-0.2/nfs4state")
    text = program.read_text()
    for change in (lambda: program.write_text(text + "# more\n"), program.unlink):
        change()
        assert tree.first_line() == f"start: nfs4state 0.2 ({tree.head()[:8]}), proved"
        assert program.read_text() == text
    assert [it.name for it in (tree.folder / "out/release").iterdir()] == [program.parts[-3]]


def test_release_file_in_checkout(tree):
    """It is a file like any other: only what was unpacked from an archive is a release."""
    program = tree.put("nfs4state", program_text("mine"), is_program=True)
    tree.put(
        "RELEASE",
        f"version: 0.9\ncommit: {tree.head()}\n" f"program: {hashlib.sha256(program.read_bytes()).hexdigest()}\n",
    )
    tree.put_unproved()
    assert "NOT proved: built here" in tree.first_line()
    assert tree.run("--with", "release", "--", "true")[2].startswith("start: there is no release in dist/\n")


def test_two_archives(tree):
    tree.put_release(), tree.put_unproved()
    tree.put("dist/nfs4state-0.3-x86_64-linux.tar.gz", b"another")
    _, _, lines = tree.run("--", "true")
    assert lines.startswith(
        "start: dist/ has 2 archives, and one is wanted: nfs4state-0.2-x86_64-linux.tar.gz and "
        f"others\nstart: nfs4state ({tree.head()[:8]}), NOT proved"
    )


def test_no_sums(tree):
    """Without sha256sum nothing counts as proved, and that is said of each program."""
    tree.put_proved(), tree.put_release(), tree.put_unproved()
    _, _, lines = tree.run("--", "true", env=without(tree, "sha256sum"))
    assert lines.splitlines()[:2] == [
        f"start: there is no sha256sum, by which {name} is known to be proved"
        for name in ("out/proved/nfs4state", "dist/nfs4state-0.2-x86_64-linux.tar.gz")
    ]
    assert lines.splitlines()[2].startswith(f"start: nfs4state ({tree.head()[:8]}), NOT proved")


def test_unpacked_release(tree, tmp_path_factory):
    """In an empty folder, without git and sources: it serves a row, says what it is, and judges the client. If its
    program is changed, that is no release."""
    tree.put_release()
    elsewhere = tmp_path_factory.mktemp("elsewhere")
    shutil.unpack_archive(tree.folder / "dist" / archive.archive_of("0.2"), elsewhere)
    folder = elsewhere / "nfs4state-0.2"
    ran = subprocess.run(
        ["./start", "--", *ROW],
        cwd=folder,
        stdin=subprocess.DEVNULL,
        capture_output=True,
        text=True,
        timeout=PATIENCE,
        env={"PATH": os.environ["PATH"]},
    )
    assert (ran.returncode, ran.stdout) == (0, PASSES), ran.stderr
    assert ran.stderr.startswith(
        f"start: nfs4state 0.2 ({tree.head()[:8]}), proved; files: samples/no_callbacks.toml\n"
    )
    assert "SHARE_DENIED" in ran.stderr and "start: lawful: 5 entries\n" in ran.stderr
    assert "\nverdict: " in ran.stderr
    (folder / "nfs4state").write_text(program_text("another"))
    ran = subprocess.run(
        ["./start", "--with", "release", "--", "true"],
        cwd=folder,
        stdin=subprocess.DEVNULL,
        stderr=subprocess.PIPE,
        text=True,
        timeout=PATIENCE,
    )
    refusal = "has another sum than its RELEASE says, so it isn't the proved program\n"
    assert ran.returncode == 2 and refusal in ran.stderr


def test_sources_have_gone_on(tree):
    """What was proved is of its commit: the program here no longer serves, and the release says how far it is
    behind."""
    tree.put_proved(), tree.put_release()
    first = tree.head()[:8]
    tree.commit("second")
    assert tree.first_line() == f"start: nfs4state 0.2 ({first}), proved; the sources here are 1 commit further"
    tree.commit("third")
    (tree.folder / "file").write_text("changed")
    assert tree.first_line() == (
        f"start: nfs4state 0.2 ({first}), proved; the sources here are 2 commits further, and " "changed"
    )


def test_changed_tree_is_not_proved(tree):
    tree.put_proved(), tree.put_release()
    (tree.folder / "file").write_text("changed")
    assert tree.first_line().endswith("proved; the sources here are changed")


def test_shallow_clone(tree, tmp_path_factory):
    first = tree.head()
    tree.commit("second")
    shallow = tmp_path_factory.mktemp("shallow")
    tree.git("clone", "-q", "--depth", "1", f"file://{tree.folder}", str(shallow / "it"))
    other = Tree.__new__(Tree)
    other.folder, other.shell = shallow / "it", "sh"
    for name in ("tools", "samples", "crates"):
        os.symlink(os.path.join(TOP, name), other.folder / name)
    other.put_release(first)
    assert other.first_line().endswith("proved; the sources here are of another commit")
