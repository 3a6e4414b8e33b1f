"""`tools/lint` refuses a source of a crate that has no head, and a line above 120 columns (tools/dev/source_lines.py)."""
import pytest

from dev.source_lines import COLUMNS, faults_of, mark_of

pytestmark = pytest.mark.quick

SOURCE, SPEC = "crates/nfs_core/src/core_state.rt", "crates/nfs_core/specs/laws/Gaining.antt"
WIDE = "a" * (COLUMNS + 1)
TOO_WIDE = f"{COLUMNS + 1} columns, and at most {COLUMNS} are allowed"


def headed(path: str, *lines: str) -> str:
    """A source with a head and then these lines."""
    return "\n".join([f"{mark_of(path)} Why the file exists.", "", *lines, ""])


@pytest.mark.parametrize("path", [SOURCE, SPEC])
@pytest.mark.parametrize(
    "text", ["", "\n", "use crate::Core;\n", "/// A type.\n", "// A note.\n", "//!\n", "-- \n", "--no\n"]
)
def test_without_head(path, text):
    mark = mark_of(path)
    assert faults_of(path, text) == [f"{path}:1: it has no head: begin with `{mark}`, and say why the file exists"]


@pytest.mark.parametrize("path, text", [(SOURCE, "-- A note.\n"), (SPEC, "//! A note.\n"), (SPEC, "{- A note. -}\n")])
def test_head_of_another_kind(path, text):
    assert len(faults_of(path, text)) == 1


@pytest.mark.parametrize("path", [SOURCE, SPEC])
def test_wide_lines(path):
    text = headed(path, WIDE[1:], WIDE, "", "    " + WIDE[4:])
    assert faults_of(path, text) == [f"{path}:4: {TOO_WIDE}", f"{path}:6: {TOO_WIDE}"]


def test_wide_comments():
    head = f"//! {WIDE[4:]}\n"
    assert faults_of(SOURCE, head + f"/// {WIDE[4:]}\n") == [f"{SOURCE}:1: {TOO_WIDE}", f"{SOURCE}:2: {TOO_WIDE}"]


def test_columns_are_characters():
    assert faults_of(SPEC, headed(SPEC, "≡" * COLUMNS)) == []


@pytest.mark.parametrize(
    "line",
    [
        "use Rattle.std.specs.Prelude.{WIDE}",
        "pub use Rattle.std.specs.Prelude.{WIDE}",
        "    ghost use Rattle.std.specs.Prelude.{WIDE};",
        "    #[tactic(auto, unfolding(WIDE))]",
        "#![WIDE]",
        '        "WIDE",',
        '        "a \\" quotation WIDE"',
    ],
)
def test_lines_without_a_break(line):
    assert faults_of(SOURCE, headed(SOURCE, line.replace("WIDE", WIDE))) == []


@pytest.mark.parametrize("line", ['let a = "WIDE";', 'f("a", "WIDE")', '"a", "WIDE",', "user::WIDE()"])
def test_lines_with_a_break(line):
    assert len(faults_of(SOURCE, headed(SOURCE, line.replace("WIDE", WIDE)))) == 1


@pytest.mark.parametrize("path", ["crates/nfs_core/proofs/Lib.antt", "crates/nfs_core/README.md", "tools/dev/lint.py"])
def test_no_source(path):
    assert faults_of(path, WIDE) == []
