"""That `try_edits` tells edits apart: over two small crates in a folder of its own it tries edits that mean the same,
one of which breaks a written answer and one changes the function's arms; wrong ones, of functions that call one
another, by a search and by a written answer; and such that can't be applied or compiled, or take a name away. The
refused ones are kept, by the files that they stand on; and where a library's contract says less, so that the control
isn't proved, nothing counts. This takes a minute or two."""
import os
import re
import shutil
import subprocess

import pytest

from nfs4tools.processes import TOP

pytestmark = pytest.mark.needs("rt")

SCRIPTS = (
    "try_edits",
    "dev/__init__.py",
    "dev/try_edits.py",
    "dev/edits.py",
    "dev/edit_verdicts.py",
    "dev/edits_kept.py",
    "src/nfs4tools/__init__.py",
    "src/nfs4tools/python_version.py",
)

FILES = {
    "crates.txt": "low:\nhigh: low\n",
    "crates/low/src/lib.rt": """#![tactic(auto)]
ghost use Rattle.std.specs.Prelude.{◌≡◌, ◌≤◌, ◌+◌};

/// One more.
pub fn next(n: u64) -> u64
    requires { n ≤ 1000 }
    ensures { result ≡ n + 1 }
{
    n + 1
}
""",
    "crates/high/src/lib.rt": """#![tactic(auto)]
ghost use Rattle.std.specs.Prelude.{◌≡◌, ◌≤◌, ◌+◌};
ghost use Rattle.high.specs.Doubled.{doubled};

/// The double.
pub fn twice(n: u64) -> u64
    requires { n ≤ 100 }
    ensures { result ≡ doubled n }
{
    n + n
}

/// The double of the double.
pub fn four_times(n: u64) -> u64
    requires small { n ≤ 50 }
    requires double { doubled n ≤ 100 }
    ensures { result ≡ doubled (doubled n) }
{
    let double = twice(n);
    twice(double)
}

/// The greater one.
pub fn greater(a: u64, b: u64) -> u64
    ensures a { a ≤ result }
    ensures b { b ≤ result }
{
    if a < b { b } else { a }
}

/// Two more.
pub fn after_next(n: u64) -> u64
    requires { n ≤ 100 }
    ensures { result ≡ n + 2 }
{
    let next = low::next(n);
    low::next(next)
}

/// Three more.
pub fn after_three(n: u64) -> u64
    requires { n ≤ 100 }
    ensures { result ≡ n + 3 }
{
    let two = after_next(n);
    low::next(two)
}
""",
    "crates/high/specs/Lib.antt": "pub mod Doubled\n",
    "crates/high/specs/Doubled.antt": """use Rattle.std.specs.Prelude.{ℕ, zero, suc}

-- twice the number, two by two
unfoldable pub doubled : ℕ → ℕ
doubled zero = 0
doubled (suc n) = suc (suc (doubled n))
""",
    "crates/high/proofs/Lib.antt": "mod DoubledIs\n",
    "crates/high/proofs/DoubledIs.antt": """use Rattle.std.proofs.Common.{◌≡◌, ℕ, zero, suc, ◌+◌, refl, arith}
use Rattle.high.specs.Doubled.{doubled}

doubled_next : (n : ℕ) → doubled (suc n) ≡ suc (suc (doubled n))
unfolding doubled
doubled_next n = refl

doubled_none : doubled zero ≡ 0
unfolding doubled
doubled_none = refl

pub doubled_is : (n : ℕ) → n + n ≡ doubled n
doubled_is zero = omega (arith, doubled_none)
doubled_is (suc n) = omega (arith, doubled_next n, doubled_is n)
""",
    "crates/high/proofs/twice/Answers.antt": """use Rattle.high.proofs.DoubledIs.{doubled_is}
use Rattle.high.proofs.twice.Goals as goal

pub returns : goal.returns
returns c = doubled_is c.args.n
""",
    "crates/high/proofs/after_three/Answers.antt": """use Rattle.std.proofs.Common.{arith}
use Rattle.high.proofs.after_three.Goals as goal

pub returns : goal.returns
returns c = omega (arith, c.after_next-two.ensures, c.next.ensures)
""",
    "crates/high/mutants/control": "after_next\n",
}

TWICE = "    n + n"
GREATER = "if a < b { b } else { a }"
RENAMED = [("let two = after_next(n);", "let more = after_next(n);"), ("low::next(two)", "low::next(more)")]
# Edits of the second crate: the function, the pairs of lines, and how each is told.
EDITS = {
    "a_doubles": ("twice", [(TWICE, "    2 * n")], "NOT REFUSED: .*it means the same"),
    "b_doubles_by_arms": (
        "twice",
        [(TWICE, "    if n == 0 { 0 } else { n + n }")],
        "PROOF'S SHAPE: .*has no `returns` that can be named",
    ),
    "c_doubles_wrong": ("twice", [(TWICE, "    n + n + n")], "REFUSED: .*the goal fails at"),
    "d_calls_the_double": ("four_times", [("twice(double)", "twice(twice(n))")], "NOT REFUSED"),
    "d_calls_the_double_once": (
        "four_times",
        [("let double = twice(n)", "let double = n")],
        "REFUSED: `returns` isn't proved",
    ),
    "greater_the_other_way": ("greater", [(GREATER, "if b <= a { a } else { b }")], "NOT REFUSED"),
    "greater_is_the_first": (
        "greater",
        [(GREATER, "if a < b { a } else { a }")],
        "REFUSED: `returns-then-a-b-clause-b` isn't proved: `c.args.a` = ",
    ),
    "no_such_text": ("greater", [("if a > b", "if a < b")], "BAD EDIT: an `old:` text stands in src/lib.rt 0 times"),
    "no_such_function": ("lesser", [("/// The greater one.", "/// The lesser one.")], "BAD EDIT: there is no function"),
    "no_such_name": ("greater", [(GREATER, "if a < c { b } else { a }")], "BAD EDIT: it doesn't compile"),
    "takes_a_name_away": ("after_three", RENAMED, "PROOF'S SHAPE: .*has no field `after_next-two`"),
}


def read(path):
    with open(path, encoding="utf-8") as source:
        return source.read()


def write(top, files):
    for path, text in files.items():
        os.makedirs(os.path.dirname(os.path.join(top, path)), exist_ok=True)
        with open(os.path.join(top, path), "w", encoding="utf-8") as out:
            out.write(text)


def edit_text(function, pairs):
    lines = "".join(f"old: {old}\nnew: {new}\n" for old, new in pairs)
    return f"It is told as what it is.\nfunction: {function}\nfile: src/lib.rt\n{lines}"


@pytest.fixture
def top(path_of):
    """A folder with the crates, their edits and the scripts."""
    folder = path_of("top")
    write(folder, FILES)
    write(
        folder,
        {
            f"crates/high/mutants/{name}.edit": edit_text(function, pairs)
            for name, (function, pairs, _) in EDITS.items()
        },
    )
    os.mkdir(os.path.join(folder, ".git"))
    for name in SCRIPTS:
        os.makedirs(os.path.dirname(os.path.join(folder, "tools", name)), exist_ok=True)
        shutil.copy(os.path.join(TOP, "tools", name), os.path.join(folder, "tools", name))
    return folder


def run(top, *words):
    """The status of `try_edits` over the crates, and what it prints."""
    environment = os.environ | {"XDG_CACHE_HOME": os.path.join(top, "cache")}
    ran = subprocess.run(
        [os.path.join(top, "tools", "try_edits"), "--jobs", "1", *words],
        env=environment,
        stdout=subprocess.PIPE,
        stderr=subprocess.STDOUT,
        text=True,
        timeout=3600,
    )
    return ran.returncode, ran.stdout


def expect_all(top):
    """Each edit is told as what it is, and the caller is tried where its callee has no edit: how many are refused."""
    status, said = run(top, "--said", os.path.join(top, "said"))
    for name, (_, _, words) in EDITS.items():
        assert re.search(f"(?m)^high/{name}: {words}", said), said
    refused = sum(words.startswith("REFUSED") for _, _, words in EDITS.values())
    failed = len(EDITS) - refused
    assert status == 1 and said.endswith(
        f"{len(EDITS)} edits: {refused} refused, {failed} failed\n" f"{refused} passed, {failed} failed\n"
    ), said
    checks = [read(os.path.join(top, "said", name)) for name in os.listdir(os.path.join(top, "said"))]
    assert any(re.search("(?m)^fn high::four_times: .*it calls `high::twice`", check) for check in checks), said
    return refused


def expect_kept(top, refused):
    """What was refused isn't tried again, and its number counts."""
    for name, (_, _, words) in EDITS.items():
        if not words.startswith("REFUSED"):
            os.remove(os.path.join(top, "crates/high/mutants", f"{name}.edit"))
    mode = os.stat(os.path.join(top, "cache/nfs4state/edits")).st_mode & 0o777
    assert mode == 0o700, "others can read what is kept"
    status, said = run(top, "high", "--at-least", str(refused))
    assert status == 0 and f"{refused} kept from before, 0 checks" in said, said
    status, said = run(top, "high", "--at-least", str(refused + 1))
    assert status == 1 and said.endswith(f"{refused} passed, 1 failed\n"), said


def expect_below(top):
    """Where a library below changed, it is built anew, and all is tried again; and where its contract says too little
    for the control, nothing counts."""
    low = FILES["crates/low/src/lib.rt"].replace("ensures { result ≡ n + 1 }", "ensures { result ≤ n + 1 }")
    write(top, {"crates/low/src/lib.rt": low})
    status, said = run(top)
    assert "building the library low" in said and "0 kept from before" in said, said
    assert status == 1 and "the control `after_next` isn't proved" in said and "\n0 passed, " in said, said


@pytest.mark.long
def test_try_edits(top, tell):
    refused = expect_all(top)
    expect_kept(top, refused)
    expect_below(top)
    tell(f"{len(EDITS)} edits are each told as what it is")
