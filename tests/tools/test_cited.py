"""CLAIMS and CONTRACTS name functions that run, and laws (`tools/check_cited`). Each way to call is followed in a
made-up program, and each fault of a made-up page is found."""
import pytest

from dev.called_functions import Program, program_of
from dev.citations import MEANT, PROGRAM, SECTION, SPECIFIED, TABLE, Citations, citing
from dev.clause_index import CRATES, Source
from dev.pages import Page

pytestmark = pytest.mark.quick

SOURCES = {
    "top/src/main.rt": """
use base::{Store, handed_on};
use crate::other::helper;
fn main(rt: HostRuntime) -> ExitCode {
    let mut store = Store::new();
    helper(&mut store);
    handed_on(|x| store.answer(x));
    told!(store);
    let taken = guess();
    taken.unclear();
}
""",
    "top/src/other.rt": """
use base::Service;
pub(crate) fn helper(store: &mut Store) -> bool
    ensures { result.stored }
{ by_trait(store); store.table.rows.change() }
fn by_trait<S: Service>(service: &mut S) { service.serve() }
fn not_run() { Store::unused() }
macro_rules! told { ($it: expr) => { by_macro($it) } }
fn by_macro(store: &Store) { base::inner::by_path(store.first().row()); }
""",
    "base/src/lib.rt": """
pub use inner::handed_on;
pub struct Store {
    table: Box<Table>,
}
pub struct Table {
    rows: Rows,
}
pub struct Rows {
    a: u32,
}
pub struct Row {
    a: u32,
}
pub trait Service { fn serve(&mut self); }
impl Service for Store { fn serve(&mut self) { self.in_trait() } }
impl Store {
    pub fn new() -> Store { Store { table: make() } }
    pub fn answer(&mut self, x: u32) -> u32 ensures { result.some } { x }
    pub fn apply(&mut self) -> u32 ensures { result.some } { self.answer(1) }
    pub fn unused() -> u32 { 1 }
    pub fn first(&self) -> Option<Row> { None }
    fn in_trait(&mut self) -> u32 { 1 }
    fn unclear(&self) -> u32 { 1 }
    pub fn law(&self) ensures { Law self.now } {}
}
impl Drop for Store { fn drop(&mut self) { by_drop() } }
impl Rows {
    pub fn change(&mut self) -> bool { true }
    pub fn row(&self) -> u32 { 1 }
    fn unclear(&self) -> u32 { 1 }
}
impl Row { fn row(&self) -> u32 { 1 } }
fn by_drop() -> u32 { 1 }
""",
    "base/src/inner.rt": """
pub fn handed_on(f: Function) -> u32 { 1 }
pub fn by_path(x: u32) -> u32 { 1 }
pub fn a_law() ensures { Law } {}
""",
}
RUN = {
    "main",
    "helper",
    "handed_on",
    "by_trait",
    "by_macro",
    "by_path",
    "by_drop",
    "told!",
    "Service::serve",
    "Store::new",
    "Store::serve",
    "Store::answer",
    "Store::in_trait",
    "Store::first",
    "Store::drop",
    "Rows::change",
    "Row::row",
}
WORDS: dict[str, list[str]] = {
    "`Store::answer`, `handed_on`, `base::by_path`, `inner::by_path`, `a_law`, `Store::law`, `apply`, `not_there`": [],
    "`Store::unused`": ["Store::unused: the program doesn't run it, and the table of docs/CONTRACTS.md hasn't got it"],
    "`not_run`": ["not_run: the program doesn't run it, and the table of docs/CONTRACTS.md hasn't got it"],
    "`other::not_run()`": [
        "other::not_run(): the program doesn't run it, and the table of docs/CONTRACTS.md hasn't got it"
    ],
    "`Store::apply`": ["Store::apply: the program doesn't run it, as docs/CONTRACTS.md says"],
    "`Rows::unclear`": ["Rows::unclear: does main call Rows::unclear? `MEANT` has to say which unclear is meant"],
}
ROWS = f"""# A page

{SECTION}

| Function | Runs |
|---|---|
| `Store::apply` | `Store::answer` |
"""
WRONG_ROWS: dict[str, list[str]] = {
    "| `Store::answer` | |": ["Store::answer: the program runs it"],
    "| `a_law` | |": ["a_law: the program runs it"],
    "| `Store::nothing` | |": ["Store::nothing: no such function"],
    "| `Store::apply` | |": ["Store::apply: there already"],
    "| `Store::unused` | `not_run`, `a_law` |": [
        "a_law: the program doesn't run it",
        "not_run: the program doesn't run it",
    ],
    "| `Rows::unclear` | |": ["Rows::unclear: does main call Rows::unclear? `MEANT` has to say which unclear is meant"],
}


def made_up(meant=None):
    sources = [Source(path.split("/")[0], CRATES / path, text) for path, text in SOURCES.items()]
    return Program("top", sources, {"top": {"top", "base"}, "base": {"base"}}, meant or {})


@pytest.fixture(scope="module")
def citations():
    return Citations(made_up())


def faults_of(citations, words, rows=ROWS):
    specified = [f"{TABLE}: the table hasn't got"]
    return [
        it
        for it in citations.faults([Page("docs/CLAIMS.md", words), Page(TABLE, rows)])
        if not it.startswith(tuple(specified))
    ]


def test_pages(tell):
    citations = Citations(program_of(PROGRAM, MEANT))
    faults = citations.faults(citing())
    assert not faults, "\n".join(faults)
    tell(f"{len(citations.runs):,} functions run, and {len(citations.may_run) - len(citations.runs):,} more may")


def test_calls(citations):
    assert {str(it) for it in citations.runs} == RUN
    assert {str(it) for it in citations.may_run} - RUN == {"Store::unclear", "Rows::unclear"}


def test_meant():
    found = Citations(made_up({("main", "unclear"): "Rows::unclear"}))
    assert {str(it) for it in found.runs} == RUN | {"Rows::unclear"} == {str(it) for it in found.may_run}
    needless = Citations(made_up({("main", "answer"): "Store::answer"}))
    assert faults_of(needless, "") == [
        "MEANT: the call of answer in main tells by itself what is meant, or isn't there"
    ]


def test_made_up(citations):
    for words, faults in WORDS.items():
        assert faults_of(citations, words) == [f"docs/CLAIMS.md:1: {it}" for it in faults], words
    for row, faults in WRONG_ROWS.items():
        assert faults_of(citations, "", f"{ROWS}{row}\n") == [f"{TABLE}:8: {it}" for it in faults], row


def test_specified(citations, monkeypatch):
    monkeypatch.setitem(SPECIFIED, "Store", "answer apply unused nothing law")
    faults = citations.faults([Page(TABLE, ROWS)])
    assert faults == [
        f"{TABLE}: the table hasn't got Store::unused, which is specified and which the program doesn't run"
    ]
