"""docs/PROMISES.md speaks of what is in the sources, and what is not is found."""

import tempfile
from pathlib import Path

import promises
from case import Check

SOURCE = """
// A function's text in a comment, fn missing() ensures commented { true } {}
pub struct Pile { size: u8, ghost full: { size ≤ 9 } }
impl Pile {
    pub fn grow(&mut self, by: u8) -> Result<(), Memory>
        requires room { by ≤ 9 }
        ensures ok { OnOk result (self.new ≡ { "}" }) }
    { if by == b'{' { helper(); } Ok(()) }
}
pub trait Shape<'a> { fn area(&self) -> u8 ensures { result ≤ 9 }; }
impl<'a, T: Into<u8>> Shape<'a> for Round<T> { fn area(&self) -> u8 { 1 } }
fn helper() -> [u8; 3] ensures* starred { ⌜ ⊤ ⌝ } { prove!(true); }
"""

ROW = "| It grows. | `low: Pile::grow, ok` | `shrinks` | how fast |"
HEAD = "| Promise | Function and clause | Must-fail edits | Not promised |\n|---|---|---|---|\n"

GOOD = [
    ROW,
    ROW.replace("`low: Pile::grow, ok`", "`low: Pile::grow, room`<br>`low: Pile, full`"),
    ROW.replace("`low: Pile::grow, ok`", "`low: Shape::area, ensures` `low: Round::area, ensures`"),
    ROW.replace("`low: Pile::grow, ok`", "`low: helper, starred` `low: lib::helper, starred`"),
    ROW.replace("`shrinks`", "`low/shrinks`"),
    ROW.replace("`shrinks`", "-").replace("how fast", ""),
]

BAD = [
    (ROW.replace("low:", "high:"), "there is no crate high"),
    (ROW.replace("low:", "gone:"), "there is no crate gone"),
    (ROW.replace("grow", "missing"), "there is no Pile::missing in low"),
    (ROW.replace("Pile::grow", "grow"), "there is no grow in low"),
    (ROW.replace("Pile::grow, ok", "missing, commented"), "there is no missing in low"),
    (ROW.replace("Pile::", "Round::"), "there is no Round::grow in low"),
    (ROW.replace(", ok", ", okay"), "there is no clause okay"),
    (ROW.replace(", ok", ", ensures"), "there is no clause ensures"),
    (ROW.replace(", ok", ", starred"), "there is no clause starred"),
    (ROW.replace("Pile::grow, ok", "Pile, size"), "there is no clause size"),
    (ROW.replace(", ok", ""), "needs a clause"),
    (ROW.replace("low: ", ""), "not of the form"),
    (ROW.replace("`low: Pile::grow, ok`", "grow"), "the second cell"),
    (ROW.replace("`low: Pile::grow, ok`", "-"), "the second cell"),
    (ROW.replace("`shrinks`", "shrinks"), "the third cell"),
    (ROW.replace("`shrinks`", ""), "the third cell"),
    (ROW.replace("shrinks", "sleeps"), "there is no file sleeps.edit in crates/low/must-fail"),
    (ROW.replace("shrinks", "high/shrinks"), "there is no file shrinks.edit in crates/high/must-fail"),
    (ROW.replace("It grows.", ""), "the promise is empty"),
    (ROW.replace("| how fast ", ""), "a row has 3 cells"),
    (ROW.replace("how fast", "how fast " * 3500), "more than 3500"),
    ("", "there is no row"),
]


def repository(folder, table):
    """Makes a small repository with one crate, one must-fail edit and this page."""
    low = folder / "crates" / "low"
    for path in (low / "src", low / "must-fail", folder / "docs"):
        path.mkdir(parents=True)
    (folder / "crates.txt").write_text("# the crates\nlow: thiserror\ngone: low\n")
    (low / "src" / "lib.rt").write_text(SOURCE, encoding="utf-8")
    (low / "must-fail" / "shrinks.edit").write_text("file: src/lib.rt\n")
    (folder / "docs" / "PROMISES.md").write_text(table, encoding="utf-8")


def faults_of(table):
    """What is wrong with a page of that small repository."""
    with tempfile.TemporaryDirectory() as folder:
        repository(Path(folder), table)
        return promises.faults(Path(folder))


def unseen():
    """The pages that are judged wrongly."""
    wrong = []
    for row in GOOD:
        wrong += [f"{row}: should pass, but {fault}" for fault in faults_of(HEAD + row)]
    for row, fault in BAD:
        if not any(fault in found for found in faults_of(HEAD + row)):
            wrong.append(f"{row}: should be refused for: {fault}")
    if not faults_of(HEAD.replace("Promise", "Promises") + ROW):
        wrong.append("a table with another head should be refused")
    return wrong


CASES = [
    Check("promises: each row is in the sources", promises.faults),
    Check("promises: what is not in the sources is found", unseen),
]
