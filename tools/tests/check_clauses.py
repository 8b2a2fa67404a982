#!/usr/bin/env python3
"""Tries `clauses` on a small repository: what its table has, and what it says where the page isn't that of the sources.
usage: check_clauses.py"""
from __future__ import annotations

import pathlib
import subprocess
import sys
import tempfile

TOOL = pathlib.Path(__file__).resolve().parents[1] / "clauses.py"

PAGE = """# Proofs

<!-- made by tools/clauses.py -->
<!-- the end of what tools/clauses.py makes -->

Behind it.
"""

LIB = """//! A library.
#![tactic(auto)]

mod cell;
mod laws;

pub use cell::{Cell, Why, twice};
pub use laws::grows;
"""

CELL = """// A cell that says "{" and has a { in a comment.
ghost use Rattle.std.specs.Prelude.{◌≡◌, length};
ghost use Rattle.low.specs.Cell.{sum_of, kept as kept_by};

/// A cell.
pub struct Cell {
    value: u32,
}

impl Model for Cell {
    ghost Value = { ℕ };

    ghost view = { λ c. c.value };
}

impl Cell {
    /// Its value.
    pub fn get(&self) -> u32
        ensures { result ≡ self.now }
    {
        self.value
    }

    fn hidden(&self) -> u32
        ensures { result ≡ sum_of self.now }
    {
        self.value
    }
}

pub enum Why {
    Small,
}

/// Twice.
pub fn twice(n: u32) -> Result<u32, Why>
    requires { n ≤ 10 }
    ensures exact { kept_by n.sum_of (record { of = sum_of n }) result }
    // a comment with a } in it
    ensures
        small { length n ≤ 20 }
{
    if n == '{' as u32 { Ok(0) } else { Ok(2 * n) }
}

pub fn not_shown() -> u32
    ensures { result ≡ sum_of 1 }
{
    1
}
"""

LAWS = """ghost use Rattle.low.specs.Laws.{Grows};

/// What grows.
pub fn grows()
    ensures { Grows }
{}
"""

WANTED = """| crate | function, law or type | its clauses, with the definitions that they cite |
|---|---|---|
| `low` | `Cell`, seen as `ℕ` | the type's own value |
| | `Cell::get` | = |
| | `twice` | `exact`: `kept_by`, `sum_of`; `small` |
| | law `grows` | `Grows` |
| | `Why` | types alone |
"""


def call(top: str, *words: str) -> "subprocess.CompletedProcess[str]":
    return subprocess.run([sys.executable, str(TOOL), "--top", top, *words], stdout=subprocess.PIPE, stderr=subprocess.PIPE, text=True, check=False)


def main() -> None:
    with tempfile.TemporaryDirectory() as folder:
        top = pathlib.Path(folder)
        (top / "crates/low/src").mkdir(parents=True)
        (top / "docs").mkdir()
        (top / "crates.txt").write_text("# libraries\nhigh: low\nlow:\n")
        for name, text in (("lib", LIB), ("cell", CELL), ("laws", LAWS)):
            (top / f"crates/low/src/{name}.rt").write_text(text)
        page = top / "docs/PROOFS.md"
        page.write_text(PAGE)
        before = call(folder, "--check")
        if before.returncode != 1 or "run tools/clauses.py" not in before.stderr or "+| `low` |" not in before.stderr or page.read_text() != PAGE:
            sys.exit(f"clauses: an empty table was taken, or the line isn't clear: {before.returncode}, {before.stderr}")
        made = call(folder)
        table = page.read_text().split("-->\n")[1].split("<!--")[0].strip() + "\n"
        if made.returncode or table != WANTED or not page.read_text().endswith("\n\nBehind it.\n"):
            sys.exit(f"clauses: another table than was wanted:\n{table}{made.stderr}")
        if call(folder, "--check").returncode:
            sys.exit("clauses: its own table is refused")
        (top / "crates/low/src/laws.rt").write_text(LAWS.replace("{ Grows }", "whole { Grows }"))
        after = call(folder, "--check")
        if after.returncode != 1 or "-| | law `grows` | `Grows` |" not in after.stderr:
            sys.exit(f"clauses: a clause's new name isn't told: {after.stderr}")
        page.write_text("# Proofs\n")
        if call(folder).returncode != 1:
            sys.exit("clauses: a page without the marker lines was taken")
    print("tools: clauses makes the table that is wanted of a small repository, and tells where a page has another")


if __name__ == "__main__":
    main()
