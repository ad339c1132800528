#!/usr/bin/env python3
"""Tests tests/gate/contracts.py over a small crate: which guarantees it takes, and what it reports of others."""
import pathlib
import sys
import tempfile

sys.path[0] = str(pathlib.Path(__file__).resolve().parents[1])
from gate import contracts
from lib.report import check, exit_status

SOURCE = """#![tactic(auto)]

pub struct Row;

impl Row {
    pub fn new(a: u8) -> Row
        ensures value { result \u2261 a }
        ensures {
            more }
    {}
}

impl fmt::Display for Row {
    fn fmt(&self) {}
}

/// A function.
pub fn read(
    a: u8,
) -> u8
    ensures some { a }
    ensures none { a }
{}
"""
LONG = "word " * 31
TAKEN = {
    "a function with its clauses": "- `read` (`some`, `none`): a row.",
    "a function without clauses, and a type": "- `read`, `Row`: a row.",
    "a method of a type": "- `Row::new` (`value`): a row.",
    "an implementation": "- `Display` for `Row`: a row.",
    "a public lemma": "- `rows_are_read`: a row.",
    "an item over two lines": "- `read` (`some`): a row,\n//!   and a `Row`.",
    "a sentence without items": "- Rows stay.",
}
REPORTED = {
    "a clause of another function": ("- `read` (`value`): a row.", "`read` (`value`) is not in its sources"),
    "a function that is not there": ("- `write`: a row.", "`write` is not in its sources"),
    "a method of another type": ("- `Table::new` (`value`): a row.", "`Table::new` (`value`) is not in its sources"),
    "an implementation that is not there": ("- `Hash` for `Row`: a row.", "`Hash` for `Row` is not in its sources"),
    "a list that is none": ("- `read` and `new`: a row.", "not a list of items: `read` and `new`"),
    "a name in the words that no crate has": ("- `read`: a `Table`.", "`Table` is in no crate"),
    "a long sentence": (f"- `read`: {LONG}", f"more than 30 words: {LONG.strip()}"),
}


def faults_of(folder, section):
    """What the script reports of a crate whose head has this section."""
    for known in (contracts.functions_of, contracts.sources_of, contracts.lemmas_of, contracts.words_of_crates):
        known.cache_clear()
    (folder / "crates/one/src/lib.rt").write_text(f"//! A crate.\n{section}{SOURCE}", encoding="utf-8")
    contracts.TOP = folder
    return list(contracts.faults_of("one"))


def main():
    with tempfile.TemporaryDirectory() as name:
        folder = pathlib.Path(name)
        for it in ("src", "proofs", "specs"):
            (folder / "crates/one" / it).mkdir(parents=True)
        (folder / "crates/one/proofs/Proved.antt").write_text("pub rows_are_read : Type\n", encoding="utf-8")
        for title, line in TAKEN.items():
            check(f"taken is {title}", [], faults_of(folder, f"//!\n//! # Guarantees\n//!\n//! {line}\n"))
        for title, (line, fault) in REPORTED.items():
            found = faults_of(folder, f"//!\n//! # Guarantees\n//!\n//! {line}\n")
            check(f"reported is {title}", [f"one: {fault}"], found)
        check("reported is a crate without the section", ["one: src/lib.rt has no section # Guarantees"],
              faults_of(folder, ""))
    return exit_status()


if __name__ == "__main__":
    sys.exit(main())
