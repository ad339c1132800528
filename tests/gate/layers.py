#!/usr/bin/env python3
"""Tests that each crate uses only what others offer, and that docs/architecture.md lists the crates as they are.

`proofs/Proved.antt` is a crate's public interface of lemmas: no other crate imports another module of its proofs. The
table of crates in docs/architecture.md is made by tests/gate/crate_table.py, and must be current.
"""
import pathlib
import re
import sys

sys.path[0] = str(pathlib.Path(__file__).resolve().parents[1])
from gate import crate_table
from lib.report import exit_status, result

TOP = pathlib.Path(__file__).resolve().parents[2]
NAMED = re.compile(r"\bRattle\.(\w+)\.proofs\.(\w+)")


def private_imports(crate, crates):
    """The places in a crate that name a module of another crate's proofs other than `Proved`."""
    for path in sorted((TOP / "crates" / crate).rglob("*")):
        if path.suffix not in (".rt", ".antt") or "out" in path.parts:
            continue
        for number, line in enumerate(path.read_text().splitlines(), 1):
            for other, module in NAMED.findall(line):
                if other != crate and other in crates and module != "Proved":
                    yield f"{path.relative_to(TOP)}:{number}: {other}.proofs.{module}"


def main():
    crates = crate_table.all_libraries()
    found = [it for crate in crates for it in private_imports(crate, crates)]
    result(not found, "a crate names of another crate's proofs `Proved` alone", *found)
    try:
        stale = crate_table.difference()
    except ValueError:
        stale = ["a line that marks the begin or the end of the table is missing"]
    hint = ["`python3 tests/gate/crate_table.py --write` makes it anew"] if stale else []
    result(not stale, "the table of crates in docs/architecture.md is current", *stale, *hint)
    return exit_status()


if __name__ == "__main__":
    sys.exit(main())
