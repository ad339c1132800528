#!/usr/bin/env python3
"""Gives the program malformed input in bulk, and compares its answers with models of the documents.

    python3 tests/fuzz/main.py [--seconds N] [--seed N] [--part PART ..]

The parts are `server` (requests as bytes), `records` (PDN and CSA texts), `command_lines` (arguments) and `rows` (rows
that sqlite3 changed). They run side by side for so many seconds, by default 15; their cases come from the seed. For
each case that fails it prints its name, the input, what was expected and what was got.
"""
import argparse
import importlib
import multiprocessing
import pathlib
import sys
import time
import traceback

sys.path[0] = str(pathlib.Path(__file__).resolve().parents[1])  # not this folder: it has a module `http`
from lib.club import PROGRAM
from lib.report import LONGEST, exit_status, result

PARTS = {
    "server": "the server replies to malformed requests as the model does",
    "records": "malformed records are imported or refused as by the model",
    "command_lines": "malformed command lines print what the model prints",
    "rows": "`verify` finds changed rows sound or damaged as the model does",
}
LEAST_CASES = 30
MOST_FAULTS = 5  # after which a part ends


class Test:
    """One part, over the program, until its time is over or enough cases failed."""

    def __init__(self, part, seed, seconds):
        self.program, self.part, self.seed = PROGRAM, part, seed
        self.end = time.monotonic() + seconds
        self.count, self.faults = 0, []

    def is_over(self):
        is_late = time.monotonic() > self.end and self.count >= LEAST_CASES
        return is_late or len(self.faults) >= MOST_FAULTS

    def check(self, is_well, name, expected=None, got=None, given=None):
        """Counts a case, and keeps what is printed of one that fails."""
        self.count += 1
        if not is_well:
            lines = [f"  {title + ':':10}{repr(value)[:LONGEST]}"
                    for title, value in (("given", given), ("expected", expected), ("got", got))]
            self.faults.append("\n".join([f"{self.part}: {name}", *lines]))
        return is_well

    def run(self):
        """Whether all cases went well, the name of the test, and its faults."""
        summary = importlib.import_module(f"fuzz.{self.part}").run(self)
        return not self.faults, f"{PARTS[self.part]} ({self.count} cases of seed {self.seed}: {summary})", self.faults


def run(*asked):
    """The result of a part, in a process of its own."""
    try:
        return Test(*asked).run()
    except Exception:
        return False, PARTS[asked[0]], [traceback.format_exc()]


def main():
    words = argparse.ArgumentParser()
    words.add_argument("--seconds", type=float, default=15)
    words.add_argument("--seed", type=int, default=1)
    words.add_argument("--part", choices=PARTS, action="append")
    asked = words.parse_args()
    parts = asked.part or list(PARTS)
    with multiprocessing.Pool(len(parts)) as pool:
        for is_well, name, faults in pool.starmap(run, [(it, asked.seed, asked.seconds) for it in parts], chunksize=1):
            result(is_well, name, *faults)
    return exit_status()


if __name__ == "__main__":
    sys.exit(main())
