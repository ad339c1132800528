#!/usr/bin/env python3
"""Writes docs/proving/costs.md from what a whole run of the gate printed.

    python3 tests/gate/costs.py FILE [--date DATE] [--kit KIT] [--processors N]

FILE has the output of `./test --anew`; its last table of processor seconds counts. The date is that of the file, the
kit that of `rt version`, and the processors those of this machine, unless the options say otherwise. What the document
has behind the marker line is written by hand, and kept.
"""
import argparse
import datetime
import functools
import os
import pathlib
import re
import subprocess
import sys

sys.path[0] = str(pathlib.Path(__file__).resolve().parents[1])
from gate.crate_table import all_libraries

TOP = pathlib.Path(__file__).resolve().parents[2]
DOCUMENT = TOP / "docs/proving/costs.md"
MARKER = "<!-- From here on the page is written by hand; tests/gate/costs.py keeps it. -->"
MOST_MINUTES = 240  # of all processors, in a run from nothing
MOST_SECONDS = 150  # of a crate's proof
MOST_GB = 4.0  # of a process, but to build a program
HEAD_OF_TABLE = re.compile(r"crate +proof +tests +edits +in all +GB +processor seconds")
ROW = re.compile(r"(\w+) +(\d+) +(\d+) +(\d+) +(\d+) +(\d+\.\d)")
TOTALS = re.compile(r"(\d+) processor minutes by the prover, (\d+) minutes by the clock")


def read_output(text):
    """The rows of the last table, by crate: proof, tests, edits, in all, GB; and the two totals in minutes."""
    rows, totals = {}, None
    for line in text.splitlines():
        line = line.removeprefix("> ").strip()
        if HEAD_OF_TABLE.fullmatch(line):
            rows = {}
        elif found := ROW.fullmatch(line):
            rows[found[1]] = *map(int, found.groups()[1:5]), float(found[6])
        elif found := TOTALS.fullmatch(line):
            totals = int(found[1]), int(found[2])
    if not rows or totals is None:
        sys.exit("the file has no table of processor seconds with its totals: is it the output of ./test?")
    return rows, totals


def measured():
    """The rows of the document's table, by crate."""
    text = DOCUMENT.read_text(encoding="utf-8") if DOCUMENT.exists() else ""
    cells = (re.findall(r"[\w.]+", line) for line in text.splitlines() if re.match(r"\| `\w+` \| \d+ \|", line))
    return {name: (*map(int, numbers[:4]), float(numbers[4])) for name, *numbers in cells}


def longest_chain(rows):
    """The crates that stand on one another, lowest first, whose proofs take the most seconds together."""
    libraries = all_libraries()

    @functools.cache
    def chain_to(crate):
        below = [chain_to(it) for it in libraries[crate] if it in libraries]
        best = max(below, key=lambda it: it[0], default=(0, ()))
        return best[0] + rows.get(crate, (0,))[0], (*best[1], crate)

    return max(map(chain_to, libraries), key=lambda it: it[0])


def crates_below(crate):
    """A crate of ours and all that it stands on."""
    libraries = all_libraries()
    return {crate}.union(*(crates_below(it) for it in libraries[crate] if it in libraries))


def is_program(crate):
    return not (TOP / "crates" / crate / "src/lib.rt").exists()


def list_of_crates(names):
    return ", ".join(f"`{it}`" for it in names) or "none"


def made_part(rows, totals, date, kit, processors):
    """The part of the document that is made by this script."""
    columns = list(zip(*rows.values()))
    parts = [sum(it) / 60 for it in columns[:3]]
    seconds, chain = longest_chain(rows)
    program = sum(rows.get(it, (0,))[0] for it in crates_below("club")) / 60
    late = sorted((it for it in rows if rows[it][0] > MOST_SECONDS), key=lambda it: -rows[it][0])
    large = [it for it in rows if rows[it][4] > MOST_GB and not is_program(it)]
    over = totals[0] - MOST_MINUTES
    lines = [
        "# Costs of the gate", "",
        "`python3 tests/gate/costs.py FILE` makes this page from the output of a whole run of the gate "
        "(`./test --anew`).", "",
        "| What | This run |", "|---|---|",
        f"| Date | {date} |",
        f"| Kit | {kit} |",
        f"| Processors | {processors} |",
        f"| By the clock | {totals[1]} minutes |",
        f"| By the prover | {totals[0]} processor minutes |",
        f"| Proofs | {parts[0]:.0f} processor minutes |",
        f"| Mutants | {parts[2]:.0f} processor minutes |",
        f"| Tests that are proved | {parts[1]:.0f} processor minutes |",
        f"| Proofs of `club` and all below it | {program:.0f} processor minutes |",
        "", "## Longest chain", "",
        f"The proofs of these {len(chain)} crates follow one another, and take {seconds} processor seconds "
        f"({seconds / 60:.0f} minutes):", "",
        " → ".join(f"`{it}` {rows.get(it, (0,))[0]}" for it in chain),
        "", "## Over the budget", "",
        f"- A whole run: {MOST_MINUTES} processor minutes. "
        + (f"This one took {over} more." if over > 0 else "This one is within it."),
        f"- A crate's proof: {MOST_SECONDS} processor seconds. Over it: {list_of_crates(late)}.",
        f"- A process: {MOST_GB:.0f} GB, but for programs. Over it: {list_of_crates(large)}.",
        "", "## Each crate", "",
        "Processor seconds, the most expensive crate first. GB is the largest peak of one process.", "",
        "| Crate | Proof | Tests | Edits | In all | GB |", "|---|---:|---:|---:|---:|---:|"]
    for crate, row in sorted(rows.items(), key=lambda it: (-it[1][3], it[0])):
        lines.append(f"| `{crate}` | " + " | ".join(map(str, row)) + " |")
    return "\n".join(lines) + "\n"


def kit_here():
    ran = subprocess.run(["rt", "version"], capture_output=True, text=True, check=False)
    return ran.stdout.split(" ")[0].strip() or "unknown"


def main():
    words = argparse.ArgumentParser(description=__doc__.split("\n\n")[0])
    words.add_argument("file", type=pathlib.Path)
    words.add_argument("--date")
    words.add_argument("--kit")
    words.add_argument("--processors", type=int, default=len(os.sched_getaffinity(0)))
    asked = words.parse_args()
    rows, totals = read_output(asked.file.read_text(encoding="utf-8", errors="replace"))
    unknown = sorted(set(rows) - set(all_libraries()))
    if unknown:
        sys.exit(f"crates.txt has no {', '.join(unknown)}: is the file of these sources?")
    date = asked.date or datetime.date.fromtimestamp(asked.file.stat().st_mtime).isoformat()
    by_hand = DOCUMENT.read_text(encoding="utf-8").partition(MARKER)[2] if DOCUMENT.exists() else "\n"
    made = made_part(rows, totals, date, asked.kit or kit_here(), asked.processors)
    DOCUMENT.write_text(f"{made}\n{MARKER}{by_hand}", encoding="utf-8")
    return 0


if __name__ == "__main__":
    sys.exit(main())
