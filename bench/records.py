#!/usr/bin/env python3
"""Measures how long a record of 65,536 bytes takes to import, beside a record of a few bytes.

    bench/records.py

The long records are a short game with comments, one with variations of many moves, a game of shogi with comments, and
60,000 brackets that are never closed, which are refused at their first byte. The least of five runs of the program
counts, in milliseconds, its start and the opening of the club included.
"""
import pathlib
import subprocess
import tempfile
import time

from club_files import PROGRAM, TOP, begin, require_program

RUNS = 5
MOST = 65_536
GAME = '[Result "2-0"]\n\n1. 32-28 19-23 2-0\n'


def filled(front, piece, back):
    """The front and the back with as many pieces between them as fit."""
    return front + piece * ((MOST - len(front) - len(back)) // len(piece)) + back


def records():
    """The word of the import, what the record is, its event, and its text."""
    tags, moves = GAME.split("\n\n")
    front, back = moves.split(" ", 1)
    mate = (TOP / "tests/data/records/checkmate.csa").read_text(encoding="utf-8")
    yield "pdn", "a game of two plies", "draughts", GAME
    yield "pdn", "one comment", "draughts", filled(f"{tags}\n\n{front} {{", "x", f"}} {back}")
    yield "pdn", "variations of many moves", "draughts", filled(f"{tags}\n\n{front} (", "32-28 19-23 $1 ", f") {back}")
    yield "pdn", "60,000 brackets", "draughts", "(" * 60_000
    yield "csa", "a game to its mate", "shogi", mate
    yield "csa", "the same with comments", "shogi", filled("V2.2\n", "'a comment of a line\n", mate.split("\n", 1)[1])


def timed(path, word, event, record, key):
    """The milliseconds of an import, and what the program printed."""
    words = [PROGRAM, "--now", "1000", path, f"import-{word}", key, event, "anna", "bert", record]
    began = time.monotonic()
    ran = subprocess.run(words, capture_output=True, text=True, check=False)
    return 1000 * (time.monotonic() - began), (ran.stdout or ran.stderr).strip()


def main():
    require_program()
    with tempfile.TemporaryDirectory() as folder:
        path, record = pathlib.Path(folder, "c.db"), pathlib.Path(folder, "record")
        begin(path, 0)
        for number, (word, name, event, text) in enumerate(records()):
            record.write_text(text, encoding="utf-8")
            took, printed = min(timed(path, word, event, record, f"k{number}-{run}") for run in range(RUNS))
            print(f"{word}  {name:26}{len(text):7,} bytes{took:8.1f} ms  {printed}", flush=True)


if __name__ == "__main__":
    main()
