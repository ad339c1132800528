#!/usr/bin/env python3
"""Measures a sweep of many games, and how much memory it needs.

    bench/sweep.py [GAMES [PLIES]]        5,000 running games of 60 plies, but each tenth, which has none and is overdue

The program plays one game and seats another; Python's sqlite3 writes the rows of these two again, under new ids. What
is timed is `club FILE sweep`, once while no game is overdue and once while each tenth is: each opens and checks the
file first, so the difference is what the ending of games costs. The least of three runs counts.
"""
import pathlib
import resource
import shutil
import subprocess
import sys
import tempfile
import time

from club_files import PROGRAM, add_members, club, multiply, play, require_program


def begin(path, plies):
    add_members(path)
    for game, (event, budget) in enumerate((("slow", 86400), ("quick", 60)), 1):
        club(path, "event", event, "draughts", budget, 0)
        club(path, "seat", f"g{game}", event, "anna", "bert")
    play(path, 1, plies)


def sweep_once(kept, moment, expected):
    """The seconds of a sweep at a timestamp over a copy of the file."""
    with tempfile.TemporaryDirectory() as folder:
        path = pathlib.Path(folder, "c.db")
        shutil.copy(kept, path)
        began = time.monotonic()
        words = [PROGRAM, "--now", str(moment), path, "sweep"]
        ran = subprocess.run(words, capture_output=True, text=True, check=False)
        took = time.monotonic() - began
    if ran.stdout != f"accepted sweep {expected}\n":
        sys.exit(ran.stdout + ran.stderr)
    return took


def main():
    games, plies = ([int(it) for it in sys.argv[1:]] + [5000, 60][len(sys.argv) - 1:])[:2]
    require_program()
    overdue = 1 + games // 10
    with tempfile.TemporaryDirectory() as folder:
        path = pathlib.Path(folder, "c.db")
        begin(path, plies)
        moves = multiply(path, games, like=lambda game: 2 if game % 10 == 0 else 1)
        none = min(sweep_once(path, 1060, 0) for _ in range(3))
        some = min(sweep_once(path, 1061, overdue) for _ in range(3))
    peak = resource.getrusage(resource.RUSAGE_CHILDREN).ru_maxrss
    print(f"{games} running games, {moves} moves: {none:.2f} s with none overdue, {some:.2f} s with {overdue}, "
          f"{peak / 1000:.0f} MB of memory")


if __name__ == "__main__":
    main()
