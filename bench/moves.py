#!/usr/bin/env python3
"""Measures how many moves a second are durable on an open club.

    bench/moves.py

Twenty commits from ply 5 on and from ply 500 on, in a file of 10 games and in one of 5,000, each of 60 plies; beside
them as many commits of the same rows by Python's sqlite3 at synchronous=FULL. The least of five runs counts. The
program is bench/programs/moves.rt.txt.
"""
import contextlib
import pathlib
import shutil
import sqlite3
import subprocess
import tempfile
import time

from built import build
from club_files import begin, club, multiply, require_program, shogi_moves

BELOW = "store club_requests clocks sqlite sqlite_disk anyhow".split()
RUNS = 5
MEASURED = 20  # commits


@contextlib.contextmanager
def copy_of(kept):
    with tempfile.TemporaryDirectory(dir=kept.parent) as folder:
        yield shutil.copy(kept, pathlib.Path(folder, "c.db"))


def run_ours(program, kept, game, moves):
    """The microseconds of the commits from ply 5 on, and from ply 500 on."""
    with copy_of(kept) as path:
        ran = subprocess.run([program, path, str(game), *moves], capture_output=True, text=True, check=True)
    return [int(it) for it in ran.stdout.split()]


def commit_rows(base, game, ply, position):
    """The rows of a move: its own, the count of its position, the game's, and the last timestamp."""
    base.execute("BEGIN")
    base.execute("INSERT INTO moves (game, ply, text, moment, left, position) VALUES (?, ?, '7g7f', 1000, 86400, ?)",
                 (game, ply, position))
    base.execute("INSERT INTO seen (game, position, count, first_ply) VALUES (?, ?, 1, ?) "
                 "ON CONFLICT (game, position) DO UPDATE SET count = count + 1", (game, f"{position} {ply}", ply))
    base.execute("UPDATE games SET plies = ?, since = 1000, left1 = 86400, position = ? WHERE id = ?",
                 (ply, position, game))
    base.execute("UPDATE meta SET last = 1000")
    base.execute("COMMIT")


def run_sqlite(kept, game):
    """The microseconds of as many commits by sqlite3."""
    with copy_of(kept) as path, contextlib.closing(sqlite3.connect(path, isolation_level=None)) as base:
        base.execute("PRAGMA journal_mode = WAL")
        base.execute("PRAGMA synchronous = FULL")
        position = base.execute("SELECT position FROM games WHERE id = ?", (game,)).fetchone()[0]
        began = time.monotonic()
        for ply in range(1, MEASURED + 1):
            commit_rows(base, game, ply, position)
        return 1e6 * (time.monotonic() - began)


def main():
    require_program()
    moves = shogi_moves()[:499 + MEASURED]
    with tempfile.TemporaryDirectory() as work:
        work = pathlib.Path(work)
        program = build("moves", BELOW, work / "built")
        for games in (10, 5000):
            kept = work / f"{games}.db"
            begin(kept, 60)
            club(kept, "seat", "long", "shogi", "anna", "bert")
            multiply(kept, games)
            early, late = (min(it) for it in zip(*(run_ours(program, kept, 3, moves) for _ in range(RUNS))))
            other = min(run_sqlite(kept, 3) for _ in range(RUNS))
            rates = [1e6 * MEASURED / it for it in (early, late, other)]
            print(f"{games} games: {rates[0]:.0f} moves a second from ply 5 on, {rates[1]:.0f} from ply 500 on; "
                  f"sqlite3 {rates[2]:.0f}", flush=True)


if __name__ == "__main__":
    main()
