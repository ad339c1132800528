#!/usr/bin/env python3
"""Measures how long the program takes to open and check a file, and how much memory it needs.

    bench/opening.py [GAMES [PLIES]]        5,000 games of 60 plies, half of them of shogi, unless said

The program plays one game of each kind; Python's sqlite3 writes the rows of these two again, under new ids, once game
after game and once ply after ply, as in a club where all play at once. What is timed is `club FILE legal 1`, which
reads and checks the whole file before it answers: the least of three runs, by the clock and by processor time. Then
`club FILE upgrade` is timed over the same file in schema 1, which it checks likewise before it writes.
"""
import contextlib
import pathlib
import resource
import sqlite3
import sys
import tempfile
import time

from club_files import begin, club, multiply, require_program


def processor_seconds():
    spent = resource.getrusage(resource.RUSAGE_CHILDREN)
    return spent.ru_utime + spent.ru_stime


def timed(path, *words):
    """The seconds of a command, by the clock and by processor time."""
    began, spent = time.monotonic(), processor_seconds()
    club(path, *words)
    return time.monotonic() - began, processor_seconds() - spent


def make_first_schema(path):
    with contextlib.closing(sqlite3.connect(path)) as base:
        base.executescript("DROP TABLE event_rules; UPDATE meta SET schema = 1; PRAGMA wal_checkpoint(TRUNCATE)")


def measure(folder, games, plies, is_interleaved):
    path = folder / f"{is_interleaved}.db"
    begin(path, plies)
    moves = multiply(path, games, is_interleaved=is_interleaved)
    clock, spent = (min(it) for it in zip(*(timed(path, "legal", 1) for _ in range(3))))
    size = path.stat().st_size / 1e6
    make_first_schema(path)
    upgraded = timed(path, "upgrade")[0]
    order = "ply after ply" if is_interleaved else "game after game"
    print(f"{games} games, {moves} moves, {size:.0f} MB, {order}: opened in {clock:.2f} s ({spent:.2f} s of the "
          f"processor), {moves / clock:.0f} plies a second; upgraded from schema 1 in {upgraded:.2f} s", flush=True)
    return spent


def main():
    games, plies = ([int(it) for it in sys.argv[1:]] + [5000, 60][len(sys.argv) - 1:])[:2]
    require_program()
    with tempfile.TemporaryDirectory() as folder:
        one, other = (measure(pathlib.Path(folder), games, plies, it) for it in (False, True))
    peak = resource.getrusage(resource.RUSAGE_CHILDREN).ru_maxrss
    print(f"ply after ply takes {other / one:.2f} times the processor time; at most {peak / 1000:.0f} MB of memory")


if __name__ == "__main__":
    main()
