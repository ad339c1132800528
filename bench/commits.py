#!/usr/bin/env python3
"""Measures how many commands a second are durable, by what is assumed of a torn write.

    bench/commits.py

`unknown` assumes that each byte of a write that was cut off is old or new; `wary` assumes nothing, and makes more
syncs. Games are seated in a new club, one commit each; beside it stand as many commits of two rows by Python's
sqlite3 at synchronous=FULL. The least time of five runs counts. The program is bench/programs/commits.rt.txt.
"""
import contextlib
import pathlib
import sqlite3
import subprocess
import tempfile
import time

from built import build

BELOW = "store club_requests club_rules clocks sqlite sqlite_disk anyhow".split()
RUNS = 5
COUNT = 200  # seats


def run_ours(program, assumption):
    """The milliseconds of the seats."""
    with tempfile.TemporaryDirectory() as folder:
        words = [program, assumption, pathlib.Path(folder, "c.db"), str(COUNT)]
        return int(subprocess.run(words, capture_output=True, text=True, check=True).stdout)


def run_sqlite():
    """The milliseconds of as many commits of two rows."""
    with tempfile.TemporaryDirectory() as folder, \
            contextlib.closing(sqlite3.connect(f"{folder}/p.db", isolation_level=None)) as base:
        base.execute("PRAGMA journal_mode = WAL")
        base.execute("PRAGMA synchronous = FULL")
        base.execute("CREATE TABLE games (id INTEGER PRIMARY KEY, key TEXT UNIQUE, start INTEGER)")
        base.execute("CREATE TABLE meta (id INTEGER PRIMARY KEY, last INTEGER)")
        began = time.monotonic()
        for number in range(COUNT):
            base.execute("BEGIN")
            base.execute("INSERT INTO games VALUES (?, ?, ?)", (number + 1, f"g{number}", 1000))
            base.execute("INSERT OR REPLACE INTO meta VALUES (1, ?)", (1000,))
            base.execute("COMMIT")
        return 1000 * (time.monotonic() - began)


def main():
    with tempfile.TemporaryDirectory() as work:
        program = build("commits", BELOW, pathlib.Path(work))
        runs = {"unknown": lambda: run_ours(program, "unknown"), "wary": lambda: run_ours(program, "wary"),
                "sqlite3": run_sqlite}
        for name, run in runs.items():
            least = min(run() for _ in range(RUNS))
            print(f"{name:8} {COUNT} commits in {least:.0f} ms: {1000 * COUNT / least:.0f} a second", flush=True)


if __name__ == "__main__":
    main()
