#!/usr/bin/env python3
"""Measures single commands without a server: their processor time beside the sqlite3 shell, and their syncs.

    bench/single.py

The club has one game of draughts. The shell reads the rows that `legal` reads, and writes those that `move` writes in
one transaction, with a write-ahead log at synchronous=FULL. Each runs thirty times over a copy of the file, in turn,
and the least processor time counts. The syncs are those of `legal`, of `move`, and of a batch and a round robin for
each seat. sqlite3 and strace are needed.
"""
import pathlib
import re
import resource
import shutil
import subprocess
import tempfile

from club_files import PROGRAM, add_members, club, require_program

RUNS = 30
SEATS = 60
NAMES = [f"m{number}" for number in range(12)]  # of a round robin, which has 66 games
READ = "SELECT * FROM meta; SELECT * FROM events; SELECT * FROM games; SELECT * FROM moves; SELECT * FROM seen;"
WRITE = """PRAGMA journal_mode = WAL; PRAGMA synchronous = FULL; BEGIN;
    INSERT INTO moves (game, ply, text, moment, left, position) SELECT 1, 1, '32-28', 1000, 86400, position FROM games;
    INSERT INTO seen (game, position, count, first_ply) SELECT 1, position || ' 1', 1, 1 FROM games;
    UPDATE games SET plies = 1, since = 1000 WHERE id = 1; UPDATE meta SET last = 1000; COMMIT;"""


def begin(path):
    add_members(path)
    club(path, "event", "cup", "draughts", 86400, 0)
    club(path, "seat", "g1", "cup", "anna", "bert")


def ours(path, *words):
    return [PROGRAM, "--now", "1000", path, *map(str, words)]


def milliseconds(kept, words_of):
    """The processor time of a command over a copy of the file."""
    with tempfile.TemporaryDirectory() as folder:
        words = words_of(shutil.copy(kept, pathlib.Path(folder, "c.db")))
        before = resource.getrusage(resource.RUSAGE_CHILDREN)
        subprocess.run(words, stdout=subprocess.DEVNULL, check=True)
        after = resource.getrusage(resource.RUSAGE_CHILDREN)
    return 1000 * (after.ru_utime + after.ru_stime - before.ru_utime - before.ru_stime)


def compare(kept, name, words, query):
    mine, other = [], []
    for _ in range(RUNS):
        mine.append(milliseconds(kept, lambda path: ours(path, *words)))
        other.append(milliseconds(kept, lambda path: ["sqlite3", path, query]))
    least, shell = min(mine), min(other)
    print(f"`{name}`: {least:.1f} ms of the processor, the shell {shell:.1f}, {shell / least:.2f} of the speed",
          flush=True)


def syncs(kept, *words, text=""):
    """The calls of fsync and fdatasync of a command over a copy of the file."""
    with tempfile.TemporaryDirectory() as folder:
        path, trace = shutil.copy(kept, pathlib.Path(folder, "c.db")), pathlib.Path(folder, "trace")
        command = ["strace", "-f", "-o", trace, "-e", "trace=fsync,fdatasync", *ours(path, *words)]
        subprocess.run(command, input=text, text=True, stdout=subprocess.DEVNULL, check=True)
        return len(re.findall(r"f(?:data)?sync\(", trace.read_text(encoding="utf-8")))


def main():
    require_program()
    with tempfile.TemporaryDirectory() as folder:
        kept = pathlib.Path(folder, "kept.db")
        begin(kept)
        compare(kept, "legal", ("legal", 1), READ)
        compare(kept, "move", ("move", 1, 1, "32-28"), WRITE)
        print(f"syncs: `legal` {syncs(kept, 'legal', 1)}, `move` {syncs(kept, 'move', 1, 1, '32-28')}", flush=True)
        orders = "".join(f"seat s{number} cup anna bert\n" for number in range(SEATS))
        batch = syncs(kept, "batch", "-", text=orders)
        for name in NAMES:
            club(kept, "member", name, f"key{name}xxxx")
        games = len(NAMES) * (len(NAMES) - 1) // 2
        robin = syncs(kept, "round-robin", "r", "cup", *NAMES)
        print(f"syncs of a batch of {SEATS} seats: {batch}, {batch / SEATS:.2f} a seat; of a round robin of {games} "
              f"games: {robin}, {robin / games:.2f} a seat", flush=True)


if __name__ == "__main__":
    main()
