#!/usr/bin/env python3
"""Measures how many sequences of legal moves a second the program `perft` counts, beside other programs.

    bench/perft.py [--rounds N]        5 rounds

Beside it run two C programs for draughts, over bitboards and over a plain board (bitboards.c and draughts.c of this
folder), and Fairy-Stockfish for shogi, where it is installed. All take turns, and the least processor time counts; that
of a start is subtracted. The counts must agree.
"""
import argparse
import os
import pathlib
import re
import resource
import shutil
import subprocess
import sys
import tempfile

from club_files import BENCH, TOP

TEN_KINGS = "W:WK46,K47,K48,K49,K50:BK1,K2,K3,K4,K5"
KINGS_AND_MEN = "W:WK36,K45,46,47,48,49,50:B1,2,3,4,5,K6,K15"
MANY_DROPS = "l6nl/5+P1gk/2np1S3/p1p4Pp/3P2Sp1/1PPb2P1P/P5GS1/R8/LN4bKL w GR5pnsg 1"
POSITIONS = (
    ("draughts, the opening", "draughts", 8, ""),
    ("draughts, ten kings", "draughts", 5, TEN_KINGS),
    ("draughts, kings and men", "draughts", 6, KINGS_AND_MEN),
    ("shogi, the opening", "shogi", 4, ""),
    ("shogi, the opening", "shogi", 5, ""),
    ("shogi, many drops", "shogi", 3, MANY_DROPS),
)


def run(words, text=""):
    """What a program prints, and its processor time in seconds."""
    before = resource.getrusage(resource.RUSAGE_CHILDREN)
    ran = subprocess.run([*map(str, words)], input=text, capture_output=True, text=True, check=True)
    after = resource.getrusage(resource.RUSAGE_CHILDREN)
    return ran.stdout, after.ru_utime + after.ru_stime - before.ru_utime - before.ru_stime


class Ours:
    name = "perft"

    def __init__(self, program):
        self.program = program

    def count(self, game, depth, position):
        printed, took = run([self.program, game, depth, *([position] if position else [])])
        return int(re.search(r"^total (\d+)", printed, re.MULTILINE)[1]), took


class InC:
    """A program in C of this folder."""

    def __init__(self, name, folder):
        self.name, self.program = f"{name}.c", folder / name
        subprocess.run(["gcc", "-O2", "-o", self.program, BENCH / self.name], check=True)

    def count(self, _game, depth, position):
        printed, took = run([self.program, depth, *([position] if position else [])])
        return int(printed.split()[0]), took


class FairyStockfish:
    name = "Fairy-Stockfish"

    def __init__(self, program):
        self.program = program

    def count(self, _game, depth, position):
        where = f"sfen {position}" if position else "startpos"
        text = f"setoption name UCI_Variant value shogi\nposition {where}\ngo perft {depth}\nquit\n"
        printed, took = run([self.program], text)
        return int(re.search(r"Nodes searched: (\d+)", printed)[1]), took


def compare(ours, other, rounds, case):
    """Prints the leaves a second of both programs, and the ratio."""
    name, game, depth, position = case
    found = {it.name: [it.count(game, depth, position) for _ in range(rounds)] for it in (ours, other)}
    starts = {it.name: min(it.count(game, 1, position)[1] for _ in range(rounds)) for it in (ours, other)}
    counts = {count for runs in found.values() for count, _ in runs}
    if len(counts) != 1:
        sys.exit(f"{name}, depth {depth}: the counts differ: {counts}")
    count = counts.pop()
    took = {it: min(seconds for _, seconds in runs) - starts[it] for it, runs in found.items()}
    rates = ", ".join(f"{it} {count / seconds / 1e6:.1f} million a second" for it, seconds in took.items())
    print(f"{name}, depth {depth}: {rates}; ratio {took[other.name] / took[ours.name]:.2f}", flush=True)


def our_perft():
    """The program `perft`, which is proved and built first."""
    program = TOP / "crates/perft/out/perft"
    if not program.is_file():
        subprocess.run(["rt", "run", "--", "draughts", "1"], cwd=TOP / "crates/perft", check=True,
                       stdin=subprocess.DEVNULL, stdout=sys.stderr)
    return program


def main():
    parser = argparse.ArgumentParser()
    parser.add_argument("--rounds", type=int, default=5)
    rounds = parser.parse_args().rounds
    ours = Ours(our_perft())
    fairy = shutil.which("fairy-stockfish", path=f"{os.environ.get('PATH', '')}:/usr/games")
    with tempfile.TemporaryDirectory() as folder:
        in_c = [InC(name, pathlib.Path(folder)) for name in ("bitboards", "draughts")]
        for case in POSITIONS:
            if case[1] == "draughts":
                for other in in_c:
                    compare(ours, other, rounds, case)
            elif fairy:
                compare(ours, FairyStockfish(fairy), rounds, case)
            else:
                print(f"{case[0]}, depth {case[2]}: fairy-stockfish is not installed", flush=True)


if __name__ == "__main__":
    main()
