#!/usr/bin/env python3
"""Measures how often a second the rules of each game answer whether a move is legal, and whether there is a legal move.

    bench/rates.py

The positions are those of 200 games that a fixed sequence of numbers plays. The least time of five runs counts, less
the time of a run that asks nothing. The program is bench/programs/rates.rt.txt.
"""
import pathlib
import subprocess
import tempfile
import time

from built import build

BELOW = "squares draughts_moves shogi_moves memory".split()
RUNS = 5
ROUNDS = 200


def timed(*words):
    """The seconds of a run, and the number of positions that it prints."""
    began = time.monotonic()
    ran = subprocess.run([*map(str, words)], capture_output=True, text=True, check=True)
    return time.monotonic() - began, int(ran.stdout.split()[0])


def main():
    with tempfile.TemporaryDirectory() as work:
        program = build("rates", BELOW, pathlib.Path(work))
        for game in "draughts", "shogi":
            for question in "check", "has_move":
                begun, positions = min(timed(program, game, question, 0) for _ in range(RUNS))
                took = min(timed(program, game, question, ROUNDS) for _ in range(RUNS))[0] - begun
                print(f"{game:9} {question:9} {positions} positions, {ROUNDS} rounds: "
                      f"{positions * ROUNDS / took / 1e6:.2f} million a second", flush=True)


if __name__ == "__main__":
    main()
