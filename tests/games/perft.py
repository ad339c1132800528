#!/usr/bin/env python3
"""Tests the command line of `perft`, which counts the positions that can be reached in so many moves.

    python3 tests/games/perft.py
"""
import pathlib
import subprocess
import sys

sys.path[0] = str(pathlib.Path(__file__).resolve().parents[1])
from lib.club import PERFT
from lib.report import check, exit_status

USAGE = "usage: perft draughts|shogi DEPTH [POSITION]\n"
KINGS = "k8/9/9/9/9/9/9/9/K8 b - 1"
BAD_WORDS = (
    [], ["draughts"], ["chess", "3"], ["draughts", "0"], ["draughts", "100"], ["draughts", "x"],
    ["draughts", "3", "W:W31", "31:B1"], ["draughts", "3", "W:W31:B1", "more"], ["shogi", "3", "W:W31:B1"],
    ["draughts", "3", KINGS],
)
GOOD_WORDS = ["draughts", "3", "W:W31:B1"], ["shogi", "3", KINGS]
OPENING = "".join(f"{it} 1\n" for it in "31-26 31-27 32-27 32-28 33-28 33-29 34-29 34-30 35-30".split()) + "total 9\n"


def perft(*words):
    ran = subprocess.run([PERFT, *words], capture_output=True, text=True)
    return ran.returncode, ran.stdout, ran.stderr


def main():
    for words in BAD_WORDS:
        check(f"`perft {' '.join(words)}` is a usage error", (2, "", USAGE), perft(*words))
    for words in GOOD_WORDS:
        status, _, err = perft(*words)
        check(f"`perft {' '.join(words)}` counts positions", (0, ""), (status, err))
    check("`perft draughts 1` counts each first move", (0, OPENING, ""), perft("draughts", "1"))
    return exit_status()


if __name__ == "__main__":
    sys.exit(main())
