#!/usr/bin/env python3
"""Measures in how many seconds a line of 600 plies is judged: at once, and by a counter that takes it ply by ply.

    bench/judging.py

The line of draughts is one of crates/scripts/stdin, that of shogi a walk from the initial position with a random
legal move at each ply. Each is judged five times, and the least time counts. The program is
bench/programs/judging.rt.txt.
"""
import pathlib
import re
import subprocess
import tempfile

from built import build
from club_files import SHOGI_LINE, TOP

BELOW = "pdn draughts_draws draughts_moves sfen shogi_repetition shogi_moves squares anyhow".split()
START = "W:WK36,K45,46,47,48,49,50:B1,2,3,4,5,K6,K15"


def draughts_line():
    script = (TOP / "crates/scripts/stdin").read_text(encoding="utf-8")
    text = re.search(r"^text six hundred moves(.*?)^draughts-line", script, re.MULTILINE | re.DOTALL)[1]
    return "\n".join([START, *re.findall(r"\d+-\d+", text), ""])


def main():
    lines = {"draughts": draughts_line(), "shogi": SHOGI_LINE.read_text(encoding="utf-8")}
    with tempfile.TemporaryDirectory() as work:
        program = build("judging", BELOW, pathlib.Path(work))
        for game, line in lines.items():
            ran = subprocess.run([program, game], input=line, capture_output=True, text=True, check=True)
            print(ran.stdout, end="", flush=True)


if __name__ == "__main__":
    main()
