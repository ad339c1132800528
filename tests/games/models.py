#!/usr/bin/env python3
"""Compares the legal moves of tests/models with known counts, and with programs that were written without them.

    python3 tests/games/models.py [--games N]

Known counts are the lines of crates/scripts/stdin that count sequences of moves. The other programs are bench/draughts.c
and bench/bitboards.c, and fairy-stockfish. At each position of N random games of each kind (by default 20 of draughts
and 8 of shogi) the C programs must count the same moves, and fairy-stockfish must list the same. Pawn drops that mate
do not count, since fairy-stockfish 11.1 lists them as legal. What is not installed is skipped.
"""
import argparse
import os
import pathlib
import random
import shutil
import subprocess
import sys
import tempfile

sys.path[0] = str(pathlib.Path(__file__).resolve().parents[1])
from gate.crosschecks import perft_lines
from lib.club import TOP
from lib.report import check, exit_status, skip
from models import draughts, shogi

DROP_MATE = 19  # the refusal of a pawn drop that mates
MOST = 30_000  # sequences that a model counts; the C program counts all
PLIES = 160  # of a random game at most
POSITIONS = {"W:W31-50:B1-20": "opening"}  # the C program reads no ranges
FAIRY = "fairy-stockfish"


def draughts_position(text):
    return draughts.opening() if text == "opening" else draughts.read_fen(text)


def shogi_position(text):
    return shogi.read_sfen(shogi.OPENING if text == "opening" else text)


def legal_shogi(position):
    return [it for it in shogi.pseudo_moves(position) if not shogi.fault(position, it)]


GAMES = {  # the position of a text, its legal moves, and the position after a move
    "draughts": (draughts_position, lambda it: list(draughts.legal(it)), draughts.play),
    "shogi": (shogi_position, legal_shogi, shogi.play),
}


def count(game, position, depth):
    """The number of sequences of so many legal moves, by the model."""
    _, legal, play = GAMES[game]
    moves = legal(position)
    return len(moves) if depth == 1 else sum(count(game, play(position, it), depth - 1) for it in moves)


def known_counts():
    for game in GAMES:
        lines = [it for it in perft_lines() if it[0] == game and it[3] <= MOST]
        read = GAMES[game][0]
        check(f"the model of {game} counts {len(lines)} known numbers of sequences",
              [number for *_, number in lines], [count(game, read(text), depth) for _, text, depth, _ in lines])


def positions_of(game, seed):
    """The positions of a random game in which there is a move, from the opening on."""
    chance = random.Random(seed)
    read, legal, play = GAMES[game]
    position = read("opening")
    for _ in range(PLIES):
        moves = sorted(legal(position), key=repr)
        if not moves:
            return
        yield position, moves
        position = play(position, chance.choice(moves))


def compare_with_c(games):
    """The C programs, over a plain board and over bitboards, count all known numbers, and the moves of random games."""
    if not shutil.which("gcc"):
        skip("C programs count the moves of draughts", "there is no gcc")
        return
    found = [it for seed in range(games) for it in positions_of("draughts", seed)]
    for name in "draughts.c", "bitboards.c":
        with tempfile.TemporaryDirectory() as folder:
            program = f"{folder}/counts"
            subprocess.run(["gcc", "-O2", "-o", program, str(TOP / "bench" / name)], check=True)
            compare_counts(name, program, found)


def compare_counts(name, program, found):
    """A program counts the known numbers, and the moves of these positions as the model does."""

    def counted(depth, text):
        words = [program, str(depth), *([] if text == "opening" else [text])]
        return int(subprocess.run(words, capture_output=True, text=True, check=True).stdout.split()[0])

    lines = [it for it in perft_lines() if it[0] == "draughts"]
    check(f"bench/{name} counts {len(lines)} known numbers of sequences", [number for *_, number in lines],
          [counted(depth, POSITIONS.get(text, text)) for _, text, depth, _ in lines])
    differing = [draughts.fen(position) for position, moves in found
                 if counted(1, draughts.fen(position)) != len(moves)]
    check(f"bench/{name} counts the moves of {len(found)} positions as the model does", [], differing)


class Fairy:
    """The program fairy-stockfish under the protocol USI, which is that of shogi."""

    def __init__(self, program):
        self.process = subprocess.Popen([program], stdin=subprocess.PIPE, stdout=subprocess.PIPE, text=True)
        self.give("usi")

    def give(self, line):
        self.process.stdin.write(f"{line}\n")
        self.process.stdin.flush()

    def perft(self, depth, text):
        """The first moves, and the number of sequences."""
        self.give("position startpos" if text == "opening" else f"position sfen {text} 1")
        self.give(f"go perft {depth}")
        moves = []
        for line in self.process.stdout:
            name, found, number = line.partition(": ")
            if name == "Nodes searched":
                return moves, int(number)
            if found and number.strip().isdigit():
                moves.append(name)
        raise EOFError(f"{FAIRY} ended")

    def end(self):
        self.give("quit")
        self.process.wait(10)


def pawn_drops_that_mate(position):
    return [it for it in shogi.pseudo_moves(position) if shogi.fault(position, it) == DROP_MATE]


def compare_with_fairy(games):
    """Fairy-stockfish counts all known numbers, and lists the moves of random games."""
    program = shutil.which(FAIRY, path=f"{os.environ['PATH']}:/usr/games")
    if not program:
        skip("fairy-stockfish lists the moves of shogi", "it is not installed")
        return
    fairy = Fairy(program)
    lines = [it for it in perft_lines() if it[0] == "shogi"]
    check(f"{FAIRY} counts {len(lines)} known numbers of sequences", [number for *_, number in lines],
          [fairy.perft(depth, text)[1] for _, text, depth, _ in lines])
    found = [it for seed in range(games) for it in positions_of("shogi", seed)]
    differing, mating = [], 0
    for position, moves in found:
        text = shogi.write_sfen(position)
        listed, _ = fairy.perft(1, text)
        mates = set(map(shogi.write_move, pawn_drops_that_mate(position))) & set(listed)
        mating += len(mates)
        if sorted(it for it in listed if it not in mates) != sorted(map(shogi.write_move, moves)):
            differing.append(text)
    check(f"{FAIRY} lists the moves of {len(found)} positions as the model does, and {mating} pawn drops that mate",
          [], differing)
    fairy.end()


def main():
    words = argparse.ArgumentParser()
    words.add_argument("--games", type=int)
    games = words.parse_args().games
    known_counts()
    compare_with_c(games or 20)
    compare_with_fairy(games or 8)
    return exit_status()


if __name__ == "__main__":
    sys.exit(main())
