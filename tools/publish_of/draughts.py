"""Positions of games of draughts, by the moves of the program's records, which are legal.

A position is a map from squares 1 to 50 to pieces: `w` and `b` are men, `W` and `B` are kings.
"""
import re
from dataclasses import dataclass

# Squares at places with a gap after each two rows, so that diagonal neighbours are 5 or 6 places apart.
SQUARES = {square - 1 + (square - 1) // 10: square for square in range(1, 51)}
PLACES = {square: place for place, square in SQUARES.items()}
STEPS = -6, -5, 5, 6


@dataclass(frozen=True)
class Position:
    """The pieces after a ply, and the squares of that ply's move."""

    pieces: dict
    turn: str
    last: tuple = ()

    def text(self):
        """The position as FEN."""
        lists = (",".join(("K" if self.pieces[it] == side else "") + str(it) for it in sorted(self.pieces)
                          if self.pieces[it].upper() == side) for side in "WB")
        return f"{self.turn}:W{next(lists)}:B{next(lists)}"


def opening():
    black = dict.fromkeys(range(1, 21), "b")
    return Position(black | dict.fromkeys(range(31, 51), "w"), "W")


def jumps(pieces, piece, square, step):
    """The captured and the landing square of each jump of a piece in a direction."""
    over, place = None, PLACES[square]
    for distance in range(1, 10 if piece.isupper() else 3):
        target = SQUARES.get(place + step * distance)
        met = pieces.get(target)
        if target is None or met and (over or met.upper() == piece.upper()):
            return
        if over:
            yield over, target
        over = target if met else over


def captured(pieces, squares):
    """What a move captures that names its first and last squares, or each square on which it lands."""
    piece, others = pieces[squares[0]], {it: what for it, what in pieces.items() if it != squares[0]}
    most, routes = (), [((squares[0],), ())]
    while routes:
        route, taken = routes.pop()
        is_named = route == squares if squares[2:] else route[-1] == squares[1]
        most = taken if is_named and len(taken) > len(most) else most
        routes += [((*route, landing), (*taken, over)) for step in STEPS
                   for over, landing in jumps(others, piece, route[-1], step) if over not in taken]
    return most


def play(position, move):
    squares = tuple(map(int, re.split("[x-]", move)))
    start, end = squares[0], squares[-1]
    piece = position.pieces[start]
    gone = {start, *(captured(position.pieces, squares) if "x" in move else ())}
    pieces = {it: what for it, what in position.pieces.items() if it not in gone}
    is_far = end < 6 if piece in "wW" else end > 45
    return Position({**pieces, end: piece.upper() if is_far else piece}, "WB"[position.turn == "W"], squares)


def written(_, move):
    """A move as the pages have it."""
    return move
