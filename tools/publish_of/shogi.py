"""Positions of games of shogi, by the CSA moves of the program's records, which are legal.

A position is a map from (file, rank) to letters as SFEN has them, `P`, `p` or `+P`, and the counts of pieces in hand.
"""
from dataclasses import dataclass, field

CODES = {"FU": "P", "KY": "L", "KE": "N", "GI": "S", "KI": "G", "KA": "B", "HI": "R", "OU": "K",
         "TO": "+P", "NY": "+L", "NK": "+N", "NG": "+S", "UM": "+B", "RY": "+R"}
HAND = "RBGSNLP"
RANKS = "abcdefghi"
ROWS = {1: "lnsgkgsnl", 2: " r     b ", 3: "ppppppppp", 7: "PPPPPPPPP", 8: " B     R ", 9: "LNSGKGSNL"}


@dataclass(frozen=True)
class Position:
    """The pieces after a ply, those in hand, and the squares of that ply's move."""

    pieces: dict
    turn: str
    last: tuple = ()
    hands: dict = field(default_factory=dict)

    def text(self):
        """The position as SFEN, without the number of the next move."""
        rows = []
        for rank in range(1, 10):
            row, empty = "", 0
            for file in range(9, 0, -1):
                piece = self.pieces.get((file, rank), "")
                row, empty = (row + str(empty or "") + piece, 0) if piece else (row, empty + 1)
            rows.append(row + str(empty or ""))
        counts = ((letter, self.hands.get(letter, 0)) for letter in HAND + HAND.lower())
        hand = "".join(f"{count if count > 1 else ''}{letter}" for letter, count in counts if count)
        return f"{'/'.join(rows)} {self.turn} {hand or '-'}"


def opening():
    pieces = {(9 - at, rank): piece for rank, row in ROWS.items() for at, piece in enumerate(row) if piece != " "}
    return Position(pieces, "b")


def squares_of(move):
    """The two squares of a CSA move; None for the first one of a drop."""
    start, end = (tuple(map(int, it)) for it in (move[1:3], move[3:5]))
    return (None if start == (0, 0) else start), end


def play(position, move):
    start, end = squares_of(move)
    own = str.upper if move[0] == "+" else str.lower
    pieces, hands = dict(position.pieces), dict(position.hands)
    piece = own(CODES[move[5:7]])
    if start is None:
        hands[piece] -= 1
    else:
        del pieces[start]
    taken = pieces.get(end)
    if taken:
        kept = own(taken[-1])
        hands[kept] = hands.get(kept, 0) + 1
    pieces[end] = piece
    return Position(pieces, "bw"[move[0] == "+"], tuple(it for it in (start, end) if it), hands)


def name_of(square):
    return f"{square[0]}{RANKS[square[1] - 1]}"


def may_promote(piece, move, ranks):
    far = range(1, 4) if move[0] == "+" else range(7, 10)
    return len(piece) == 1 and piece not in "KG" and any(rank in far for rank in ranks)


def written(position, move):
    """A move in Western notation, always with the square that it leaves: P7g-7f, B8hx2b+, P*5e."""
    start, end = squares_of(move)
    after = CODES[move[5:7]]
    if start is None:
        return f"{after}*{name_of(end)}"
    before = position.pieces[start].upper()
    stays = "=" if may_promote(before, move, (start[1], end[1])) else ""
    return (f"{before}{name_of(start)}{'x' if end in position.pieces else '-'}{name_of(end)}"
            f"{'+' if after != before else stays}")
