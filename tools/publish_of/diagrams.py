"""Diagrams of positions as SVG: a page has each piece and the board once, and its diagrams use them."""
import pathlib

from publish_of import shogi

FOLDER = pathlib.Path(__file__).resolve().parent
CELL, RANK_HEIGHT = 100, 110  # a square of draughts, and the width of one of shogi; the height of one of shogi
BOARD_LEFT, BOARD_TOP, HAND_TOP = 20, 170, 1185  # of shogi, whose hands are above and below the board
HAND_STEP = 135
BOXES = {"draughts": "0 0 1000 1000", "shogi": "0 0 980 1305"}


def use(name, x, y):
    return f'<use href="#{name}" x="{x}" y="{y}"/>'


def corner(square):
    """Where a square of draughts begins."""
    row, column = divmod(square - 1, 5)
    return CELL * (2 * column + (row % 2 == 0)), CELL * row


def square_path(x, y, height=CELL):
    return f"M{x} {y}h{CELL}v{height}h-{CELL}z"


def draughts_board():
    corners = {it: corner(it) for it in range(1, 51)}
    dark = "".join(square_path(*it) for it in corners.values())
    numbers = "\n".join(f'<text x="{x + 5}" y="{y + 21}">{it}</text>' for it, (x, y) in corners.items())
    return (f'<g id="board"><rect class="light" width="1000" height="1000"/><path class="dark" d="{dark}"/></g>\n'
            f'<g id="numbers">\n{numbers}\n</g>')


def draughts_pieces(position):
    last = "".join(square_path(*corner(it)) for it in position.last)
    pieces = "".join(use(piece, *corner(square)) for square, piece in sorted(position.pieces.items()))
    return f'<use href="#board"/><path class="last" d="{last}"/>{pieces}<use href="#numbers"/>'


def shogi_board():
    lines = "".join(f"M{CELL * it} 0V{9 * RANK_HEIGHT}M0 {RANK_HEIGHT * it}H{9 * CELL}" for it in range(1, 9))
    dots = "".join(f'<circle cx="{CELL * x}" cy="{RANK_HEIGHT * y}" r="9"/>' for x in (3, 6) for y in (3, 6))
    files = "".join(f'<text x="{BOARD_LEFT + CELL * at + CELL // 2}" y="155">{9 - at}</text>' for at in range(9))
    ranks = "".join(f'<text x="950" y="{BOARD_TOP + RANK_HEIGHT * at + 67}">{rank}</text>'
                    for at, rank in enumerate(shogi.RANKS))
    return ('<g id="board"><rect class="stand" y="0" width="980" height="120"/><rect class="wood-frame" y="120"'
            ' width="980" height="1060"/><rect class="stand" y="1180" width="980" height="125"/>\n'
            f'<g class="names">{files}\n{ranks}</g>\n<g transform="translate({BOARD_LEFT} {BOARD_TOP})">'
            f'<rect class="wood-board" width="900" height="990"/>'
            f'<g class="lines"><path d="{lines}"/>{dots}</g></g></g>')


def shogi_corner(square, is_turned=False):
    """Where a square begins on the board, as Black sees it or, turned, as White does."""
    right, down = 9 - square[0], square[1] - 1
    return (CELL * (8 - right), RANK_HEIGHT * (8 - down)) if is_turned else (CELL * right, RANK_HEIGHT * down)


def picture_of(piece):
    """The name of a piece's picture; the two kings have different ones."""
    return piece if piece in "Kk" else piece.upper()


def hand(position, letters, is_turned):
    """The pieces in a hand in a row, and their counts."""
    held = [(it, position.hands[it]) for it in letters if position.hands.get(it)]
    pieces, counts = "", ""
    for at, (letter, count) in enumerate(held):
        pieces += use(letter.upper(), HAND_STEP * at, 0)
        x, y, anchor = (862 - HAND_STEP * at, 50, "end") if is_turned else (118 + HAND_STEP * at, 1280, "start")
        if count > 1:
            counts += f'<text class="count" x="{x}" y="{y}" text-anchor="{anchor}">{count}</text>'
    place = "translate(960 115) rotate(180)" if is_turned else f"translate({BOARD_LEFT} {HAND_TOP})"
    return f'<g class="hand" transform="{place}">{pieces}</g>{counts}' if held else ""


def shogi_pieces(position):
    last = "".join(square_path(*shogi_corner(it), RANK_HEIGHT) for it in position.last)
    pieces = sorted(position.pieces.items(), key=lambda it: (it[0][1], -it[0][0]))
    upright = "".join(use(picture_of(it), *shogi_corner(square)) for square, it in pieces if it.isupper())
    turned = "".join(use(picture_of(it), *shogi_corner(square, True)) for square, it in pieces if it.islower())
    return (f'<use href="#board"/>{hand(position, shogi.HAND.lower(), True)}'
            f'<g transform="translate({BOARD_LEFT} {BOARD_TOP})"><path class="moved" d="{last}"/>'
            f'{upright}<g transform="rotate(180 450 495)">{turned}</g></g>'
            f'{hand(position, shogi.HAND, False)}')


def pictures(kind):
    """What the diagrams of a page use, which is not shown by itself."""
    board = draughts_board() if kind == "draughts" else shogi_board()
    pieces = (FOLDER / f"{kind}.svg").read_text(encoding="utf-8")
    return f'<svg class="pictures" aria-hidden="true"><defs>\n{board}\n{pieces}</defs></svg>'


def diagram(kind, position, name, label):
    """The diagram of a position. Its group has a name, so that another picture can use it."""
    draw = draughts_pieces if kind == "draughts" else shogi_pieces
    return (f'<svg class="{kind}" viewBox="{BOXES[kind]}" role="img" aria-label="{label}">'
            f'<g id="{name}">{draw(position)}</g></svg>')
