"""What `show` prints of a game, and the reply to an analysis: by moves as draughts and shogi play them once more."""
from models import draughts, shogi

RULES = {"draughts": draughts, "shogi": shogi}
KANJI = dict(zip("KRBGSNLP", "玉飛角金銀桂香歩"))
PROMOTED = dict(zip("RBSNLP", "龍馬全圭杏と"))
DIGITS = ["", *"一二三四五六七八九"]
IN_HAND = "RBGSNLP"
WIDEST = 72  # columns of a line of moves


def shown(game, moment, letters=False):
    """All that is printed of a game at a moment."""
    line = RULES[game.event.game].Line()
    for text in game.texts:
        line.push(line.read(text))
    diagram = draughts_lines if game.event.game == "draughts" else letter_lines if letters else bod_lines
    lines = [f"Game {game.number} {game.event.name}: {' - '.join(game.players)}", standing(game, moment)]
    return "".join(f"{it}\n" for it in [*lines, *diagram(line.position), *move_lines(game)])


def tried(kind, played, texts, position=None):
    """The reply to an analysis: moves that are tried after those that were played, from the opening or a position."""
    line, written = RULES[kind].Line(position and RULES[kind].read_written(position)), []
    for text in [*played, *texts]:
        move = line.read(text)
        written.append(line.write(move))
        line.push(move)
    end = line.end()
    return {"end": end and end[0], "legal": [] if end else [line.write(it) for it in line.legal()],
            "moves": written[len(played):], "position": line.position_text()}


def standing(game, moment):
    if game.end:
        return " ".join(["ended", game.end, *([game.result] if game.result else [])])
    side = ("WB" if game.event.game == "draughts" else "BW")[game.turn()]
    clocks = ", ".join(f"{name} {left}" for name, left in zip(game.players, game.now(moment)))
    return f"{side} to move, ply {len(game.texts)}, {clocks}"


def move_lines(game):
    line = ""
    for ply, text in enumerate(game.texts):
        if game.event.game == "shogi":
            text = f"{ply + 1}. {text}"
        elif ply % 2 == 0:
            text = f"{ply // 2 + 1}. {text}"
        if line and len(f"{line} {text}") > WIDEST:
            yield line
            line = ""
        line = f"{line} {text}" if line else text
    if line:
        yield line


def draughts_lines(position):
    signs = dict.fromkeys(draughts.SQUARES, ".")
    for square, (side, is_king) in position[1].items():
        signs[draughts.PLACES[square]] = side if is_king else side.lower()
    for row in range(10):
        cells = "".join(f"{signs.get((row, column), ''):>3}" for column in range(10))
        yield f"{5 * row + 1:>2} {cells} {5 * row + 5:>2}"


def letter_lines(position):
    _, board, hands = position

    def hand(side):
        held = ((kind, hands.get((side, kind), 0)) for kind in IN_HAND)
        return "".join(f" {kind}{count if count > 1 else ''}" for kind, count in held if count) or " -"

    yield "White:" + hand("w")
    yield "".join(f"{file:>3}" for file in range(9, 0, -1))
    for rank in range(1, 10):
        cells = (shogi.letter_of(board[file, rank]) if (file, rank) in board else "."
                 for file in range(9, 0, -1))
        yield "".join(f"{cell:>3}" for cell in cells) + f" {'abcdefghi'[rank - 1]}"
    yield "Black:" + hand("b")


def bod_lines(position):
    turn, board, hands = position

    def hand(side):
        held = ((kind, hands.get((side, kind), 0)) for kind in IN_HAND)
        return "".join(f"{KANJI[kind]}{numeral(count)}　" for kind, count in held if count) or "なし"

    def cell(piece):
        if piece is None:
            return " ・"
        side, kind, promoted = piece
        return {"b": " ", "w": "v"}[side] + (PROMOTED if promoted else KANJI)[kind]

    yield "後手の持駒：" + hand("w")
    yield "  ９ ８ ７ ６ ５ ４ ３ ２ １"
    yield "+---------------------------+"
    for rank in range(1, 10):
        yield f"|{''.join(cell(board.get((file, rank))) for file in range(9, 0, -1))}|{DIGITS[rank]}"
    yield "+---------------------------+"
    yield "先手の持駒：" + hand("b")
    if turn == "w":
        yield "後手番"


def numeral(count):
    return "" if count == 1 else ("十" if count >= 10 else "") + DIGITS[count % 10]
