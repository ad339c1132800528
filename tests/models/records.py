"""Games as records, as the program writes them by docs/formats.md."""
import time

from models import shogi


def record_of(game):
    return (pdn_of if game.event["game"] == "draughts" else csa_of)(game)


def pdn_of(game):
    date = time.strftime("%Y.%m.%d", time.gmtime(game.start))
    tags = (("Event", game.event["name"]), ("Date", date), ("White", game.players[0]), ("Black", game.players[1]),
            ("Result", game.result or "*"), ("GameType", "20"))
    pairs = [f"{at // 2 + 1}. {' '.join(game.texts[at:at + 2])}\n" for at in range(0, game.plies(), 2)]
    return "".join(f'[{name} "{value}"]\n' for name, value in tags) + "\n" + "".join(pairs) + f"{game.result or '*'}\n"


def csa_of(game):
    line, before = shogi.Line(), game.start
    lines = ["V2.2", f"N+{game.players[0]}", f"N-{game.players[1]}", f"$EVENT:{game.event['name']}",
             time.strftime("$START_TIME:%Y/%m/%d %H:%M:%S", time.gmtime(game.start)), "PI", "+"]
    for move, moment in zip(game.line.moves, game.moments):
        lines += [csa_move(line.position, move), f"T{moment - before}"]
        line.push(move)
        before = moment
    return "".join(f"{it}\n" for it in (*lines, csa_end(game)))


def csa_move(position, move):
    codes = {kind: code for code, kind in shogi.CODES.items()}
    promoted = {kind: code for code, kind in shogi.PROMOTED.items()}
    start, to, promotes = move
    kind, is_promoted = (start, False) if isinstance(start, str) else position[1][start][1:]
    code = (promoted if is_promoted or promotes else codes)[kind]
    squares = ("00" if isinstance(start, str) else f"{start[0]}{start[1]}") + f"{to[0]}{to[1]}"
    return f"{'+' if position[0] == 'b' else '-'}{squares}{code}"


def csa_end(game):
    illegal = "%+ILLEGAL_ACTION" if game.result == "0-2" else "%-ILLEGAL_ACTION"
    mover_lost = game.result == ("0-2", "2-0")[game.turn()]
    if game.end in ("Recorded", "Awarded"):
        return "%HIKIWAKE" if game.result == "1-1" else "%TORYO" if mover_lost else illegal
    return {None: "%CHUDAN", "Void": "%CHUDAN", "NoMove": "%TSUMI", "PerpetualCheck": illegal, "Fourfold": "%SENNICHITE",
            "PlyLimit": "%JISHOGI", "Resigned": "%TORYO", "Time": "%TIME_UP"}[game.end]
