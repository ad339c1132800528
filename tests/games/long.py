#!/usr/bin/env python3
"""Executes each command on a game early, late and at its last ply: in draughts of 133 plies, in shogi of 600.

    python3 tests/games/long.py

The moves of shogi are generated here: rooks move along their ranks, in cycles of five and of four moves, so that a
position repeats each 40 plies, and before it occurs a fourth time both sides push a pawn. Those of draughts are in
tests/games/long_game.txt; that game ends because a side has no piece.
"""
import contextlib
import itertools
import json
import pathlib
import sys
import tempfile

sys.path[0] = str(pathlib.Path(__file__).resolve().parents[1])
import lib.club
from lib.club import TESTS, TWO_MEMBERS
from lib.report import check, exit_status
from lib.server import KEYS, request, serve

EVENTS = {"cup": "draughts", "fuji": "shogi"}
BUDGET = 86400


def club(*words):
    return lib.club.club("c.db", *words)


def draughts_line():
    return (TESTS / "games/long_game.txt").read_text().split()


def shogi_line():
    """600 plies without check, capture or fourth repetition."""
    pushes = iter("9g9f 9c9d 1g1f 1c1d 5g5f 5c5d 3g3f 3c3d 6g6f 6c6d 4g4f 4c4d".split())
    cycles = [
        itertools.cycle("2h3h 3h4h 4h5h 5h6h 6h2h".split()),
        itertools.cycle("8b7b 7b6b 6b5b 5b8b".split()),
    ]
    return [next(pushes) if ply % 100 in (98, 99) else next(cycles[ply % 2]) for ply in range(600)]


@contextlib.contextmanager
def requests(now):
    """Starts a server, and gives the function that sends it a member's request."""
    with serve(now=now) as server:
        def ask(member, method, path, body=None):
            status, text = request(server.port, method, path, body, KEYS[member])
            return status, json.loads(text)
        yield ask


def mover(ply):
    """Who makes this ply, counted from 1."""
    return "anna" if ply % 2 else "bert"


def seat(key, event):
    status, printed = club("seat", key, event, "anna", "bert")
    assert status == 0, printed
    return int(printed.split()[-1])


def play(asked, game, line, upto):
    """The reply to the last ply."""
    reply = None
    for ply, text in enumerate(line[:upto], 1):
        reply = asked(mover(ply), "POST", f"/games/{game}/moves/{ply}", {"move": text})
        if reply[0] != 200:
            break
    return reply


def refusal(status, number, name):
    return status, {"error": number, "name": name}


def asked_at(asked, name, game, line, ply):
    """Queries of a running game after so many plies, and refusals that leave it unchanged."""
    to_move, other = mover(ply + 1), mover(ply)
    shown = asked(other, "GET", f"/games/{game}")
    check(f"{name} the game is shown", (200, line[:ply], ply), (shown[0], shown[1]["moves"], shown[1]["ply"]))
    legal = asked(other, "GET", f"/games/{game}/legal")
    check(f"{name} the next move is legal", True, line[ply] in legal[1]["moves"])
    wrong = asked(other, "POST", f"/games/{game}/moves/{ply + 1}", {"move": line[ply]})
    check(f"{name} the opponent may not move", refusal(409, 59, "NotYourTurn"), wrong)
    beyond = asked(to_move, "POST", f"/games/{game}/moves/{ply + 2}", {"move": line[ply]})
    check(f"{name} a move of a later ply is refused", refusal(409, 57, "WrongPly"), beyond)
    early = asked(other, "POST", f"/games/{game}/claim-time")
    check(f"{name} a claim is refused while time is left", refusal(409, 61, "TimeLeft"), early)
    again = asked(mover(ply), "POST", f"/games/{game}/moves/{ply}", {"move": line[ply - 1]})
    check(f"{name} the last move is repeated", (200, ply, line[ply - 1]), (again[0], again[1]["ply"], again[1]["move"]))


def ended(end, game, result):
    return 200, {"end": end, "game": game, "result": result}


def lost_by(side):
    return "0-2" if side == "anna" else "2-0"


def ends_at(asked, name, event, line, ply):
    """Games that are ended after so many plies, each in its own way."""
    to_move, other = mover(ply + 1), mover(ply)
    game = seat(f"r-{event}-{ply}", event)
    play(asked, game, line, ply)
    asked_at(asked, name, game, line, ply)
    resigned = asked(to_move, "POST", f"/games/{game}/resign")
    check(f"{name} a resignation ends the game", ended("Resigned", game, lost_by(to_move)), resigned)
    game = seat(f"o-{event}-{ply}", event)
    play(asked, game, line, ply)
    offer = asked(other, "POST", f"/games/{game}/draw/{ply + 1}/offer")
    accepted = asked(to_move, "POST", f"/games/{game}/draw/{ply + 1}/accept")
    if event == "fuji":
        check(f"{name} an offer of a draw is refused", refusal(422, 63, "NotInThisGame"), offer)
        check(f"{name} an acceptance is refused", refusal(422, 63, "NotInThisGame"), accepted)
    else:
        check(f"{name} an offer of a draw is accepted", (200, {"draw": "offered", "game": game, "ply": ply + 1}), offer)
        check(f"{name} the offer is accepted by the opponent", ended("Agreed", game, "1-1"), accepted)
        check(f"{name} the draw is exported", True, club("export", str(game))[1].endswith("1-1"))


def whole(asked, name, event, line, end, result):
    """A game to its last ply, and commands after it."""
    game = seat(f"w-{event}", event)
    last = play(asked, game, line, len(line))
    reply = (last[0], last[1].get("ply"), last[1].get("end"))
    check(f"{name} ends by {end} at ply {len(line)}", (200, len(line), end), reply)
    shown = asked("bert", "GET", f"/games/{game}")[1]
    check(f"{name} is shown with its result", (end, result, line), (shown["end"], shown["result"], shown["moves"]))
    more = asked(mover(len(line) + 1), "POST", f"/games/{game}/moves/{len(line) + 1}", {"move": line[0]})
    check(f"{name} has no move after its end", refusal(409, 56, "GameOver"), more)
    check(f"{name} repeats its last move", last, play(asked, game, line, len(line)))
    status, record = club("export", str(game))
    check(f"{name} is exported", 0, status)
    pathlib.Path("record").write_text(record + "\n")
    way = "import-pdn" if event == "cup" else "import-csa"
    imported = club(way, f"i-{event}", event, "anna", "bert", "record")
    check(f"the record of {name} is imported", (0, "accepted game"), (imported[0], imported[1].rsplit(" ", 1)[0]))


def out_of_time(event, line, plies, first):
    """Games whose side to move exceeds its time after so many plies."""
    games = {}
    with requests(1000) as asked:
        for ply in plies:
            games[ply] = seat(f"t-{event}-{ply}", event)
            play(asked, games[ply], line, ply)
    with requests(first) as asked:
        for ply, game in games.items():
            claim = asked(mover(ply), "POST", f"/games/{game}/claim-time")
            check(f"a claim after {ply} plies of {event} ends the game",
                  ended("Time", game, lost_by(mover(ply + 1))), claim)


def main():
    draughts, shogi = draughts_line(), shogi_line()
    with tempfile.TemporaryDirectory() as room, contextlib.chdir(room):
        for words in TWO_MEMBERS:
            assert club(*words.split())[0] == 0, words
        for event, game in EVENTS.items():
            assert club("event", event, game, str(BUDGET), "0")[0] == 0, event
        with requests(1000) as asked:
            for ply in (1, 102, 132):
                ends_at(asked, f"after {ply} plies of draughts", "cup", draughts, ply)
            for ply in (1, 300, 599):
                ends_at(asked, f"after {ply} plies of shogi", "fuji", shogi, ply)
            whole(asked, "a long game of draughts", "cup", draughts, "NoMove", "2-0")
            whole(asked, "a game of shogi of 600 plies", "fuji", shogi, "PlyLimit", "1-1")
        out_of_time("cup", draughts, (1, 132), 1001 + BUDGET)
        out_of_time("fuji", shogi, (1, 599), 1002 + BUDGET * 2)
        check("the club is sound after long games", (0, "sound"), club("verify"))
    return exit_status()


if __name__ == "__main__":
    sys.exit(main())
