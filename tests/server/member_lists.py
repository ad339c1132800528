#!/usr/bin/env python3
"""The lists of a member that have a limit: the newest 200 ended games, and the newest 20 refused challenges.

    python3 tests/server/member_lists.py

Anna has 203 ended games: 202 records that the officer imports, and a game of shogi that its last move ends. Another
member's game is among them, and one of hers is running. She challenges bert 22 times, and he refuses; a challenge of
his that she refuses is in his list alone. The expected lists follow from the commands.
"""
import json
import pathlib
import sys
import tempfile

sys.path[0] = str(pathlib.Path(__file__).resolve().parents[1])
from lib.club import FAST, run
from lib.report import check, exit_status
from lib.server import serve

PDN = "1. 32-28 19-23 2. 28x19 14x23 1-1\n"
RECORDS, OTHERS = 203, 5  # the imported games, and the one of them that is not anna's
SHOGI, RUNNING = RECORDS + 1, RECORDS + 2
FOURFOLD = ["2h3h", "8b7b", "3h2h", "7b8b"] * 3
SETUP = ["member anna keyanna1", "member bert keybert2", "member cara keycara3", "event cup draughts 86400 0",
         "event fuji shogi 86400 0"]


def commands():
    """The lines of a batch."""
    players = [("cara" if number == OTHERS else "anna", "bert") for number in range(1, RECORDS + 1)]
    imports = [f"import-pdn r{number} cup {first} {second} r.pdn" for number, (first, second) in enumerate(players, 1)]
    moves = [f"move {SHOGI} {ply} {text}" for ply, text in enumerate(FOURFOLD, 1)]
    return [*SETUP, *imports, "seat s fuji bert anna", *moves, "seat d cup anna bert"]


def imported(number):
    return {"end": "Recorded", "ended": None, "event": "cup", "first": "anna", "game": number, "kind": "draughts",
            "ply": 4, "result": "1-1", "second": "bert"}


def ended_games(server):
    by_move = {"end": "Fourfold", "ended": 1000, "event": "fuji", "first": "bert", "game": SHOGI, "kind": "shogi",
               "ply": 12, "result": "1-1", "second": "anna"}
    games = [by_move, *(imported(it) for it in range(RECORDS, 0, -1) if it != OTHERS)]
    expected = {"games": games[:200], "member": "anna", "moment": 2000, "more": 3}
    status, text = server.request("GET", "/me/ended")
    check("the newest 200 ended games are listed, the newest first", (200, expected), (status, json.loads(text)))
    more = json.loads(server.request("GET", "/me/ended", key="keycara3")[1])
    check("a member with one ended game has no more", (1, 0), (len(more["games"]), more["more"]))


def challenge(server, key, member, number, other):
    """A challenge that is refused."""
    server.request("POST", f"/challenges/{number}", {"event": "cup", "first": True, "other": other[0]}, key)
    return server.request("POST", f"/answers/{member}/{number}", {"accept": False}, other[1])


def refused_challenges(server):
    numbers = [9999, *range(21, 0, -1)]
    replies = {challenge(server, "keyanna1", "anna", it, ("bert", "keybert2"))[0] for it in numbers}
    check("22 challenges are refused", {200}, replies)
    challenge(server, "keybert2", "bert", 7, ("anna", "keyanna1"))
    for member, key, other, expected in (("anna", "keyanna1", "bert", [9999, *range(21, 2, -1)]),
                                         ("bert", "keybert2", "anna", [7])):
        found = json.loads(server.request("GET", "/me", key=key)[1])
        check(f"the newest refused challenges of {member} are listed, the greatest number first",
              [{"event": "cup", "first": member, "from": member, "game": None, "number": it, "second": other,
                "state": "refused", "to": other} for it in expected], found["refused"])
        check(f"the game of {member} that is running is listed", [RUNNING], [it["game"] for it in found["games"]])


def main():
    with tempfile.TemporaryDirectory(dir=FAST) as folder:
        pathlib.Path(f"{folder}/r.pdn").write_text(PDN, encoding="utf-8")
        check("a club is created", 0, run(["c.db", "init"], folder=folder)[0])
        status, _, err = run(["c.db", "batch", "-"], folder=folder, data="".join(f"{it}\n" for it in commands()))
        check("a batch seats and imports the games", (0, ""), (status, err))
        with serve(now=2000, folder=folder) as server:
            ended_games(server)
            refused_challenges(server)
    return exit_status()


if __name__ == "__main__":
    sys.exit(main())
