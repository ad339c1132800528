#!/usr/bin/env python3
"""A season of a club: after each step, all queries of the officer and of the members.

    python3 tests/season/season.py

Six members play in five events of both games: a round robin, moves over HTTP, challenges, offers of a draw, a
resignation, a claim, records and sweeps, at timestamps just before, on and after deadlines. Each list (`members`,
`events`, `games` with its options, `table`) and each path (`/me`, `/me/ended`, `/me/events`, `/events/NAME/games`,
`/games/ID/clock`, `/games/ID/record`) is byte for byte what season/club.py computes from the commands, and what sqlite3
computes from the rows (season/rows.py). No query changes a row, and no key is in any output. Then queries that are
refused, and files that are no club of this schema.
"""
import contextlib
import datetime
import itertools
import json
import pathlib
import random
import shutil
import sqlite3
import subprocess
import sys
import tempfile
import time

sys.path[0] = str(pathlib.Path(__file__).resolve().parents[1])
from lib.club import DATA, FAST, change, files_in, run
from lib.report import check, exit_status
from lib.server import Server, serve
from season import boards, club as model
from season.club import Challenge, Club, LAST_MOMENT, refusal
from season.rows import rows_of

START = int(datetime.datetime(2028, 2, 22, 12, tzinfo=datetime.timezone.utc).timestamp())
WEEK = 604800
MEMBERS = {"anna": "keyanna1", "bert": "KEYBERT2", "cara": "0cara0cara", "dora": "keydora4", "E.m_i-l": "emilemil5",
           "fred" + "0123456789" * 2: "fredkey" * 9 + "6"}
# What an arbiter gives in turn; the last of a member is the one that counts.
NEW_KEYS = ("bert", "bertsNewKey"), ("bert", "bertsNewerKey"), ("dora", "0dora2dora")
EVENTS = (("autumn", "draughts", WEEK, 86400), ("fuji", "shogi", 86400, 60), ("blitz", "draughts", 60, 5),
          ("slow.shogi", "shogi", 31536000, 2592000), ("none", "draughts", 1, 0))
LISTS = [["members"], ["events"], ["games"], ["games", "--running"], ["games", "--overdue"]]
PATHS = "/me", "/me/ended", "/me/events", "/events/autumn/games", "/games/1/clock", "/games/1/record"
FOURFOLD = ["2h3h", "8b7b", "3h2h", "7b8b"] * 3
EXCHANGE = ["7g7f", "3c3d", "8h2b+", "3a2b", "B*4e"]
PDN = b"1. 32-28 19-23 2. 28x19 14x23 1-1\n"
CSA = b"V2.2\nPI\n+\n+7776FU\n-3334FU\n+8822UM\n-3122GI\n%TORYO\n"
DAMAGES = (("UPDATE members SET name = 'A b' WHERE id = 1", "members"),
           ("UPDATE events SET budget = 0 WHERE id = 5", "events"),
           ("UPDATE challenges SET state = 3 WHERE state = 0", "challenges"),
           ("UPDATE games SET left2 = left2 + 1 WHERE id = 1", "games"),
           ("UPDATE meta SET last = 5", "meta"), ("UPDATE keys SET number = 3 WHERE number = 2", "keys"),
           ("UPDATE closings SET event = 9", "closings"), ("UPDATE rulings SET kind = 4", "rulings"))
# What is raised if the program ends, does not reply, or prints what cannot be read.
FAILURES = OSError, RuntimeError, ValueError, LookupError, AssertionError, subprocess.SubprocessError, sqlite3.Error


def compare(name, expected, got):
    """Compares the answers to queries, and prints the first that differs."""
    differing = [it for it in expected if expected[it] != got[it]]
    name += f" ({len(differing)} of {len(expected)} differ)" if differing else f" ({len(expected)})"
    check(name, *({it: found[it] for it in differing[:1]} for found in (expected, got)))


class Season:
    """A club in a folder, its model, and all output of the program."""

    def __init__(self, folder):
        self.folder, self.club, self.outputs = folder, Club(), []
        self.chance = random.Random(1)

    # ---- the program

    def give(self, now, words, data=b""):
        """The status of a command, its standard output and its standard error."""
        status, out, err = run(["c.db", *words], now=now, folder=self.folder, data=data)
        self.outputs += [out.encode(), err.encode()]
        return status, out, err

    @contextlib.contextmanager
    def server(self, now):
        """A server at a timestamp, or by the machine's clock, and its port."""
        with tempfile.TemporaryFile() as log:
            with serve("c.db", "--log", now=now, folder=self.folder, stderr=log) as server:
                yield server.port
            log.seek(0)
            self.outputs.append(log.read())

    def ask(self, port, key, method, path, body=None, fields=None):
        """The bytes of a reply."""
        data = b"" if body is None else json.dumps(body).encode()
        fields = f"Member-Key: {key}\r\n" if fields is None else fields
        length = f"Content-Length: {len(data)}\r\n" if method not in ("GET", "HEAD") else ""
        head = f"{method} {path} HTTP/1.1\r\nHost: localhost\r\n{fields}{length}\r\n".encode()
        reply = Server(None, port).send(head + data)
        self.outputs.append(reply)
        return reply

    def answer(self, port, member, method, path, body=None):
        """The status of a reply with what its body says."""
        head, _, text = self.ask(port, self.club.keys.get(member, member), method, path, body).partition(b"\r\n\r\n")
        return int(head.split()[1]), json.loads(text)

    # ---- orders of the officer's

    def order(self, now, words, printed, data=b""):
        check(f"`{' '.join(words)}` prints `{printed}`", (0, f"{printed}\n", ""), self.give(now, words, data))

    def add_member(self, now, name, key):
        self.club.add_member(name, key, now)
        self.order(now, ["member", name, key], f"accepted member {len(self.club.keys)}")

    def new_key(self, now, name, key):
        number = self.club.new_key(name, key, now)
        self.order(now, ["key", name, str(number), key], f"accepted key {number}")

    def close(self, now, event):
        self.club.close_event(event, now)
        self.order(now, ["close", event], "accepted closed")

    def rule(self, now, game, ruling):
        number = self.club.rule(game.number, ruling, now)
        words = ["rule", str(game.number), str(number), *ruling.split()]
        self.order(now, words, f"accepted ruling {number}")
        check(f"`{' '.join(words)}` again changes nothing", (0, f"repeated ruling {number}\n", ""), self.give(now, words))

    def rule_many(self, now, words, rulings):
        """A word that rules many games, whose rulings are these; `--dry` prints them and changes nothing."""
        numbers = [len(game.rulings) + 1 + sum(it is game for it, _ in rulings[:at]) for at, (game, _) in enumerate(rulings)]
        lines = [f"rule {game.number} {number} {ruling}\n" for (game, ruling), number in zip(rulings, numbers)]
        dry = [words[0], "--dry", *words[1:]]
        check(f"`{' '.join(dry)}` prints the rulings", (0, "".join(lines), ""), self.give(now, dry))
        printed = "\n".join(f"{at} accepted ruling {number}" for at, number in enumerate(numbers, 1))
        for game, ruling in rulings:
            self.club.rule(game.number, ruling, now)
        self.order(now, words, printed)

    def add_event(self, now, *event):
        self.club.add_event(*event, now)
        self.order(now, ["event", *map(str, event)], f"accepted event {len(self.club.events)}")

    def seat(self, now, key, event, first, second):
        game = self.club.add_game(key, event, first, second, now)
        self.order(now, ["seat", key, event, first, second], f"accepted game {game.number}")
        return game

    def bring_in(self, now, kind, key, event, first, second, text, moves, result):
        """A game from a record, which ends as the record says."""
        game = self.club.add_game(key, event, first, second, now)
        self.order(now, [f"import-{kind}", key, event, first, second, "-"], f"accepted game {game.number}", text)
        for move in moves:
            game.played(move, game.start)
        game.ended("Recorded", result)

    def sweep(self, now):
        """The sweep ends just those games that are listed as overdue at its moment."""
        before = self.give(now, ["games", "--overdue"])[1].splitlines()
        late = self.club.overdue(now)
        if late:
            words = ["sweep", "--most", str(len(late) - 1)]
            check(f"`{' '.join(words)}` ends no game", (1, "", f"overdue {len(late)}\n"), self.give(now, words))
        self.order(now, ["sweep"], f"accepted sweep {len(late)}")
        self.club.accepted(now)
        running = {it.number for it in self.club.games if not it.end}
        for game in late:
            game.lost_by(game.mover(), "Time")
        with rows_of(self.folder) as found:
            ended = {it for it, in found.found.execute("SELECT id FROM games WHERE \"end\" = 'Time'")} & running
        check(f"the sweep ends the {len(late)} games that were listed as overdue",
              [f"game {it}" for it in sorted(ended)],
                [" ".join(line.split(" ")[:2]) for line in before])

    # ---- commands of members'

    def play(self, port, now, game, text=None):
        """A move, of those that the server lists."""
        member = game.mover()
        legal = self.answer(port, member, "GET", f"/games/{game.number}/legal")[1]["moves"]
        text = text or self.chance.choice(legal)
        ply = len(game.texts) + 1
        status, reply = self.answer(port, member, "POST", f"/games/{game.number}/moves/{ply}", {"move": text})
        game.played(text, self.club.accepted(now))
        if reply.get("end"):
            game.ended(reply["end"], "1-1")  # of the ends by rule only draws come up here
        expected = {"end": game.end, "game": game.number, "left": game.left[1 - game.turn()], "move": text, "ply": ply}
        check(f"{text} is accepted as ply {ply} of game {game.number}", (200, expected),
                (status, {it: reply.get(it) for it in expected}))

    def command(self, port, now, member, path, expected, body=None, status=200):
        check(f"POST {path} by {member} returns {expected}",
              (status, expected), self.answer(port, member, "POST", path, body))
        if status == 200:
            self.club.accepted(now)

    def challenge(self, port, now, *asked):
        challenge = Challenge(*asked)
        self.command(port, now, challenge.member, f"/challenges/{challenge.number}",
                     {"challenge": challenge.number, "state": "open"},
                     {"event": challenge.event, "first": challenge.first, "other": challenge.other})
        self.club.add_challenge(challenge, now)
        return challenge

    def reply_to(self, port, now, challenge, state):
        challenge.state = state
        reply = {"challenge": challenge.number, "state": state}
        if state == "withdrawn":
            return self.command(port, now, challenge.member, f"/challenges/{challenge.number}/withdraw", reply)
        if state == "accepted":
            challenge.game = reply["game"] = len(self.club.games) + 1
        self.command(port, now, challenge.other, f"/answers/{challenge.member}/{challenge.number}", reply,
                     {"accept": state == "accepted"})
        if state == "accepted":
            self.club.add_game(None, challenge.event, *challenge.sides(), now)

    def end(self, port, now, member, game, what, end, result):
        self.command(port, now, member, f"/games/{game.number}/{what}",
                     {"end": end, "game": game.number, "result": result})
        game.ended(end, result)

    # ---- questions

    def filters(self):
        """The words of each list of games that can be asked for."""
        names = [[*it, None] for it in (self.club.events, self.club.keys)]
        for event, member, which in itertools.product(*names, ([], ["--running"], ["--overdue"])):
            yield ["games", *(["--event", event] if event else []), *(["--member", member] if member else []), *which]

    def paths(self):
        """Each path with a member who asks: what is one's own by each, the rest by anyone."""
        for member in self.club.keys:
            yield member, "/me"
            yield member, "/me/ended"
            yield member, "/me/events"
        for event in self.club.events:
            yield self.chance.choice([*self.club.keys]), f"/events/{event}/games"
            yield self.chance.choice([*self.club.keys]), f"/events/{event}/standings"
            yield self.chance.choice([*self.club.keys]), f"/events/{event}/table"
        for game in self.club.games:
            yield self.chance.choice([*self.club.keys]), f"/games/{game.number}/clock"
            yield self.chance.choice([*self.club.keys]), f"/games/{game.number}/record"
            yield self.chance.choice([*self.club.keys]), f"/games/{game.number}/rulings"

    def look(self, stage, now, lists=None):
        """Asks all there is to ask at a moment."""
        lists = LISTS + (lists or self.chance.sample([*self.filters()], 3))
        with rows_of(self.folder) as rows:
            self.look_at_lists(stage, now, lists, rows)
            with self.server(now) as port:
                self.look_at_paths(stage, now, port, rows)
            with rows_of(self.folder) as kept:
                check(f"{stage}, queries change no row", rows.held, kept.held)

    def look_at_lists(self, stage, now, lists, rows):
        expected = {" ".join(it): self.club.printed(it, now) for it in lists}
        compare(f"{stage}, the lists are those of the model",
                expected, {" ".join(it): self.give(now, it) for it in lists})
        made = {" ".join(it): rows.printed(it, now) for it in lists}
        compare(f"{stage}, the lists are those of sqlite3", {it: printed[1] for it, printed in expected.items()}, made)

    def look_at_paths(self, stage, now, port, rows):
        asked = [*self.paths()]
        expected = {it: self.club.replied(*it, now) for it in asked}
        got = {it: self.ask(port, self.club.keys[it[0]], "GET", it[1]) for it in asked}
        for kind in ("me", "me/ended", "me/events", "games", "standings", "table", "clock", "record", "rulings"):
            some = [it for it in asked if it[1].endswith(f"/{kind}")]
            compare(f"{stage}, /{kind} is that of the model",
                    {it: expected[it] for it in some}, {it: got[it] for it in some})
        json_asked = [it for it in asked if it[1].rpartition("/")[2] not in ("table", "record")]
        bodies = {it: expected[it].partition(b"\r\n\r\n")[2].decode() for it in json_asked}
        compare(f"{stage}, the paths are those of sqlite3", bodies, {it: rows.body(*it, now) for it in json_asked})

    def is_silent(self):
        """No key of a member is in any output of the program."""
        keys = [key.encode() for key in (*MEMBERS.values(), *(key for _, key in NEW_KEYS))]
        found = [it for it in self.outputs for key in keys if key in it]
        check(f"no key is in {len(self.outputs)} outputs and replies", [], found[:1])


# ---- the season

def berger(members):
    """The pairs of each round of a round robin, each by who plays First and who Second."""
    size = len(members)
    for number in range(1, size):
        pairs = []
        for one, two in itertools.combinations(range(1, size), 2):
            if (one + two - number - 1) % (size - 1) == 0:
                pairs.append((one, two) if (one + two) % 2 else (two, one))
        last = next(it for it in range(1, size) if (2 * it - number - 1) % (size - 1) == 0)
        pairs.append((last, size) if 2 * last <= size else (size, last))
        yield [(members[one - 1], members[two - 1]) for one, two in pairs]


def opened(season):
    """A new club, of which nobody is a member; then its members and events."""
    check("`init` creates a club", (0, "ready\n", ""), season.give(START, ["init"]))
    for words in LISTS:
        check(f"`{' '.join(words)}` of an empty club prints nothing", (0, "", ""), season.give(START, words))
    with season.server(START) as port:
        compare("a path of an empty club is refused", {it: refusal(50, it) for it in PATHS},
                {it: season.ask(port, "keyanna1", "GET", it) for it in PATHS})
    for name, key in MEMBERS.items():
        season.add_member(START, name, key)
    for event in EVENTS:
        season.add_event(START + 10, *event)
    season.look("without a game", START + 20)


def seated(season):
    """A round robin of all members, and games of the other events; each has a second of its own."""
    for number, pairs in enumerate(berger([*MEMBERS]), 1):
        for board, pair in enumerate(pairs, 1):
            season.seat(START + 100 + 7 * len(season.club.games), f"r{number}.{board}", "autumn", *pair)
    for key, event, first, second in (("s1", "fuji", "anna", "bert"), ("s2", "fuji", "dora", "cara"),
                                      ("b1", "blitz", "anna", "cara"), ("b2", "blitz", "cara", "E.m_i-l"),
                                      ("s3", "slow.shogi", "E.m_i-l", "anna")):
        season.seat(START + 300, key, event, first, second)
    season.look("seated", START + 310)


def in_blitz(season):
    """Moments just before, on and after two deadlines, one of them after a move; a sweep and a claim."""
    moved, still = (it for it in season.club.games if it.event.name == "blitz")
    with season.server(START + 350) as port:
        season.play(port, START + 350, moved)
    check("a move changes the deadline", (START + 410, START + 360), (moved.deadline(), still.deadline()))
    for moment, name in ((359, "a second before a deadline"), (360, "on a deadline"), (361, "a second after it")):
        season.look(name, START + moment)
    season.look("an earlier moment counts as the last", START + 200)
    season.sweep(START + 360)
    season.sweep(START + 361)
    season.look("swept", START + 361)
    claim = "anna", f"/games/{moved.number}/claim-time"
    with season.server(START + 410) as port:
        season.command(port, START + 410, *claim, {"error": 61, "name": "TimeLeft"}, status=409)
    season.look("on the other deadline", START + 410, [["games", "--event", "blitz", "--overdue"]])
    season.look("a second after the other", START + 411, [["games", "--event", "blitz", "--overdue"]])
    with season.server(START + 411) as port:
        season.end(port, START + 411, "anna", moved, "claim-time", "Time", "2-0")
    season.look("claimed", START + 411, [["games", "--event", "blitz"]])


def rounds(season):
    """Moves in games of both kinds, one of which ends by a rule."""
    autumn = season.club.games[:15]
    fuji, other = (it for it in season.club.games if it.event.name == "fuji")
    for moment, plies in ((1000, 1), (3000, 2), (90000, 3)):
        with season.server(START + moment) as port:
            for game in autumn[:4]:
                for _ in range(plies):
                    season.play(port, START + moment, game)
        if moment < 86400:
            with season.server(START + moment + 9) as port:
                for text in FOURFOLD[len(fuji.texts):][:6]:
                    season.play(port, START + moment + 9, fuji, text)
                for text in EXCHANGE[len(other.texts):][:3]:
                    season.play(port, START + moment + 9, other, text)
        season.look(f"after moves at {moment}", START + moment + 10)
    check("a fourfold repetition ends the game", ("Fourfold", "1-1"), (fuji.end, fuji.result))


def challenged(season):
    """Challenges of all kinds, which both sides see while they are open, and accepted ones their challengers."""
    with season.server(START + 100000) as port:
        open_one = [season.challenge(port, START + 100000, *asked) for asked in (
            ("bert", 9999, "autumn", "anna", True), ("cara", 2, "fuji", "anna", False),
            ("bert", 1, "slow.shogi", "cara", False), ("anna", 12, "none", "dora", True),
            ("anna", 3, "autumn", "bert", False), ("dora", 1, "autumn", "E.m_i-l", True))]
    season.look("after the challenges", START + 100001)
    with season.server(START + 100002) as port:
        for challenge, state in zip(open_one, ("accepted", "refused", "accepted", "withdrawn", "accepted")):
            season.reply_to(port, START + 100002, challenge, state)
    season.look("after the answers", START + 100002)


def offered(season):
    """Offers that stand, that a move has answered and that are accepted; and resignations, one after a challenge."""
    one, two, three = season.club.games[:3]
    with season.server(START + 110000) as port:
        for game in one, two:
            number, member = len(game.texts) + 1, game.players[1]
            season.command(port, START + 110000, member, f"/games/{game.number}/draw/{number}/offer",
                           {"draw": "offered", "game": game.number, "ply": number})
            game.offer = 1
    season.look("after the offers", START + 110000)
    with season.server(START + 110001) as port:
        season.play(port, START + 110001, one)
        accept = f"draw/{len(two.texts) + 1}/accept"
        season.end(port, START + 110001, two.players[0], two, accept, "Agreed", "1-1")
        for game in three, season.club.games[season.club.challenges["bert", 9999].game - 1]:
            result = ("0-2", "2-0")[game.turn()]
            season.end(port, START + 110001, game.mover(), game, "resign", "Resigned", result)
    season.look("after agreement and resignation", START + 110001)


def brought_in(season):
    season.bring_in(START + 120000, "pdn", "old.1", "autumn", "fred" + "0123456789" * 2, "anna", PDN,
                    ["32-28", "19-23", "28x19", "14x23"], "1-1")
    season.bring_in(START + 120000, "csa", "old_2", "fuji", "bert", "dora", CSA, ["7g7f", "3c3d", "8h2b+", "3a2b"],
                    "0-2")
    season.look("after the imports", START + 120000)


def arbitrated(season):
    """The club gets an arbiter: two members have other keys, and an event is closed while a challenge into it is open."""
    now = START + 130000
    with season.server(now) as port:
        waiting = season.challenge(port, now, "cara", 7, "slow.shogi", "anna", True)
    season.order(now, ["upgrade", "--arbiter"], "upgraded")
    season.look("with an arbiter", now)
    for name, key in NEW_KEYS:
        season.new_key(now, name, key)
    season.close(now + 1, "slow.shogi")
    season.look("with new keys and a closed event", now + 1)
    old = [*(MEMBERS[name] for name in ("bert", "dora")), NEW_KEYS[0][1]]
    with season.server(now + 2) as port:
        compare("an earlier key is nobody's", {it: refusal(50, "/me") for it in old},
                {it: season.ask(port, it, "GET", "/me") for it in old})
        closed = {"error": 68, "name": "EventClosed"}
        challenge = {"event": "slow.shogi", "first": True, "other": "bert"}
        season.command(port, now + 2, "cara", "/challenges/8", closed, challenge, status=409)
        season.command(port, now + 2, "anna", "/answers/cara/7", closed, {"accept": True}, status=409)
        season.reply_to(port, now + 2, waiting, "refused")
        season.play(port, now + 2, next(it for it in season.club.games if not it.end and it.mover() == "bert"))
    season.seat(now + 3, "late.1", "slow.shogi", "anna", "bert")
    season.look("after a game was seated in the closed event", now + 3)
    season.order(now + 3, ["verify"], "sound")


def ruled(season):
    """The arbiter gives time, awards a game that was lost on time, and voids games; a member leaves an event."""
    now = START + 140000
    lost, other = (it for it in season.club.games if it.event.name == "blitz")
    running, mistaken = [it for it in season.club.games[4:9] if not it.end][:2]
    season.rule(now, running, f"grant second {3 * 86400}")
    season.rule(now, lost, "award 1-1")
    season.rule(now, other, "void")
    season.rule(now, mistaken, "void")
    season.look("after rulings", now, [["rulings", str(it.number)] for it in (running, lost, other, mistaken)])
    refused = ["rule", str(other.number), "2", "grant", "first", "60"]
    check("no time is given after a game has ended", (1, "", "refused 56 GameOver\n"), season.give(now, refused))
    season.rule(now + 1, other, "award 2-0")
    left = [it for it in season.club.games if it.event.name == "fuji" and not it.end and "cara" in it.players]
    season.rule_many(now + 2, ["retire", "cara", "fuji", "loss"],
                     [(it, f"award {('0-2', '2-0')[it.players.index('cara')]}") for it in left])
    slow = [it for it in season.club.games if it.event.name == "slow.shogi" and not it.end]
    season.rule_many(now + 3, ["extend", "slow.shogi", "172800"],
                     [(it, f"grant {side} 172800") for it in slow for side in ("first", "second")])
    season.look("after a member left and two days were given", now + 4)
    with season.server(now + 5) as port:
        season.play(port, now + 5, running)
        season.play(port, now + 5, slow[0])
    season.look("after moves in games with rulings", now + 5)
    season.order(now + 5, ["verify"], "sound")


def swept(season):
    """A sweep in the last second of a game that was never moved, and another a second later."""
    game = season.club.games[9]
    late = game.deadline()
    check("a deadline may be on a leap day", True, model.until(late).startswith("2028-02-29T12:"))
    season.look("before the sweep", late)
    with season.server(late) as port:
        season.play(port, late, season.club.games[0])
    season.look("at an earlier timestamp", START)
    season.sweep(late)
    check("a game in its last second is running", None, game.end)
    season.look("after the sweep", late)
    season.sweep(late + 1)
    check("a sweep one second later ends the game", "Time", game.end)
    season.look("at the season's end", late + 2, [*season.filters()][::3])
    exported = {it.number: (0, model.record(it), "") for it in season.club.games}
    compare("`export` prints the records of the model",
            exported, {it: season.give(late, ["export", str(it)]) for it in exported})
    for flags in [], ["--letters"]:
        shown = {it.number: (0, boards.shown(it, late + 2, bool(flags)), "") for it in season.club.games}
        compare(f"`{' '.join(['show', *flags])}` prints the boards of the model", shown,
                {it: season.give(late + 2, ["show", *flags, str(it)]) for it in shown})
    events = {it: (0, season.club.event_records(it), "") for it in season.club.events}
    compare("`export-event` prints the records of the model",
            events, {it: season.give(late, ["export-event", it]) for it in events})
    tables = {it: (0, season.club.table(it), "") for it in season.club.events}
    compare("`table` prints the cross tables of the model",
            tables, {it: season.give(late, ["table", it]) for it in tables})
    check("the club is sound after the season", (0, "sound\n", ""), season.give(late, ["verify"]))


def analysed(season):
    """The moves of each game from its third on are tried in the game, and from its position. No row changes."""
    now, expected, got = season.club.last, {}, {}
    with rows_of(season.folder) as rows, season.server(now) as port:
        for game in (it for it in season.club.games if len(it.texts) > 2):
            kind, before, texts = game.event.game, game.texts[:2], game.texts[2:66]
            position = boards.tried(kind, [], before)["position"]
            expected |= {(game.number, "game"): boards.tried(kind, before, texts),
                         (game.number, "position"): boards.tried(kind, [], texts, position)}
            for name, start in ("game", {"game": game.number, "ply": 2}), ("position", {"position": position}):
                asked = "POST", f"/analysis/{kind}", start | {"moves": texts}
                got[game.number, name] = season.answer(port, season.chance.choice([*season.club.keys]), *asked)
    compare("moves that are tried have the reply of the model", {it: (200, expected[it]) for it in expected}, got)
    with rows_of(season.folder) as kept:
        check("analyses change no row", rows.held, kept.held)


# ---- what is refused

def refused(season):
    """Names, games, keys and methods that no question may have."""
    now, games = season.club.last, len(season.club.games)
    wrong = {"--event nobody": 52, "--member nobody": 65, "--event anna": 52, "--member autumn": 65,
             "--event Autumn": 52, "--event autumn --member nobody": 65, "--event nobody --member anna --running": 52,
             "--member nobody --overdue": 65, "--event nobody --member nobody": 52, "--event=": 52, "--member=": 65}
    wrong = {f"games {it}": number for it, number in wrong.items()}
    wrong |= {"show 0": 53, f"show {games + 1}": 53, f"show --letters {games + 1}": 53, "export-event winter": 52,
              "export-event anna": 52, "export-event Autumn": 52}
    compare("queries with unknown names are refused", {it: (1, "", f"refused {number} {model.NAMES[number]}\n")
                                  for it, number in wrong.items()},
            {it: season.give(now, it.split()) for it in wrong})
    paths = {"/events/winter/games": 52, "/events/anna/games": 52, f"/games/{games + 1}/clock": 53,
             "/games/0/clock": 53, "/games/999999999/record": 53, f"/games/{games + 1}/record": 53,
             "/games/0000000001/clock": 82, "/games/one/record": 82, "/games//clock": 82, "/events//games": 82,
             "/me/": 82, "/me/games": 82, "/Me": 82, "/me/events/": 82, "/games/1/clock/": 82,
             "/events/autumn/games/1": 82, "/games/1/records": 82, "//me": 82}
    with season.server(now) as port:
        compare("unknown paths are refused", {it: refusal(number, it) for it, number in paths.items()},
                {it: season.ask(port, "keyanna1", "GET", it) for it in paths})
        for path in PATHS:
            refused_at(season, port, path)


def refused_at(season, port, path):
    """Each path by other methods, other keys and other texts of its own."""
    right = season.club.replied("anna", path, season.club.last)
    method = {it: refusal(83, path, it != "HEAD") for it in ("POST", "PUT", "HEAD", "DELETE", "get", "OPTIONS")}
    compare(f"{path} with another method is refused",
            method, {it: season.ask(port, "nobody77", it, path) for it in method})
    fields = ("", "Member-Key:\r\n", "Member-Key: keyanna\r\n", "Member-Key: KEYANNA1\r\n", "Member-Key: keyanna11\r\n",
              "Member-Key: keyanna1\r\nmember-key: keyanna1\r\n", "Key: keyanna1\r\n")
    compare(f"{path} with another key is refused", {it: refusal(50, path) for it in fields},
            {it: season.ask(port, "", "GET", path, fields=it) for it in fields})
    alike = f"{path}?a=/games/2", f"http://club{path}", f"http://club{path}?"
    compare(f"{path} with a query or a host is the same path", {it: right for it in alike},
            {it: season.ask(port, "keyanna1", "GET", it) for it in alike})
    check(f"{path} takes a field name in capitals", right,
            season.ask(port, "", "GET", path, fields="MEMBER-KEY: \t keyanna1 \r\n"))
    gone = path.replace("/1/", "/0/").replace("autumn", "winter")
    check(f"{gone} with an unknown key is refused", refusal(50, gone), season.ask(port, "nobody77", "GET", gone))


# ---- other files

def held(room):
    """All rows of the folder's club, or its files where it has none."""
    if not pathlib.Path(room, "c.db").exists():
        return files_in(room)
    with rows_of(room) as found:
        return found.held


def check_faults(season, name, fault):
    """Each query has the same fault, and changes nothing."""
    before = held(season.folder)
    words = "members", "events", "games", "games --overdue --member anna"
    compare(f"with {name} each query is fault {fault}", {it: (3, "", f"store {fault}\n") for it in words},
            {it: season.give(START, it.split()) for it in words})
    check(f"with {name} queries change nothing", before, held(season.folder))


def faulty(season):
    """No file, a file of schema 1, and damaged ones, by commands and over HTTP."""
    now = season.club.last
    with folder() as room:
        other = Season(room)
        check_faults(other, "no file", "70 Foreign")
        shutil.copyfile(DATA / "files/worked.db", f"{room}/c.db")
        check_faults(other, "schema 1", "71 Schema 1")
        for sql, table in DAMAGES:
            shutil.copyfile(f"{season.folder}/c.db", f"{room}/c.db")
            change(f"{room}/c.db", sql)
            check_faults(other, f"`{sql}`", f"72 Damaged {table}")
        shutil.copyfile(f"{season.folder}/c.db", f"{room}/c.db")
        with other.server(now) as port:
            check("/me is shown before the damage", 200, other.answer(port, "keyanna1", "GET", "/me")[0])
            beside = ["games", "--running"]
            check("a list is printed while the server has the file",
                  season.club.printed(beside, now), other.give(now, beside))
            pathlib.Path(room, "c.db-desk").unlink()  # without its control socket the server releases the file
            change(f"{room}/c.db", DAMAGES[0][0])
            compare("each path is fault 72 once the file is damaged", {it: refusal(72, it) for it in PATHS},
                    {it: other.ask(port, "keyanna1", "GET", it) for it in PATHS})
        season.outputs += other.outputs


def calendar(season):
    """Deadlines on days that calendars mistake, and around the last second that there is."""
    check("`init` creates another club", (0, "ready\n", ""), season.give(0, ["init"]))
    for name in "anna", "bert":
        season.add_member(0, name, MEMBERS[name])
    season.add_event(0, "tick", "draughts", 1, 0)
    season.add_event(0, "year", "shogi", 31536000, 0)
    season.look("the first second", 0)
    before = int(time.time())
    with season.server(None) as port:
        moment = season.answer(port, "anna", "GET", "/me")[1]["moment"]
    check("without --now the machine's clock counts", True, before <= moment <= int(time.time()))
    ends = ("1970-01-01T00:00:59", "1970-01-01T23:59:59", "1970-01-02T00:00:00", "1970-12-31T23:59:59",
            "1972-02-29T12:34:56", "2000-02-28T23:59:59", "2000-02-29T00:00:00", "2000-03-01T00:00:00",
            "2027-12-31T23:59:59", "2038-01-19T03:14:07", "2038-01-19T03:14:08", "2100-02-28T23:59:59",
            "2100-03-01T00:00:00", "2106-02-07T06:28:16", "2400-02-29T23:59:59", "2400-03-01T00:00:00",
            "9999-01-01T00:00:00")
    for at in ends:
        moment = int(datetime.datetime.fromisoformat(f"{at}+00:00").timestamp())
        game = season.seat(moment - 1, f"t{len(season.club.games)}", "tick", "anna", "bert")
        check(f"a deadline is printed as {at}Z", f"{at}Z", model.until(game.deadline()))
    for back in 31536001, 31536000, 31535999:
        season.seat(LAST_MOMENT - back, f"y{back}", "year", "bert", "anna")
    season.look("a year before the last second", LAST_MOMENT - 31535999)
    for back in 2, 1, 0:
        season.seat(LAST_MOMENT - back, f"t.{back}", "tick", "anna", "bert")
    season.look("the last second", LAST_MOMENT, [["games", "--event", "year"]])
    season.sweep(LAST_MOMENT)
    season.look("the last sweep", LAST_MOMENT)
    check("the other club is sound", (0, "sound\n", ""), season.give(LAST_MOMENT, ["verify"]))


def folder():
    return tempfile.TemporaryDirectory(dir=FAST)


def gone_through(parts):
    """Whether the parts came to their end; the error of one that did not is printed."""
    with folder() as room:
        season = Season(room)
        try:
            for part in parts:
                part(season)
        except FAILURES as error:
            check(f"the part {part.__name__} ends without an error", None, repr(error))
        season.is_silent()


def main():
    gone_through((opened, seated, in_blitz, rounds, challenged, offered, brought_in, arbitrated, analysed, ruled,
                  swept, refused, faulty))
    gone_through((calendar,))
    return exit_status()


if __name__ == "__main__":
    sys.exit(main())
