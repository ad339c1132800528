#!/usr/bin/env python3
"""The desk of the program, and a stand-in before it for the paths of the page that a program does not answer itself.

    python3 tests/page/page_desk.py PROGRAM FILE PORT [--now SECONDS]

serves the page at PORT to try it by hand. A `Desk` is `PROGRAM FILE serve`; what of GET /play, /me, /me/ended,
/me/events, /events/NAME/games, /events/NAME/standings, /games/ID/clock, /games/ID/page, /games/ID/record and POST
/analysis/KIND it refuses as no route is what it `lacks`. A desk without /me/ended has no positions in /me and no
deadlines in /events/NAME/games, either: then it lacks these, too. A `StandIn` answers these alone, from a copy of the
file that sqlite3 reads and by the word `export`, and hands all else on. Before it answers a path it asks the desk for a
game with the same key, so that an unknown key and a shut club are told as the
desk tells them.
"""
import argparse
import contextlib
import http.client
import http.server
import json
import os
import pathlib
import re
import shutil
import signal
import socket
import sqlite3
import subprocess
import sys
import tempfile
import time

TOP = pathlib.Path(__file__).resolve().parents[2]
sys.path.insert(1, str(TOP / "tests"))
from models import draughts, shogi  # noqa: E402
from models.standings import standings  # noqa: E402

PAGE = TOP / "page"
STATES = "open", "withdrawn", "refused", "accepted"
GAMES = "draughts", "shogi"
MOST_ENDED = 200
NAMES = {52: "UnknownEvent", 53: "UnknownGame", 73: "Store", 83: "WrongMethod"}
STATUSES = {52: 404, 53: 404, 73: 503, 83: 405}


class Refusal(Exception):
    """A refusal by its number."""


def free_port():
    with socket.socket() as free:
        free.bind(("127.0.0.1", 0))
        return free.getsockname()[1]


def stamps(paths):
    return [(it.stat().st_size, it.stat().st_mtime_ns) if it.exists() else None for it in paths]


@contextlib.contextmanager
def copied(file):
    """A connection to a copy of the file and of its log, both of one moment."""
    paths = [pathlib.Path(file + end) for end in ("", "-wal")]
    with tempfile.TemporaryDirectory() as room:
        copies = [f"{room}/c.db", f"{room}/c.db-wal"]
        before = None
        while before != stamps(paths):
            before = stamps(paths)
            for path, copy in zip(paths, copies):
                if path.exists():
                    shutil.copyfile(path, copy)
        with contextlib.closing(sqlite3.connect(copies[0])) as found:
            found.row_factory = sqlite3.Row
            yield found


class Club:
    """What the club's file holds, as the paths want it."""

    def __init__(self, found, key, now):
        self.found = found
        self.me = found.execute("SELECT id, name FROM members WHERE key = ?", (key,)).fetchone()
        self.members = dict(map(tuple, found.execute("SELECT id, name FROM members ORDER BY id")))
        self.events = {it["id"]: it for it in found.execute("SELECT * FROM events ORDER BY id")}
        self.moment = max(now, found.execute("SELECT last FROM meta").fetchone()[0])

    def sides(self, row):
        return self.members[row["first"]], self.members[row["second"]]

    def turn(self, row):
        return self.sides(row)[row["plies"] % 2]

    def deadline(self, row):
        return row["since"] + row[("left1", "left2")[row["plies"] % 2]]

    def running(self, row):
        first, second = self.sides(row)
        offer = None if row["offer_side"] is None else self.sides(row)[row["offer_side"]]
        event, turn = self.events[row["event"]]["name"], self.turn(row)
        last = self.found.execute("SELECT text FROM moves WHERE game = ? AND ply = ?", (row["id"], row["plies"])).fetchone()
        told = {"deadline": self.deadline(row), "event": event, "first": first, "game": row["id"], "kind": self.kind(row)}
        told |= {"last": last and last["text"], "offer": offer, "ply": row["plies"], "position": row["position"]}
        return {**told, "second": second, "turn": turn}

    def kind(self, row):
        return GAMES[self.events[row["event"]]["game"]]

    def ended(self):
        """The member's ended games, the latest first; the file has a timestamp of the ends that a move made."""
        rows = self.found.execute("""SELECT games.*, end NOT IN ('Resigned', 'Agreed', 'Time', 'Declared', 'Recorded') AS by_move
            FROM games WHERE end IS NOT NULL AND ? IN (first, second) ORDER BY id DESC""", (self.me["id"],)).fetchall()
        games = []
        for row in rows[:MOST_ENDED]:
            first, second = self.sides(row)
            games.append({"end": row["end"], "ended": row["since"] if row["by_move"] else None, "event": self.events[row["event"]]["name"],
                          "first": first, "game": row["id"], "kind": self.kind(row), "ply": row["plies"], "result": row["result"],
                          "second": second})
        return {"games": games, "member": self.me["name"], "moment": self.moment, "more": len(rows) - len(games)}

    def challenge(self, row):
        by, other = self.members[row["member"]], self.members[row["other"]]
        first, second = (by, other) if row["first"] else (other, by)
        told = {"event": self.events[row["event"]]["name"], "first": first, "from": by, "game": row["game"]}
        return {**told, "number": row["number"], "second": second, "state": STATES[row["state"]], "to": other}

    def own(self):
        games = "SELECT * FROM games WHERE end IS NULL AND ? IN (first, second) ORDER BY id"
        challenges = """SELECT * FROM challenges WHERE state = 0 AND ? IN (member, other) OR state = 3 AND member = ?
            ORDER BY member, number"""
        refused = "SELECT * FROM challenges WHERE state = 2 AND member = ? ORDER BY number DESC LIMIT 20"
        number = self.me["id"]
        return {
            "challenges": [self.challenge(it) for it in self.found.execute(challenges, (number, number))],
            "games": [self.running(it) for it in self.found.execute(games, (number,))],
            "member": self.me["name"],
            "moment": self.moment,
            "more": {"from": 0, "to": 0},
            "refused": [self.challenge(it) for it in self.found.execute(refused, (number,))],
        }

    def terms(self):
        kept = [(it["budget"], it["name"], GAMES[it["game"]], it["increment"]) for it in self.events.values()]
        events = [dict(zip(("budget", "event", "game", "increment"), it)) | {"open": True} for it in kept]
        return {"events": events, "members": [it for it in self.members.values() if it != self.me["name"]]}

    def rows_of(self, event):
        number = next((it["id"] for it in self.events.values() if it["name"] == event), None)
        if number is None:
            raise Refusal(52)
        return [*self.found.execute("SELECT * FROM games WHERE event = ? ORDER BY id", (number,))]

    def games_of(self, event):
        return {"games": [self.listed(it) for it in self.rows_of(event)]}

    def standings_of(self, event):
        rows = self.rows_of(event)
        games = [(*self.sides(it), it["result"]) for it in rows]
        kind = next(GAMES[it["game"]] for it in self.events.values() if it["name"] == event)
        return {"event": event, "kind": kind, "standings": standings([*self.members.values()], games)}

    def listed(self, row):
        first, second = self.sides(row)
        deadline, turn = (self.deadline(row), self.turn(row)) if row["end"] is None else (None, None)
        told = {"deadline": deadline, "end": row["end"], "first": first, "game": row["id"], "ply": row["plies"]}
        return {**told, "result": row["result"], "round": None, "second": second, "turn": turn}

    def clock(self, game):
        row = self.found.execute("SELECT * FROM games WHERE id = ?", (int(game),)).fetchone()
        if row is None:
            raise Refusal(53)
        runs = row["end"] is None
        left = [row["left1"], row["left2"]]
        now = left.copy()
        if runs:
            side = row["plies"] % 2
            now[side] = max(left[side] - (self.moment - row["since"]), 0)
        deadline, turn = (self.deadline(row), self.turn(row)) if runs else (None, None)
        told = {"deadline": deadline, "game": row["id"], "left": left, "moment": self.moment, "now": now}
        return {**told, "since": row["since"], "turn": turn}


# What answers a path: from the club and the part of the path that names something; /play and a record have no club.
PATHS = {
    r"/play": None,
    r"/me": lambda club: club.own(),
    r"/me/ended": lambda club: club.ended(),
    r"/me/events": lambda club: club.terms(),
    r"/events/([^/]+)/games": lambda club, event: club.games_of(event),
    r"/events/([^/]+)/standings": lambda club, event: club.standings_of(event),
    r"/games/([0-9]{1,9})/clock": lambda club, game: club.clock(game),
    r"/games/([0-9]{1,9})/page": None,
    r"/games/([0-9]{1,9})/record": None,
    r"/analysis/(draughts|shogi)": None,
}
NOT_HANDED_ON = "connection", "content-length", "content-type"


def pattern_of(path):
    return next((it for it in PATHS if re.fullmatch(it, path)), None)


class Answers(http.server.BaseHTTPRequestHandler):
    def reply(self, status, kind, body, fields=()):
        self.send_response(status)
        self.send_header("Content-Type", kind)
        self.send_header("Content-Length", str(len(body)))
        self.send_header("Connection", "close")
        for name, value in fields:
            self.send_header(name, value)
        self.end_headers()
        self.wfile.write(body)

    def reply_json(self, status, told, fields=()):
        self.reply(status, "application/json", json.dumps(told, separators=(",", ":")).encode(), fields)

    def ask_desk(self, method, path, body):
        """The desk's reply to the request: its status, its kind, its bytes and its further fields."""
        kept = {it: self.headers[it] for it in ("Member-Key", "Content-Type") if self.headers[it] is not None}
        with contextlib.closing(self.server.desk.connection()) as asked:
            asked.request(method, path, body, kept)
            got = asked.getresponse()
            fields = [it for it in got.getheaders() if it[0].lower() not in NOT_HANDED_ON]
            return got.status, got.headers["Content-Type"], got.read(), fields

    def record(self, game):
        ran = subprocess.run([*self.server.desk.words, "export", game], capture_output=True, check=False)
        if ran.returncode:
            raise Refusal(53 if ran.returncode == 1 else 73)
        self.reply(200, "text/plain", ran.stdout)

    def page(self, game):
        """What three paths of the desk answer, as one."""
        found = {}
        for name, path in ("clock", "/clock"), ("game", ""), ("legal", "/legal"):
            status, kind, body, _ = self.ask_desk("GET", f"/games/{game}{path}", None)
            if status != 200:
                return self.reply(status, kind, body)
            found[name] = json.loads(body)
        kind = GAMES["/" in found["game"]["position"]]
        return self.reply_json(200, {**found, "kind": kind, "legal": found["legal"]["moves"]})

    def analysis(self, kind, body):
        """A line of a game and the moves that are tried, by the models of the rules."""
        asked = json.loads(body)
        game = json.loads(self.ask_desk("GET", f"/games/{asked['game']}", None)[2])
        line, written = {"draughts": draughts, "shogi": shogi}[kind].Line(), []
        for text in game["moves"][:asked["ply"]]:
            line.push(line.read(text))
        for text in asked["moves"]:
            move = line.read(text)
            written.append(line.write(move))
            line.push(move)
        end = line.end()
        legal = [] if end else [line.write(it) for it in line.legal()]
        return self.reply_json(200, {"end": end and end[0], "legal": legal, "moves": written, "position": line.position_text()})

    def answer(self, pattern, body):
        if pattern.startswith("/analysis"):
            return self.analysis(*re.fullmatch(pattern, self.path).groups(), body)
        if self.command != "GET":
            raise Refusal(83)
        if pattern == "/play":
            policy = (PAGE / "policy.txt").read_text().strip()
            page = (PAGE / "play.html").read_bytes()
            return self.reply(200, "text/html; charset=utf-8", page, [("Content-Security-Policy", policy)])
        first = self.ask_desk("GET", "/games/1", None)
        if first[0] in (401, 503):
            return self.reply(*first)
        named = re.fullmatch(pattern, self.path).groups()
        if pattern.endswith("record"):
            return self.record(*named)
        if pattern.endswith("page"):
            return self.page(*named)
        with copied(self.server.desk.file) as found:
            club = Club(found, self.headers["Member-Key"], self.server.desk.now())
            return self.reply_json(200, PATHS[pattern](club, *named))

    def any_method(self):
        body = self.rfile.read(int(self.headers.get("Content-Length", 0)))
        pattern = pattern_of(self.path)
        try:
            if pattern in self.server.desk.lacks:
                return self.answer(pattern, body)
            return self.reply(*self.ask_desk(self.command, self.path, body))
        except Refusal as refusal:
            number = refusal.args[0]
            fields = [("Allow", "GET")] if number == 83 else []
            return self.reply_json(STATUSES[number], {"error": number, "name": NAMES[number]}, fields)
        except (OSError, http.client.HTTPException):
            return None  # the desk has ended, or the page has

    do_GET = do_POST = any_method

    def log_message(self, *words):
        """Nothing is logged."""


class Desk:
    """The program's desk over a file; `now` fixes the moment."""

    def __init__(self, program, file, now=None, port=None):
        self.file = os.path.abspath(file)
        self.words = [program, *(["--now", str(now)] if now else []), self.file]
        self.now = lambda: now or int(time.time())
        self.port = port or free_port()
        self.start()
        self.lacks = [it for it in PATHS if self.lacks_path(it)]
        if "/me/ended" in self.lacks:
            self.lacks += ["/me", r"/events/([^/]+)/games"]
        if os.environ.get("PAGE_OF_SOURCES"):
            self.lacks = ["/play", *(it for it in self.lacks if it != "/play")]

    def start(self):
        words = [*self.words, "serve", str(self.port)]
        self.process = subprocess.Popen(words, stdout=subprocess.PIPE, stderr=subprocess.DEVNULL)
        self.process.stdout.readline()

    def stop(self):
        self.process.kill()
        self.process.wait()
        self.process.stdout.close()

    def connection(self):
        return http.client.HTTPConnection("127.0.0.1", self.port, timeout=60)

    def lacks_path(self, pattern):
        """Whether a path of the pattern is no route of the desk, which says so before it looks at a key."""
        with contextlib.closing(self.connection()) as asked:
            asked.request("GET", re.sub(r"\((?:(\w+)\||).*\)", lambda it: it[1] or "1", pattern))
            return asked.getresponse().status == 404


class StandIn(http.server.ThreadingHTTPServer):
    """A server at a port, before a desk."""

    daemon_threads = True

    def __init__(self, desk, port=0):
        super().__init__(("127.0.0.1", port), Answers)
        self.desk, self.port = desk, self.server_address[1]


def main():
    words = argparse.ArgumentParser(description="Serves the page, and a club, at a port.")
    words.add_argument("program")
    words.add_argument("file")
    words.add_argument("port", type=int)
    words.add_argument("--now", type=int)
    given = words.parse_args()
    signal.signal(signal.SIGTERM, lambda *_: sys.exit(0))
    desk = Desk(given.program, given.file, given.now)
    try:
        with StandIn(desk, given.port) as server, contextlib.suppress(KeyboardInterrupt):
            print(f"http://127.0.0.1:{server.port}/play", flush=True)
            server.serve_forever()
    finally:
        desk.stop()


if __name__ == "__main__":
    main()
