"""Rows of a club that sqlite3 changes by a seed: `verify` says `sound` exactly of what may be a club.

`verdicts_on` says by docs/rules.md and docs/formats.md, over the rows that sqlite3 reads, what `verify` may print.
"""
import contextlib
import functools
import hashlib
import pathlib
import random
import re
import shutil
import sqlite3
import subprocess
import tempfile

from models import draughts, shogi
from fuzz.server import logged_server, order
from models.draughts import Refused
from fuzz.http import ask
from lib.club import RECORDS
from fuzz.requests import Request

COLUMNS = {
    "members": ("id", "name", "key"), "events": ("id", "name", "game", "budget", "increment"),
    "event_rules": ("event", "declares"),
    "challenges": ("member", "number", "event", "other", "first", "state", "game"),
    "moves": ("game", "ply", "text", "moment", "left", "position"),
    "games": ("id", "key", "event", "first", "second", "start", "since", "plies", "left1", "left2", "offer_side",
              "offer_ply", "end", "result", "position", "track_a", "track_b"),
    "seen": ("game", "position", "count", "first_ply"),
    "scores": ("event", "member", "opponent", "points", "wins", "draws", "losses"),
    "meta": ("id", "schema", "last"),
}
NULLABLE = {("challenges", "game"), *(("games", it) for it in ("key", "offer_side", "offer_ply", "end", "result"))}
TEXTS = {("members", "name"), ("members", "key"), ("events", "name"), ("moves", "text"), ("moves", "position"),
         ("seen", "position"), *(("games", it) for it in ("key", "end", "result", "position"))}
NAME, KEY = re.compile(r"[A-Za-z0-9._-]{1,24}"), re.compile(r"[A-Za-z0-9]{8,64}")
LAST_MOMENT = 253402300799
LARGEST = 2 ** 63 - 1
RULES = draughts, shogi
MEMBERS = ("anna", "keyanna1"), ("bert", "keybert2"), ("cara", "keycara3")
POINTS = {"2-0": (2, 0), "1-1": (1, 1), "0-2": (0, 2)}


# ---- what verify must say

@functools.lru_cache(maxsize=4096)
def replayed(game, texts):
    """The line of stored moves and the position after each; None where the moves are not those of a game."""
    line, positions = RULES[game].Line(), []
    for text in texts:
        try:
            move = line.read(text)
        except Refused:
            return None
        if line.end() or line.write(move) != text:
            return None
        line.push(move)
        positions.append(line.position_text())
    return line, positions


def is_numbered(some, most):
    return len(some) <= most and sorted(it["id"] for it in some) == list(range(1, len(some) + 1))


def is_typed(table, row):
    """Whether each value is a whole number or a text, as its column is, or null where that may be."""
    return all(type(value) is (str if (table, name) in TEXTS else int) or value is None and (table, name) in NULLABLE
               for name, value in row.items())


class Audit:
    """The rows of a club, each a map from its columns."""

    def __init__(self, rows):
        self.rows = {table: [dict(zip(COLUMNS[table], row)) for row in rows[table]] for table in COLUMNS}
        self.members, self.events, self.games = (
            {it["id"]: it for it in self.rows[table]} for table in ("members", "events", "games"))
        self.moves = {}
        for move in self.rows["moves"]:
            self.moves.setdefault(move["game"], []).append(move)
        for moves in self.moves.values():
            moves.sort(key=lambda it: it["ply"] if type(it["ply"]) is int else 0)

    def verdicts(self):
        """What verify says: the first table that is wrong."""
        meta = self.rows["meta"]
        number = meta[0]["schema"] if [it["id"] for it in meta] == [1] else None
        if type(number) is int and number != 2:
            return ["store 70 Foreign" if number == 1 else f"store 71 Schema {number}"]
        wrong = [table for table in COLUMNS if self.is_wrong(table)]
        return [f"store 72 Damaged {table}" for table in wrong[:1]] or ["sound"]

    def is_wrong(self, table):
        """Rows that cannot be read for what another table lacks are wrong with that."""
        try:
            return not self.are_typed(table) or not getattr(self, f"are_{table}_good")()
        except (KeyError, TypeError, IndexError):
            return True

    def are_typed(self, table):
        return all(is_typed(table, row) for row in self.rows[table])

    def are_members_good(self):
        rows = self.rows["members"]
        return is_numbered(rows, 200) and all(NAME.fullmatch(it["name"]) and KEY.fullmatch(it["key"]) for it in rows)

    def are_events_good(self):
        rows = self.rows["events"]
        return is_numbered(rows, 50) and all(
            NAME.fullmatch(it["name"]) and it["game"] in (0, 1) and 1 <= it["budget"] <= 31536000
            and 0 <= it["increment"] <= 2592000 for it in rows)

    def are_event_rules_good(self):
        rows = self.rows["event_rules"]
        return (sorted(it["event"] for it in rows) == sorted(self.events)
                and all(it["declares"] in (0, 1) for it in rows))

    def may_declare(self, event, line):
        rules = {it["event"]: it["declares"] for it in self.rows["event_rules"]}
        return (rules.get(event) == 1 and self.events[event]["game"] == 1
                and shogi.may_declare(line.position))

    def are_challenges_good(self):
        return all(self.is_challenge_good(it) for it in self.rows["challenges"])

    def is_challenge_good(self, it):
        if not (it["member"] in self.members and it["other"] in self.members and it["member"] != it["other"]
                and it["event"] in self.events and 1 <= it["number"] <= 9999 and it["first"] in (0, 1)
                and it["state"] in (0, 1, 2, 3) and (it["game"] is not None) == (it["state"] == 3)):
            return False
        sides = (it["member"], it["other"]) if it["first"] else (it["other"], it["member"])
        game = self.games.get(it["game"])
        found = bool(game) and (game["event"], game["first"], game["second"])
        return it["state"] != 3 or found == (it["event"], *sides)

    def line_of(self, game):
        return replayed(self.events[game["event"]]["game"], tuple(it["text"] for it in self.moves.get(game["id"], ())))

    def are_moves_good(self):
        return all(number in self.games for number in self.moves) and all(
            self.are_moves_of(game) for game in self.games.values()
            if game["event"] in self.events and is_typed("games", game))

    def are_moves_of(self, game):
        event, moves, found = self.events[game["event"]], self.moves.get(game["id"], []), self.line_of(game)
        if not found or [it["ply"] for it in moves] != list(range(1, len(moves) + 1)):
            return False
        left, before = [event["budget"]] * 2, game["start"]
        for move, position in zip(moves, found[1]):
            side = (move["ply"] - 1) % 2
            spent = move["moment"] - before
            if not 0 <= spent <= left[side]:
                return False
            left[side] += event["increment"] - spent
            before = move["moment"]
            if (move["left"], move["position"]) != (left[side], position):
                return False
        return True

    def are_games_good(self):
        return is_numbered(self.rows["games"], 5000) and all(self.is_game_good(it) for it in self.rows["games"])

    def is_game_good(self, it):
        if not (it["event"] in self.events and it["first"] in self.members and it["second"] in self.members
                and it["first"] != it["second"] and 0 <= it["start"] <= LAST_MOMENT
                and (it["key"] is None or NAME.fullmatch(it["key"]))):
            return False
        moves, (line, _) = self.moves.get(it["id"], []), self.line_of(it)
        left = [self.events[it["event"]]["budget"]] * 2
        for move in moves:
            left[(move["ply"] - 1) % 2] = move["left"]
        since = moves[-1]["moment"] if moves else it["start"]
        given = since, len(moves), *left, line.position_text(), *line.track()
        stored = tuple(it[name] for name in ("since", "plies", "left1", "left2", "position", "track_a", "track_b"))
        return given == stored and self.is_offer_good(it, line) and self.is_end_good(it, line, moves)

    def is_offer_good(self, it, line):
        if it["offer_side"] is None:
            return it["offer_ply"] is None
        return (it["offer_side"] in (0, 1) and it["offer_ply"] == len(line.moves) + 1 and not line.end()
                and self.events[it["event"]]["game"] == 0)

    def is_end_good(self, it, line, moves):
        stored = it["end"], it["result"]
        if line.end():
            return stored == line.end()
        mover_loses = ("0-2", "2-0")[len(moves) % 2]
        if stored in ((None, None), ("Resigned", mover_loses), ("Time", mover_loses)):
            return True
        if it["end"] == "Declared":
            wins = ("2-0", "0-2")[len(moves) % 2]
            return it["result"] == wins and self.may_declare(it["event"], line)
        if it["end"] == "Agreed":
            return it["result"] == "1-1" and it["offer_side"] is not None
        return (it["end"] == "Recorded" and it["result"] in POINTS and it["key"] is not None
                and it["offer_side"] is None and all(move["moment"] == it["start"] for move in moves))

    def are_seen_good(self):
        expected = [(number, position, *counted) for number, game in self.games.items()
                  for position, counted in self.line_of(game)[0].seen.items()]
        return sorted(expected) == sorted(tuple(it.values()) for it in self.rows["seen"])

    def are_scores_good(self):
        met = {}
        for game in self.games.values():
            if game["end"] is not None:
                sides = game["first"], game["second"]
                for side in (0, 1):
                    pair = game["event"], sides[side], sides[1 - side]
                    met.setdefault(pair, []).append(POINTS[game["result"]][side])
        expected = [(*pair, sum(it), it.count(2), it.count(1), it.count(0)) for pair, it in met.items()]
        return sorted(expected) == sorted(tuple(it.values()) for it in self.rows["scores"])

    def are_meta_good(self):
        meta = self.rows["meta"]
        if [it["id"] for it in meta] != [1]:
            return False
        last = meta[0]["last"]
        late = [it["since"] + it[("left1", "left2")[it["plies"] % 2]]
                for it in self.games.values() if it["end"] == "Time"]
        stored = [it["since"] for it in self.games.values()]
        return 0 <= last <= LAST_MOMENT and all(it <= last for it in stored) and all(it < last for it in late)


def read_rows(found):
    return {table: found.execute(f"SELECT {', '.join(map(quoted, columns))} FROM {table}").fetchall()
            for table, columns in COLUMNS.items()}


def quoted(name):
    return f'"{name}"'


def verdicts_on(rows):
    return Audit(rows).verdicts()


# ---- a club with all that a club has

def made(program, file):
    """A club with games of both kinds, running and ended in each way, and challenges in each state."""
    order(program, file, 1000, "init")
    for member in MEMBERS:
        order(program, file, 1000, "member", *member)
    for event in (("autumn", "draughts", 86400, 5), ("fuji", "shogi", 5000, 0), ("short", "draughts", 60, 0)):
        order(program, file, 1000, "event", *event)
    for number, words in enumerate(("autumn anna bert", "autumn bert cara", "fuji anna cara", "short anna bert",
                                    "autumn cara anna", "fuji bert anna"), 1):
        order(program, file, 1000, "seat", f"g{number}", *words.split())
    for record in ("evening.pdn", "draw.pdn", "fourfold.csa", "perpetual.csa", "checkmate.csa", "resigned.csa"):
        name, kind = record.split(".")
        event = {"pdn": "autumn", "csa": "fuji"}[kind]
        order(program, file, 1500, f"import-{kind}", name, event, "bert", "cara", RECORDS / record)
    order(program, file, 1700, "sweep")
    for moment, asked in ((1800, MOVED), (2000, ASKED)):
        with logged_server(file, moment) as server:
            for key, path, body in asked:
                got = ask(server.port, [Request("POST", path, body, key).data()], False)
                assert got.startswith(b"HTTP/1.1 200 "), (path, got)


def moves(game, texts, *keys):
    """The requests of two players in turn."""
    return [(keys[at % 2], f"/games/{game}/moves/{at + 1}", f'{{"move":"{text}"}}') for at, text in enumerate(texts)]


MOVED = (
    *moves(1, ("32-28", "19-23", "28x19", "14x23"), "keyanna1", "keybert2"), *moves(5, ["33-29"], "keycara3"),
    *moves(3, ("7g7f", "3c3d", "8h2b+", "3a2b", "B*4e"), "keyanna1", "keycara3"),
)
ASKED = (
    ("keyanna1", "/games/1/moves/5", '{"move":"37-32"}'), ("keybert2", "/games/1/draw/6/offer", ""),
    ("keybert2", "/games/2/draw/1/offer", ""), ("keycara3", "/games/2/draw/1/accept", ""),
    ("keyanna1", "/games/5/resign", ""),
    ("keyanna1", "/challenges/1", '{"event":"autumn","first":true,"other":"bert"}'),
    ("keyanna1", "/challenges/2", '{"event":"fuji","first":false,"other":"cara"}'),
    ("keyanna1", "/challenges/9999", '{"event":"short","first":true,"other":"bert"}'),
    ("keybert2", "/challenges/1", '{"event":"autumn","first":false,"other":"cara"}'),
    ("keyanna1", "/challenges/1/withdraw", ""), ("keycara3", "/answers/anna/2", '{"accept":true}'),
    ("keybert2", "/answers/anna/9999", '{"accept":false}'),
)


# ---- changes

def number_near(chance, rows, table, at, value):
    others = [row[at] for row in rows[table]] + [row[0] for row in rows[chance.choice(list(rows))]]
    return chance.choice((
        (value or 0) + 1, (value or 0) - 1, -(value or 0), 0, 1, 2, -1, 3, chance.choice(others), chance.choice(others),
        (value or 0) + chance.randint(-100, 100), LARGEST, -LARGEST - 1, 2 ** 32, 2 ** 31 - 1, 10 ** 9,
        *(it + one for it in (24, 50, 200, 600, 5000, 9999, 2592000, 31536000, LAST_MOMENT) for one in (0, 1)),
        *(it for it in (1000, 1060, 1061, 1500, 1700, 2000, 1999, 2001))))


def text_near(chance, rows, table, at, value):
    value = value or ""
    place = chance.randint(0, len(value))
    others = [row[at] for row in rows[table] if row[at] is not None] or [""]
    return chance.choice((
        chance.choice(others), chance.choice(others), value[:place] + value[place + 1:],
        value + chance.choice("x \0\u00e9.-"), value[:place] + chance.choice("1aK+ ,:x/\n") + value[place:],
        value.swapcase(), "", value[::-1], value * 2, f"0{value}", "a" * 24, "a" * 25, "b" * 64, "b" * 65, "abcdefg",
        "abcdefgh", "Resigned", "Agreed", "Time", "Declared", "Recorded", "NoMove", "Repetition", "PlyLimit", "Fourfold", "2-0",
        "1-1", "0-2", "1-0", "*", "32-28", "28:19", "7g7f", "-", "NULL"))


ODD = None, 1.5, -0.5, "x", "", "1x", b"x", b"", 1e300, "Infinity", 0.1


def change_type(chance, rows, table):
    """A cell with a value of another type, for tables that are not strict."""
    at = chance.randrange(len(COLUMNS[table]))
    where, value = where_of(chance, rows, table, at)
    new = chance.choice((*ODD, value if value is None else str(value).encode()))
    return f"UPDATE {table} SET {quoted(COLUMNS[table][at])} = ? WHERE {where}", (new,)


def change_cell(chance, rows, table):
    """The text of SQL that gives one cell of a row another value."""
    at = chance.randrange(len(COLUMNS[table]))
    name = COLUMNS[table][at]
    where, value = where_of(chance, rows, table, at)
    if (table, name) in NULLABLE and chance.random() < 0.3:
        new = None
    elif (table, name) in TEXTS:
        if chance.random() < 0.04:
            odd = f"CAST(X'{chance.randbytes(3).hex()}ff' AS TEXT)"
            return f"UPDATE {table} SET {quoted(name)} = {odd} WHERE {where}", ()
        new = text_near(chance, rows, table, at, value)
    else:
        new = number_near(chance, rows, table, at, value)
    return f"UPDATE {table} SET {quoted(name)} = ? WHERE {where}", (new,)


def where_of(chance, rows, table, at):
    """What names a row, by its place in the table, and its value in a column."""
    if not rows[table]:
        return "0", None
    row = chance.randrange(len(rows[table]))
    return f"rowid = (SELECT rowid FROM {table} LIMIT 1 OFFSET {row})", rows[table][row][at]


def drop_row(chance, rows, table):
    return f"DELETE FROM {table} WHERE {where_of(chance, rows, table, 0)[0]}", ()


def double_row(chance, rows, table):
    """A row once more, with another value in one column of those that its key has."""
    where, _ = where_of(chance, rows, table, 0)
    changed = {0: number_near(chance, rows, table, 0, len(rows[table]))}
    if table in ("members", "events"):
        changed[1] = chance.choice(("dora", "emil", "winter"))
    if table == "members":
        changed[2] = "keydora4"
    if table == "games":
        changed[1] = chance.choice((None, "other"))
    if table in ("challenges", "moves", "scores") and chance.random() < 0.7:
        changed = {1: number_near(chance, rows, table, 1, 1)}
    if table == "seen":
        changed = {1: text_near(chance, rows, table, 1, "")} if chance.random() < 0.5 else changed
    names = [quoted(name) for name in COLUMNS[table]]
    cells = ["?" if at in changed else name for at, name in enumerate(names)]
    return (f"INSERT INTO {table} ({', '.join(names)}) SELECT {', '.join(cells)} FROM {table} WHERE {where}",
            tuple(changed[at] for at in sorted(changed)))


FULL = {"members": ("INSERT INTO members SELECT n, 'm' || n, 'keymember' || n FROM numbers", 200),
        "events": ("INSERT INTO events SELECT n, 'e' || n, n % 2, n, n FROM numbers", 50)}


RULES_OF_ALL = "INSERT INTO event_rules SELECT id, id % 2 FROM events WHERE id NOT IN (SELECT event FROM event_rules)"


def fill(chance, rows, table):
    """A table with as many rows as it may have, or one fewer or more, and rules for each event."""
    insert, most = FULL[table]
    numbers = (len(rows[table]) + 1, most + chance.choice((-1, 0, 1)))
    counted = "WITH RECURSIVE numbers(n) AS (SELECT ? UNION ALL SELECT n + 1 FROM numbers WHERE n < ?)"
    return [(f"{counted} {insert}", numbers), (RULES_OF_ALL, ())]


def change(chance, rows, is_loose):
    """The texts of SQL that change something, each with its values."""
    if chance.random() < 0.02:
        return fill(chance, rows, chance.choice(list(FULL)))
    table = chance.choice((*COLUMNS, "games", "games", "moves", "challenges"))
    kinds = (change_cell,) * 8 + (drop_row, double_row) + (change_type,) * (10 if is_loose else 0)
    return [chance.choice(kinds)(chance, rows, table)]


def loosened(base, file):
    """A copy of a club whose tables take values of other types, and null only where a club's do."""
    shutil.copyfile(base, file)
    with contextlib.closing(opened(file)) as found:
        for table in COLUMNS:
            made_by, = found.execute("SELECT sql FROM sqlite_master WHERE name = ?", (table,)).fetchone()
            found.execute(f"ALTER TABLE {table} RENAME TO old_table")
            found.execute(made_by.replace(" STRICT", ""))
            found.execute(f"INSERT INTO {table} SELECT * FROM old_table")
            found.execute("DROP TABLE old_table")


def sum_of(file):
    return hashlib.sha256(pathlib.Path(file).read_bytes()).hexdigest()


def run(test):
    """Changes until the time is over."""
    verdicts = {}
    with tempfile.TemporaryDirectory() as room:
        base, loose, file = f"{room}/base.db", f"{room}/loose.db", f"{room}/c.db"
        made(test.program, base)
        with contextlib.closing(opened(base)) as found:
            rows = read_rows(found)
        loosened(base, loose)
        test.check(verdicts_on(rows) == ["sound"], "the club to begin with", "sound", verdicts_on(rows))
        index = 0
        while index < 2 or not test.is_over():
            chance = random.Random(f"{test.seed} rows {index}")
            pathlib.Path(f"{file}-wal").unlink(missing_ok=True)
            is_loose = chance.random() < 0.3
            shutil.copyfile(loose if is_loose else base, file)
            changes = chance.choice((0, 1, 1, 1, 1, 1, 1, 1, 2, 3))
            given = [words for _ in range(changes) for words in change(chance, rows, is_loose)]
            printed = case(test, f"change {index}", file, given)
            printed = printed.removeprefix("store ") if "Schema" not in printed else "71 Schema"
            verdicts[printed] = verdicts.get(printed, 0) + 1
            index += 1
    return "rows changed: " + ", ".join(f"{count} {printed}" for printed, count in sorted(verdicts.items()))


def opened(file):
    found = sqlite3.connect(file, isolation_level=None)
    found.text_factory = lambda data: data.decode(errors="surrogateescape")
    return found


def case(test, name, file, given):
    """What verify must say of a file that was changed so, and whether it does."""
    with contextlib.closing(opened(file)) as found:
        done = []
        for words in given:
            with contextlib.suppress(sqlite3.IntegrityError):
                found.execute(*words)
                done.append(words)
        expected = verdicts_on(read_rows(found))
    before = sum_of(file)
    ran = subprocess.run([test.program, file, "verify"], capture_output=True, timeout=60)
    printed = (ran.stdout + ran.stderr).decode(errors="replace").removesuffix("\n")
    is_good = ran.stdout == b"" if printed != "sound" else ran.stderr == b""
    test.check(is_good and printed in expected and ran.returncode == (0 if printed == "sound" else 3), name, expected,
               (ran.returncode, ran.stdout, ran.stderr), done)
    test.check(before == sum_of(file), f"{name}: the file's bytes", "as before", "others", done)
    return printed
