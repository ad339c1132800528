#!/usr/bin/env python3
"""Checks docs/openapi.json against a running server, route by route.

    python3 tests/server/openapi.py

The test makes a club, calls each operation with good and bad requests, and validates each reply: its status, its header
fields and its body. It then checks that every documented reply was received, that the routes are those of the server's
table and of docs/http.md, and that changed copies of the description fail.
"""
import contextlib
import copy
import json
import pathlib
import re
import subprocess
import sys
import tempfile

sys.path[0] = str(pathlib.Path(__file__).resolve().parents[1])
from lib.club import DATA, FAST, LAST_MOMENT, RECORDS, TOP, change, club, create
from lib.openapi import Description, Invalid, alternatives_of, require, structure_problems
from lib.report import check, exit_status, result
from lib.server import KEYS, serve
from models import shogi
from models.club import NAMES, status_of
from models.routes import ROUTES

DESCRIPTION = TOP / "docs/openapi.json"
NOW, BUDGET, SHORT = 2000, 86400, 60  # the server's timestamp; the budgets of the events, of which one is used up
FAULTS = {  # what is done to a club's file so that each request fails
    70: lambda file: change(file, "DROP TABLE seen"),
    71: lambda file: change(file, "UPDATE meta SET schema = 3"),
    72: lambda file: change(file, "INSERT INTO members VALUES (2, '', 'keybert2')"),
    73: lambda file: pathlib.Path(file).write_text("a letter to the members\n" * 400),
}
NUMBERS = "id", "ply", "number"  # parameters of paths
LAST_MOVES = "fourfold", "checkmate", "perpetual"  # records of games that the last move ends
# Documented errors that no request of this test brings about, and why.
NOT_SEEN = {
    74: "the server reopens the file before the next request",
    75: "an allocation must fail: tests/server/unavailable.py makes it fail",
}
# Alternatives of schemas that no request of this test brings about, and why.
ALTERNATIVES_NOT_SEEN = {
    **{f"{of}={it}": "needs a long endgame of kings" for of in ("RuleEnd", "End")
       for it in ("Repetition", "KingMoves", "ThreeToOne", "TwoToOne")},
    **{f"{of}=PlyLimit": "needs 600 plies: tests/games/long.py plays them" for of in ("RuleEnd", "End")},
    "Declared/properties/result=0-2": "needs a king of Second that has entered",
}


class Calls:
    """Sends requests to servers, and keeps the replies."""

    def __init__(self, description):
        self.description, self.exchanges, self.problems, self.counts = description, [], {}, {}
        self.server = None

    def send(self, name, head, body=b"", expected=None):
        """Sends bytes for an operation, validates the reply and returns its body."""
        has_body = not head.startswith(b"HEAD ")
        raw = self.server.send(head + body)
        self.exchanges.append((name, body, raw, has_body))
        self.counts[name] = self.counts.get(name, 0) + 1
        try:
            status, text = self.description.take(name, body, raw, has_body)
            found = json.loads(text).get("error", 200) if text[:1] == b"{" else status
            require(expected in (None, found), "expected", expected, "and got", found)
        except Invalid as why:
            self.problems.setdefault(name, []).append(f"{head[:60]} {body[:60]}: {why} {raw[-120:]}")
        return raw.partition(b"\r\n\r\n")[2]

    def path(self, name, values):
        path = self.description.operations[name][0]
        for parameter in re.findall(r"{(\w+)}", path):
            path = path.replace(f"{{{parameter}}}", str(values[parameter]))
        return path

    def call(self, name, /, expected=200, key="anna", body=None, method=None, fields=("Host: a",), length=True,
             **values):
        """Calls an operation with values for its path. `key` is a member's name or another key, `body` data or bytes.

        `expected` is 200, an error number, or None if any documented reply will do.
        """
        method = method or self.description.operations[name][1].upper()
        data = body if isinstance(body, bytes) else b"" if body is None else json.dumps(body).encode()
        lines = [f"{method} {self.path(name, values)} HTTP/1.1", *fields]
        if key:
            lines.append(f"Member-Key: {KEYS.get(key, key)}")
        if length and (method == "POST" or data):
            lines.append(f"Content-Length: {len(data)}")
        return self.send(name, "\r\n".join([*lines, "", ""]).encode(), data, expected)


def refused_lines():
    for line in (DATA / "refused_moves.txt").read_text().splitlines():
        if not line.startswith("#"):
            head, moves, text = line.split(":")
            number, game = head.split()
            yield int(number), game, moves.split(), text.strip()


def moves_of(name):
    """The moves of a record of shogi."""
    return shogi.read_records((RECORDS / f"{name}.csa").read_bytes())[0][0]


class Orders:
    """The text of a batch that makes a club; games are numbered in order."""

    def __init__(self):
        self.lines, self.games = [], 0

    def add(self, *lines):
        self.lines += lines

    def seat(self, event, moves=()):
        """A game under the key of a round robin, so that it has a round."""
        self.games += 1
        self.add(f"seat g{self.games}.1 {event} anna bert")
        self.add(*(f"move {self.games} {ply} {text}" for ply, text in enumerate(moves, 1)))
        return self.games

    def bring(self, command, event, record):
        self.games += 1
        self.add(f"{command} g{self.games} {event} anna bert {RECORDS / record}")


def make_club(file):
    """Makes a club, and returns the ids of its games by their purpose."""
    orders = Orders()
    orders.add(*(f"member {it} {KEYS[it]}" for it in ("anna", "bert", "cara")), f"event autumn draughts {BUDGET} 5",
               f"event fuji shogi {BUDGET} 0", f"event short draughts {SHORT} 0", "event empty shogi 60 0")
    ids = {name: orders.seat("autumn") for name in ("plain", "draw", "resigned", "offered")}
    ids |= {name: orders.seat("short") for name in ("late", "claimed")}
    ids["claimed_by_first"] = orders.seat("short", ["32-28"])
    ids["late_shogi"] = orders.seat("fuji")
    ids["entered"] = orders.seat("fuji", moves_of("entered"))
    ids |= {name: orders.seat("fuji", moves_of(name)[:-1]) for name in LAST_MOVES}
    for number, game, moves, _ in refused_lines():
        ids[number] = orders.seat({"draughts": "autumn", "shogi": "fuji"}[game], moves)
    for command, event, records in (("import-pdn", "autumn", "draw.pdn returns.pdn"),
                                    ("import-csa", "fuji", "checkmate.csa resigned.csa perpetual.csa")):
        for record in records.split():
            orders.bring(command, event, record)
    pathlib.Path("orders").write_text("\n".join(orders.lines) + "\n")
    check("a club is created", (0, "ready"), club(file, "init"))
    status, printed = club(file, "batch", "orders")
    result(status == 0, "the members, events and games of the club are accepted",
           *[it for it in printed.splitlines() if " accepted " not in it][:5])
    return ids


def samples(description, ids):
    """Values for the path of each operation."""
    values = {"id": ids["plain"], "ply": 1, "name": "autumn", "number": 1, "member": "anna"}
    return {name: {it: values[it] for it in re.findall(r"{(\w+)}", path)}
            for name, (path, _, _) in description.operations.items()}


def call_with_bad_heads(calls, name, values):
    """The refusals of the head, the path, the method and the key, and a reply to HEAD."""
    path, method, operation = calls.description.operations[name]
    other = {"get": "POST", "post": "GET"}[method]
    calls.call(name, 83, method=other, **values)
    calls.call(name, 83, method="PUT", **values)
    calls.call(name, None, method="HEAD", **values)
    calls.call(name, 88, fields=(), **values)
    calls.call(name, 88, fields=("Host: a", "Host: a"), **values)
    calls.call(name, 87, fields=("Host: a", "Transfer-Encoding: chunked"), length=False, **values)
    calls.call(name, 80, fields=("Host: a", "Content-Length: x"), length=False, **values)
    calls.call(name, 80, fields=("Host: a", "Content-Length: 1", "Content-Length: 1"), length=False, **values)
    calls.call(name, 85, fields=("Host: a", "Content-Length: 65537"), length=False, **values)
    calls.call(name, 86, fields=("Host: a", f"X: {'a' * 16384}"), **values)
    if method == "post":
        calls.call(name, 84, length=False, **values)
    if path != "/play":
        for key in ("nobody77", None, "keyanna1\r\nMember-Key: keyanna1", "x"):
            calls.call(name, 50, key=key, **values)
    for parameter in values:
        for value in ("1234567890", "one", "-1", "") if parameter in NUMBERS else ("",):
            calls.call(name, 82, **values | {parameter: value})
        if parameter == "id":
            for value in (0, 5000, 999999999):
                body = {"move": "32-28"} if "requestBody" in operation else None
                calls.call(name, 53, body=body, **values | {"id": value})
        if parameter == "name":
            calls.call(name, 52, **values | {"name": "winter"})


def call_with_bad_bodies(calls, name, values, good):
    """Bodies that are no JSON or no object, or in which a member is missing or has another type."""
    for data in (b"", b"no JSON", b"[]", b"7", b"null", b"\xff", b'{"' * 3):
        calls.call(name, 81, body=data, **values)
    for member in good:
        bodies = [{it: of for it, of in good.items() if it != member}]
        other = True if isinstance(good[member], str) else "yes"
        bodies += [good | {member: it} for it in (None, 7, [], {}, other)]
        for data in bodies:
            calls.call(name, 81, body=data, **values)


def ask(calls, ids):
    """Queries, in every state of a game."""
    for number in sorted(set(ids.values())) + [max(ids.values()) + it for it in range(1, 6)]:
        for name in ("getGame", "listLegalMoves", "getClock", "getRecord", "getGamePage"):
            calls.call(name, id=number)
    calls.call("getGame", key="cara", id="000000001")
    for event in ("autumn", "fuji", "short", "empty"):
        calls.call("getTable", name=event)
        calls.call("listEventGames", name=event)
        calls.call("getStandings", name=event)
    for member in ("anna", "bert", "cara"):
        calls.call("getMe", key=member)
        calls.call("listEndedGames", key=member)
        calls.call("listEvents", key=member)
    calls.call("getPage", key=None)


def analyse(calls, ids):
    """Moves that are tried: from each start, and each refusal."""
    def tried(expected, kind, body, key="anna"):
        return calls.call(f"analyse{kind.title()}", expected, key, body)

    starts = {"draughts": (ids["plain"], "W:WK47:BK4", "W:W33:BK1."),
              "shogi": (ids["late_shogi"], "k8/9/1G7/9/9/9/9/9/K8 b G", "k8/9/9/9/9/9/9/9/K7K b -")}
    for kind, (game, position, unread) in starts.items():
        for body in (b"", b"no JSON", b"[]", b"\xff", {}, *({"moves": it} for it in (None, 7, {}, "x", ["x", 1]))):
            tried(81, kind, body)
        for body in ({}, {"position": position}, {"game": game, "ply": 0}):
            tried(200, kind, body | {"moves": []})
        other = next(it for of, (it, _, _) in starts.items() if of != kind)
        for number in (0, 5000, other):
            tried(53, kind, {"game": number, "ply": 0, "moves": []})
        tried(65, kind, {"game": game, "ply": 600, "moves": []})
        tried(65, kind, {"moves": ["x"] * 65})
        tried(65, kind, {"moves": ["3" * 201]})
        tried(30 if kind == "shogi" else 20, kind, {"position": unread, "moves": []})
        for body in ({"position": 1}, {"position": position, "game": game, "ply": 0}, {"game": game}, {"ply": 0}):
            tried(81, kind, body | {"moves": []})
    for number, kind, moves, text in refused_lines():
        tried(number, kind, {"moves": [*moves, text]})
    tried(200, "draughts", {"position": "B:W33:B", "moves": []})
    tried(200, "shogi", {"position": starts["shogi"][1], "moves": ["G*9b"]})
    tried(56, "draughts", {"position": "B:W33:B", "moves": ["1-6"]})
    tried(56, "shogi", {"position": starts["shogi"][1], "moves": ["G*9b", "9a8a"]})


def play(calls, ids):
    game = ids["plain"]

    def move(expected, key, number, ply, text):
        return calls.call("makeMove", expected, key, {"move": text}, id=number, ply=ply)

    call_with_bad_bodies(calls, "makeMove", {"id": game, "ply": 1}, {"move": "32-28"})
    for number, _, moves, text in refused_lines():
        move(number, ("anna", "bert")[len(moves) % 2], ids[number], len(moves) + 1, text)
    move(55, "cara", game, 1, "32-28")
    move(57, "anna", game, 0, "32-28")
    move(57, "anna", game, 2, "32-28")
    move(59, "bert", game, 1, "32-28")
    move(65, "anna", game, 1, "3" * 201)
    first = move(200, "anna", game, 1, "32-28")
    result(first == move(200, "anna", game, 1, "32-28"), "a repeated move has the same bytes")
    calls.call("makeMove", 200, "anna", {"move": "32-28", "clock": [1]}, id=game, ply=1)
    move(58, "anna", game, 1, "31-27")
    move(58, "bert", game, 1, "32-28")
    move(60, "anna", ids["late"], 1, "32-28")
    move(200, "anna", ids["late_shogi"], 1, "7g7f")
    calls.call("makeMove", 200, "anna", b'{"move":"x","move":"32-28"}', id=game, ply=1)
    for name in LAST_MOVES:
        moves = moves_of(name)
        move(200, ("bert", "anna")[len(moves) % 2], ids[name], len(moves), moves[-1])
        move(56, ("anna", "bert")[len(moves) % 2], ids[name], len(moves) + 1, "2h3h")


def end_games(calls, ids):
    game, shogi_game = ids["draw"], ids["late_shogi"]
    for name in ("offerDraw", "acceptDraw"):
        calls.call(name, 55, "cara", id=game, ply=1)
        calls.call(name, 63, id=shogi_game, ply=1)
        calls.call(name, 57, id=game, ply=2)
    calls.call("acceptDraw", 62, "bert", id=game, ply=1)
    calls.call("offerDraw", id=game, ply=1)
    calls.call("offerDraw", 58, "bert", id=game, ply=1)
    calls.call("offerDraw", id=ids["offered"], ply=1)
    calls.call("getGame", id=game)
    calls.call("getMe", key="bert")
    calls.call("acceptDraw", key="bert", id=game, ply=1)
    calls.call("acceptDraw", key="bert", id=game, ply=1)
    for name in ("offerDraw", "acceptDraw"):
        calls.call(name, 56, id=ids["resigned"], ply=1)
    for name in ("resign", "claimTime"):
        calls.call(name, 55, "cara", id=ids["plain"])
        calls.call(name, 56, id=game)
    calls.call("resign", 59, "anna", id=ids["plain"])
    calls.call("resign", key="bert", id=ids["plain"])
    calls.call("claimTime", 59, "anna", id=ids["claimed"])
    calls.call("claimTime", 61, "bert", id=ids["offered"])
    calls.call("claimTime", key="bert", id=ids["claimed"])
    calls.call("claimTime", key="anna", id=ids["claimed_by_first"])
    calls.call("makeMove", 56, "anna", {"move": "32-28"}, id=game, ply=1)
    entered = ids["entered"]
    calls.call("declare", 55, "cara", id=entered, ply=83)
    calls.call("declare", 57, id=entered, ply=82)
    calls.call("declare", 59, "bert", id=entered, ply=83)
    calls.call("declare", 67, id=ids[13], ply=1)
    calls.call("declare", 67, id=ids["offered"], ply=1)
    calls.call("declare", id=entered, ply=83)
    calls.call("declare", 56, "bert", id=entered, ply=83)


def challenge(calls):
    good = {"event": "autumn", "first": True, "other": "bert"}
    call_with_bad_bodies(calls, "openChallenge", {"number": 1}, good)
    call_with_bad_bodies(calls, "answerChallenge", {"member": "anna", "number": 1}, {"accept": True})
    calls.call("openChallenge", 52, body=good | {"event": "winter"}, number=1)
    for number, other in ((0, "bert"), (10000, "bert"), (1, "anna"), (1, "nobody")):
        calls.call("openChallenge", 65, body=good | {"other": other}, number=number)
    for number, event in ((1, "autumn"), (2, "fuji"), (3, "autumn"), (9999, "short")):
        calls.call("openChallenge", body=good | {"event": event}, number=number)
    calls.call("openChallenge", body=good | {"clock": 7}, number=1)
    calls.call("openChallenge", 58, body=good | {"first": False}, number=1)
    calls.call("getMe")
    for number in (0, 4):
        calls.call("withdrawChallenge", 54, number=number)
    calls.call("withdrawChallenge", number=3)
    calls.call("withdrawChallenge", number=3)
    for key, member, number in (("cara", "anna", 1), ("bert", "anna", 4), ("bert", "nobody", 1)):
        calls.call("answerChallenge", 54, key, {"accept": True}, member=member, number=number)
    calls.call("answerChallenge", key="bert", body={"accept": True}, member="anna", number=1)
    calls.call("answerChallenge", key="bert", body={"accept": True}, member="anna", number=1)
    calls.call("answerChallenge", key="bert", body={"accept": False}, member="anna", number=2)
    calls.call("answerChallenge", 58, "bert", {"accept": True}, member="anna", number=2)
    calls.call("answerChallenge", 58, "bert", {"accept": True}, member="anna", number=3)
    calls.call("withdrawChallenge", 58, number=1)
    calls.call("getMe")
    calls.call("getMe", key="bert")


def challenge_closed(calls):
    """A challenge and its acceptance after their event was closed."""
    good = {"event": "autumn", "first": True, "other": "bert"}
    members = [f"member {it} {KEYS[it]}" for it in ("anna", "bert")]
    for words in ("init --arbiter", *members, f"event autumn draughts {BUDGET} 5"):
        club("closed.db", *words.split())
    with serve("closed.db", now=NOW) as calls.server:
        calls.call("openChallenge", body=good, number=1)
        check("the server closes the event", (0, "accepted closed"), club("closed.db", "close", "autumn", now=NOW))
        calls.call("openChallenge", 68, body=good, number=2)
        calls.call("answerChallenge", 68, "bert", {"accept": True}, member="anna", number=1)
        calls.call("listEvents")
        calls.call("answerChallenge", key="bert", body={"accept": False}, member="anna", number=1)


def ask_rulings(calls):
    """Rulings of each kind, and the games that they ended."""
    members = [f"member {it} {KEYS[it]}" for it in ("anna", "bert")]
    seats = [f"seat g{it} autumn anna bert" for it in (1, 2, 3)]
    rulings = ("rule 1 1 grant first 60", "rule 1 2 grant second 60", "rule 2 1 award 1-1", "rule 3 1 void")
    for words in ("init --arbiter", *members, f"event autumn draughts {BUDGET} 5", *seats, *rulings):
        club("ruled.db", *words.split())
    with serve("ruled.db", now=NOW) as calls.server:
        for number in (1, 2, 3):
            for name in ("listRulings", "getGame", "getGamePage", "getClock", "getRecord"):
                calls.call(name, id=number)
        calls.call("listRulings", 53, id=4)
        calls.call("listEndedGames")
        for name in ("getTable", "listEventGames", "getStandings"):
            calls.call(name, name="autumn")


def fill(file):
    """Makes a club of 5,000 games with one open challenge."""
    create(file)
    others = ("event, first, second, start, since, plies, left1, left2, offer_side, offer_ply, end, result, position, "
              "track_a, track_b")
    change(file, f"""
        WITH RECURSIVE ids(id) AS (SELECT 2 UNION ALL SELECT id + 1 FROM ids WHERE id < 5000)
        INSERT INTO games (id, key, {others})
            SELECT ids.id, 'g' || ids.id, {others} FROM ids, (SELECT {others} FROM games WHERE id = 1);
        INSERT INTO seen SELECT games.id, seen.position, count, first_ply FROM games, seen WHERE games.id > 1;
        INSERT INTO challenges VALUES (1, 1, 1, 2, 1, 0, NULL);""")


def call_unavailable(calls, values):
    """Each operation while the file of the club is damaged."""
    with contextlib.ExitStack() as stack:
        servers = {}
        for number in FAULTS:
            club(f"{number}.db", "init")
            servers[number] = stack.enter_context(serve(f"{number}.db", now=NOW))
            servers[number].show()
        for number, damage in FAULTS.items():
            servers[number].release(f"{number}.db")
            damage(f"{number}.db")
            calls.server = servers[number]
            for name in calls.description.operations:
                body = {"makeMove": {"move": "32-28"}, "openChallenge": {"event": "a", "first": True, "other": "b"},
                        "answerChallenge": {"accept": True}}.get(name)
                calls.call(name, 200 if name == "getPage" else number, body=body, **values[name])


def call_all(description):
    calls = Calls(description)
    ids = make_club("c.db")
    values = samples(description, ids)
    with serve("c.db", now=NOW) as calls.server:
        calls.call("resign", id=ids["resigned"])
        for name in description.operations:
            call_with_bad_heads(calls, name, values[name])
        play(calls, ids)
        end_games(calls, ids)
        challenge(calls)
        ask(calls, ids)
        analyse(calls, ids)
    check("the club is sound after all requests", (0, "sound"), club("c.db", "verify", now=NOW))
    status, printed = club("c.db", "seat", "late", "autumn", "anna", "bert", now=LAST_MOMENT)
    check("a game is created in the last second", 0, status)
    with serve("c.db", now=LAST_MOMENT) as calls.server:
        calls.call("getMe")
        calls.call("getClock", id=printed.split()[-1])
    challenge_closed(calls)
    ask_rulings(calls)
    fill("full.db")
    with serve("full.db", now=1000) as calls.server:
        calls.call("answerChallenge", 66, "bert", {"accept": True}, member="anna", number=1)
    call_unavailable(calls, values)
    return calls


def routes_of_server():
    table = (TOP / "crates/http_desk/src/table.rt").read_text()
    return {(method.lower(), path)
            for path, method in re.findall(r'\(\s*"(/[^"]*)",\s*(Get|Post),', table)}


def with_braces(path):
    """A path whose parameters are in capitals, as the route table has it."""
    return re.sub(r"/([A-Z]+)(?=/|$)", lambda it: f"/{{{it[1].lower()}}}", path)


def routes_of_prose():
    text = (TOP / "docs/http.md").read_text()
    return {(method.lower(), with_braces(path))
            for method, path in re.findall(r"\b(GET|POST)\W{1,5}`(/[^`\s]+)`", text)}


def routes_of_models():
    return {(it.method.lower(), with_braces(it.path)) for it in ROUTES}


def error_problems(document):
    """Errors whose name or status is not that of the rules."""
    description = Description(document)
    found = []
    for name, status, number in description.documented():
        if number is None:
            continue
        due = 503 if 70 <= number <= 75 else status_of(number)
        member = document["components"]["schemas"][f"Error{number}"]["properties"]["name"]["const"]
        if status != due or number in NAMES and NAMES[number] != member:
            found.append(f"{name} {status} {number} {member}")
    return found


def route_problems(document):
    routes = {(method, path) for path, item in document["paths"].items() for method in item}
    return sorted(map(str, routes ^ routes_of_server()))


def unseen(description):
    return sorted(it for it in description.documented() - description.seen if it[2] not in NOT_SEEN)


def unseen_alternatives(description):
    bodies = "MoveBody", "ChallengeBody", "AnswerBody"
    used = {it for it in alternatives_of(description) if not it.startswith(bodies)}
    return sorted(used - description.alternatives - set(ALTERNATIVES_NOT_SEEN))


def replay(document, exchanges):
    """The problems of a document with replies that were received before; it ends at the first one."""
    try:
        found = structure_problems(document) + error_problems(document) + route_problems(document)
        if found:
            return found
        description = Description(document)
        for exchange in exchanges:
            description.take(*exchange)
        return unseen(description) + unseen_alternatives(description)
    except (Invalid, KeyError) as why:
        return [repr(why)]


def mutants(document):
    """Changed copies of the document, each with what was changed."""
    def mutant(what, *keys, value=None, drop=False):
        changed = copy.deepcopy(document)
        at = changed
        for key in keys[:-1]:
            at = at[key]
        if drop:
            del at[keys[-1]]
        else:
            at[keys[-1]] = value
        return what, changed

    schemas, paths = ("components", "schemas"), "paths"
    yield mutant("another version of OpenAPI", "openapi", value="3.0.3")
    yield mutant("no version of the interface", "info", "version", drop=True)
    yield mutant("a route less", paths, "/me", drop=True)
    yield mutant("a route more", paths, "/you", value=document[paths]["/me"])
    yield mutant("another method of a route", paths, "/me", value={"post": document[paths]["/me"]["get"]})
    yield mutant("no status 401", paths, "/me", "get", "responses", "401", drop=True)
    yield mutant("no status 409 of a resignation", paths, "/games/{id}/resign", "post", "responses", "409", drop=True)
    yield mutant("a status more", paths, "/me", "get", "responses", "409",
                 value=document[paths]["/games/{id}/resign"]["post"]["responses"]["409"])
    yield mutant("no parameter of a route", paths, "/games/{id}", "get", "parameters", value=[])
    yield mutant("an unknown reference", paths, "/me", "get", "responses", "401",
                 value={"$ref": "#/components/responses/x"})
    yield mutant("a record as JSON", paths, "/games/{id}/record", "get", "responses", "200", "content",
                 value={"application/json": {"schema": {"$ref": "#/components/schemas/Record"}}})
    yield mutant("no Content-Length of a reply", paths, "/me", "get", "responses", "200", "headers", "Content-Length",
                 drop=True)
    yield mutant("another value of Connection", "components", "headers", "Connection", "schema",
                 value={"const": "keep-alive"})
    yield mutant("another method in Allow", "components", "headers", "AllowGet", "schema", value={"const": "POST"})
    yield mutant("another name of an error", *schemas, "Error53", "properties", "name", value={"const": "NoGame"})
    yield mutant("another number of an error", *schemas, "Error59", "properties", "error", value={"const": 69})
    for name in ("Game", "Clock", "Moved", "OwnGame", "EventGame", "Event", "ChallengeAccepted", "AcceptedChallenge"):
        members = sorted(document["components"]["schemas"][name]["properties"])
        kept = [it for it in members if it != members[-1]]
        changed = mutant(f"no member `{members[-1]}` of {name}", *schemas, name, "required", value=kept)
        del changed[1]["components"]["schemas"][name]["properties"][members[-1]]
        yield changed
        yield mutant(f"a member `more` of {name}", *schemas, name, "required", value=[*members, "more"])
    yield mutant("ply as a text", *schemas, "PliesPlayed", value={"type": "string"})
    yield mutant("fewer plies", *schemas, "PliesPlayed", "maximum", value=5)
    ends = document["components"]["schemas"]["End"]["enum"]
    yield mutant("an end less", *schemas, "End", "enum", value=ends[:-1])
    yield mutant("an end more", *schemas, "End", "enum", value=[*ends, "Bored"])
    yield mutant("a deadline that is never null", *schemas, "Clock", "properties", "deadline",
                 value={"$ref": "#/components/schemas/Moment"})
    yield mutant("moves of draughts alone", *schemas, "MoveText", "anyOf", 1, "pattern", value="^x$")
    yield mutant("names in capitals", *schemas, "Name", "pattern", value="^[A-Z]+$")
    yield mutant("three clocks", *schemas, "Game", "properties", "left", "minItems", value=3)
    yield mutant("a challenge without its side", *schemas, "ChallengeBody", "required", value=["event", "other"])
    yield mutant("a side as a text", *schemas, "ChallengeBody", "properties", "first", value={"type": "string"})
    yield mutant("a body with no other members", *schemas, "MoveBody", "additionalProperties", value=False)
    yield mutant("no alternative of an answer", *schemas, "ChallengeAnswer", "oneOf",
                 value=document["components"]["schemas"]["ChallengeAnswer"]["oneOf"][:1])
    yield mutant("another draw result", *schemas, "Agreed", "properties", "result", "enum", value=["2-0"])


def main():
    document = json.loads(DESCRIPTION.read_text())
    made = subprocess.run([sys.executable, TOP / "tools/openapi.py", "--check"], check=False).returncode
    check("docs/openapi.json is what tools/openapi.py writes", 0, made)
    check("docs/openapi.json is an OpenAPI 3.1 description", [], structure_problems(document))
    check("its errors have the names and the statuses of the rules", [], error_problems(document))
    check("its routes are those of the server's table", [], route_problems(document))
    check("the server's routes are those of docs/http.md", [], sorted(map(str, routes_of_server() ^ routes_of_prose())))
    check("the server's routes are those of tests/models", [], sorted(map(str, routes_of_server() ^ routes_of_models())))
    description = Description(document)
    with tempfile.TemporaryDirectory(dir=FAST) as folder, contextlib.chdir(folder):
        calls = call_all(description)
    for name, (path, method, _) in description.operations.items():
        problems = calls.problems.get(name, [])
        result(not problems, f"{method.upper()} {path} replies as described to {calls.counts.get(name, 0)} requests",
               *problems[:8])
    documented = description.documented()
    errors = sum(it[2] is not None for it in description.seen)
    left_out = sorted({it[2] for it in documented if it[2] in NOT_SEEN})
    check(f"{len(description.seen)} of {len(documented)} documented replies were received, {errors} of them errors; the "
          f"rest are the errors {' and '.join(map(str, left_out))}", [], unseen(description))
    check("each alternative of a schema was received, or is excepted", [], unseen_alternatives(description))
    check("no exception was received", [], sorted(set(ALTERNATIVES_NOT_SEEN) & description.alternatives) +
          sorted(it for it in description.seen if it[2] in NOT_SEEN))
    wrong = list(mutants(document))
    check("the description has no problem with the recorded replies", [], replay(document, calls.exchanges)[:3])
    check(f"each of {len(wrong)} changed descriptions fails", [],
          [what for what, changed in wrong if not replay(changed, calls.exchanges)])
    return exit_status()


if __name__ == "__main__":
    sys.exit(main())
