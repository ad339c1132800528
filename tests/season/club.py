"""A model of a club as its members see it: the commands that were accepted, and the answer to each query after them.

The program says which moves are legal, and that one of them ends its game; tests/models has the position after them.
Clocks, lists and each text are computed here.
"""
import collections
import dataclasses
import datetime
import json
import re

from lib.caching import caching_lines
from models import draughts, shogi
from models.standings import standings

LAST_MOMENT = 253402300799
RULES = {"draughts": draughts, "shogi": shogi}
OUTSIDE_ENDS = "Resigned", "Agreed", "Time", "Declared", "Recorded", "Awarded", "Void"  # that no move makes
NAMES = {50: "UnknownKey", 52: "UnknownEvent", 53: "UnknownGame", 65: "BadValue", 68: "EventClosed", 72: "Damaged", 82: "NoRoute",
         83: "WrongMethod"}  # of the refusals that a question may have
PHRASES = {200: "OK", 401: "Unauthorized", 404: "Not Found", 405: "Method Not Allowed", 503: "Service Unavailable"}
STATUSES = {50: 401, 52: 404, 53: 404, 72: 503, 82: 404, 83: 405}
FURTHER = {50: "WWW-Authenticate: Member-Key\r\n", 83: "Allow: GET\r\n"}
OPENING = ("KY KE GI KI OU KI GI KE KY", ". HI . . . . . KA .", "FU FU FU FU FU FU FU FU FU")  # from file 9, as White
LETTERS = {"P": "FU", "L": "KY", "N": "KE", "S": "GI", "G": "KI", "B": "KA", "R": "HI"}
PROMOTED = {"FU": "TO", "KY": "NY", "KE": "NK", "GI": "NG", "KA": "UM", "HI": "RY"}
CSA_ENDS = {None: "%CHUDAN", "Void": "%CHUDAN", "Fourfold": "%SENNICHITE", "NoMove": "%TSUMI", "PlyLimit": "%JISHOGI",
            "Resigned": "%TORYO", "Time": "%TIME_UP", "Declared": "%KACHI"}


class Refused(Exception):
    """The number of a refusal."""


@dataclasses.dataclass
class Event:
    name: str
    game: str
    budget: int
    increment: int
    closed: bool = False


@dataclasses.dataclass
class Challenge:
    member: str
    number: int
    event: str
    other: str
    first: bool
    state: str = "open"
    game: int | None = None

    def sides(self):
        return (self.member, self.other) if self.first else (self.other, self.member)


class Game:
    def __init__(self, number, key, event, players, moment):
        self.number, self.key, self.event, self.players = number, key, event, players
        self.start = self.since = moment
        self.left, self.texts, self.spent = [event.budget] * 2, [], []
        self.offer = self.end = self.result = None
        self.rulings = []  # each with its moment and the number of plies before it
        self.line = RULES[event.game].Line()

    def turn(self):
        return len(self.texts) % 2

    def mover(self):
        return self.players[self.turn()]

    def deadline(self):
        """The last second in which the side to move is in time."""
        return self.since + self.left[self.turn()]

    def is_overdue(self, moment):
        return not self.end and moment > self.deadline()

    def now(self, moment):
        """What the two have left at a moment: the clock of the side to move goes, as long as the game does."""
        left = list(self.left)
        if not self.end:
            left[self.turn()] = max(0, self.deadline() - moment)
        return left

    def played(self, text, moment):
        self.left[self.turn()] += self.event.increment - (moment - self.since)
        self.spent.append(moment - self.since)
        self.texts.append(text)
        self.line.push(self.line.read(text))
        self.since, self.offer = moment, None

    def ended(self, end, result):
        self.end, self.result = end, result

    def ruled(self, ruling, moment):
        """More time for a side, a score or a void game: the words of a ruling."""
        kind, *values = ruling.split()
        self.rulings.append((ruling, moment, len(self.texts)))
        if kind == "grant":
            self.left[values[0] == "second"] += int(values[1])
        else:
            self.ended(*("Awarded", values[0]) if kind == "award" else ("Void", None))

    def lost_by(self, member, end):
        self.ended(end, "0-2" if member == self.players[0] else "2-0")

    def points(self, member):
        return int(self.result.split("-")[self.players.index(member)])


class Club:
    def __init__(self):
        self.keys, self.events, self.games, self.challenges = {}, {}, [], {}
        self.later_keys = collections.Counter()  # how many a member was given after the first
        self.last = 0

    # ---- what was ordered

    def accepted(self, moment):
        """The moment of a command that was accepted."""
        self.last = max(self.last, moment)
        return self.last

    def add_member(self, name, key, moment):
        self.accepted(moment)
        self.keys[name] = key

    def new_key(self, name, key, moment):
        """The number of the key."""
        self.accepted(moment)
        self.keys[name] = key
        self.later_keys[name] += 1
        return self.later_keys[name]

    def close_event(self, name, moment):
        self.accepted(moment)
        self.events[name].closed = True

    def rule(self, number, ruling, moment):
        """The number of the ruling."""
        game = self.game_of(number)
        game.ruled(ruling, self.accepted(moment))
        return len(game.rulings)

    def add_event(self, name, game, budget, increment, moment):
        self.accepted(moment)
        self.events[name] = Event(name, game, budget, increment)

    def add_game(self, key, event, first, second, moment):
        moment = self.accepted(moment)
        self.games.append(Game(len(self.games) + 1, key, self.events[event], (first, second), moment))
        return self.games[-1]

    def add_challenge(self, challenge, moment):
        self.accepted(moment)
        self.challenges[challenge.member, challenge.number] = challenge

    def overdue(self, now):
        return [it for it in self.games if it.is_overdue(self.moment(now))]

    # ---- what is there

    def moment(self, now):
        return max(self.last, now)

    def event_of(self, name):
        if name not in self.events:
            raise Refused(52)
        return self.events[name]

    def game_of(self, number):
        if not 1 <= number <= len(self.games):
            raise Refused(53)
        return self.games[number - 1]

    def id_of(self, name):
        return [*self.keys].index(name) + 1

    # ---- words

    def printed(self, words, now):
        """The status of a word that asks, its standard output and its standard error."""
        shown = {"members": self.members_listed, "events": self.events_listed, "games": self.games_listed,
                 "table": self.table, "export": lambda it: record(self.game_of(int(it))),
                 "rulings": lambda it: lined(ruling_lines(self.game_of(int(it))))}
        try:
            values = (words[1:], now) if words[0] == "games" else words[1:]
            return 0, shown[words[0]](*values), ""
        except Refused as refusing:
            number = refusing.args[0]
            return 1, "", f"refused {number} {NAMES[number]}\n"

    def members_listed(self):
        keys = {it: f" key {count}" for it, count in self.later_keys.items()}
        return lined(f"member {number} {name}{keys.get(name, '')}" for number, name in enumerate(self.keys, 1))

    def events_listed(self):
        return lined(self.event_line(number, it) for number, it in enumerate(self.events.values(), 1))

    def event_line(self, number, event):
        ends = [it.end for it in self.games if it.event is event]
        counts, closed = (len(ends), ends.count(None)), ["closed"] * event.closed
        parts = "event", number, event.name, event.game, event.budget, event.increment, *counts, *closed
        return " ".join(map(str, parts))

    def games_listed(self, options, now):
        games, moment = self.games, self.moment(now)
        if "--event" in options:
            event = self.event_of(options[options.index("--event") + 1])
            games = [it for it in games if it.event is event]
        if "--member" in options:
            member = options[options.index("--member") + 1]
            if member not in self.keys:
                raise Refused(65)
            games = [it for it in games if member in it.players]
        if "--running" in options:
            games = [it for it in games if not it.end]
        if "--overdue" in options:
            games = [it for it in games if it.is_overdue(moment)]
        return lined(map(game_line, games))

    def table(self, name):
        """The cross table of an event; a void game does not count."""
        ended = [it for it in self.games if it.event is self.event_of(name) and it.result]
        met = {member: [it for it in ended if member in it.players] for member in self.keys}
        points = {member: [it.points(member) for it in games] for member, games in met.items() if games}
        order = sorted(points, key=lambda it: (-sum(points[it]), -points[it].count(2), self.id_of(it)))
        lines = [f"Event {self.event_of(name).name}"]
        for rank, member in enumerate(order, 1):
            mine = points[member]
            cells = [sum(mine), len(mine), mine.count(2), mine.count(1), mine.count(0)]
            for other in order:
                between = [it.points(member) for it in met[member] if other in it.players]
                cells.append("-" if other == member else sum(between) if between else ".")
            lines.append(f"{rank:>3} {member:<24}" + "".join(f"{it:>6}" for it in cells))
        return lined(lines)

    def event_records(self, name):
        """The records of an event's games, by their numbers."""
        event = self.event_of(name)
        between = "\n" if event.game == "draughts" else "/\n"
        return between.join(record(it) for it in self.games if it.event is event)

    # ---- routes

    def replied(self, member, path, now):
        """The bytes of the reply to a member who asks by one of the paths."""
        routes = {("me",): self.me, ("me", "ended"): self.my_ended, ("me", "events"): self.my_events,
                  ("events", "games"): self.event_games, ("events", "standings"): self.event_standings,
                  ("events", "table"): self.event_table, ("games", "clock"): self.clock,
                  ("games", "record"): self.game_record, ("games", "rulings"): self.game_rulings}
        words = path.split("/")[1:]
        asked = routes[tuple(words) if words[0] == "me" else (words[0], words[2])]
        try:
            return reply(200, *asked(words, member, self.moment(now)), caching_lines(path))
        except Refused as refusing:
            return refusal(refusing.args[0], path)

    def me(self, _, member, moment):
        games = [mine(it) for it in self.games if member in it.players and not it.end]
        numbered = sorted(self.challenges.values(), key=lambda it: (self.id_of(it.member), it.number))
        own = [challenge_shown(it) for it in numbered if member == it.member and it.state in ("open", "accepted")]
        received = [challenge_shown(it) for it in numbered if member == it.other and it.state == "open"]
        shown = [it for it in received if sum(it["from"] == one["from"] for one in received[:received.index(it)]) < 10]
        more = {"from": len(own[:-100]), "to": len(received) - len(shown[:100])}
        refused = [challenge_shown(it) for it in numbered if it.state == "refused" and member == it.member]
        return to_json({"challenges": own[-100:] + shown[:100], "games": games, "member": member, "moment": moment,
                        "more": more, "refused": refused[:-21:-1]})

    def my_ended(self, _, member, moment):
        games = [ended_shown(it) for it in self.games[::-1] if member in it.players and it.end]
        return to_json({"games": games[:200], "member": member, "moment": moment, "more": len(games[200:])})

    def my_events(self, _, member, moment):
        events = [{"budget": it.budget, "event": it.name, "game": it.game, "increment": it.increment,
                   "open": not it.closed} for it in self.events.values()]
        return to_json({"events": events, "members": [name for name in self.keys if name != member]})

    def event_games(self, words, member, moment):
        event = self.event_of(words[1])
        return to_json({"games": [{"deadline": None if it.end else shown_deadline(it), "end": it.end,
                                "first": it.players[0], "game": it.number, "ply": len(it.texts), "result": it.result,
                                "round": round_of(it.key), "second": it.players[1],
                                "turn": None if it.end else it.mover()}
                               for it in self.games if it.event is event]})

    def event_standings(self, words, member, moment):
        event = self.event_of(words[1])
        games = [(*it.players, it.result) for it in self.games if it.event is event and it.end != "Void"]
        return to_json({"event": event.name, "kind": event.game, "standings": standings([*self.keys], games)})

    def event_table(self, words, member, moment):
        return "text/plain", self.table(words[1])

    def clock(self, words, member, moment):
        game = self.game_of(int(words[1]))
        return to_json({"deadline": None if game.end else shown_deadline(game), "game": game.number, "left": game.left,
                     "moment": moment, "now": game.now(moment), "since": game.since,
                     "turn": None if game.end else game.mover()})

    def game_record(self, words, member, moment):
        return "text/plain", record(self.game_of(int(words[1])))

    def game_rulings(self, words, member, moment):
        rulings = self.game_of(int(words[1])).rulings
        return to_json({"rulings": [ruling_shown(number, *it) for number, it in enumerate(rulings, 1)]})


def lined(lines):
    return "".join(f"{it}\n" for it in lines)


def to_json(values):
    return "application/json", json.dumps(values, separators=(",", ":"), sort_keys=True)


def reply(status, kind, body, further="", has_body=True):
    head = (f"HTTP/1.1 {status} {PHRASES[status]}\r\nContent-Type: {kind}\r\nContent-Length: {len(body.encode())}\r\n"
            f"Connection: close\r\n{further}\r\n")
    return (head + body * has_body).encode()


def refusal(number, path, has_body=True):
    further = FURTHER.get(number, "") + caching_lines(path, number)
    return reply(STATUSES[number], *to_json({"error": number, "name": NAMES[number]}), further, has_body)


def round_of(key):
    """The round of a game that `round-robin` may have seated under the key."""
    found = re.fullmatch(r"(?:.*[^0-9])?([1-9][0-9]?)\.([1-9][0-9]?)", key or "")
    return int(found[1]) if found and int(found[1]) <= 62 and int(found[2]) <= 16 else None


def game_line(game):
    parts = ["game", game.number, game.event.name, *game.players, game.key or "=", "ply", len(game.texts)]
    parts += (["end", game.end, *([game.result] if game.result else [])] if game.end
              else ["turn", game.mover(), "until", until(game.deadline())])
    return " ".join(map(str, parts))


def until(deadline):
    if deadline > LAST_MOMENT:
        return "never"
    at = datetime.datetime(1970, 1, 1) + datetime.timedelta(seconds=deadline)
    return f"{at.year:04}-{at:%m-%dT%H:%M:%S}Z"


def shown_deadline(game):
    return game.deadline() if game.deadline() <= LAST_MOMENT else None


def mine(game):
    return {"deadline": shown_deadline(game), "event": game.event.name, "first": game.players[0], "game": game.number,
            "kind": game.event.game, "last": game.texts[-1] if game.texts else None,
            "offer": None if game.offer is None else game.players[game.offer], "ply": len(game.texts),
            "position": game.line.position_text(), "second": game.players[1], "turn": game.mover()}


def ended_shown(game):
    return {"end": game.end, "ended": None if game.end in OUTSIDE_ENDS else game.since, "event": game.event.name,
            "first": game.players[0], "game": game.number, "kind": game.event.game, "ply": len(game.texts),
            "result": game.result, "second": game.players[1]}


def ruling_lines(game):
    return (f"ruling {number} {until(moment)} ply {ply} {ruling}"
            for number, (ruling, moment, ply) in enumerate(game.rulings, 1))


def ruling_shown(number, ruling, moment, ply):
    kind, *values = ruling.split()
    further = {"grant": lambda side, seconds: {"seconds": int(seconds), "side": side},
               "award": lambda result: {"result": result}, "void": dict}[kind](*values)
    return {"kind": kind, "moment": moment, "number": number, "ply": ply, **further}


def challenge_shown(challenge):
    first, second = challenge.sides()
    return {"event": challenge.event, "first": first, "from": challenge.member, "game": challenge.game,
            "number": challenge.number, "second": second, "state": challenge.state, "to": challenge.other}


# ---- records

def record(game):
    return pdn(game) if game.event.game == "draughts" else csa(game)


def date(moment, form):
    return (datetime.datetime(1970, 1, 1) + datetime.timedelta(seconds=moment)).strftime(form)


def pdn(game):
    result = game.result or "*"
    tags = (("Event", game.event.name), ("Date", date(game.start, "%Y.%m.%d")), ("White", game.players[0]),
            ("Black", game.players[1]), ("Result", result), ("GameType", "20"))
    pairs = [f"{at // 2 + 1}. {' '.join(game.texts[at:at + 2])}" for at in range(0, len(game.texts), 2)]
    return lined([*(f'[{name} "{value}"]' for name, value in tags), "", *pairs, result])


def csa(game):
    lines = ["V2.2", f"N+{game.players[0]}", f"N-{game.players[1]}", f"$EVENT:{game.event.name}",
             date(game.start, "$START_TIME:%Y/%m/%d %H:%M:%S"), "PI", "+"]
    board = {f"{9 - file}{rank}": code for rank, row in enumerate(OPENING, 1) for file, code in enumerate(row.split())}
    board |= {f"{10 - int(at[0])}{10 - int(at[1])}": code for at, code in board.items()}
    for ply, (text, seconds) in enumerate(zip(game.texts, game.spent)):
        lines += ["+-"[ply % 2] + csa_move(board, text), f"T{seconds}"]
    return lined([*lines, csa_end(game)])


def csa_end(game):
    """An awarded game is written as a recorded one, a void one as one that runs."""
    if game.end not in ("Recorded", "Awarded"):
        return CSA_ENDS[game.end]
    if game.result == "1-1":
        return "%HIKIWAKE"
    loser = ("0-2", "2-0").index(game.result)
    return "%TORYO" if loser == game.turn() else f"%{'+-'[loser]}ILLEGAL_ACTION"


def csa_move(board, text):
    """A move of USI as CSA writes it, done on the board."""
    to = f"{text[2]}{ord(text[3]) - ord('a') + 1}"
    start = "00" if text[1] == "*" else f"{text[0]}{ord(text[1]) - ord('a') + 1}"
    code = LETTERS[text[0]] if text[1] == "*" else board.pop(start)
    board[to] = PROMOTED[code] if text.endswith("+") else code
    return f"{start}{to}{board[to]}"
