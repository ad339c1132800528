"""A model of what the commands of the officer change and print, by docs/rules.md and docs/formats.md."""
import re
import time

from models import draughts, shogi
from models.club import Club, LAST_MOMENT, NAMES, to_json
from models.draughts import Refused
from models.records import record_of

NAME, KEY = re.compile(r"[A-Za-z0-9._-]{1,24}"), re.compile(r"[A-Za-z0-9]{8,64}")
LIMIT = 65536
SQUARE = draughts.SQUARE
BEGINS = re.compile(rf"(?:0?|{SQUARE})|{SQUARE}-(?:0?|{SQUARE})|{SQUARE}(?:[x:]{SQUARE})*[x:](?:0?|{SQUARE})")
USI_BEGINS = re.compile(r"[1-9]?|[1-9][a-i]|[1-9][a-i][1-9]|[1-9][a-i][1-9][a-i]\+?|[RBGSNLP](?:\*(?:[1-9][a-i]?)?)?")


def bad_text(number, text):
    """The refusal of a move's text: with the length of its longest beginning that also begins one."""
    data = text.encode(errors="surrogateescape").decode("latin-1")
    begins = BEGINS if number == 20 else USI_BEGINS
    return Refused(number, next(size for size in range(len(data), -1, -1) if begins.fullmatch(data[:size])))


class Fault(Exception):
    """A command is not executed, for the fault that is printed."""


def told_refusal(refusing):
    number, *more = refusing.args
    return " ".join(map(str, ("refused", number, NAMES[number], *more))) + "\n"


def moment_text(moment):
    return time.strftime("%Y-%m-%dT%H:%M:%SZ", time.gmtime(moment)) if moment <= LAST_MOMENT else "never"


def game_line(game):
    """A game's line in a list, with the last second in which the side to move is in time."""
    parts = ["game", game.number, game.event["name"], *game.players, game.key or "=", "ply", game.plies()]
    if game.end:
        parts += ["end", game.end] + ([game.result] if game.result else [])  # a void game has none
    else:
        parts += ["turn", game.players[game.turn()], "until", moment_text(game.deadline())]
    return " ".join(map(str, parts)) + "\n"


def game_object(game):
    """A game in the JSON of a list: that of the list of its event without the round, and its event, key and kind."""
    found = game.in_event() | {"event": game.event["name"], "key": game.key, "kind": game.event["game"]}
    del found["round"]
    return found


class OfficersClub(Club):
    """A club with the timestamp of the next command; each command returns what is printed, or is refused."""

    def accepted(self, text):
        self.last = max(self.last, self.moment)
        return f"accepted {text}\n"

    def now(self):
        return max(self.last, self.moment)

    def do_init(self):
        return "ready\n"

    def do_upgrade(self, *flags):
        if "--arbiter" not in flags or self.has_arbiter:
            return "repeated upgrade\n"
        self.has_arbiter = True
        return "upgraded\n"

    def do_verify(self):
        return "sound\n"

    def add_member(self, name, key):
        if name in self.members and self.members[name][0] == key:
            return f"repeated member {self.member_id(name)}\n"
        if name in self.members or self.was_given(key):
            raise Refused(64)
        if not NAME.fullmatch(name) or not KEY.fullmatch(key):
            raise Refused(65)
        if len(self.members) >= 200:
            raise Refused(66)
        self.member(name, key)
        return self.accepted(f"member {self.member_id(name)}")

    def member_id(self, name):
        return [*self.members].index(name) + 1

    def was_given(self, key):
        """Whether a member has or had the key."""
        return any(key in keys for keys in self.members.values())

    def must_have_arbiter(self):
        if not self.has_arbiter:
            raise Fault("71 Schema 2")

    def add_key(self, name, number, key):
        self.must_have_arbiter()
        keys = self.members.get(name)
        if keys is None:
            raise Refused(65)
        if 1 <= number < len(keys):
            if keys[number] == key:
                return f"repeated key {number}\n"
            raise Refused(58)
        if self.was_given(key):
            raise Refused(64)
        if not KEY.fullmatch(key) or number != len(keys):
            raise Refused(65)
        if number > 99:
            raise Refused(66)
        keys.append(key)
        return self.accepted(f"key {number}")

    def do_close(self, event):
        self.must_have_arbiter()
        self.event_of(event)
        if event in self.closings:
            return "repeated closed\n"
        self.closings[event] = self.now()
        return self.accepted("closed")

    def do_rule(self, game, number, ruling):
        self.must_have_arbiter()
        is_new = self.game_of(game).rule(number, ruling, self.now())
        return self.accepted(f"ruling {number}") if is_new else f"repeated ruling {number}\n"

    def do_ruling_lines(self, game):
        lines = []
        for number, (ruling, moment, ply, _) in enumerate(self.game_of(game).rulings, 1):
            words = ["grant", ("first", "second")[ruling[1]], ruling[2]] if ruling[0] == "grant" else ruling
            lines.append(" ".join(map(str, ("ruling", number, moment_text(moment), "ply", ply, *words))) + "\n")
        return "".join(lines)

    def add_event(self, name, game, budget, increment):
        asked = {"name": name, "game": game, "budget": budget, "increment": increment}
        number = [*self.events].index(name) + 1 if name in self.events else len(self.events) + 1
        if self.events.get(name) == asked:
            return f"repeated event {number}\n"
        if name in self.events:
            raise Refused(64)
        if not NAME.fullmatch(name) or not 1 <= budget <= 31536000 or not 0 <= increment <= 2592000:
            raise Refused(65)
        if len(self.events) >= 50:
            raise Refused(66)
        self.event(name, game, budget, increment)
        return self.accepted(f"event {number}")

    def keyed(self, key):
        return next((game for game in self.games if game.key == key), None)

    def must_be_free(self, key, first, second):
        if self.keyed(key):
            raise Refused(58)
        known = self.members
        if not NAME.fullmatch(key) or first not in known or second not in known or first == second:
            raise Refused(65)

    def add_seat(self, key, event, first, second):
        wanted, found = self.event_of(event), self.keyed(key)
        if found and found.event is wanted and found.players == (first, second):
            return f"repeated game {found.number}\n"
        self.must_be_free(key, first, second)
        return self.accepted(f"game {self.seat(key, event, first, second, self.now()).number}")

    def add_record(self, kind, part, key, event, first, second, text):
        wanted, found = self.event_of(event), self.keyed(key)
        try:
            moves, score, line = self.record(kind, part, wanted, text)
        except Refused as refusing:
            self.must_be_free(key, first, second)
            raise refusing
        if (found and found.event is wanted and found.players == (first, second)
                and (found.texts, found.result_beneath()) == (moves, score)):
            return f"repeated game {found.number}\n"
        self.must_be_free(key, first, second)
        game = self.seat(key, event, first, second, self.now())
        for move in line.moves:
            game.played(game.turn(), move, 0)
            game.moments.append(game.start)
        if not game.end:
            game.outside = "Recorded", score
        return self.accepted(f"game {game.number}")

    def record(self, kind, part, event, text):
        if event["game"] != {"pdn": "draughts", "csa": "shogi"}[kind] or len(text) > LIMIT or part == 0:
            raise Refused(65)
        if kind == "pdn":
            return draughts.read_record(text)
        records = shogi.read_records(text)
        if part > len(records):
            raise Refused(65)
        return records[part - 1]

    def do_officers_move(self, number, ply, text):
        game = self.game_of(number)
        again = 1 <= ply <= game.plies()
        before = game.plies()
        try:
            reply = game.move(game.players[(ply - 1) % 2], ply, text, self.now())
        except Refused as refusing:
            if refusing.args[0] in (20, 30):
                raise bad_text(refusing.args[0], text) from None
            raise Refused(21, ply) if refusing.args[0] == 21 else refusing
        end = f" end {reply['end']}" if reply["end"] else ""
        done = f"ply {ply} {reply['move']}{end}"
        return f"repeated {done}\n" if again and before == game.plies() else self.accepted(done)

    def do_sweep(self):
        late = [it for it in self.games if not it.end and self.now() > it.deadline()]
        for game in late:
            game.lost_by(game.turn(), "Time")
        return self.accepted(f"sweep {len(late)}")

    def do_list(self, number):
        return "".join(f"{move}\n" for move in self.game_of(number).legal()["moves"])

    def do_export(self, number):
        return record_of(self.game_of(number))

    def do_table(self, name):
        return self.table(self.event_of(name))

    def do_members(self):
        lines = []
        for number, (name, keys) in enumerate(self.members.items(), 1):
            lines.append(f"member {number} {name}" + (f" key {len(keys) - 1}" if len(keys) > 1 else "") + "\n")
        return "".join(lines)

    def do_events(self):
        lines = []
        for number, event in enumerate(self.events.values(), 1):
            ends = [game.end for game in self.games if game.event is event]
            closed = " closed" if event["name"] in self.closings else ""
            values = " ".join(map(str, event.values()))
            lines.append(f"event {number} {values} {len(ends)} {ends.count(None)}{closed}\n")
        return "".join(lines)

    def do_challenges(self):
        lines = []
        for member, number in self.challenges_in_order():
            event, other, is_first = (found := self.challenges[member, number])["asked"]
            parts = ["challenge", member, number, event, other, "first" if is_first else "second", found["state"],
                     found["game"] or "="]
            lines.append(" ".join(map(str, parts)) + "\n")
        return "".join(lines)

    def do_games(self, event, member, flag):
        return "".join(map(game_line, self.games_listed(event, member, flag)))

    def games_listed(self, event, member, flag):
        games = self.games if event is None else self.games_in(self.event_of(event))
        if member is not None and member not in self.members:
            raise Refused(65)
        is_shown = {None: lambda it: True, "--running": lambda it: not it.end,
                    "--overdue": lambda it: not it.end and self.now() > it.deadline()}[flag]
        return [it for it in games if (member is None or member in it.players) and is_shown(it)]

    def json_of(self, command, values):
        """The answer to a query with `--json`."""
        if command == "games":
            return to_json({"games": [game_object(it) for it in self.games_listed(*values)]})
        if command in ("legal", "show"):
            return to_json(self.do_legal(None, *values) if command == "legal" else self.do_page(None, *values))
        if command == "rulings":
            return to_json(self.do_rulings(None, *values))
        return to_json({command: {"members": self.member_objects, "events": self.event_objects,
                                  "challenges": self.challenge_objects}[command]()})

    def member_objects(self):
        return [*self.members]

    def event_objects(self):
        found = []
        for number, event in enumerate(self.events.values(), 1):
            ends = [it.end for it in self.games_in(event)]
            found.append({"budget": event["budget"], "event": event["name"], "game": event["game"],
                          "games": len(ends), "id": number, "increment": event["increment"],
                          "open": event["name"] not in self.closings, "running": ends.count(None)})
        return found

    def challenge_objects(self):
        return [self.challenge_told(*it) for it in self.challenges_in_order()]
