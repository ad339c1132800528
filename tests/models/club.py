"""A model of what a club answers to its members, by docs/rules.md and docs/http.md, at one timestamp."""
import collections
import json
import re

from models import draughts, shogi
from models.draughts import Refused
from models.records import record_of
from models.standings import standings

LAST_MOMENT = 253402300799

NAMES = {
    10: "NoSuchMove", 11: "MustCapture", 12: "NotLongest", 13: "NoSuchMove", 14: "NotInHand", 15: "MustPromote",
    16: "DeadDrop", 17: "TwoPawns", 18: "KingAttacked", 19: "DropMate", 20: "BadText", 21: "Ambiguous", 22: "Illegal",
    23: "OtherType", 24: "OtherOpening", 25: "Unfinished", 26: "AfterEnd", 27: "ResultDiffers", 30: "BadText",
    40: "BadText", 41: "Version", 42: "OtherOpening", 43: "Illegal", 44: "Unfinished", 45: "AfterEnd",
    46: "ResultDiffers",
    50: "UnknownKey", 51: "NotAllowed", 52: "UnknownEvent", 53: "UnknownGame", 54: "UnknownChallenge",
    55: "NotAPlayer", 56: "GameOver", 57: "WrongPly", 58: "Conflict", 59: "NotYourTurn", 60: "OutOfTime",
    61: "TimeLeft", 62: "NoOffer", 63: "NotInThisGame", 64: "NameTaken", 65: "BadValue", 66: "Full",
    67: "NotDeclarable", 68: "EventClosed",
    80: "BadHead", 81: "BadBody", 82: "NoRoute", 83: "WrongMethod", 84: "NoLength", 85: "TooLong", 86: "HeadTooLong",
    87: "NotImplemented", 88: "BadHost",
}
STATUSES = {50: 401, 51: 403, 55: 403, 52: 404, 53: 404, 54: 404, 63: 422, 65: 422, 80: 400, 81: 400, 82: 404, 83: 405,
            84: 411, 85: 413, 86: 431, 87: 501, 88: 400}
STATES = ["open", "withdrawn", "refused", "accepted"]
RULES = {"draughts": draughts, "shogi": shogi}
OUTSIDE_ENDS = ["Resigned", "Agreed", "Time", "Declared", "Recorded"]  # that no move makes
VERDICTS = ["Awarded", "Void"]  # ends that the arbiter gives
MOST_ENDED, MOST_REFUSED, MOST_OWN, MOST_RECEIVED, MOST_OF_EACH = 200, 20, 100, 100, 10  # in the lists of a member
MOST_TRIED = 64  # moves of an analysis
ROUND_KEY = re.compile(r"(?:.*[^0-9])?([1-9][0-9]?)\.([1-9][0-9]?)")


def status_of(number):
    return STATUSES.get(number, 422 if number < 50 else 409)


def to_json(values):
    return json.dumps(values, separators=(",", ":"), sort_keys=True)


def refusal(number):
    return to_json({"error": number, "name": NAMES[number]})


class Game:
    def __init__(self, number, key, event, first, second, moment):
        self.number, self.key, self.event, self.players = number, key, event, (first, second)
        self.start = self.since = moment
        self.line = RULES[event["game"]].Line()
        self.left, self.texts, self.replies, self.moments = [event["budget"]] * 2, [], [], []
        self.offer = None
        self.rulings = []  # each with its timestamp and the plies that were played before it
        self.by_rule = self.verdict = self.outside = None  # the three ends that it may have: its name and its result

    @property
    def end(self):
        found = self.by_rule or self.verdict or self.outside
        return found and found[0]

    @property
    def result(self):
        found = self.by_rule or self.verdict or self.outside
        return found and found[1]

    def result_beneath(self):
        """The result that the game would have without the arbiter's verdict."""
        found = self.by_rule or self.outside
        return found and found[1]

    def side(self, member):
        if member not in self.players:
            raise Refused(55)
        return self.players.index(member)

    def plies(self):
        return len(self.texts)

    def turn(self):
        return self.plies() % 2

    def deadline(self):
        """The last second in which the side to move is in time."""
        return self.since + self.left[self.turn()]

    def deadline_told(self):
        return None if self.end or self.deadline() > LAST_MOMENT else self.deadline()

    def mover_told(self):
        return None if self.end else self.players[self.turn()]

    def offerer_told(self):
        return self.offer and self.players[self.offer[0]]

    def lost_by(self, side, end):
        self.outside = end, ("0-2", "2-0")[side]
        return self.ended_outside()

    def is_lost_by(self, side, end):
        return self.outside == (end, ("0-2", "2-0")[side])

    def must_run(self):
        if self.end:
            raise Refused(56)

    def ended_outside(self):
        """The reply to the command that ended the game, whatever the arbiter decided since."""
        end, result = self.outside
        return {"end": end, "game": self.number, "result": result}

    def move(self, member, ply, text, moment):
        side = self.side(member)
        if 1 <= ply <= self.plies() and (ply - 1) % 2 == side and self.is_repeat(ply, text):
            return self.replies[ply - 1]
        self.must_run()
        if not 1 <= ply <= self.plies() + 1:
            raise Refused(57)
        if ply <= self.plies():
            raise Refused(58)
        if side != self.turn():
            raise Refused(59)
        spent = moment - self.since
        if spent > self.left[side]:
            raise Refused(60)
        if len(text.encode()) > 200:
            raise Refused(65)
        self.played(side, self.line.read(text), spent)
        self.moments.append(moment)
        self.since = moment
        return self.replies[-1]

    def is_repeat(self, ply, text):
        line = RULES[self.event["game"]].Line()
        for move in self.line.moves[:ply - 1]:
            line.push(move)
        try:
            return line.read(text) == self.line.moves[ply - 1]
        except Refused:
            return False

    def played(self, side, move, spent):
        self.texts.append(self.line.write(move))
        self.line.push(move)
        self.left[side] += self.event["increment"] - spent
        self.offer = None
        self.by_rule = self.line.end()
        self.replies.append({"end": self.end, "game": self.number, "left": self.left[side], "move": self.texts[-1],
                             "ply": self.plies(), "position": self.line.position_text()})

    def offer_draw(self, member, ply):
        side = self.side(member)
        self.must_be_draughts()
        if self.offer != (side, ply):
            self.must_run()
            self.must_be_next(ply)
            if self.offer:
                raise Refused(58)
            self.offer = side, ply
        return {"draw": "offered", "game": self.number, "ply": ply}

    def accept_draw(self, member, ply):
        side = self.side(member)
        self.must_be_draughts()
        if self.outside == ("Agreed", "1-1") and self.offer == (1 - side, ply):
            return self.ended_outside()
        self.must_run()
        self.must_be_next(ply)
        if self.offer != (1 - side, ply):
            raise Refused(62)
        self.outside = "Agreed", "1-1"
        return self.ended_outside()

    def must_be_draughts(self):
        if self.event["game"] != "draughts":
            raise Refused(63)

    def must_be_next(self, ply):
        if ply != self.plies() + 1:
            raise Refused(57)

    def resign(self, member):
        side = self.side(member)
        if self.is_lost_by(side, "Resigned"):
            return self.ended_outside()
        self.must_run()
        if side != self.turn():
            raise Refused(59)
        return self.lost_by(side, "Resigned")

    def claim(self, member, moment):
        side = self.side(member)
        if self.is_lost_by(1 - side, "Time"):
            return self.ended_outside()
        self.must_run()
        if side == self.turn():
            raise Refused(59)
        if moment - self.since <= self.left[1 - side]:
            raise Refused(61)
        return self.lost_by(1 - side, "Time")

    def declare(self, member, ply):
        """Of a king that has entered: each event has declarations."""
        side = self.side(member)
        if ply == self.plies() + 1 and self.is_lost_by(1 - side, "Declared"):
            return self.ended_outside()
        self.must_run()
        self.must_be_next(ply)
        if side != self.turn():
            raise Refused(59)
        if self.event["game"] != "shogi" or not shogi.may_declare(self.line.position):
            raise Refused(67)
        return self.lost_by(1 - side, "Declared")

    def ruling_refusal(self, number, ruling):
        """The number of the refusal of a ruling that is no repeat, or None."""
        kind, value = ruling[0], ruling[-1]
        if self.by_rule or kind == "grant" and self.end:
            return 56
        if 1 <= number <= len(self.rulings):
            return 58
        if number != len(self.rulings) + 1 or kind == "grant" and not 1 <= value <= 31536000:
            return 65
        return 66 if number > 99 else None

    def rule(self, number, ruling, moment):
        """Gives a ruling, ("grant", side, seconds), ("award", score) or ("void",). Returns whether it is new."""
        if 1 <= number <= len(self.rulings) and self.rulings[number - 1][0] == ruling:
            return False
        refused = self.ruling_refusal(number, ruling)
        if refused:
            raise Refused(refused)
        beneath = None if self.verdict else self.outside
        self.rulings.append((ruling, moment, self.plies(), beneath if ruling[0] != "grant" else None))
        if ruling[0] == "grant":
            self.left[ruling[1]] += ruling[2]
        else:
            self.verdict = ("Awarded", ruling[1]) if ruling[0] == "award" else ("Void", None)
        return True

    def rulings_told(self):
        found = []
        for number, (ruling, moment, ply, _) in enumerate(self.rulings, 1):
            values = {"kind": ruling[0], "moment": moment, "number": number, "ply": ply}
            if ruling[0] == "grant":
                values |= {"seconds": ruling[2], "side": ("first", "second")[ruling[1]]}
            if ruling[0] == "award":
                values |= {"result": ruling[1]}
            found.append(values)
        return {"rulings": found}

    def ruling_rows(self):
        for number, (ruling, moment, ply, beneath) in enumerate(self.rulings, 1):
            is_grant, is_award = ruling[0] == "grant", ruling[0] == "award"
            yield (self.number, number, moment, ply, ruling[1] if is_grant else 2 if is_award else 3,
                   ruling[2] if is_grant else 0, ruling[1] if is_award else None, *(beneath or (None, None)))

    def shown(self):
        return {"end": self.end, "event": self.event["name"], "first": self.players[0], "game": self.number,
                "left": self.left, "moves": self.texts, "offer": self.offerer_told(),
                "ply": self.plies(), "position": self.line.position_text(), "result": self.result,
                "second": self.players[1]}

    def clock(self, moment):
        now = list(self.left)
        if not self.end:
            now[self.turn()] = max(self.deadline() - moment, 0)
        return {"deadline": self.deadline_told(), "game": self.number, "left": self.left, "moment": moment,
                "now": now, "since": self.since, "turn": self.mover_told()}

    def mine(self):
        return {"deadline": self.deadline_told(), "event": self.event["name"], "first": self.players[0],
                "game": self.number, "kind": self.event["game"], "last": self.texts[-1] if self.texts else None,
                "offer": self.offerer_told(), "ply": self.plies(), "position": self.line.position_text(),
                "second": self.players[1], "turn": self.mover_told()}

    def in_event(self):
        return {"deadline": self.deadline_told(), "end": self.end, "first": self.players[0], "game": self.number,
                "ply": self.plies(), "result": self.result, "round": self.round(), "second": self.players[1],
                "turn": self.mover_told()}

    def round(self):
        """The round of a game that `round-robin` may have seated under its key."""
        found = ROUND_KEY.fullmatch(self.key or "")
        return int(found[1]) if found and int(found[1]) <= 62 and int(found[2]) <= 16 else None

    def mine_ended(self):
        return {"end": self.end, "ended": None if self.end in OUTSIDE_ENDS + VERDICTS else self.since,
                "event": self.event["name"], "first": self.players[0], "game": self.number,
                "kind": self.event["game"], "ply": self.plies(), "result": self.result, "second": self.players[1]}

    def legal(self):
        if self.end:
            return {"moves": []}
        return {"moves": [self.line.write(it) for it in self.line.legal()]}


class Club:
    def __init__(self, moment):
        self.moment, self.members, self.events, self.games, self.challenges = moment, {}, {}, [], {}
        self.last, self.has_arbiter, self.closings = 0, False, {}  # the events that are closed, with their timestamps

    @property
    def keys(self):
        """The members' names by the keys that they have now, in the order of ids."""
        return {keys[-1]: name for name, keys in self.members.items()}

    def member(self, name, key):
        self.members[name] = [key]

    def event(self, name, game, budget, increment):
        self.events[name] = {"name": name, "game": game, "budget": budget, "increment": increment}

    def seat(self, key, event, first, second, moment):
        self.games.append(Game(len(self.games) + 1, key, self.events[event], first, second, moment))
        return self.games[-1]

    def answer(self, key, route, values, body):
        """The kind of the reply and its text, for one who shows a key; values are those of the path."""
        if key not in self.keys:
            raise Refused(50)
        if route == "table":
            return "text/plain", self.table(self.event_of(values[0]))
        if route == "record":
            return "text/plain", record_of(self.game_of(values[0]))
        before = self.state()
        text = to_json(getattr(self, f"do_{route}")(self.keys[key], *values, *body))
        if self.state() != before:
            self.last = self.moment
        return "application/json", text

    def state(self):
        """What differs after each command that is accepted."""
        return [(it.plies(), it.offer, it.end) for it in self.games], [it["state"] for it in self.challenges.values()]

    def event_of(self, name):
        if name not in self.events:
            raise Refused(52)
        return self.events[name]

    def game_of(self, number):
        if not 1 <= number <= len(self.games):
            raise Refused(53)
        return self.games[number - 1]

    def do_game(self, _, number):
        return self.game_of(number).shown()

    def do_legal(self, _, number):
        return self.game_of(number).legal()

    def do_rulings(self, _, number):
        return self.game_of(number).rulings_told()

    def do_clock(self, _, number):
        return self.game_of(number).clock(max(self.last, self.moment))

    def do_page(self, _, number):
        game = self.game_of(number)
        return {"clock": game.clock(max(self.last, self.moment)), "game": game.shown(), "kind": game.event["game"],
                "legal": game.legal()["moves"]}

    def do_analysis_draughts(self, _, start, texts):
        return self.analysis("draughts", start, texts)

    def do_analysis_shogi(self, _, start, texts):
        return self.analysis("shogi", start, texts)

    def analysis(self, kind, start, texts):
        """The line from a start (nothing, the text of a position, or the number of a game and a ply) with more moves."""
        rules, played = RULES[kind], []
        if isinstance(start, tuple):
            game = self.game_of(start[0])
            if game.event["game"] != kind:
                raise Refused(53)
            played = game.line.moves[:start[1]]
        if len(texts) > MOST_TRIED or any(len(it.encode()) > 200 for it in texts):
            raise Refused(65)
        if isinstance(start, tuple) and start[1] > game.plies():
            raise Refused(65)
        line, written = rules.Line(rules.read_written(start) if isinstance(start, str) else None), []
        for move in played:
            line.push(move)
        for text in texts:
            if line.end():
                raise Refused(56)
            move = line.read(text)
            written.append(line.write(move))
            line.push(move)
        end = line.end()
        legal = [] if end else [line.write(it) for it in line.legal()]
        return {"end": end and end[0], "legal": legal, "moves": written, "position": line.position_text()}

    def games_in(self, event):
        return [it for it in self.games if it.event is event]

    def do_games_in(self, _, name):
        return {"games": [it.in_event() for it in self.games_in(self.event_of(name))]}

    def do_standings(self, _, name):
        event = self.event_of(name)
        games = [(*it.players, it.result) for it in self.games_in(event) if it.end != "Void"]
        return {"event": event["name"], "kind": event["game"], "standings": standings([*self.members], games)}

    def do_inviting(self, member):
        events = [{"budget": it["budget"], "event": it["name"], "game": it["game"], "increment": it["increment"],
                   "open": it["name"] not in self.closings} for it in self.events.values()]
        return {"events": events, "members": [it for it in self.members if it != member]}

    def must_be_open(self, event):
        if event in self.closings:
            raise Refused(68)

    def challenges_in_order(self):
        """The challengers' names and the numbers of all challenges, by the challenger's id and by the number."""
        ids = {name: at for at, name in enumerate(self.members)}
        return sorted(self.challenges, key=lambda it: (ids[it[0]], it[1]))

    def do_me(self, member):
        games = [it.mine() for it in self.games if member in it.players and not it.end]
        challenges = [self.challenge_told(*it) for it in self.challenges_in_order()]
        mine = [it for it in challenges if it["state"] in ("open", "accepted") and member == it["from"]]
        count, received, listed = collections.Counter(), 0, []
        for it in challenges:
            if it["state"] == "open" and member == it["to"]:
                received += 1
                count[it["from"]] += 1
                listed += [it] * (count[it["from"]] <= MOST_OF_EACH and len(listed) < MOST_RECEIVED)
        more = {"from": max(len(mine) - MOST_OWN, 0), "to": received - len(listed)}
        refused = [it for it in challenges if it["state"] == "refused" and member == it["from"]]
        return {"challenges": mine[-MOST_OWN:] + listed, "games": games, "member": member,
                "moment": max(self.last, self.moment), "more": more, "refused": refused[::-1][:MOST_REFUSED]}

    def do_ended(self, member):
        games = [it.mine_ended() for it in reversed(self.games) if member in it.players and it.end]
        return {"games": games[:MOST_ENDED], "member": member, "moment": max(self.last, self.moment),
                "more": max(len(games) - MOST_ENDED, 0)}

    def challenge_told(self, member, number):
        found = self.challenges[member, number]
        event, other, is_first = found["asked"]
        first, second = (member, other) if is_first else (other, member)
        return {"event": event, "first": first, "from": member, "game": found["game"], "number": number,
                "second": second, "state": found["state"], "to": other}

    def do_move(self, member, number, ply, text):
        return self.game_of(number).move(member, ply, text, self.moment)

    def do_offer(self, member, number, ply):
        return self.game_of(number).offer_draw(member, ply)

    def do_accept(self, member, number, ply):
        return self.game_of(number).accept_draw(member, ply)

    def do_resign(self, member, number):
        return self.game_of(number).resign(member)

    def do_claim(self, member, number):
        return self.game_of(number).claim(member, self.moment)

    def do_declare(self, member, number, ply):
        return self.game_of(number).declare(member, ply)

    def do_challenge(self, member, number, event, first, rival):
        self.event_of(event)
        asked = event, rival, first
        found = self.challenges.get((member, number))
        if not found or found["asked"] != asked:
            if found:
                raise Refused(58)
            if not 1 <= number <= 9999 or rival not in self.members or rival == member:
                raise Refused(65)
            self.must_be_open(event)
            self.challenges[member, number] = {"asked": asked, "state": "open", "game": None}
        return {"challenge": number, "state": "open"}

    def do_withdraw(self, member, number):
        found = self.challenges.get((member, number))
        if not found:
            raise Refused(54)
        if found["state"] not in ("open", "withdrawn"):
            raise Refused(58)
        found["state"] = "withdrawn"
        return {"challenge": number, "state": "withdrawn"}

    def do_answer(self, member, challenger, number, accept):
        found = self.challenges.get((challenger, number))
        if not found or found["asked"][1] != member:
            raise Refused(54)
        state = "accepted" if accept else "refused"
        if found["state"] not in ("open", state):
            raise Refused(58)
        if accept and found["state"] == "open":
            event, _, first = found["asked"]
            self.must_be_open(event)
            sides = (challenger, member) if first else (member, challenger)
            found["game"] = self.seat(None, event, *sides, self.moment).number
        found["state"] = state
        return {"challenge": number, "state": state} | ({"game": found["game"]} if accept else {})

    def table(self, event):
        """The cross table of an event."""
        met = {}
        for game in self.games:
            if game.event is event and game.result:
                for side in (0, 1):
                    points = {"2-0": (2, 0), "1-1": (1, 1), "0-2": (0, 2)}[game.result][side]
                    row = met.setdefault(game.players[side], {})
                    row.setdefault(game.players[1 - side], []).append(points)
        sums = {member: [points for some in row.values() for points in some] for member, row in met.items()}
        order = sorted(met, key=lambda it: (-sum(sums[it]), -sums[it].count(2), [*self.members].index(it)))
        lines = [f"Event {event['name']}"]
        for rank, member in enumerate(order, 1):
            points = sums[member]
            numbers = sum(points), len(points), points.count(2), points.count(1), points.count(0)
            cells = ["-" if it == member else sum(met[member][it]) if it in met[member] else "." for it in order]
            lines.append(f"{rank:>3} {member:<24}" + "".join(f"{it:>6}" for it in (*numbers, *cells)))
        return "".join(f"{line}\n" for line in lines)

    def scores(self, events, members):
        met = {}
        for game in self.games:
            if game.end:
                for side in (0, 1):
                    pair = events[game.event["name"]], members[game.players[side]], members[game.players[1 - side]]
                    counted = met.setdefault(pair, [])  # nothing of a void game
                    if game.result:
                        counted.append({"2-0": (2, 0), "1-1": (1, 1), "0-2": (0, 2)}[game.result][side])
        return sorted((*pair, sum(it), it.count(2), it.count(1), it.count(0)) for pair, it in met.items())

    def rows(self):
        """All rows that sqlite3 must read of the club."""
        members = {name: number for number, name in enumerate(self.members, 1)}
        events = {name: number for number, name in enumerate(self.events, 1)}
        games = [(it.number, it.key, events[it.event["name"]], *(members[name] for name in it.players), it.start,
                  it.since, it.plies(), *it.left, *(it.offer or (None, None)), it.end, it.result,
                  it.line.position_text(), *it.line.track()) for it in self.games]
        challenges = [(members[member], number, events[it["asked"][0]], members[it["asked"][1]], int(it["asked"][2]),
                       STATES.index(it["state"]), it["game"]) for (member, number), it in self.challenges.items()]
        moves = [(game.number, reply["ply"], reply["move"], moment, reply["left"], reply["position"])
                 for game in self.games for moment, reply in zip(game.moments, game.replies)]
        seen = [(game.number, position, *counted) for game in self.games
                for position, counted in game.line.seen.items()]
        return {"meta": [(1, 3 if self.has_arbiter else 2, self.last)],
                "members": [(members[name], name, keys[0]) for name, keys in self.members.items()],
                "events": [(number, it["name"], int(it["game"] == "shogi"), it["budget"], it["increment"])
                           for number, it in enumerate(self.events.values(), 1)],
                "event_rules": [(number, 1) for number in events.values()],
                "challenges": sorted(challenges), "moves": moves, "games": games, "seen": sorted(seen),
                "scores": self.scores(events, members)} | self.arbiters_rows(events, members)

    def arbiters_rows(self, events, members):
        """The rows of the further tables that a club with an arbiter has."""
        if not self.has_arbiter:
            return {}
        keys = [(members[name], number, key) for name, keys in self.members.items()
                for number, key in enumerate(keys[1:], 1)]
        closings = sorted((events[it], moment) for it, moment in self.closings.items())
        rulings = [row for game in self.games for row in game.ruling_rows()]
        return {"keys": keys, "rulings": rulings, "closings": closings}
