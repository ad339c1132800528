"""Command lines by a seed: rows, output and status are compared with the model of the officer's commands."""
import contextlib
import os
import pathlib
import random
import re
import shutil
import sqlite3
import subprocess
import tempfile

from lib.club import RECORDS, copy_club, read_tables
from models.draughts import Refused
from models.officer import Fault, OfficersClub, told_refusal

ROUND = 80
LAST_MOMENT = 253402300799
KINDS = {  # the kinds of each command's words
    "init": (), "member": ("name", "key"), "event": ("name", "game", "number", "number"),
    "seat": ("name", "name", "name", "name"), "import-pdn": ("name", "name", "name", "name", "record"),
    "import-csa": ("name", "name", "name", "name", "record"), "move": ("number", "number", "move"), "sweep": (),
    "legal": ("number",), "export": ("number",), "table": ("name",), "verify": (), "upgrade": (),
    "members": (), "events": (), "challenges": (), "key": ("name", "number", "key"), "close": ("name",),
    "rulings": ("number",), "rule": ("number", "number", "ruling"),  # a ruling has further words
    "games": (),  # options come after the last
}
JSON_COMMANDS = "legal", "members", "events", "challenges", "games", "rulings"
POOLS = {
    "name": ("anna", "bert", "cara", "dora", "autumn", "fuji", "winter", "g1", "g2", "g3", "a", "a" * 24, "a" * 25,
             "a.b_c-d", "", "an na", "\u00e4", "anna\n", "Anna", "a" * 300, "a/b", "%", "'", "a\tb", "\udcff", "0",
             "..", "a" * 100000),
    "key": ("keyanna1", "keybert2", "keycara3", "keydora4", "k", "1234567", "12345678", "k" * 64, "k" * 65,
            "key anna", "", "key-anna1", "keyann\u00e1", "KEYANNA1", "\udcfe1234567"),
    "game": ("draughts", "shogi", "chess", "Draughts", "", "0", "shogi "),
    "number": ("0", "1", "2", "3", "4", "5", "60", "86400", "31536000", "31536001", "2592000", "2592001", "007",
               "600", "601", "9223372036854775807", "18446744073709551615", "18446744073709551616", "1.0", "x", "",
               " 1", "1 ", "1e3", "\u0661", "0x1", "99999999999999999999999", "1" * 5000, "1\n"),
    "move": ("32-28", "19-23", "28x19", "31-26", "17-22", "7g7f", "3c3d", "8h2b+", "P*5e", "2g2f", "28x", "51-46", "",
             "3", "050-5", "005-1", "32-28 ", "x", "7g7", "P*", "7g7f++", "K*5e", "7j7i", "1" * 200, "1" * 201,
             "32:28:19", "\u00e4", "3\u0662-28", "32-28\n", "20-25", "14-20", "33-29", "\udcff", "\u20ac" * 70),
    "ruling": ("void", "award", "grant", "void", "award", "grant", "void", "award", "", "voids", "Void", "draw"),
    "side": ("first", "second", "first", "second", "First", "both", ""),
    "score": ("2-0", "1-1", "0-2", "1-1", "2-2", "1-0", "", "2", "=", "\udcff"),
    "record": ("-", "evening.pdn", "draw.pdn", "two.csa", "resigned.csa", "checkmate.csa", "nowhere", "folder",
               "long", "empty"),
}
PLAYERS = "anna", "bert", "cara", "dora"
COMMANDS = (*KINDS, *("member", "event", "seat", "move", "move", "move", "import-pdn", "import-csa", "legal",
            "export", "table", "games", "games", "key", "key", "rule", "rule", "rule"))
VALUES_OF_RULINGS = {"grant": ("side", "number"), "award": ("score",), "void": ()}
SCORES = "2-0", "1-1", "0-2"
BY_ARBITER = "init", "upgrade"  # which have the flag `--arbiter`
NAMED, FLAGS = ("--event", "--member"), ("--running", "--overdue")
ODD_OPTIONS = (*NAMED, *FLAGS, *FLAGS, "--event=", "--member=-a", "--running=1", "--ended", "--over", "--Event", "-",
               "anna")
ODD = ("sit", "", "INIT", "--help", "-h", "help", "--version", "init init", "serve", "import", "-", "--", "moves",
       "\udcff")
FILES = (("missing.db", "70 Foreign"), ("folder", "73 Store"), ("notes.txt", "73 Store"), ("empty.db", "70 Foreign"),
         ("nowhere/c.db", "73 Store"), ("", "70 Foreign"))
NUMBER = re.compile(r"0*[0-9]{1,20}")


class BadWords(Exception):
    """Words that are no order."""


# ---- command lines

def words_of(chance, club):
    """A command and its words, mostly such as may be accepted."""
    command = chance.choice(COMMANDS)
    if command == "games":
        return [command, *options_of(chance, club)]
    words = [chance.choice(POOLS[kind][:8] if chance.random() < 0.75 else POOLS[kind]) for kind in KINDS[command]]
    if chance.random() < 0.8:
        words = likely(chance, club, command, words)
    if command == "rule" and words[-1] in VALUES_OF_RULINGS:
        words += [chance.choice(POOLS[kind]) for kind in VALUES_OF_RULINGS[words[-1]]]
    if command in BY_ARBITER and chance.random() < 0.15:
        words.append("--arbiter")
    if command == "import-csa" and chance.random() < 0.4:
        words[:0] = ["--part", chance.choice(POOLS["number"][:4] if chance.random() < 0.8 else POOLS["number"])]
    return [command, *words]


def options_of(chance, club):
    """Options of a list of games, mostly such as it may have."""
    found = []
    for option, names in zip(NAMED, (club.events, club.keys.values())):
        if chance.random() < 0.5:
            name = chance.choice([*names] if chance.random() < 0.7 else POOLS["name"])
            found.append(chance.choice(([option, name], [f"{option}={name}"])))
    if chance.random() < 0.6:
        found.append([chance.choice(FLAGS)])
    if chance.random() < 0.2:
        found.append([chance.choice(ODD_OPTIONS)])
    chance.shuffle(found)
    return [word for option in found for word in option]


def likely(chance, club, command, words):
    """Words that fit the club as it is."""
    if command == "member":
        return chance.choice((words, [chance.choice([*club.keys.values()]), words[1]],
                              [words[0], chance.choice([*club.keys])], [*chance.choice([*club.keys.items()])][::-1]))
    if command == "event":
        budget = chance.choice(("1", "60", "86400", "31536000", "31536001", "0"))
        increment = chance.choice(("0", "5", "2592000", "2592001"))
        found = [str(it) for it in chance.choice([*club.events.values()]).values()]
        return chance.choice((found, [words[0], chance.choice(("draughts", "shogi")), budget, increment]))
    if command in ("seat", "import-pdn", "import-csa"):
        game = chance.choice(club.games)
        if chance.random() < 0.3:
            return [game.key, game.event["name"], *game.players, *words[4:]]
        events = [it["name"] for it in club.events.values() if (it["game"] == "shogi") == (command == "import-csa")]
        key = f"g{chance.randint(1, 5)}"
        return [key, chance.choice(events), *chance.sample(PLAYERS, 2), *words[4:]]
    if command == "key":
        name, keys = chance.choice([*club.members.items()])
        number = max(len(keys) + chance.choice((0, 0, 0, 0, -1, -1, 1)), 0)
        fresh = f"key{name}{number}{chance.randint(100, 999)}"
        return [name, str(number), chance.choice((*keys, fresh, fresh, words[2], "-"))]
    if command == "rule":
        game = chance.choice(club.games)
        number = max(len(game.rulings) + chance.choice((1, 1, 1, 1, 0, 0, 2)), 0)
        return [str(game.number), str(number), *likely_ruling(chance, game, number)]
    if command == "close":
        return [chance.choice([*club.events])] if chance.random() < 0.3 else words
    if command in ("legal", "export", "rulings"):
        return [str(chance.randint(1, len(club.games)))]
    return likely_move(chance, club, words) if command == "move" else words


def ruling_words(ruling):
    """The words of a ruling of the model."""
    return ["grant", ("first", "second")[ruling[1]], str(ruling[2])] if ruling[0] == "grant" else [*ruling]


def likely_ruling(chance, game, number):
    """The ruling that stands under the number, or another one."""
    if 1 <= number <= len(game.rulings) and chance.random() < 0.6:
        return ruling_words(game.rulings[number - 1][0])
    seconds = chance.choice((1, 60, 3600, 86400, 31536000, 31536001, 0))
    grant = "grant", chance.choice((0, 1)), seconds
    return ruling_words(chance.choice((grant, grant, grant, ("award", chance.choice(SCORES)), ("void",))))


def likely_move(chance, club, words):
    game = chance.choice(club.games)
    ply = max(game.plies() + chance.choice((1, 1, 1, 1, 0, -1, 2)), 1)
    text = words[2]
    if ply <= game.plies() and chance.random() < 0.6:
        text = game.texts[ply - 1]
    elif chance.random() < 0.4:
        moves = game.line.legal()
        text = game.line.write(chance.choice(moves)) if moves else text
    if chance.random() < 0.25:
        at = chance.randint(0, len(text))
        text = text[:at] + chance.choice(("", *"0015-x:+*aiPK \u00e4")) + text[at + chance.choice((0, 1)):]
    return [str(game.number), str(ply), text]


def changed(chance, words):
    """The words with a hole, one too many, two exchanged, or an odd one."""
    words = list(words)
    kind = chance.choice(("hole", "more", "exchange", "odd", "doubled", "command"))
    at = chance.randrange(len(words))
    if kind == "hole":
        words.pop(at)
    elif kind == "more":
        words.insert(chance.randint(1, len(words)), chance.choice(POOLS[chance.choice(list(POOLS))]))
    elif kind == "exchange":
        other = chance.randrange(len(words))
        words[at], words[other] = words[other], words[at]
    elif kind == "odd":
        words[at] = chance.choice(ODD)
    elif kind == "doubled":
        words.insert(at, words[at])
    else:
        words[0] = chance.choice((*KINDS, *ODD))
    return [*words, "no port"] if "serve" in words else words


def moments(chance, club, command):
    """The words of the timestamp, mostly that of before or a little later; it may be missing from a query."""
    if command in ("verify", "legal", "export", "table", "members", "events", "challenges", "rulings") and chance.random() < 0.2:
        return []
    if command == "games" and chance.random() < 0.5:
        return ["--now", str(chance.choice(club.games).deadline() + chance.choice((-1, 0, 1)))]
    if chance.random() < 0.08:
        return ["--now", chance.choice(("253402300800", "-1", "x", "", "18446744073709551616", "1.5", "01000"))]
    if chance.random() < 0.01:
        return ["--now", "253402300799"]
    return ["--now", str(club.last + chance.choice((0, 0, 0, 1, 5, 59, 60, 61, 86400, 90000, -100)))]


def options_before(chance, club, command):
    """The words before FILE: the timestamp, and `--json` mostly where the command has JSON."""
    found = moments(chance, club, command)
    if chance.random() < (0.4 if command in JSON_COMMANDS else 0.03):
        found.insert(chance.choice((0, len(found))), "--json")
    return found


# ---- what they mean

def number_of(word):
    if not word.isascii() or not NUMBER.fullmatch(word) or int(word) >= 2 ** 64:
        raise BadWords
    return int(word)


def order_of(words):
    """The moment, the command, its values, the part of an import, and whether its answer is JSON.

    BadWords where they are no order, None where that is left open."""
    is_json = words[0] == "--json" or words[2:3] == ["--json"] and words[0] == "--now"
    if is_json:
        words = list(words)
        words.remove("--json")
    if any(is_open(word) for word in words) or is_odd(words) or words.count("--now") > 1:
        return None
    now = 0
    if words[0] == "--now":
        now, words = number_of(words[1]), words[2:]
    if now > LAST_MOMENT or len(words) < 2:
        raise BadWords
    command, values = words[1], words[2:]
    if command not in KINDS or is_json and command not in JSON_COMMANDS:
        raise BadWords
    part = 1
    if command == "games":
        return now, command, listed(values), part, is_json
    if any(word.startswith((*NAMED, *FLAGS)) for word in words):
        raise BadWords
    if command == "import-csa" and "--part" in values:
        at = values.index("--part")
        if at > 0 or values.count("--part") > 1:
            return None
        if len(values) < 2:
            raise BadWords
        part, values = number_of(values[1]), values[2:]
    if command in BY_ARBITER and values == ["--arbiter"]:
        return now, command, values, part, is_json
    if command == "rule":
        return now, command, ruled(values), part, is_json
    if "--part" in values or "--now" in words or "--arbiter" in values or len(values) != len(KINDS[command]):
        raise BadWords
    values = [number_of(value) if kind == "number" else value for kind, value in zip(KINDS[command], values)]
    if command == "event" and values[1] not in ("draughts", "shogi"):
        raise BadWords
    return now, command, values, part, is_json


def ruled(values):
    """The game, the number and the ruling that words name."""
    kind, *more = values[2:] or [""]
    if kind not in VALUES_OF_RULINGS or len(more) != len(VALUES_OF_RULINGS[kind]):
        raise BadWords
    if kind == "award" and more[0] not in SCORES or kind == "grant" and more[0] not in ("first", "second"):
        raise BadWords
    if kind == "grant":
        more = [("first", "second").index(more[0]), number_of(more[1])]
    return [number_of(values[0]), number_of(values[1]), (kind, *more)]


def is_open(word):
    """Whether a word is an option of which the documents do not say whether it is one."""
    known = ("-", "--part", "--now", *FLAGS, *NAMED, "--arbiter")
    return word.startswith("-") and word not in known and not word.startswith(tuple(f"{it}=" for it in known[3:]))


def listed(options):
    """The event and the member that options name, if they do, and the flag; each option once, and one flag."""
    found, flags, words = {}, [], list(options)
    while words:
        option, is_joined, name = words.pop(0).partition("=")
        if option in NAMED and not is_joined and words and (words[0] == "-" or not words[0].startswith("-")):
            is_joined, name = True, words.pop(0)
        if option in found or (not is_joined if option in NAMED else is_joined or option not in FLAGS):
            raise BadWords
        if option in FLAGS:
            flags.append(option)
        found[option] = name
    if len(flags) > 1:
        raise BadWords
    return [*(found.get(option) for option in NAMED), *(flags or [None])]


def is_odd(words):
    """Whether a word is not UTF-8."""
    return any("\udc00" <= letter <= "\udcff" for word in words for letter in word)


def record_of(word, standard_input):
    """The bytes of a record, or None where it cannot be read."""
    if word == "-":
        return standard_input
    try:
        return pathlib.Path(word).read_bytes()[:65537]
    except (OSError, ValueError):
        return None


def key_in(standard_input):
    """The key that standard input holds: its beginning without one line end."""
    text = standard_input[:65537]
    return text.removesuffix(b"\r\n" if text.endswith(b"\r\n") else b"\n").decode(errors="replace")


def printed(club, order, standard_input):
    """The status, standard output and standard error."""
    club.moment, command, values, part, is_json = order
    acts = {"member": club.add_member, "event": club.add_event, "seat": club.add_seat, "move": club.do_officers_move,
            "sweep": club.do_sweep, "legal": club.do_list, "export": club.do_export, "table": club.do_table,
            "verify": club.do_verify, "upgrade": club.do_upgrade, "members": club.do_members, "key": club.add_key,
            "close": club.do_close, "rule": club.do_rule, "rulings": club.do_ruling_lines,
            "events": club.do_events, "challenges": club.do_challenges, "games": club.do_games}
    if command.startswith("import-"):
        text = record_of(values[-1], standard_input)
        if text is None:
            return 3, "", "store 76 Input\n"
        values = [command.removeprefix("import-"), part, *values[:-1], text]
    if command == "key" and values[-1] == "-":
        values = [*values[:-1], key_in(standard_input)]
    if command == "init":
        return 3, "", "store 70 Foreign\n"
    try:
        return 0, club.json_of(command, values) if is_json else acts.get(command, club.add_record)(*values), ""
    except Refused as refusing:
        return 1, "", told_refusal(refusing)
    except Fault as fault:
        return 3, "", f"store {fault}\n"


def is_silent_but(got, status):
    """What was not done has that status, nothing on the standard output and something on the standard error."""
    return got[0] == status and status in (1, 2, 3) and not got[1] and bool(got[2])


class Wording:
    """Words given one after another to one club."""

    def __init__(self, test, name):
        self.test, self.name, self.club, self.statuses = test, name, OfficersClub(0), {}

    def run(self, words, standard_input):
        data = [os.fsencode(word) for word in (self.test.program, *words)]
        ran = subprocess.run(data, input=standard_input, capture_output=True, timeout=60)
        return ran.returncode, ran.stdout.decode(errors="replace"), ran.stderr.decode(errors="replace")

    def begin(self):
        for words in ("init", "member anna keyanna1", "member bert keybert2", "event autumn draughts 86400 5",
                      "event fuji shogi 60 0", "seat g1 autumn anna bert", "seat g2 fuji bert anna"):
            order = order_of(["--now", "1000", "c.db", *words.split()])
            expected = (0, "ready\n", "") if words == "init" else printed(self.club, order, b"")
            got = self.run(["--now", "1000", "c.db", *words.split()], b"")
            self.test.check(expected == got, f"{self.name}: {words}", expected, got)

    def fill(self):
        """Members and events up to the last but one that a club may have."""
        with contextlib.closing(sqlite3.connect("c.db")) as found, found:
            for number in range(len(self.club.keys) + 1, 200):
                self.club.member(f"m{number}", f"keymember{number}")
                found.execute("INSERT INTO members VALUES (?, ?, ?)", (number, f"m{number}", f"keymember{number}"))
            for number in range(len(self.club.events) + 1, 50):
                self.club.event(f"e{number}", "shogi", number, 0)
                found.execute("INSERT INTO events VALUES (?, ?, 1, ?, 0)", (number, f"e{number}", number))
                found.execute("INSERT INTO event_rules VALUES (?, 1)", (number,))

    def case(self, name, words, standard_input):
        try:
            order = order_of(words)
        except BadWords:
            order = "bad"
        given = words, standard_input
        if order is None:
            return self.open_case(name, words, standard_input)
        got = self.run(words, standard_input)
        self.statuses[got[0]] = self.statuses.get(got[0], 0) + 1
        if order == "bad":
            good = self.test.check(is_silent_but(got, 2), name, "bad words", got, given)
        else:
            expected = printed(self.club, order, standard_input)
            good = self.test.check(expected == got, name, expected, got, given)
        kept = read_tables("c.db") == self.club.rows()
        return self.test.check(kept, f"{name}: the rows", "those of the model", "others", given) and good

    def open_case(self, name, words, standard_input):
        """Words of which the documents do not say whether they are an order: nothing changes unless they are done."""
        copy_club("c.db", "open.db")
        got = self.run(["open.db" if word == "c.db" else word for word in words], standard_input)
        is_told = is_silent_but(got, got[0]) and (got[0] == 2 or got[2].count("\n") == 1)
        is_good = is_told or got[0] == 0 and not got[2] and not is_odd(words)
        self.test.check(is_good, name, "a status with its stream", got, (words, standard_input))
        kept = got[0] == 0 or read_tables("open.db") == self.club.rows()
        return self.test.check(kept, f"{name}: the rows", "as before", "others", (words, standard_input))

    def at_files(self, chance, name):
        """Without a club: a usage error or a fault, and no file is created."""
        file, fault = chance.choice(FILES)
        words = [*options_before(chance, self.club, ""), file, *words_of(chance, self.club)]
        try:
            order = order_of(words)
        except BadWords:
            order = "bad"
        if order is None or order != "bad" and order[1] == "init":
            return True
        got = self.run(words, b"")
        is_read = order == "bad" or not order[1].startswith("import-") or record_of(order[2][-1], b"") is not None
        expected = (3, "", f"store {fault if is_read else '76 Input'}\n")
        good = is_silent_but(got, 2) if order == "bad" else expected == got
        return self.test.check(good, name, "bad words" if order == "bad" else expected, got, words)


def folder_content():
    files = (it for it in pathlib.Path(".").rglob("*") if it.name[:4] not in ("c.db", "open"))
    return sorted((str(it), it.stat().st_size) for it in files)


def run(test):
    """Rounds of words until the time is over; each begins with a new club."""
    statuses, number = {}, 0
    while number == 0 or not test.is_over():
        wording = Wording(test, f"round {number}")
        with tempfile.TemporaryDirectory() as room, contextlib.chdir(room):
            one_round(test, wording, number)
        for status, count in wording.statuses.items():
            statuses[status] = statuses.get(status, 0) + count
        number += 1
    return "words, with their status: " + ", ".join(f"{count} {status}" for status, count in sorted(statuses.items()))


def one_round(test, wording, number):
    for record in RECORDS.iterdir():
        shutil.copyfile(record, record.name)
    os.mkdir("folder")
    pathlib.Path("long").write_bytes(b" " * 70000)
    pathlib.Path("empty").write_bytes(b"")
    pathlib.Path("empty.db").write_bytes(b"")
    pathlib.Path("notes.txt").write_text("Notes of the club, of more than sixteen letters.\n")
    wording.begin()
    if number % 3 == 1:
        wording.fill()
    before = folder_content()
    records = [path.read_bytes() for path in sorted(RECORDS.iterdir())]
    given = []
    for index in range(ROUND):
        if test.is_over():
            return
        chance = random.Random(f"{test.seed} words {number} {index}")
        name = f"round {number} words {index}"
        if chance.random() < 0.1:
            if not wording.at_files(chance, name):
                return
            continue
        words = words_of(chance, wording.club) if not given or chance.random() < 0.85 else chance.choice(given)
        given.append(words)
        if chance.random() < 0.25:
            words = changed(chance, words)
        standard_input = chance.choice((b"", *records))
        before_file = options_before(chance, wording.club, (*words, "")[0])
        if not wording.case(name, [*before_file, "c.db", *words], standard_input):
            return
    test.check(before == folder_content(), f"round {number}: other files", before, folder_content())
