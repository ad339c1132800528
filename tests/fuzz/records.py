"""Imports of PDN and CSA texts that are changed by a seed: each is refused, or accepted with the moves that it has.

The texts come from tests/data/records and from games played by lot; what is read in them is read by the rules and formats of
draughts and shogi.
"""
import contextlib
import functools
import pathlib
import random
import re
import sqlite3
import subprocess
import tempfile

from models import draughts, shogi
from lib.club import RECORDS, copy_club, read_tables
from models.draughts import Refused
from models.officer import LIMIT, told_refusal
from models.records import csa_move

GAMES = 12
POOL_LASTS = 400  # cases
PDN_PARTS = (
    b"{", b"}", b"(", b")", b"[", b"]", b'"', b"\\", b";", b"%", b"$", b"$1", b"!", b"?", b"!?", b"*", b"-", b"x", b":",
    b".", b"1.", b"1...", b"99999999999999999999.", b" ", b"\t", b"\r", b"\n", b"\r\n", b"\x00", b"\xff", b"\xc3\xa9",
    b"\n%x\n", b" ;x\n", b"{(}", b"({)}", b"(()", b"{}", b"()", b"$ 1", b"\x0b", b"\x0c", b"\xef\xbb\xbf", b"\n\n",
    b"2-0", b"1-1", b"0-2", b"1-0", b"1/2-1/2", b"0-1", b"0-0", b"1/2", b"32-28", b"19-23", b"28x19", b"28:19",
    b"032-028", b"1-10", b"51-46", b"00-5", b"0-5", b"1x1", b"1-1x", b"50x01", b"[A \"\"]", b"[A\"b\"]", b"[ A \"b\" ]",
    b"[A \"\\\"\"]", b"[A \"\\\\\"]", b"[A \"\\x\"]", b"[A_1 \"x\ny\"]", b"[A-B \"x\"]", b"[\"x\"]", b"[A x]",
    b"[\nA\n\"x\"\n]", b"[GameType \"20\"]", b"[GameType \"20,W\"]", b"[GameType \"21\"]", b"[GameType \"200\"]",
    b"[gametype \"21\"]", b"[Result \"2-0\"]", b"[Result \"0-2\"]", b"[Result \"1-1\"]", b"[Result \"1/2-1/2\"]",
    b"[Result \"*\"]", b"[Result \"x\"]", b"[FEN \"W:W31-50:B1-20\"]", b"[FEN \"W:B1-20:W31-50.\"]",
    b"[FEN \"B:W31-50:B1-20\"]", b"[FEN \"W:W31-49,50:B01-20\"]", b"[FEN \"W:W31-50:B1-19,K20\"]",
    b"[FEN \"W:W31-50,50:B1-20\"]", b"[FEN \"\"]")
CSA_PARTS = (
    b"'", b",", b"/", b"+", b"-", b"%", b"$", b"N+", b"N-x", b"$x", b"T", b"T1", b"T01", b"V2", b"V2.1", b"V2.2", b"V3",
    b"V2.", b"PI", b"P+", b"P-", b"P1", b"P10", b"PI82HI", b"P-00AL", b"P+55KI", b"+7776FU", b"-3334FU", b"+0055FU",
    b"-0055KA", b"+7776TO", b"+7770FU", b"+0000FU", b"+7776XX", b"+7776fu", b"+777FU", b"+8822UM", b"+8822KA",
    b"%TORYO", b"%CHUDAN", b"%TIME_UP", b"%TSUMI", b"%SENNICHITE", b"%JISHOGI", b"%HIKIWAKE", b"%KACHI",
    b"%ILLEGAL_MOVE", b"%+ILLEGAL_ACTION", b"%-ILLEGAL_ACTION", b"%MATTA", b"%toryo", b" ", b"\t", b"\r", b"\n",
    b"\r\n", b"\x00", b"\xff", b"\n'x\n", b"\n\n", b",,", b"\n/\n", b"\n/\nV2.2\n", b"\nT5\n", b"\n+\n", b"\n-\n",
    b"\nPI\n", b"\nP+\n", b"\xef\xbb\xbf")


# ---- games to begin with

def played(chance, rules, plies):
    """A line of moves by lot, up to the rules' end or so many plies."""
    line = rules.Line()
    while len(line.moves) < plies and not line.end():
        line.push(drawn(chance, rules, line))
    return line


def drawn(chance, rules, line):
    """A legal move by lot."""
    if rules is draughts:
        return chance.choice(line.legal())
    moves = list(rules.pseudo_moves(line.position))
    chance.shuffle(moves)
    return next(move for move in moves if not rules.fault(line.position, move))


def pdn_text(chance, line):
    rules = draughts
    walked, words = rules.Line(), []
    for ply, move in enumerate(line.moves):
        if ply % 2 == 0:
            words.append(f"{ply // 2 + 1}.{chance.choice(('', ' '))}")
        behind = chance.choice((" ", "\n", "! ", " {x} ", " $1 ", " (1. x) "))
        words.append(rules.write_move(walked.position, move) + behind)
        walked.push(move)
    end = line.end()
    score = end[1] if end else chance.choice(("2-0", "1-1", "0-2"))
    tags = "".join(f'[{name} "{value}"]\n' for name, value in (("White", "a"), ("Result", score), ("GameType", "20"))
                   if chance.random() < 0.7)
    return (tags + "\n" + "".join(words) + score + chance.choice(("", "\n"))).encode()


def csa_text(chance, line):
    walked, words = shogi.Line(), ["V2.2", "PI", "+"]
    for move in line.moves:
        words.append(csa_move(walked.position, move) + chance.choice(("", ",T7", "\nT0")))
        walked.push(move)
    end = line.end()
    words.append(csa_end(chance, end and end[0], walked))
    return "".join(f"{word}\n" for word in words).encode()


def csa_end(chance, end, line):
    if not end:
        return chance.choice(("%TORYO", "%TIME_UP", "%HIKIWAKE", "%JISHOGI", "%+ILLEGAL_ACTION", "%-ILLEGAL_ACTION"))
    loser = "+" if end == "PerpetualCheck" and line.end()[1] == "0-2" else "-"
    return {"NoMove": "%TSUMI", "Fourfold": "%SENNICHITE", "PlyLimit": "%JISHOGI"}.get(end, f"%{loser}ILLEGAL_ACTION")


@functools.lru_cache(maxsize=1)
def pools(seed, number, plies):
    """The texts to change, for each format."""
    chance = random.Random(f"{seed} games {number}")
    texts = {}
    for kind, rules, write in (("pdn", draughts, pdn_text), ("csa", shogi, csa_text)):
        lines = [played(chance, rules, chance.randint(0, plies)) for _ in range(GAMES)]
        texts[kind] = [path.read_bytes() for path in sorted(RECORDS.glob(f"*.{kind}"))]
        texts[kind] += [write(chance, line) for line in lines]
    return texts


# ---- changes of a text

MOVES = {"pdn": re.compile(rb"(?<![0-9x:-])[0-9]+(?:[x:-][0-9]+)+(?![0-9/x:-])"),
         "csa": re.compile(rb"[-+][0-9]{4}[A-Z]{2}")}
RESULTS = {"pdn": (b"2-0", b"1-1", b"0-2", b"1-0", b"1/2-1/2", b"0-1", b"*", b""),
           "csa": (b"%TORYO", b"%TIME_UP", b"%ILLEGAL_MOVE", b"%TSUMI", b"%SENNICHITE", b"%JISHOGI", b"%HIKIWAKE",
                   b"%+ILLEGAL_ACTION", b"%-ILLEGAL_ACTION", b"%CHUDAN", b"%KACHI", b"%", b"")}


def other_move(chance, kind, move, moves):
    """Another move's text, mostly one that may be written so."""
    if kind == "csa":
        squares = "".join(chance.choice("0123456789" if chance.random() < 0.1 else "123456789") for _ in "1234")
        start = chance.choice((move[1:3], b"00", squares[:2].encode()))
        code = chance.choice((*shogi.CODES, *shogi.PROMOTED)).encode()
        return chance.choice((chance.choice(moves), move[:3] + squares[2:].encode() + move[5:], move[:5] + code,
                              chance.choice((b"+", b"-")) + start + squares[2:].encode() + move[5:]))
    numbers = [it.decode() for it in re.split(rb"[x:-]", move)]
    square = str(chance.randint(1, 50))
    short = f"{numbers[0]}x{numbers[-1]}"
    turned = move.translate(bytes.maketrans(b"x-:", b"-x-"))
    return chance.choice((chance.choice(moves), short.encode(), turned, f"{numbers[0]}-{square}".encode(),
                          f"{numbers[0]}x{square}x{numbers[-1]}".encode(), f"{square}-{numbers[-1]}".encode(),
                          f"0{numbers[0]}-{numbers[-1]}".encode()))


def change_move(chance, kind, text):
    """One move's text dropped, doubled, exchanged or made another's."""
    found = list(MOVES[kind].finditer(text))
    if not found:
        return text
    moves = [it[0] for it in found]
    at = chance.choice((-1, chance.randrange(len(found))))
    begin, end = found[at].span()
    here = moves[at]
    between = {"pdn": b" ", "csa": b"\n"}[kind]
    some = chance.choice((b"", here + between + here, here + between + chance.choice(moves),
                          *(other_move(chance, kind, here, moves) for _ in range(3))))
    return text[:begin] + some + text[end:]


def change_result(chance, kind, text):
    """Another end of the record, or something after it."""
    pattern = {"pdn": rb"(?:[012]-[012]|1/2-1/2|\*)\s*\Z", "csa": rb"%\S*\s*\Z"}[kind]
    end = re.search(pattern, text)
    kept = text[:end.start()] if end else text
    return kept + chance.choice(RESULTS[kind]) + chance.choice((b"", b"\n", b"\n" + chance.choice(RESULTS[kind])))


def change_head(chance, kind, text):
    """Something before the record, or after its first line."""
    part = chance.choice({"pdn": PDN_PARTS[-18:], "csa": CSA_PARTS}[kind])
    first = text.find(b"\n") + 1
    return chance.choice((part + b"\n" + text, text[:first] + part + b"\n" + text[first:]))


def changed(chance, kind, texts):
    text = chance.choice(texts[kind])
    for change in chance.choices((change_move, change_move, change_result, change_head), k=chance.choice((0, 1, 1, 2))):
        text = change(chance, kind, text)
    return change_bytes(chance, kind, texts, text) if chance.random() < 0.4 else text


def change_bytes(chance, kind, texts, text):
    text = bytearray(text)
    parts = {"pdn": PDN_PARTS, "csa": CSA_PARTS}[kind]
    for _ in range(chance.choice((0, 1, 1, 1, 1, 2, 2, 3, 6))):
        at = chance.randint(0, len(text))
        if chance.random() < 0.5:
            at = place_of_token(chance, text)
        size = chance.choice((0, 0, 1, 1, 2, 5, 30))
        some = bytes(text[at:at + size])
        text[at:at + size] = chance.choice((b"", some * 2, chance.choice(parts), chance.choice(parts), some[::-1],
                                            bytes([chance.randrange(256)])))
    return whole_change(chance, bytes(text), texts[kind])


def place_of_token(chance, text):
    places = [found.start() for found in re.finditer(rb"(?<!\S)\S", bytes(text))]
    return chance.choice(places) if places else 0


def whole_change(chance, text, texts):
    """Now and then another form of the whole text."""
    kind = chance.random()
    if kind < 0.08:
        return text[:chance.randint(0, len(text))]
    if kind < 0.12:
        return text.replace(b"\n", chance.choice((b"\r\n", b"\r", b"\n\n", b"\n\r", b" ")))
    if kind < 0.16:
        return text + chance.choice((b"", b"\n", b"/\n")) + chance.choice(texts)
    if kind < 0.18:
        length = LIMIT + chance.choice((-1, 0, 1, 2, 5000))
        fill = chance.choice((b"\n", b" ", b"(", b"'", b"{", b","))
        return text + fill * (length - len(text)) if chance.random() < 0.5 else fill * (length - len(text)) + text
    if kind < 0.2:
        return chance.randbytes(chance.randint(0, 60))
    return text


# ---- what is expected

def expected_of(kind, text, part):
    """The moves, the score and the line of a text, or its refusal."""
    if len(text) > LIMIT:
        raise Refused(65)
    if kind == "pdn":
        return draughts.read_record(text)
    if part == 0:
        raise Refused(65)
    records = shogi.read_records(text)
    if part > len(records):
        raise Refused(65)
    return records[part - 1]


class Importing:
    """A club into whose copies texts are imported."""

    def __init__(self, test, room):
        self.test, self.base, self.file = test, f"{room}/base.db", f"{room}/c.db"
        for words in ("init", "member anna keyanna1", "member bert keybert2", "event autumn draughts 86400 0",
                      "event fuji shogi 86400 0", "seat g autumn anna bert"):
            subprocess.run([test.program, "--now", "1000", self.base, *words.split()], check=True, capture_output=True)
        self.before = read_tables(self.base)
        self.outcomes = {}

    def club(self, text, *words):
        words = [self.test.program, "--now", "1000", self.file, *words]
        ran = subprocess.run(words, input=text, capture_output=True, timeout=60)
        return ran.returncode, ran.stdout, ran.stderr

    def case(self, name, kind, text, part):
        copy_club(self.base, self.file)
        event = {"pdn": "autumn", "csa": "fuji"}[kind]
        words = [f"import-{kind}", *(["--part", str(part)] if part != 1 else []), "k", event, "anna", "bert", "-"]
        got = self.club(text, *words)
        given = kind, part, text
        try:
            found = expected_of(kind, text, part)
        except Refused as refusing:
            self.count(refusing.args[0])
            line = told_refusal(refusing)
            self.test.check(got == (1, b"", line.encode()), name, line, got, given)
            self.test.check(read_tables(self.file) == self.before, f"{name}: the rows", "as before", "others", given)
            return
        self.count("accepted")
        if self.test.check(got == (0, b"accepted game 2\n", b""), name, f"accepted {found[:2]}", got, given):
            self.check_game(name, kind, found, given)

    def check_game(self, name, kind, found, given):
        """The tables have the game as it was read, and its export is the same."""
        moves, score, line = found
        end = line.end()
        with contextlib.closing(sqlite3.connect(self.file)) as club:
            stored = [text for text, in club.execute("SELECT text FROM moves WHERE game = 2 ORDER BY ply")]
            game = club.execute('SELECT plies, "end", result, position, track_a, track_b FROM games '
                                "WHERE id = 2").fetchone()
        expected = len(moves), end[0] if end else "Recorded", score, line.position_text(), *line.track()
        self.test.check((stored, game) == (moves, expected), f"{name}: stored", (moves, expected), (stored, game), given)
        status, written, _ = self.club(None, "export", "2")
        try:
            again = expected_of(kind, written, 1)[:2]
        except Refused as refusing:
            again = refusing
        is_same = (status, again) == (0, (moves, score))
        self.test.check(is_same, f"{name}: exported", (moves, score), (again, written), given)
        found = self.club(None, "verify")
        self.test.check(found == (0, b"sound\n", b""), f"{name}: verify", "sound", found, given)

    def count(self, what):
        self.outcomes[what] = self.outcomes.get(what, 0) + 1


def run(test):
    """Texts until the time is over."""
    with tempfile.TemporaryDirectory() as room:
        importing = Importing(test, room)
        index = 0
        while index < 2 or not test.is_over():
            chance = random.Random(f"{test.seed} records {index}")
            texts = pools(test.seed, index // POOL_LASTS, 20 if index < POOL_LASTS else 150)
            kind = ("pdn", "csa")[index % 2]
            text = changed(chance, kind, texts)
            part = chance.choice((0, 1, 2, 3)) if kind == "csa" and chance.random() < 0.2 else 1
            importing.case(f"text {index}", kind, text, part)
            index += 1
    summary = ", ".join(f"{count} {what}" for what, count in sorted(importing.outcomes.items(), key=lambda it: str(it[0])))
    return f"refusals: {summary}"
