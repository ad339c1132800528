"""Shogi and its texts as docs/rules.md and docs/formats.md say them, for tests: slow and plain.

A position is (turn, board, hands): 'b' or 'w', a map from (file, rank) to (side, kind, is_promoted), and a map from
(side, kind) to a count above 0. A move is (from, to, promotes) with from a square, or a kind that is dropped.
"""
import collections
import re

from models.draughts import Refused

KINDS = "RBGSNLP"
SET = {"R": 2, "B": 2, "G": 4, "S": 4, "N": 4, "L": 4, "P": 18}  # pieces of a kind
FORWARD = {"b": -1, "w": 1}
STRAIGHT, DIAGONAL = ((0, 1), (0, -1), (1, 0), (-1, 0)), ((1, 1), (1, -1), (-1, 1), (-1, -1))
GOLD = (0, 1), (1, 1), (-1, 1), (1, 0), (-1, 0), (0, -1)  # files aside and ranks forward
STEPS = {"K": STRAIGHT + DIAGONAL, "G": GOLD, "S": ((0, 1), *DIAGONAL), "N": ((1, 2), (-1, 2)), "P": ((0, 1),)}
SLIDES = {"R": STRAIGHT, "B": DIAGONAL, "L": ((0, 1),)}
SQUARES = [(file, rank) for file in range(1, 10) for rank in range(1, 10)]
USI = re.compile(r"([1-9][a-i])([1-9][a-i])(\+?)|([RBGSNLP])\*([1-9][a-i])")
OPENING = "lnsgkgsnl/1r5b1/ppppppppp/9/9/9/PPPPPPPPP/1B5R1/LNSGKGSNL b -"


def other(side):
    return "w" if side == "b" else "b"


def read_sfen(text):
    """The position of a text that is written well."""
    rows, turn, hand = text.split(" ")[:3]
    board = {}
    for rank, row in enumerate(rows.split("/"), 1):
        file = 9
        for plus, letter in re.findall(r"(\+?)([a-zA-Z1-9])", row):
            if letter.isdigit():
                file -= int(letter)
            else:
                board[file, rank] = "b" if letter.isupper() else "w", letter.upper(), bool(plus)
                file -= 1
    hands = {}
    for count, letter in re.findall(r"(\d*)([a-zA-Z])", hand):
        hands["b" if letter.isupper() else "w", letter.upper()] = int(count or 1)
    return turn, board, hands


def read_written(text):
    """The position of a text as the club writes it, with one king a side and no more pieces than a set."""
    if not re.fullmatch(r"[1-9a-zA-Z+]+(?:/[1-9a-zA-Z+]+){8} [bw] [0-9a-zA-Z-]+", text):
        raise Refused(30)
    position = read_sfen(text)
    counts = collections.Counter(kind for _, kind, _ in position[1].values())
    counts.update({kind: sum(position[2].get((side, kind), 0) for side in "bw") for kind in KINDS})
    kings = sorted(side for side, kind, _ in position[1].values() if kind == "K")
    if write_sfen(position) != text or kings != ["b", "w"] or any(counts[kind] > most for kind, most in SET.items()):
        raise Refused(30)
    return position


def letter_of(piece):
    side, kind, promoted = piece
    return ("+" if promoted else "") + (kind if side == "b" else kind.lower())


def write_sfen(position):
    """The first three fields: the club's text of a position."""
    turn, board, hands = position
    rows = []
    for rank in range(1, 10):
        row = "".join(letter_of(board[file, rank]) if (file, rank) in board else "1" for file in range(9, 0, -1))
        rows.append(re.sub("1+", lambda run: str(len(run[0])), row))
    hand = "".join((str(hands[side, kind]) if hands[side, kind] > 1 else "") + letter_of((side, kind, False))
                   for side in "bw" for kind in KINDS if (side, kind) in hands)
    return f"{'/'.join(rows)} {turn} {hand or '-'}"


def reached(board, square):
    """The squares that the piece at a square reaches, each once."""
    side, kind, promoted = board[square]
    steps, slides = STEPS.get(kind, ()), SLIDES.get(kind, ())
    if promoted:
        steps = {"R": DIAGONAL, "B": STRAIGHT}.get(kind, GOLD)
        slides = slides if kind in "RB" else ()
    for aside, ahead in steps:
        to = square[0] + aside, square[1] + ahead * FORWARD[side]
        if 1 <= to[0] <= 9 and 1 <= to[1] <= 9:
            yield to
    for aside, ahead in slides:
        to = square
        while True:
            to = to[0] + aside, to[1] + ahead * FORWARD[side]
            if not (1 <= to[0] <= 9 and 1 <= to[1] <= 9):
                break
            yield to
            if to in board:
                break


def is_checked(board, side):
    """The king of a side is attacked."""
    king = next(square for square, piece in board.items() if piece[:2] == (side, "K"))
    return any(piece[0] != side and king in reached(board, square) for square, piece in board.items())


def is_far(side, rank, ranks):
    return rank <= ranks if side == "b" else rank > 9 - ranks


def may_declare(position):
    """The king of the side to move has entered, by the rule of 27 points."""
    turn, board, hands = position
    camp = [kind for (_, rank), (side, kind, _) in board.items() if side == turn and is_far(turn, rank, 3)]
    pieces = [kind for kind in camp if kind != "K"] + [kind for side, kind in hands if side == turn
                                                       for _ in range(hands[side, kind])]
    points = sum(5 if kind in "RB" else 1 for kind in pieces)
    enough = points >= (28 if turn == "b" else 27)
    return "K" in camp and len(camp) > 10 and enough and not is_checked(board, turn)


def must_promote(side, kind, rank):
    return kind in "PL" and is_far(side, rank, 1) or kind == "N" and is_far(side, rank, 2)


def play(position, move):
    turn, board, hands = position[0], dict(position[1]), dict(position[2])
    start, to, promotes = move
    if isinstance(start, str):
        board[to] = turn, start, False
        hands[turn, start] -= 1
        if not hands[turn, start]:
            del hands[turn, start]
    else:
        taken = board.get(to)
        _, kind, promoted = board.pop(start)
        board[to] = turn, kind, promoted or promotes
        if taken:
            hands[turn, taken[1]] = hands.get((turn, taken[1]), 0) + 1
    return other(turn), board, hands


def step_fault(position, move):
    turn, board, _ = position
    start, to, promotes = move
    piece = board.get(start)
    if not piece or piece[0] != turn or to not in reached(board, start):
        return 13
    if to in board and (board[to][0] == turn or board[to][1] == "K"):
        return 13
    far = is_far(turn, start[1], 3) or is_far(turn, to[1], 3)
    if promotes and (piece[2] or piece[1] in "KG" or not far):
        return 13
    return 15 if not promotes and not piece[2] and must_promote(turn, piece[1], to[1]) else 0


def drop_fault(position, move):
    turn, board, hands = position
    kind, to, _ = move
    if to in board:
        return 13
    if (turn, kind) not in hands:
        return 14
    if must_promote(turn, kind, to[1]):
        return 16
    return 17 if kind == "P" and any(board.get((to[0], rank)) == (turn, "P", False) for rank in range(1, 10)) else 0


def pseudo_moves(position):
    """The steps and drops to which only the safety of the king and mate by a dropped pawn may be wanting."""
    turn, board, hands = position
    for start, piece in board.items():
        if piece[0] == turn:
            for to in reached(board, start):
                for promotes in (False, True):
                    if not step_fault(position, (start, to, promotes)):
                        yield start, to, promotes
    for side, kind in hands:
        if side == turn:
            for to in SQUARES:
                if not drop_fault(position, (kind, to, False)):
                    yield kind, to, False


def is_safe(position, move):
    return not is_checked(play(position, move)[1], position[0])


def is_mated(position):
    return is_checked(position[1], position[0]) and not any(is_safe(position, it) for it in pseudo_moves(position))


def fault(position, move):
    """The refusal of a move, or 0."""
    is_drop = isinstance(move[0], str)
    found = (drop_fault if is_drop else step_fault)(position, move)
    if found:
        return found
    if not is_safe(position, move):
        return 18
    return 19 if is_drop and move[0] == "P" and is_mated(play(position, move)) else 0


def has_move(position):
    return any(not fault(position, move) for move in pseudo_moves(position))


def square_of(text):
    return int(text[0]), ord(text[1]) - ord("a") + 1


def square_text(square):
    return f"{square[0]}{chr(ord('a') + square[1] - 1)}"


def read_move(position, text):
    found = USI.fullmatch(text)
    if not found:
        raise Refused(30)
    move = (found[4], square_of(found[5]), False) if found[4] else (square_of(found[1]), square_of(found[2]),
                                                                   bool(found[3]))
    number = fault(position, move)
    if number:
        raise Refused(number)
    return move


def write_move(move):
    start, to, promotes = move
    if isinstance(start, str):
        return f"{start}*{square_text(to)}"
    return square_text(start) + square_text(to) + ("+" if promotes else "")


class Line:
    """A line of moves from the opening or another position, with what its end is reckoned from."""

    def __init__(self, position=None):
        self.position = position or read_sfen(OPENING)
        self.moves, self.checks, self.seen, self.given = [], {"b": 0, "w": 0}, {}, []
        self.count()

    def count(self):
        key = write_sfen(self.position)
        times, first = self.seen.get(key, (0, len(self.moves)))
        self.seen[key] = times + 1, first

    def push(self, move):
        mover = self.position[0]
        self.position = play(self.position, move)
        gives_check = is_checked(self.position[1], other(mover))
        self.checks[mover] = self.checks[mover] + 1 if gives_check else 0
        self.moves.append(move)
        self.given.append((mover, gives_check))
        self.count()

    def track(self):
        return self.checks["b"], self.checks["w"]

    def end(self):
        """The rules' end and its score, or None."""
        if not has_move(self.position):
            return "NoMove", "0-2" if self.position[0] == "b" else "2-0"
        times, first = self.seen[write_sfen(self.position)]
        if times >= 4:
            always = [side for side in "bw" if all(check for mover, check in self.given[first:] if mover == side)]
            if len(always) == 1:
                return "PerpetualCheck", "0-2" if always == ["b"] else "2-0"
            return "Fourfold", "1-1"
        return ("PlyLimit", "1-1") if len(self.moves) >= 600 else None

    def position_text(self):
        return write_sfen(self.position)

    def read(self, text):
        return read_move(self.position, text)

    def write(self, move):
        return write_move(move)

    def legal(self):
        """The legal moves: steps by their squares, then drops by kind and square."""
        found = [move for move in pseudo_moves(self.position) if not fault(self.position, move)]
        drops = [it for it in found if isinstance(it[0], str)]
        steps = sorted(it for it in found if not isinstance(it[0], str))
        return steps + sorted(drops, key=lambda it: (KINDS.index(it[0]), it[1]))


# ---- records

CODES = {"FU": "P", "KY": "L", "KE": "N", "GI": "S", "KI": "G", "KA": "B", "HI": "R", "OU": "K"}
PROMOTED = {"TO": "P", "NY": "L", "NK": "N", "NG": "S", "UM": "B", "RY": "R"}
VERSIONS = "V2", "V2.1", "V2.2"
CODE = rf"(?:{'|'.join([*CODES, *PROMOTED])})"
CELL = rf"(?: \* |[-+]{CODE})"
FORMS = (("version", r"V2|V2\.1|V2\.2"), ("part", "/"), ("whole", rf"PI((?:[1-9][1-9]{CODE})*)"),
         ("row", rf"P([1-9])((?:{CELL}){{8}}(?:{CELL}| \*)) *"), ("pieces", rf"P[-+]((?:(?:00|[1-9][1-9]){CODE})*)"),
         ("side", r"[-+]"), ("move", rf"([-+])(00|[1-9][1-9])([1-9][1-9])({CODE})"),
         ("time", "T[0-9]+"), ("end", "%.*"))
EVEN = {1: "-KY-KE-GI-KI-OU-KI-GI-KE-KY", 2: " * -HI *  *  *  *  * -KA * ", 3: "-FU" * 9, 4: " * " * 9, 5: " * " * 9,
        6: " * " * 9, 7: "+FU" * 9, 8: " * +KA *  *  *  *  * +HI * ", 9: "+KY+KE+GI+KI+OU+KI+GI+KE+KY"}
LOSES = "%TORYO", "%TIME_UP", "%ILLEGAL_MOVE", "%TSUMI"
DRAWS = "%SENNICHITE", "%JISHOGI", "%HIKIWAKE"


def csa_lines(text):
    """(line, statement) for each, and (line, None) for a header."""
    for number, line in enumerate(re.split(r"\r?\n", text), 1):
        if line.startswith("'"):
            continue
        if line.startswith(("N+", "N-", "$")):
            yield number, None
        else:
            for statement in line.split(","):
                if statement:
                    yield number, statement


def form_of(statement):
    for kind, pattern in FORMS:
        found = re.fullmatch(pattern, statement, re.DOTALL)
        if found:
            return kind, found
    return None, None


STAGES = {"version": 0, "whole": 1, "row": 1, "pieces": 1, "side": 2, "move": 3, "end": 4}


class Record:
    """A record that is being read: how far, and what it contains."""

    def __init__(self, is_first):
        self.is_first, self.stage, self.last = is_first, 0, None
        self.rows, self.has_whole, self.is_other = 0, False, False
        self.moves, self.end = [], None

    def take(self, kind, found):
        """Whether a statement, or a header, is in order; a statement is executed."""
        if not self.is_in_order(kind, found):
            return False
        if kind in STAGES:
            self.stage = STAGES[kind]
        if kind:
            self.last = kind
            getattr(self, f"take_{kind}")(found)
        return True

    def is_in_order(self, kind, found):
        if kind is None:
            return self.stage < 3
        if kind == "version":
            return self.last is None
        if self.is_first and self.last is None:
            return False
        if kind == "time":
            return self.last in ("move", "end", "time")
        if kind in ("move", "end"):
            return self.stage in (2, 3)
        if kind == "row":
            return self.stage < 2 and not self.has_whole and int(found[1]) == self.rows + 1
        if kind == "pieces":
            return self.stage < 2
        return self.stage < 2 and (self.rows in (0, 9) if kind == "side" else not self.rows and not self.has_whole)

    def take_version(self, _):
        pass

    take_time = take_version

    def take_row(self, found):
        self.rows += 1
        self.is_other |= found[2].rstrip() != EVEN[self.rows].rstrip()

    def take_whole(self, found):
        self.has_whole = True
        self.is_other |= bool(found[1])

    def take_pieces(self, found):
        self.is_other |= bool(found[1])

    def take_side(self, found):
        self.is_other |= found[0] == "-"

    def take_move(self, found):
        self.moves.append(found.groups())

    def take_end(self, found):
        self.end = found[0]


def csa_records(text):
    """The records of a text, or a refusal of its form."""
    statements = list(csa_lines(text))
    first = next((it for _, it in statements if it is not None), None)
    if first is None:
        raise Refused(40, 1)
    if first not in VERSIONS:
        raise Refused(41)
    records = [Record(True)]
    for number, statement in statements:
        if statement is None:
            if not records[-1].take(None, None):
                raise Refused(40, number)
            continue
        kind, found = form_of(statement)
        if kind == "part":
            records.append(Record(False))
        elif not kind or not records[-1].take(kind, found):
            raise Refused(40, number)
    if len(records) > 1 and not records[-1].last:
        records.pop()
    return records


def code_move(position, written):
    """The move of a statement, or None where none has the code."""
    sign, start, to, code = written
    turn, board, _ = position
    end = int(to[0]), int(to[1])
    if sign != {"b": "+", "w": "-"}[turn]:
        return None
    if start == "00":
        return (CODES[code], end, False) if code in CODES and code != "OU" else None
    square = int(start[0]), int(start[1])
    piece = board.get(square)
    kind = CODES.get(code) or PROMOTED[code]
    if not piece or piece[1] != kind or piece[2] and code in CODES:
        return None
    return square, end, code in PROMOTED and not piece[2]


def played(record):
    line, end = Line(), None
    for ply, written in enumerate(record.moves, 1):
        if end:
            raise Refused(45, ply)
        move = code_move(line.position, written)
        number = 13 if move is None else fault(line.position, move)
        if number:
            raise Refused(43, ply, number)
        line.push(move)
        end = line.end()
    return line, end


def said_score(line, end, word):
    mover = line.position[0]
    lost = {"b": "0-2", "w": "2-0"}
    if word in LOSES:
        score = lost[mover]
    elif word in DRAWS:
        score = "1-1"
    elif word in ("%+ILLEGAL_ACTION", "%-ILLEGAL_ACTION"):
        score = lost["b" if word[1] == "+" else "w"]
    elif word == "%KACHI":
        if not may_declare(line.position):
            raise Refused(46)
        score = lost[other(mover)]
    else:
        raise Refused(44)
    needed = {"%TSUMI": "NoMove", "%SENNICHITE": "Fourfold"}.get(word)
    if needed and (not end or end[0] != needed) or end and end[1] != score:
        raise Refused(46)
    return score


def read_records(text):
    """For each record of a text its moves in USI, its score and its line."""
    found = []
    for record in csa_records(text.decode("latin-1")):
        if record.is_other:
            raise Refused(42)
        line, end = played(record)
        if record.end is None:
            raise Refused(44)
        score = said_score(line, end, record.end)
        found.append(([write_move(move) for move in line.moves], score, line))
    return found
