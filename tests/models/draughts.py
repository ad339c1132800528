"""International draughts and its texts as docs/rules.md and docs/formats.md say them, for tests: slow and plain.

A position is (turn, pieces): 'W' or 'B', and a map from squares to (side, is_king). A move is (from, to, taken).
"""
import functools
import re

SCORES = {"2-0": "2-0", "1-1": "1-1", "0-2": "0-2", "1-0": "2-0", "1/2-1/2": "1-1", "0-1": "0-2"}
DIRECTIONS = (-1, -1), (-1, 1), (1, -1), (1, 1)
SQUARE = r"(?:0?[1-9]|0?[1-4][0-9]|0?50)"
QUIET = re.compile(rf"({SQUARE})-({SQUARE})")
CAPTURE = re.compile(rf"{SQUARE}(?:[x:]{SQUARE})+")


class Refused(Exception):
    """The refusal of a text or a move: its number and those after it."""


def place(square):
    row = (square - 1) // 5
    return row, 2 * ((square - 1) % 5) + (1 if row % 2 == 0 else 0)


PLACES = {square: place(square) for square in range(1, 51)}
SQUARES = {where: square for square, where in PLACES.items()}


@functools.cache
def ray(square, direction):
    """The squares from one on in a direction, to the edge."""
    (row, column), (down, right) = PLACES[square], direction
    found = []
    while (row := row + down, column := column + right) in SQUARES:
        found.append(SQUARES[row, column])
    return found


def opening():
    pieces = {square: ("B", False) for square in range(1, 21)}
    return "W", pieces | {square: ("W", False) for square in range(31, 51)}


def jumps(pieces, piece, taken, square):
    """Each (victim, landing) that a piece at a square may take next; it has been taken off the board."""
    side, is_king = piece
    for direction in DIRECTIONS:
        squares = ray(square, direction)
        at = next((index for index, it in enumerate(squares) if it in pieces), len(squares))
        if at == len(squares) or at > 0 and not is_king:
            continue
        victim = squares[at]
        if pieces[victim][0] == side or victim in taken:
            continue
        for landing in squares[at + 1:] if is_king else squares[at + 1:at + 2]:
            if landing in pieces:
                break
            yield victim, landing


def routes_from(position, start):
    """Each route of the piece at a square: its landing squares, and what it takes."""
    pieces = dict(position[1])
    piece = pieces.pop(start)
    open_routes = [((), frozenset(), start)]
    while open_routes:
        landings, taken, square = open_routes.pop()
        for victim, landing in jumps(pieces, piece, taken, square):
            route = (*landings, landing), taken | {victim}, landing
            open_routes.append(route)
            yield route[0], route[1]


def captures(position):
    """Each capture, of any size, with its routes: {(from, to, taken): [landings]}."""
    found = {}
    for start, (side, _) in position[1].items():
        if side == position[0]:
            for landings, taken in routes_from(position, start):
                found.setdefault((start, landings[-1], taken), []).append(landings)
    return found


def quiet_moves(position):
    turn, pieces = position
    for start, (side, is_king) in pieces.items():
        if side != turn:
            continue
        for direction in DIRECTIONS:
            if not is_king and direction[0] != (-1 if side == "W" else 1):
                continue
            for landing in ray(start, direction)[:None if is_king else 1]:
                if landing in pieces:
                    break
                yield start, landing, frozenset()


def legal(position):
    """{move: routes}; what takes nothing has no route."""
    found = captures(position)
    if not found:
        return {move: [] for move in quiet_moves(position)}
    most = max(len(taken) for _, _, taken in found)
    return {move: routes for move, routes in found.items() if len(move[2]) == most}


def play(position, move):
    turn, pieces = position
    start, end, taken = move
    after = {square: piece for square, piece in pieces.items() if square != start and square not in taken}
    far = range(1, 6) if turn == "W" else range(46, 51)
    after[end] = turn, pieces[start][1] or end in far
    return "B" if turn == "W" else "W", after


# ---- texts of positions and moves

def fen(position):
    turn, pieces = position
    lists = (",".join(("K" if pieces[it][1] else "") + str(it) for it in sorted(pieces) if pieces[it][0] == side)
             for side in "WB")
    return f"{turn}:W{next(lists)}:B{next(lists)}"


def read_fen(text):
    """The position of a text, or None where it is none."""
    found = re.fullmatch(r"([WB]):([WB])([^:WB]*):([WB])([^:WB]*?)\.?", text)
    if not found or found[2] == found[4]:
        return None
    pieces = {}
    for side, items in ((found[2], found[3]), (found[4], found[5])):
        for item in items.split(",") if items else []:
            if not add_item(pieces, side, item):
                return None
    return found[1], pieces


def read_written(text):
    """The position of a text as the club writes it."""
    position = read_fen(text)
    if position is None or fen(position) != text:
        raise Refused(20)
    return position


def add_item(pieces, side, item):
    found = re.fullmatch(rf"(K?)({SQUARE})", item) or re.fullmatch(rf"()({SQUARE})-({SQUARE})", item)
    if not found:
        return False
    first, last = int(found[2]), int(found[found.lastindex])
    squares = range(first, last + 1)
    if first > last or any(square in pieces for square in squares):
        return False
    pieces.update({square: (side, bool(found[1])) for square in squares})
    return True


def is_subsequence(some, others):
    rest = iter(others)
    return all(it in rest for it in some)


def fits(squares, routes):
    return any(is_subsequence(squares[1:-1], route[:-1]) for route in routes)


def read_move(position, text):
    """The move of a text, or the refusal: the number, with the ply's place taken by None."""
    moves = legal(position)
    if found := QUIET.fullmatch(text):
        move = int(found[1]), int(found[2]), frozenset()
        if move in moves:
            return move
        raise Refused(11 if any(it[2] for it in moves) and move in set(quiet_moves(position)) else 10)
    if not CAPTURE.fullmatch(text):
        raise Refused(20)
    squares = [int(it) for it in re.split("[x:]", text)]

    def fitting(among):
        return [it for it, routes in among.items()
                if it[2] and (it[0], it[1]) == (squares[0], squares[-1]) and fits(squares, routes)]

    found = fitting(moves)
    if len(found) == 1:
        return found[0]
    if found:
        raise Refused(21)
    raise Refused(12 if fitting(captures(position)) else 10)


def write_move(position, move):
    start, end, taken = move
    if not taken:
        return f"{start}-{end}"
    moves = legal(position)
    if sum((it[0], it[1]) == (start, end) for it in moves) == 1:
        return f"{start}x{end}"
    return "x".join(map(str, (start, *min(moves[move]))))


# ---- the end of a line

def is_class(position, sizes):
    """One side has a lone king, and the other so many pieces, at least one of them a king."""
    for lone, other in (("W", "B"), ("B", "W")):
        few = [king for side, king in position[1].values() if side == lone]
        many = [king for side, king in position[1].values() if side == other]
        if few == [True] and len(many) in sizes and any(many):
            return True
    return False


class Line:
    """A line of moves from the opening or another position, with what its end is reckoned from."""

    def __init__(self, position=None):
        self.position = position or opening()
        self.moves, self.seen, self.king_moves = [], {}, 0
        self.classes = {sizes: 0 for sizes in ((3,), (1, 2))}
        self.count()

    def count(self):
        key = fen(self.position)
        times, first = self.seen.get(key, (0, len(self.moves)))
        self.seen[key] = times + 1, first
        for sizes in self.classes:
            self.classes[sizes] = self.classes[sizes] + 1 if is_class(self.position, sizes) else 0

    def push(self, move):
        is_king_move = self.position[1][move[0]][1] and not move[2]
        self.king_moves = self.king_moves + 1 if is_king_move else 0
        self.position = play(self.position, move)
        self.moves.append(move)
        self.count()

    def track(self):
        return self.king_moves, max(self.classes.values())

    def end(self):
        """The rules' end and its score, or None."""
        if not legal(self.position):
            return "NoMove", "0-2" if self.position[0] == "W" else "2-0"
        if self.seen[fen(self.position)][0] >= 3:
            return "Repetition", "1-1"
        if self.king_moves >= 50:
            return "KingMoves", "1-1"
        if self.classes[3,] >= 33:
            return "ThreeToOne", "1-1"
        if self.classes[1, 2] >= 11:
            return "TwoToOne", "1-1"
        return ("PlyLimit", "1-1") if len(self.moves) >= 600 else None

    def position_text(self):
        return fen(self.position)

    def read(self, text):
        return read_move(self.position, text)

    def write(self, move):
        return write_move(self.position, move)

    def legal(self):
        """The legal moves by their squares, then by what they take."""
        return sorted(legal(self.position), key=lambda it: (it[0], it[1], sorted(it[2])))


# ---- records

BLANKS = b" \t\r\n"
TAG = re.compile(rb'\[ *([A-Za-z0-9_]+) *"((?:[^"\\]|\\.)*)" *\]', re.DOTALL)
TOKENS = (("tag", TAG), ("number", re.compile(rb"[0-9]+\.+")),
          ("result", re.compile(rb"2-0|1-1|0-2|1-0|1/2-1/2|0-1|\*")))


def closed_parenthesis(text, at):
    """Where what is opened at a place goes on behind its end, or None."""
    depth = 0
    while at < len(text):
        if text[at:at + 1] == b"{":
            at = text.find(b"}", at)
            if at < 0:
                return None
        depth += {b"(": 1, b")": -1}.get(text[at:at + 1], 0)
        at += 1
        if not depth:
            return at
    return None


def skipped(text, at):
    """Where the one thing that is skipped at a place ends; None where none begins there."""
    one = text[at:at + 1]
    if one and one in BLANKS:
        return at + 1
    if one == b"{":
        return text.find(b"}", at) + 1 or None
    if one == b"(":
        return closed_parenthesis(text, at)
    if one == b"$":
        found = re.compile(rb"\$[0-9]+").match(text, at)
        return found.end() if found else None
    if one and one in b"!?":
        return at + 1
    if one == b";" or one == b"%" and (at == 0 or text[at - 1:at] == b"\n"):
        end = text.find(b"\n", at)
        return len(text) if end < 0 else end + 1
    return None


def move_ends(text, at):
    """The end of the longest move at a place, or None."""
    squares = [re.compile(pattern.encode()) for pattern in ("0?[1-9]", "0?[1-4][0-9]", "0?50")]

    def square_ends(place):
        return {found.end() for it in squares if (found := it.match(text, place))}

    ends = {end for start in square_ends(at) if text[start:start + 1] == b"-" for end in square_ends(start + 1)}
    open_ends = square_ends(at)
    while open_ends:
        open_ends = {end for start in open_ends if text[start:start + 1] in (b"x", b":")
                     for end in square_ends(start + 1)}
        ends |= open_ends
    return max(ends, default=None)


def token(text, at):
    """The kind of the longest token at a place, its end and what was found, or None."""
    found = [(kind, match.end(), match) for kind, pattern in TOKENS if (match := pattern.match(text, at))]
    end = move_ends(text, at)
    if end:
        found.append(("move", end, text[at:end].decode()))
    return max(found, key=lambda it: (it[1], it[0] == "result"), default=None)


def tokens(text):
    """The tokens of a record, with their kinds; its first offset that has not the form is refused."""
    at, stage, must_part = 0, 0, False
    while at < len(text):
        behind = skipped(text, at)
        if behind:
            at, must_part = behind, False
            continue
        found = None if must_part else token(text, at)
        if not found:
            raise Refused(20, at)
        kind, end, match = found
        order = {"tag": 0, "number": 1, "move": 1, "result": 2}[kind]
        if order < stage or stage == 2:
            raise Refused(20, at)
        yield kind, match
        at, stage, must_part = end, order, kind in ("move", "result")


def read_record(text):
    """The written moves and the score of a record, with the line of its moves."""
    tags, moves, result = {}, [], None
    found = list(tokens(text))
    if not found:
        raise Refused(20, 0)
    for kind, match in found:
        if kind == "tag":
            tags.setdefault(match[1], re.sub(rb'\\(["\\])', rb"\1", match[2]))
        elif kind == "move":
            moves.append(match)
        elif kind == "result":
            result = match[0].decode()
    game_type = tags.get(b"GameType", b"20")
    if game_type != b"20" and not game_type.startswith(b"20,"):
        raise Refused(23)
    if b"FEN" in tags and read_fen(tags[b"FEN"].decode("latin-1")) != opening():
        raise Refused(24)
    return scored(*played(moves), result, tags)


def played(moves):
    line, written, end = Line(), [], None
    for ply, text in enumerate(moves, 1):
        if end:
            raise Refused(26, ply)
        try:
            move = line.read(text)
        except Refused as refused:
            raise Refused(*((21, ply) if refused.args[0] == 21 else (22, ply, refused.args[0]))) from None
        written.append(line.write(move))
        line.push(move)
        end = line.end()
    return line, written, end


def scored(line, written, end, result, tags):
    if result in (None, "*"):
        raise Refused(25)
    score = SCORES[result]
    if end and end[1] != score:
        raise Refused(27)
    tagged = tags.get(b"Result", b"").decode("latin-1")
    if SCORES.get(tagged, score) != score:
        raise Refused(27)
    return written, score, line
