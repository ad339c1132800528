"""PDN, records of international draughts, as other programs write it."""
import re

from records_of.record import WIDE_BLANKS, Notes, Refused, made

DASHES = "-\u2010\u2011\u2012\u2013\u2014\u2015\u2212\uff0d"
CROSSES = "xX\u00d7\u2715\u0445\u0425"
SQUARE = r"0?[1-9]|0?[1-4][0-9]|0?50"
DASH = f"[{DASHES}]"
TAG = re.compile(r'\[(?P<blanks>[ \t]*)(?P<name>[A-Za-z0-9_]+)(?P<more>[ \t]*)"(?P<value>(?:[^"\\\n]|\\.)*)"'
                 r"(?P<last>[ \t]*)\]")
QUOTED_TAG = re.compile(r'\[[ \t]*(?P<name>[A-Za-z0-9_]+)[ \t]*["“”„‟](?P<value>.*)["“”„‟][ \t]*\]'
                        r"(?=[ \t]*\r?$)", re.M)
BARE_TAG = re.compile(r'\[[ \t]*(?P<name>[A-Za-z0-9_]+)[ \t]+(?P<value>[^"\[\]{}\r\n]*?)[ \t]*\](?=[ \t]*\r?$)', re.M)
ODD_TAG = re.compile(r'\[[ \t]*(?P<name>[^"\[\]{}\n]*?)[ \t]*"[^"\n]*"[ \t]*\](?=[ \t]*\r?$)', re.M)
TAG_LINE = re.compile(r'\n[ \t]*\[[ \t]*[A-Za-z0-9_]+[ \t]*"')
SKIPPED = re.compile(r"[ \t\r\n]+|\{[^}]*\}|;[^\n]*|(?<![^\n])%[^\n]*|\$[0-9]+|[!?]+")
RESULT = re.compile(rf"(?:2[ \t]*{DASH}[ \t]*0|1[ \t]*{DASH}[ \t]*[01]|0[ \t]*{DASH}[ \t]*[12]"
                    rf"|(?:1/2|½)[ \t]*{DASH}[ \t]*(?:1/2|½))(?![\w/]|[ \t]*[{DASHES}{CROSSES}:*][0-9])|\*")
MOVE = re.compile(rf"(?:{SQUARE})(?:(?:[ \t]*[{DASHES}{CROSSES}:][ \t]*|\*)(?:{SQUARE}))+(?![\w/])")
NUMBER = re.compile(r"(?P<number>[0-9]+)(?:(?P<dots>\.+)|(?P<parted>[ \t]+\.+)|\)"
                    rf"|(?=[ \t\r\n]+(?:{SQUARE})[ \t]*[{DASHES}{CROSSES}:*]))")
DOTS = re.compile(r"\.{2,}|…")
SCORES = {"2-0": "2-0", "1-0": "2-0", "1-1": "1-1", "1/2-1/2": "1-1", "0-2": "0-2", "0-1": "0-2"}
UNKNOWN_RESULTS = ("", "*", "?", "-")
OPENING = "W:W31-50:B1-20"
FEN_LIST = r"K?0?[0-9]{1,2}(?:-0?[0-9]{1,2})?(?:,K?0?[0-9]{1,2}(?:-0?[0-9]{1,2})?)*"
FEN = re.compile(rf"(?P<turn>[WB]):(?P<one>[WB])(?P<ones>{FEN_LIST}):(?P<other>[WB])(?P<others>{FEN_LIST})\.?")
INTERNATIONAL = ("standard", "international", "from position")


def plain_result(text):
    """A result as the club writes it, where it is one."""
    return re.sub(DASH, "-", re.sub(r"[ \t]", "", text)).replace("½", "1/2")


def fen_squares(items):
    """The squares of men in a list of FEN; a king's item is kept as it is, so that no opening has it."""
    found = set()
    for item in items.split(","):
        first, _, last = item.partition("-")
        found.update([item] if item.startswith("K") else range(int(first), int(last or first) + 1))
    return found


def is_opening(fen):
    """Whether a text of FEN, in the club's form, is that of the opening."""
    read = FEN.fullmatch(fen)
    if not read or read["turn"] != "W":
        return False
    men = {read["one"]: fen_squares(read["ones"]), read["other"]: fen_squares(read["others"])}
    return men == {"W": set(range(31, 51)), "B": set(range(1, 21))}


class PdnGame:
    """A game of a PDN file while it is read: the pieces that will be written, and what they say."""

    def __init__(self):
        self.pieces, self.tags, self.notes = [], {}, Notes()
        self.begun, self.plies, self.result, self.fault = False, 0, None, None
        self.moves_end, self.by_plies = 0, False

    def is_empty(self):
        return not (self.tags or self.begun or self.fault)

    def due(self):
        """The number that is due: that of the pair of moves, or that of the ply in a game that counts so."""
        return self.plies + 1 if self.by_plies else self.plies // 2 + 1

    def put(self, text, note=None):
        self.pieces.append(text)
        if note:
            self.notes.add(note)

    def refuse(self, why):
        self.fault = self.fault or why

    def text(self):
        """The record, complete."""
        if self.fault:
            raise Refused(self.fault)
        self.put_score()
        return "".join(self.pieces)

    def put_score(self):
        """Puts the score of the Result tag to the end, where the moves end with none."""
        tag = plain_result(self.tags.get("result", ""))
        score, ended = SCORES.get(tag), None if self.result is None else self.pieces[self.result]
        if ended in SCORES:
            if score and score != SCORES[ended]:
                raise Refused(f"its Result tag says {tag}, and its moves end with {ended}")
            return
        if not score:
            if tag not in UNKNOWN_RESULTS:
                raise Refused(f'its Result tag says "{self.tags["result"]}", which is no score')
            return
        if not self.plies:
            raise Refused("it has a score and no moves")
        if ended:
            self.pieces[self.result] = tag
            self.notes.add(f"the score {tag} of the Result tag is put at the end, where * stood")
        else:
            self.append_score(tag)

    def append_score(self, score):
        if any(piece.startswith(";") and MOVE.search(piece) for piece in self.pieces[self.moves_end:]):
            raise Refused("a comment behind ; after its last move has moves; are they of the game?")
        text = "".join(self.pieces)
        body = text.rstrip(" \t\r\n")
        last = next(piece for piece in reversed(self.pieces) if piece.strip(" \t\r\n"))
        between = "\n" if last[0] in ";%" else " "
        self.pieces = [body, between, score, text[len(body):]]
        self.notes.add(f"the score {score} of the Result tag is put at the end, where nothing stood")


class PdnReader:
    """Reads a PDN file from its beginning, piece by piece, into its games."""

    def __init__(self, text):
        self.text, self.at, self.games = text, 0, [PdnGame()]

    def read(self):
        readers = (self.skipped, self.wide_blank, self.variation, self.tag, self.score, self.move, self.number,
                   self.dots)
        while self.at < len(self.text):
            if not any(reader() for reader in readers):
                self.not_understood()
        return [game for game in self.games if not game.is_empty()]

    def game(self):
        return self.games[-1]

    def take(self, form):
        """The next piece, where it has the form."""
        found = form.match(self.text, self.at)
        if found:
            self.at = found.end()
        return found

    def leave_out(self, note):
        """Leaves out the piece that was taken last; what it stood between does not grow together."""
        before = next((piece[-1] for piece in reversed(self.game().pieces) if piece), " ")
        after = self.text[self.at:self.at + 1]
        self.game().put(" " if before.strip() and after.strip() else "", note)

    def line(self, at):
        return self.text.count("\n", 0, at) + 1

    def not_understood(self):
        word = re.compile(r"\S+").match(self.text, self.at)
        if word[0][0] in "{(":
            self.game().refuse(f"line {self.line(self.at)}: {word[0][0]} is not closed")
            self.at = len(self.text)
            return
        self.game().refuse(f'line {self.line(self.at)}: "{word[0][:40]}" is not understood')
        self.at = word.end()

    def skipped(self):
        begin, found = self.at, self.take(SKIPPED)
        if not found:
            return False
        if found[0][0] == "{" and TAG_LINE.search(found[0]):
            self.game().refuse(f"line {self.line(begin)}: a comment runs on over tags; is it closed?")
        self.game().put(found[0])
        return True

    def wide_blank(self):
        found = self.take(re.compile(f"[{WIDE_BLANKS}]"))
        if found:
            self.game().put(" ", "a blank of another kind is written as a blank")
        return bool(found)

    def variation(self):
        """A variation in brackets, with what is nested in it."""
        if not self.text.startswith("(", self.at):
            return False
        begin, depth = self.at, 0
        for found in re.compile(r"\{[^}]*\}|[()]").finditer(self.text, begin):
            depth += {"(": 1, ")": -1}.get(found[0], 0)
            if not depth:
                self.at = found.end()
                if TAG_LINE.search(self.text[begin:self.at]):
                    self.game().refuse(f"line {self.line(begin)}: a variation runs on over tags; is it closed?")
                self.game().put(self.text[begin:self.at])
                return True
        return False

    def tag(self):
        if not self.text.startswith("[", self.at):
            return False
        begin, forms = self.at, (TAG, QUOTED_TAG, BARE_TAG, ODD_TAG)
        form = next((form for form in forms if self.take(form)), None)
        if form is None:
            return False
        if self.game().begun:
            self.games.append(PdnGame())
        found = form.match(self.text, begin)
        if form is ODD_TAG:
            self.leave_out(f'the tag "{found["name"]}" is left out: its name is not one word')
        else:
            self.put_tag(found["name"], *self.written_tag(form, found))
        return True

    def written_tag(self, form, found):
        """The value of a tag and the tag as the club reads it."""
        name, value = found["name"], found["value"]
        if form is TAG:
            if "\t" not in found["blanks"] + found["more"] + found["last"]:
                return value, found[0]
            self.game().notes.add("a tab within a tag is written as a blank")
            return value, f'[{name} "{value}"]'
        if re.search(r'["“”„‟][ \t]*\]', value):
            self.game().refuse(f"the tag {name} does not end where its line does")
        self.game().notes.add(f"the value of the tag {name} is put in quotes anew")
        escaped = value.replace('\\"', '"').replace("\\", "\\\\").replace('"', '\\"')
        return value, f'[{name} "{escaped}"]'

    def put_tag(self, name, value, text):
        game, key = self.game(), name.lower()
        if key == "result" and plain_result(game.tags.get(key, value)) != plain_result(value):
            game.refuse("it has two Result tags that differ")
        game.tags.setdefault(key, value)
        if key == "variant" and value.strip().lower() not in INTERNATIONAL:
            game.refuse(f"its Variant is {value}, and the club plays international draughts")
        if key == "gametype":
            self.put_game_type(name, value, text)
        elif key == "fen":
            self.put_fen(name, value, text)
        else:
            game.put(text)

    def put_game_type(self, name, value, text):
        game, plain = self.game(), value.strip()
        if not plain:
            self.leave_out(f"the empty tag {name} is left out")
        elif plain != "20" and not plain.startswith("20,"):
            game.refuse(f"its GameType is {value}, and that of international draughts is 20")
        elif plain != value:
            game.put(f'[{name} "{plain}"]', f"the blanks about the value of the tag {name} are left out")
        else:
            game.put(text)

    def put_fen(self, name, value, text):
        game, plain = self.game(), re.sub(r"\s", "", value).upper()
        if not plain:
            self.leave_out(f"the empty tag {name} is left out")
        elif is_opening(value):
            game.put(text)
        elif is_opening(re.sub(r"(?::H0)?(?::F1)?\.?\Z", "", plain)):
            game.put(f'[{name} "{OPENING}"]', f"the opening in the tag {name} is written {OPENING}")
        else:
            game.refuse("it begins from another position than the opening")

    def score(self):
        begin, found = self.at, self.take(RESULT)
        if not found:
            return False
        game, text = self.game(), plain_result(found[0])
        game.begun = True
        if game.result is None:
            game.result = len(game.pieces)
            game.put(text, None if text == found[0] else f"the result {found[0]} is written {text}")
        elif text == game.pieces[game.result]:
            self.leave_out(f"the second {text} at the end is left out")
        elif text == "*":
            self.leave_out("the * after the result is left out")
        else:
            game.refuse(f"line {self.line(begin)}: a second result, {text}")
        return True

    def move(self):
        begin, found = self.at, self.take(MOVE)
        if not found:
            return False
        game = self.game()
        if game.result is not None:
            game.refuse(f"line {self.line(begin)}: the move {found[0]} comes after the result")
        game.begun, game.plies = True, game.plies + 1
        game.put(self.plain_move(found[0], begin))
        game.moves_end = len(game.pieces)
        if self.text.startswith("*", self.at):
            self.at += 1
            self.leave_out("the sign * after a move is left out")
        return True

    def plain_move(self, text, begin):
        """A move as the club reads it."""
        game, short = self.game(), re.sub(r"[ \t]", "", text)
        marks = "".join(sorted(set(re.sub("[0-9]", "", short))))
        if short != text:
            game.notes.add("the blanks within a move are left out")
        if all(mark in DASHES for mark in marks):
            if len(re.findall("[0-9]+", short)) != 2:
                game.refuse(f'line {self.line(begin)}: "{text}" is not understood')
            if marks != "-":
                game.notes.add(f"a move is written with -, where {marks} stood")
            return re.sub(DASH, "-", short)
        if marks in ("x", ":", ":x"):
            return short
        if marks != "*" and any(mark not in CROSSES for mark in marks):
            game.refuse(f'line {self.line(begin)}: "{text}" is not understood')
        game.notes.add(f"a capture is written with x, where {marks.replace('x', '')} stood")
        return re.sub(f"[{CROSSES}*]", "x", short)

    def number(self):
        begin, found = self.at, self.take(NUMBER)
        if not found:
            return False
        number = int(found["number"])
        if self.game().result is not None and number == 1:
            self.games.append(PdnGame())
        game = self.game()
        game.begun, game.by_plies = True, game.by_plies or (number, game.plies) == (2, 1)
        if game.result is not None:
            game.refuse(f"line {self.line(begin)}: {found[0]} comes after the result")
        elif number != game.due():
            game.refuse(f"line {self.line(begin)}: the number {number} stands where {game.due()} is due")
        elif found[0].endswith("...") and game.plies % 2 == 0:
            game.refuse(f"line {self.line(begin)}: {found[0]} stands where White is to move")
        self.put_number(found)
        return True

    def put_number(self, found):
        game = self.game()
        if found["dots"]:
            game.put(found[0])
        elif found["parted"]:
            game.put(found["number"] + found["parted"].strip(), "a move number is joined with its dot")
        else:
            game.put(found["number"] + ".", "a move number is written with a dot")

    def dots(self):
        """Dots in place of a move of White that was played before."""
        begin, found = self.at, self.take(DOTS)
        if not found:
            return False
        game = self.game()
        if game.plies % 2 == 0:
            game.refuse(f"line {self.line(begin)}: {found[0]} stands where White is to move")
        self.leave_out("dots in place of White's move are left out")
        return True


def pdn_records(text):
    """The games of a PDN file."""
    games = PdnReader(text).read()
    records = [made(game.text, game.notes) for game in games]
    if len(records) > 1:
        for record in records:
            record.text = record.text.strip(" \t\r\n") + "\n"
    return records
