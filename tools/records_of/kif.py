"""KIF, records of shogi as Japanese programs write them, made into CSA."""
import re

from records_of.record import WIDE_BLANKS, Notes, Refused, made

PIECES = {"歩": "FU", "香": "KY", "桂": "KE", "銀": "GI", "金": "KI", "角": "KA", "飛": "HI", "玉": "OU", "王": "OU",
          "と": "TO", "成香": "NY", "杏": "NY", "成桂": "NK", "圭": "NK", "成銀": "NG", "全": "NG", "馬": "UM",
          "龍": "RY", "竜": "RY"}
PROMOTED = {"FU": "TO", "KY": "NY", "KE": "NK", "GI": "NG", "KA": "UM", "HI": "RY"}
DROPPED = ("FU", "KY", "KE", "GI", "KI", "KA", "HI")
DIGITS = {sign: place % 9 + 1 for place, sign in enumerate("123456789１２３４５６７８９一二三四五六七八九")}
BLANKS = " \t" + WIDE_BLANKS
LINE = re.compile(r"(?P<number>[0-9]+)[ \t　]+(?P<what>\S.*?)[ \t　]*"
                  r"(?:\([ \t]*(?P<spent>[0-9]+:[0-9:]+)[ \t]*(?:/[ \t]*[0-9:]*[ \t]*)?\))?[ \t　]*\+?")
MOVE = re.compile(r"(?:同[ \t　]*|(?P<file>[1-9１-９])(?P<rank>[1-9１-９一二三四五六七八九]))"
                  r"(?P<piece>成香|成桂|成銀|[歩香桂銀金角飛玉王と杏圭全馬龍竜])(?P<how>不成|成|打)?"
                  r"[ \t　]*(?:\((?P<left>[1-9]{2})\))?")
HEADER = re.compile(r"(?P<name>[^：:|]+?)[ \t　]*[：:][ \t　]*(?P<value>.*)")
HEADERS = {"先手": "N+", "後手": "N-", "棋戦": "$EVENT:", "場所": "$SITE:", "開始日時": "$START_TIME:",
           "終了日時": "$END_TIME:", "戦型": "$OPENING:"}
MOMENT = re.compile(r"([0-9]{4})[/-]([0-9]{1,2})[/-]([0-9]{1,2})(?:\s*\([^)]*\))?"
                    r"(?:\s+([0-9]{1,2}):([0-9]{2})(?::([0-9]{2}))?)?")
ENDS = {"投了": "%TORYO", "中断": "%CHUDAN", "千日手": "%SENNICHITE", "持将棋": "%JISHOGI", "詰み": "%TSUMI",
        "切れ負け": "%TIME_UP", "反則負け": "%ILLEGAL_MOVE", "入玉勝ち": "%KACHI"}
OTHER_ENDS = ("不戦敗", "封じ手", "待った", "不詰", "反則勝ち")
LOSING = ("%TORYO", "%TSUMI", "%TIME_UP", "%ILLEGAL_MOVE")
TOTAL = re.compile(r"まで[ 　]*(?P<plies>[0-9]+)[ 　]*手(?:で|にて)?[ 　]*(?P<how>.*)")
WON = re.compile(r"(?P<late>時間切れにより|切れ負けにより)?(?P<side>[先後])手の(?P<what>勝ち|反則負け)")
OTHER_SIDE = {"先": "後", "後": "先"}


class KifRecord:
    """A KIF file while it is read: the headers and the moves of the CSA record."""

    def __init__(self, text, notes):
        self.lines, self.notes = text.split("\n"), notes
        self.heads, self.moves, self.to, self.end, self.total = {}, [], None, None, None
        self.left_out, self.comments = [], 0

    def text(self):
        """The record in CSA, complete."""
        for number, line in enumerate(self.lines, 1):
            plain = line.strip(BLANKS + "\r")
            if plain.startswith("変化"):
                self.notes.add("the variations are left out")
                break
            try:
                self.read_line(plain)
            except Refused as refusal:
                raise Refused(f"line {number}: {refusal}") from None
        if not self.moves:
            raise Refused("it has no moves of KIF")
        if self.total:
            self.judge_total()
        self.tell_left_out()
        return "".join(f"{line}\n" for line in self.csa_lines())

    def tell_left_out(self):
        if self.comments:
            self.notes.add("comment lines are left out: " + str(self.comments))
        if self.left_out:
            self.notes.add(f"headers are left out: {', '.join(self.left_out)}")
        self.notes.add("the record is written as CSA")

    def csa_lines(self):
        yield "V2.2"
        yield from (mark + self.heads[mark] for mark in HEADERS.values() if self.heads.get(mark))
        yield from ("PI", "+")
        for statement, seconds in self.moves + ([self.end] if self.end else []):
            yield statement
            if seconds is not None:
                yield f"T{seconds}"

    def read_line(self, line):
        if not line or line[0] in "#&":
            return
        if line[0] in "▲△▽▼☗☖":
            raise Refused("it is KI2, which does not say which square a piece leaves; save it as KIF")
        numbered, total = LINE.fullmatch(line), TOTAL.fullmatch(line)
        if line[0] == "*":
            self.comments += 1
        elif total:
            self.total = total
        elif numbered:
            self.read_numbered(numbered)
        elif self.moves or self.end:
            raise Refused(f'"{line[:40]}" is not understood')
        elif not line.startswith("手数-"):
            self.read_header(line)

    def read_header(self, line):
        found = HEADER.fullmatch(line)
        if not found and line[0] in "|+9９":
            raise Refused("it begins from a diagram")
        if not found:
            raise Refused(f'"{line[:40]}" is not understood')
        name, value = found["name"], found["value"]
        if name == "手合割":
            if value != "平手":
                raise Refused(f"it begins from another position than the even opening: {value}")
        elif name in ("上手", "下手") or name.endswith("の持駒"):
            raise Refused(f"it begins from another position than the even opening: it has a line {name}")
        elif name in HEADERS:
            self.heads[HEADERS[name]] = self.csa_moment(name, value) if name.endswith("日時") else value
        elif value:
            self.left_out.append(name)

    def csa_moment(self, name, value):
        """A moment as CSA writes it, or nothing where it is not understood."""
        found = MOMENT.fullmatch(value)
        if not found:
            self.left_out += [name] if value else []
            return ""
        year, month, day, hour, minute, second = found.groups()
        date = f"{year}/{int(month):02}/{int(day):02}"
        return f"{date} {int(hour):02}:{minute}:{second or '00'}" if hour else date

    def read_numbered(self, line):
        what, seconds = line["what"], seconds_of(line["spent"])
        if self.end:
            raise Refused(f"{what[:40]} comes after the end")
        if int(line["number"]) != len(self.moves) + 1:
            raise Refused(f"the number {line['number']} stands where {len(self.moves) + 1} is due")
        move = MOVE.fullmatch(what)
        if move:
            self.moves.append((self.csa_move(move), seconds))
        elif what in ENDS:
            self.end = ENDS[what], seconds
        elif what in OTHER_ENDS:
            raise Refused(f"the end {what} is none that the club has")
        else:
            raise Refused(f'"{what[:40]}" is not understood')

    def csa_move(self, move):
        """A move in CSA, where the piece is named as it is after the move."""
        if move["file"]:
            self.to = f"{DIGITS[move['file']]}{DIGITS[move['rank']]}"
        piece, how, left = PIECES[move["piece"]], move["how"], move["left"]
        placed = piece in DROPPED and not left if how == "打" else left
        if not (self.to and placed) or how in ("成", "不成") and piece not in PROMOTED:
            raise Refused(f'"{move[0]}" is not understood')
        side = "+-"[len(self.moves) % 2]
        return f"{side}{left or '00'}{self.to}{PROMOTED[piece] if how == '成' else piece}"

    def judge_total(self):
        """Looks whether the line of the total says the same as the moves and the end; it may say the end alone."""
        told, how = f"the line {self.total[0]}", self.total["how"]
        if int(self.total["plies"]) != len(self.moves):
            raise Refused(f"{told} does not fit: the moves are {len(self.moves)}")
        won = WON.fullmatch(how)
        winner = won and (OTHER_SIDE[won["side"]] if won["what"] == "反則負け" else won["side"])
        last = "後先"[len(self.moves) % 2]
        ended = self.end and self.end[0]
        winning = last if ended in LOSING else OTHER_SIDE[last] if ended == "%KACHI" else None
        if self.end is None:
            self.end = self.told_end(told, won, winner == last), None
            self.notes.add(f"{told} is written {self.end[0]}")
        elif won and winner != winning or ENDS.get(how, ended) != ended:
            raise Refused(f"{told} and the end {ended} differ")

    def told_end(self, told, won, by_last):
        """The end that the line of the total alone says.

        Where it says who won and no more, and that is the side that moved last, these programs mean that the other
        resigned.
        """
        if won and by_last and won["what"] == "勝ち":
            return "%TIME_UP" if won["late"] else "%TORYO"
        if self.total["how"] in ("中断", "千日手", "持将棋", "入玉勝ち"):
            return ENDS[self.total["how"]]
        raise Refused(f"{told} is not understood")


def seconds_of(spent):
    """The seconds that a move took, written MINUTES:SECONDS or HOURS:MINUTES:SECONDS."""
    if not spent:
        return None
    parts = spent.split(":")
    if not all(parts) or len(parts) > 3:
        raise Refused(f"the time {spent} is not understood")
    return sum(int(part) * 60 ** place for place, part in enumerate(reversed(parts)))


def kif_records(text):
    """The game of a KIF file."""
    notes = Notes()
    return [made(KifRecord(text, notes).text, notes)]
