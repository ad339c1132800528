"""CSA, records of shogi, as other programs write it."""
import re

from records_of.record import WIDE_BLANKS, Notes, Refused, made

VERSIONS = ("V2", "V2.1", "V2.2")
LATER_VERSIONS = ("V3", "V3.0")
ROWS = ("P1-KY-KE-GI-KI-OU-KI-GI-KE-KY", "P2 * -HI *  *  *  *  * -KA *", "P3-FU-FU-FU-FU-FU-FU-FU-FU-FU",
        "P4 *  *  *  *  *  *  *  *  *", "P5 *  *  *  *  *  *  *  *  *", "P6 *  *  *  *  *  *  *  *  *",
        "P7+FU+FU+FU+FU+FU+FU+FU+FU+FU", "P8 * +KA *  *  *  *  * +HI *", "P9+KY+KE+GI+KI+OU+KI+GI+KE+KY")
MOVE = re.compile(r"[+-](?:00|[1-9]{2})[1-9]{2}(?:FU|KY|KE|GI|KI|KA|HI|OU|TO|NY|NK|NG|UM|RY)")
SECONDS = re.compile(r"(T[0-9]+)(\.[0-9]*)?")
END = re.compile(r"%[+-]?[A-Z_]+")
BLANKS = " \t" + WIDE_BLANKS
NOT_EVEN = "it begins from another position than the even opening"
TRIMMED = "the blanks at the beginning or end of a line are left out"


def is_remark(line):
    """Whether a line is a comment or a header, whose bytes mean nothing to the club."""
    return line[:1] in ("'", "$") or line[:2] in ("N+", "N-")


class CsaRecord:
    """One record of a CSA file while it is read: its lines as they will be written."""

    def __init__(self, lines, notes):
        self.lines, self.notes, self.written = lines, notes, []
        self.versioned, self.sided, self.plies, self.ended = False, False, 0, False

    def text(self):
        """The record, complete."""
        for number, line in self.lines:
            body = line.rstrip("\r\n")
            try:
                self.put_line(body, line[len(body):])
            except Refused as refusal:
                raise Refused(f"line {number}: {refusal}") from None
        return "".join(self.written)

    def put_line(self, body, end):
        plain = body.strip(BLANKS)
        if is_remark(plain):
            self.put_remark(body, plain, end)
        elif re.match("P[1-9]", plain):
            if plain.rstrip(" ,") != ROWS[int(plain[1]) - 1]:
                raise Refused(NOT_EVEN)
            if body.rstrip(" ") != plain:
                self.notes.add(TRIMMED)
                body = plain
            self.put_version(end)
            self.written.append(body + end)
        else:
            self.put_statements(body, end)

    def put_remark(self, body, plain, end):
        """A comment or a header, which has its place before the moves."""
        if not is_remark(body):
            self.notes.add(TRIMMED)
            body = plain
        if plain[0] != "'" and (self.plies or self.ended):
            self.notes.add(f"the line {plain.split(':')[0]} after the moves is made a comment")
            body = "'" + body
        self.written.append(body + end)

    def put_statements(self, body, end):
        statements = [statement.strip(BLANKS) for statement in body.split(",")]
        if ",".join(statements) != body:
            self.notes.add(TRIMMED)
        plain = [self.plain(statement, end) if statement else "" for statement in statements]
        self.written.append(",".join(plain) + end)

    def plain(self, statement, end):
        """A statement as the club reads it, where it is understood and stands where it can."""
        if statement in VERSIONS + LATER_VERSIONS:
            return self.plain_version(statement)
        self.put_version(end)
        seconds = SECONDS.fullmatch(statement)
        if seconds:
            if seconds[2] is not None:
                self.notes.add("parts of a second are left out")
            return seconds[1]
        if self.ended and statement != "/":
            raise Refused(f"{statement[:40]} comes after the end")
        self.judge(statement, end)
        return statement

    def plain_version(self, statement):
        self.versioned = True
        if statement in VERSIONS:
            return statement
        self.notes.add(f"the version {statement} is written V2.2")
        return "V2.2"

    def judge(self, statement, end):
        if MOVE.fullmatch(statement):
            self.put_side(statement[0], end)
            self.plies += 1
        elif END.fullmatch(statement):
            if not self.sided:
                raise Refused(f"{statement} stands where a move or the line + is due")
            self.ended = True
        elif statement == "+" and not self.sided:
            self.sided = True
        elif statement == "/":
            self.plies, self.ended = 0, False
        elif statement == "-" or statement.startswith("PI") and statement != "PI" or re.match("P[+-].", statement):
            raise Refused(NOT_EVEN)
        elif statement not in ("PI", "P+", "P-"):
            raise Refused(f'"{statement[:40]}" is not understood')

    def put_version(self, end):
        """Puts the version before the first statement, where none stands."""
        if not self.versioned:
            self.written.append(f"V2.2{end or chr(10)}")
            self.notes.add("the version V2.2 is put before the first statement, where none stood")
        self.versioned = True

    def put_side(self, sign, end):
        """Puts the side that begins before the first move, where it does not stand."""
        if not self.sided:
            if sign != "+":
                raise Refused(NOT_EVEN)
            self.written.append(f"+{end or chr(10)}")
            self.notes.add("the line + is put before the first move, where none stood")
        self.sided = True


def has_statement(lines):
    plain = (line.strip(BLANKS + "\r\n") for _, line in lines)
    return any(line and not is_remark(line) for line in plain)


def csa_records(text):
    """The records of a CSA file, which `/` parts."""
    lines = list(enumerate(re.findall(r"[^\n]*\n|[^\n]+", text), 1))
    parts = [[]]
    for number, line in lines:
        if line.strip(BLANKS + "\r\n") == "/":
            parts.append([])
        else:
            parts[-1].append((number, line))
    parted = [part for part in parts if has_statement(part)]
    if len(parts) == 2 and has_statement(parts[0]) and not has_statement(parts[1]):
        parted = [lines]
    records = [csa_record(part) for part in parted]
    if len(records) == 1 and parted != [lines]:
        records[0].notes.add("the lines / without a record are left out")
    return records


def csa_record(lines):
    notes = Notes()
    return made(CsaRecord(lines, notes).text, notes)
