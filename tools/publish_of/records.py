"""Records as the program exports them (docs/formats.md): their moves, and the same game with fewer of them."""
import re

from common.club import ClubError
from publish_of import draughts, shogi

SQUARE = r"[0-9]{1,2}"
PDN_MOVE = re.compile(rf"{SQUARE}(?:-{SQUARE}|(?:x{SQUARE})+)(?= |\n)")
PDN = re.compile(rf'(?P<head>(?:\[[A-Za-z]+ "[^"\n]*"\]\n)+)\n(?P<moves>(?:[0-9]+\.(?: [0-9x-]+){{1,2}}\n)*)'
                 r"(?:2-0|1-1|0-2|\*)\n")
CSA_MOVE = r"[+-][0-9]{4}(?:FU|KY|KE|GI|KI|KA|HI|OU|TO|NY|NK|NG|UM|RY)"
CSA = re.compile(r"(?P<head>V2\.2\nN\+(?P<first>.*)\nN-(?P<second>.*)\n(?:\$.*\n)*PI\n\+\n)"
                 rf"(?P<moves>(?:{CSA_MOVE}\nT[0-9]+\n)*)%[A-Z_+-]+\n")


class PdnRecord:
    """A game of draughts."""

    ending, rules = "pdn", draughts

    def __init__(self, text):
        found = PDN.fullmatch(text)
        self.text, self.head = text, found["head"]
        self.moves = PDN_MOVE.findall(found["moves"])
        self.players = tuple(re.search(rf'^\[{it} "(.*)"\]$', self.head, re.M)[1] for it in ("White", "Black"))

    def first(self, count):
        """The record of the game while it had so many plies."""
        head = re.sub(r'^\[Result ".*"\]$', '[Result "*"]', self.head, flags=re.M)
        pairs = (f"{at // 2 + 1}. {' '.join(self.moves[at:min(at + 2, count)])}\n" for at in range(0, count, 2))
        return PdnRecord(f"{head}\n{''.join(pairs)}*\n")

    @staticmethod
    def split(text):
        return [it for it in re.split(r"^\n(?=\[Event )", text, flags=re.M) if it]

    @staticmethod
    def join(records):
        return "\n".join(it.text for it in records)


class CsaRecord:
    """A game of shogi."""

    ending, rules = "csa", shogi

    def __init__(self, text):
        found = CSA.fullmatch(text)
        self.text, self.head, self.lines = text, found["head"], found["moves"].splitlines(keepends=True)
        self.moves = [it.rstrip("\n") for it in self.lines[::2]]
        self.players = found["first"], found["second"]

    def first(self, count):
        """The record of the game while it had so many plies."""
        return CsaRecord(f"{self.head}{''.join(self.lines[:2 * count])}%CHUDAN\n")

    @staticmethod
    def split(text):
        return [it for it in re.split(r"^/\n", text, flags=re.M) if it]

    @staticmethod
    def join(records):
        return "/\n".join(it.text for it in records)


KINDS = {"draughts": PdnRecord, "shogi": CsaRecord}


def read_records(kind, text):
    """The records of an event, as `export-event` prints them."""
    try:
        return [KINDS[kind](part) for part in KINDS[kind].split(text)]
    except TypeError:
        raise ClubError(f"export-event: a record of another form: {text[:200]!r}") from None
