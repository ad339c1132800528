"""A batch for the program: an order for each record of many files, and a report of the records that it leaves out."""
import collections
import csv
import hashlib
import io
import pathlib
import re

from records_of.pdn import MOVE, SCORES, PdnReader, plain_result
from records_of.record import Refused

MEMBER = re.compile(r"[A-Za-z0-9._-]{1,24}")
CSA_MOVE = re.compile(r"[+-][0-9]{4}[A-Z]{2}")
DATE_TAGS = "date", "utcdate", "startdate"
UNDATED = "undated"
LARGEST, MOST = 1048576, 10000  # bytes and orders of a batch


class Facts:
    """What a record says of its game: both names, the date as far as it is known, the moves, and whether it ended."""

    def __init__(self, first, second, date, moves, is_finished):
        self.first, self.second, self.date, self.moves, self.is_finished = first, second, date, moves, is_finished


def date_of(text):
    """A date, a year and a month, or a year, as `2024-03-15`; nothing if the text has none."""
    found = re.match(r"\s*([0-9]{4})(?:[./-]([0-9]{1,2})(?:[./-]([0-9]{1,2}))?)?(?![0-9])", text)
    if not found:
        return ""
    month, day = int(found[2] or 0), int(found[3] or 0)
    if not 1 <= month <= 12:
        return found[1]
    return f"{found[1]}-{month:02}" + (f"-{day:02}" if 1 <= day <= 31 else "")


def pdn_facts(text):
    """The facts of a PDN record in the club's form."""
    game = PdnReader(text).read()[0]
    pieces = [piece for at, piece in enumerate(game.pieces) if at != game.result]
    moves = [piece.replace(":", "x") for piece in pieces if MOVE.fullmatch(piece)]
    dates = [date_of(game.tags.get(tag, "")) for tag in DATE_TAGS]
    ending = "" if game.result is None else plain_result(game.pieces[game.result])
    first, second = (re.sub(r"\\(.)", r"\1", game.tags.get(it, "")) for it in ("white", "black"))
    return Facts(first, second, next(filter(None, dates), ""), moves, ending in SCORES)


def csa_facts(text):
    """The facts of a CSA record in the club's form."""
    headers, moves, end = {}, [], ""
    for line in text.splitlines():
        if line[:2] in ("N+", "N-"):
            headers.setdefault(line[:2], line[2:])
        elif line.startswith("$START_TIME:"):
            headers.setdefault("date", line.partition(":")[2])
        elif line[:1] not in ("'", "$"):
            moves += [it for it in line.split(",") if CSA_MOVE.fullmatch(it)]
            end = next((it for it in line.split(",") if it.startswith("%")), end)
    return Facts(headers.get("N+", ""), headers.get("N-", ""), date_of(headers.get("date", "")), moves,
                 end not in ("", "%CHUDAN"))


def plain_name(text):
    """A name without the differences that programs make: capitals, and blanks at its ends or in a row."""
    return " ".join(text.split()).casefold()


def read_names(text, path):
    """The member of each name, by the rows `NAME,MEMBER` or `NAME;MEMBER` of a table."""
    found, rows = {}, [it for it in text.splitlines() if it.strip() and not it.startswith("#")]
    delimiter = ";" if rows and all(";" in it for it in rows) else ","
    for number, row in enumerate(csv.reader(io.StringIO(text, newline=""), delimiter=delimiter), 1):
        if not any(cell.strip() for cell in row) or row[0].startswith("#"):
            continue
        name, member = (row[0], row[1].strip()) if len(row) == 2 else ("", "")
        if not plain_name(name) or not MEMBER.fullmatch(member):
            raise Refused(f"{path}: row {number} is not NAME,MEMBER")
        if found.setdefault(plain_name(name), member) != member:
            raise Refused(f'{path}: row {number}: "{name}" is {found[plain_name(name)]} already')
    return found


def key_of(facts, players):
    """The game's label: its date and a hash of its players, date and moves, so that each run gives the same."""
    text = " ".join([*players, facts.date, *facts.moves])
    return f"{facts.date or UNDATED}.{hashlib.sha256(text.encode()).hexdigest()[:8]}"


class Batch:
    """The orders for an event, by date, and the records that are left out, each with its reason."""

    def __init__(self, kind, event, names, folder):
        self.word, self.event, self.names, self.folder = f"import-{kind}", event, names, folder
        self.facts_of = {"pdn": pdn_facts, "csa": csa_facts}[kind]
        self.orders, self.left_out, self.places, self.unknown = [], [], {}, collections.Counter()

    def add(self, place, name, text):
        """Adds the record, to be written under a name, from a place `FILE: game N`; or says why it is left out."""
        facts = self.facts_of(text)
        players = [self.names.get(plain_name(it)) for it in (facts.first, facts.second)]
        unknown = [it for it, member in zip((facts.first, facts.second), players) if member is None]
        if not facts.is_finished:
            return self.leave_out(place, "it has no result")
        if unknown:
            self.unknown.update({" ".join(it.split()) for it in unknown if it.strip()})
            said = " and ".join(f'"{it}"' if it.strip() else "a player without a name" for it in unknown)
            return self.leave_out(place, f"no member is named for {said}")
        if players[0] == players[1]:
            return self.leave_out(place, f"both players are {players[0]}")
        key = key_of(facts, players)
        if key in self.places:
            return self.leave_out(place, f"it is the same game as {self.places[key]}")
        self.places[key] = place
        words = [self.word, key, self.event, *players, str(pathlib.PurePath(self.folder) / name)]
        self.orders.append((facts.date or "9999", len(self.orders), " ".join(words), name, text))
        return None

    def missing_rows(self):
        """The names without a member, those of most games first."""
        return [f'no row for "{name}" ({count} game{"s" * (count != 1)})' for name, count in
                sorted(self.unknown.items(), key=lambda it: (-it[1], it[0]))]

    def leave_out(self, place, why):
        self.left_out.append(f"{place}: left out: {why}")

    def text(self):
        """The batch: what was left out as comments, and then the orders."""
        orders = [words for _, _, words, _, _ in sorted(self.orders)]
        printable = ["".join(it if it.isprintable() else "?" for it in line) for line in self.left_out]
        text = "".join(f"{line}\n" for line in [*(f"# {it}" for it in printable), *orders])
        if len(orders) > MOST or len(text.encode()) > LARGEST:
            raise Refused(f"the batch has {len(orders)} orders and {len(text.encode())} bytes, and the club takes "
                          f"{MOST} and {LARGEST}: give fewer files at a time")
        return text
