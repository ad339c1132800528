"""What is published of a club: its events with their tables, and their games up to the plies that are kept back."""
import re
from dataclasses import dataclass

from common.club import NAME, ClubError, Event, Game, read_events, read_games, read_text
from publish_of.records import read_records

ROW = re.compile(rf" *[0-9]+ (?P<name>{NAME}) +(?P<numbers>(?: *[0-9]+){{5}})(?P<cells>(?: +(?:[0-9]+|-|\.))+)")


@dataclass(frozen=True)
class Row:
    """A member's line of a cross table: points, games, wins, draws and losses, and a cell for each line."""

    name: str
    numbers: list
    cells: list


class PublishedGame:
    """A game and its record, without the plies that are kept back."""

    def __init__(self, game: Game, event: Event, record, delay):
        self.game, self.event, self.is_running = game, event, game.turn is not None
        if record.players != game.players:
            raise ClubError(f"export-event: the record of game {game.id} is one of {' and '.join(record.players)}")
        count = max(0, min(len(record.moves), game.ply) - delay) if self.is_running else len(record.moves)
        self.kept_back = game.ply - count
        self.record = record.first(count) if self.is_running else record


class Replay:
    """The position after each ply of a game, from the opening on, and the text of each move."""

    def __init__(self, published):
        self.kind, rules = published.event.kind, published.record.rules
        self.positions, self.moves = [rules.opening()], []
        try:
            for move in published.record.moves:
                self.moves.append(rules.written(self.positions[-1], move))
                self.positions.append(rules.play(self.positions[-1], move))
        except (LookupError, AttributeError):
            raise ClubError(f"game {published.game.id}: no piece can make the move {move}") from None


def by_deadline(games):
    """Running games, the nearest deadline first."""
    return sorted(games, key=lambda it: (it.game.deadline is None, it.game.deadline, it.game.id))


class PublishedEvent:
    """An event, its games by id, and its cross table."""

    def __init__(self, event, games, table):
        self.event, self.games, self.table = event, games, table

    def records_text(self):
        """The records of all games, by id."""
        records = [it.record for it in self.games]
        return type(records[0]).join(records)

    @property
    def running(self):
        """The running games, by their deadlines."""
        return by_deadline(it for it in self.games if it.is_running)

    @property
    def ended(self):
        """The ended games, by id."""
        return [it for it in self.games if not it.is_running]


def read_table(words, name):
    """The rows of an event's cross table."""
    _, _, lines = read_text([*words, "table", name]).partition("\n")
    found = [ROW.fullmatch(line) for line in lines.splitlines()]
    if not all(found):
        raise ClubError(f"table {name}: a line of another form")
    return [Row(it["name"], it["numbers"].split(), it["cells"].split()) for it in found]


def read_event(words, event, games, delay):
    """An event. Its games were listed before, so that the first records are theirs, perhaps with later moves."""
    records = read_records(event.kind, read_text([*words, "export-event", event.name]))
    if len(records) < len(games):
        raise ClubError(f"export-event {event.name}: {len(records)} records of {len(games)} games")
    published = [PublishedGame(game, event, record, delay) for game, record in zip(games, records)]
    return PublishedEvent(event, published, read_table(words, event.name))


def read_site(program, file, now, delay, progress):
    """All events, by their ids."""
    words = [program, *([] if now is None else ["--now", str(now)]), file]
    games, events = read_games(words), read_events(words)
    found = []
    for number, event in enumerate(events, 1):
        progress(f"reading {event.name} ({number} of {len(events)})")
        found.append(read_event(words, event, [it for it in games if it.event == event.name], delay))
    return found
