"""The pages of lists: the index, and a page for each event with its table, rounds and games."""
from publish_of.club import by_deadline
from publish_of.layout import (FEED, count, date, duration, end_of, escape, event_file, game_file, kept_back, link,
                               page, table)
from publish_of.rounds import round_robins

NEWEST = 20  # ended games on the index


def title_of(game):
    return f"{game.first} – {game.second}"


def score_of(published):
    """The score of a game, or whose turn it is."""
    game = published.game
    return f"{escape(game.turn)} to move" if published.is_running else game.result


def game_link(game, words=None):
    return link(game_file(game, "html"), words or title_of(game))


def event_link(event):
    return link(event_file(event, "html"), event.name)


def game_cell(published, has_event):
    """A game as the head of a row, with its event where the games are of several."""
    event = f" <small>{event_link(published.event)}</small>" if has_event else ""
    return game_link(published.game) + event


def running_table(games, has_event=False):
    """Running games with their deadlines."""
    rows = [[game_cell(it, has_event), escape(it.game.turn), date(it.game.deadline), it.game.ply] for it in games]
    listed = table(["Game", "To move", "Deadline", "Plies"], rows, "Running games")
    return f"<h2>Running games</h2>\n{listed}" if rows else ""


def ended_table(games, head, has_event=False):
    """Ended games with their scores."""
    rows = [[game_cell(it, has_event), it.game.result, escape(end_of(it.game)), it.game.ply] for it in games]
    listed = table(["Game", "Score", "How it ended", "Plies"], rows, head)
    return f"<h2>{head}</h2>\n{listed}" if rows else ""


def players_table(games):
    """Who plays, with the numbers of running and ended games."""
    numbers = {}
    for it in games:
        for name in it.game.players:
            numbers.setdefault(name, [0, 0])[not it.is_running] += 1
    rows = [[escape(name), *found] for name, found in sorted(numbers.items(), key=lambda it: it[0].casefold())]
    heads = ["Player", "Running", "Ended"]
    return f"<h2>Players</h2>\n{table(heads, rows, 'Players')}" if rows else ""


def index_page(site, events, seen):
    games = [it for event in events for it in event.games]
    running = by_deadline(it for it in games if it.is_running)
    ended = seen.newest(it for it in games if not it.is_running)
    rows = [[event_link(it.event), it.event.kind, len(it.running), len(it.ended)] for it in events]
    heads = ["Event", "Game", "Running", "Ended"]
    listed = table(heads, rows, "Events") if rows else "<p>There are no events yet.</p>\n"
    feed = f"<p>{link(FEED, 'Ended games as an Atom feed')}</p>\n" if site.base else ""
    body = (f"<h2>Events</h2>\n{listed}{kept_back(site)}{running_table(running, True)}"
            f"{ended_table(ended[:NEWEST], 'Newest ended games', True)}{players_table(games)}{feed}")
    return page(site, site.title, [], body)


def cross_table(event):
    """The members with an ended game, with a link for each pair that has one ended game."""
    pairs = {}
    for it in event.ended:
        if not it.game.counts:
            continue
        pairs.setdefault(frozenset(it.game.players), []).append(it.game)
    rows = []
    for number, row in enumerate(event.table, 1):
        cells = []
        for other, cell in zip(event.table, row.cells):
            games = pairs.get(frozenset((row.name, other.name)), [])
            cells.append(game_link(games[0], cell) if len(games) == 1 else "" if cell in "-." else escape(cell))
        rows.append([f'<span class="faint">{number}</span> {escape(row.name)}', f"<b>{row.numbers[0]}</b>",
                     *row.numbers[1:], *cells])
    numbers = [f'<abbr title="{escape(row.name)}">{at}</abbr>' for at, row in enumerate(event.table, 1)]
    heads = ["Member", "Points", "Games", "Wins", "Draws", "Losses", *numbers]
    return f"<h2>Cross table</h2>\n{table(heads, rows, 'Cross table')}" if rows else ""


def rounds(robins):
    """The rounds of each round robin of an event."""
    found = ""
    for prefix, games in robins:
        head = "Rounds" if len(robins) == 1 else f"Rounds of {prefix or 'the games without a prefix'}"
        items = "".join(f"<section><h3>Round {number}</h3>\n<ul>{''.join(map(round_line, it))}</ul></section>\n"
                        for number, it in enumerate(games, 1))
        found += f'<h2>{escape(head)}</h2>\n<div class="rounds">\n{items}</div>\n'
    return found


def round_line(published):
    return f"<li>{game_link(published.game)} <span>{score_of(published)}</span></li>"


def event_page(site, published, seen):
    event, robins = published.event, round_robins(published.games)
    increment = f", and {duration(event.increment)} more after each move" if event.increment else ""
    in_rounds = {it.game.id for _, games in robins for found in games for it in found}
    others = seen.newest(it for it in published.ended if it.game.id not in in_rounds)
    files = [link(event_file(event, published.games[0].record.ending), "All records")] if published.games else []
    files.append(link(event_file(event, "ics"), "Deadlines as a calendar"))
    body = (f'<p class="faint">{event.kind.capitalize()}. Each player has {duration(event.budget)}{increment}. '
            f"{count(len(published.games), 'game')}, {len(published.running)} running.</p>\n"
            f'<p class="files">{" ".join(files)}</p>\n{kept_back(site)}{cross_table(published)}'
            f"{running_table(published.running)}{rounds(robins)}"
            f"{ended_table(others, 'Other ended games' if robins else 'Ended games')}")
    body += "" if published.games else "<p>There are no games in this event yet.</p>\n"
    return page(site, event.name, [], body)
