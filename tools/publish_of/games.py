"""The page of a game: its facts, its last position, its moves, and a diagram of every position."""
from publish_of.club import Replay
from publish_of.diagrams import BOXES, diagram, pictures
from publish_of.layout import date, end_of, escape, event_file, game_file, link, page
from publish_of.lists import title_of

SIDES = {"draughts": ("White", "Black"), "shogi": ("Black", "White")}
STEPS = (("first", "First position", "M5 4V20M19 4L9 12 19 20Z"), ("back", "Back", "M17 4L7 12 17 20Z"),
         ("on", "On", "M7 4L17 12 7 20Z"), ("last", "Last position", "M19 4V20M5 4L15 12 5 20Z"))


def label_of(replay, ply):
    """A ply with its number, as `17... 19-23`."""
    if ply == 0:
        return "Opening position"
    move = replay.moves[ply - 1]
    if replay.kind == "shogi":
        return f"{ply}. {move}"
    return f"{(ply + 1) // 2}{'.' if ply % 2 else '...'} {move}"


def facts(published):
    """A list of what is known of the game."""
    game, sides = published.game, SIDES[published.event.kind]
    rows = [("Event", link(event_file(published.event, "html"), published.event.name)),
            *((side, escape(name)) for side, name in zip(sides, game.players))]
    if published.is_running:
        rows += [("To move", escape(game.turn)), ("Deadline", date(game.deadline)), ("Plies", game.ply)]
    else:
        rows += [("Score", game.result), ("How it ended", escape(end_of(game))), ("Plies", game.ply)]
    rows += [("Label", escape(game.key))] if game.key != "=" else []
    items = "".join(f"<div><dt>{name}</dt><dd>{value}</dd></div>\n" for name, value in rows)
    return f'<dl class="facts">\n{items}</dl>\n'


def move_link(ply, move):
    """A link to the diagram after a move. A capture with its route may go on in the next line."""
    words = escape(move)
    return f'<a href="#ply-{ply}">{words.replace("x", "<wbr>x") if move.count("x") > 1 else words}</a>'


def move_list(replay):
    """The moves, each a link to the diagram after it; the plies of draughts in pairs."""
    links = [move_link(ply, move) for ply, move in enumerate(replay.moves, 1)]
    step = 2 if replay.kind == "draughts" else 1
    items = "".join(f"<li>{' '.join(links[at:at + step])}</li>\n" for at in range(0, len(links), step))
    kind = "pairs" if step == 2 else "plies"
    return f'<ol class="moves {kind}">\n{items}</ol>\n' if links else ""


def diagrams(replay):
    """A figure for each position."""
    found = ""
    for ply, position in enumerate(replay.positions):
        label = escape(label_of(replay, ply))
        picture = diagram(replay.kind, position, f"diagram-{ply}", escape(position.text()))
        found += f'<figure id="ply-{ply}">{picture}<figcaption>{label}</figcaption></figure>\n'
    return ('<details id="positions" open><summary>All positions</summary>\n'
            f'<div class="figures">\n{found}</div>\n</details>\n')


def shown_board(replay):
    """The last position, large, with the controls that the script needs."""
    last, text = len(replay.moves), escape(replay.positions[-1].text())
    buttons = "".join(f'<button type="button" value="{value}" aria-label="{name}"><svg viewBox="0 0 24 24" '
                      f'class="icon" aria-hidden="true"><path d="{path}"/></svg></button>'
                      for value, name, path in STEPS)
    return (f'<div>\n<figure id="shown">\n<svg class="{replay.kind}" viewBox="{BOXES[replay.kind]}" role="img" '
            f'aria-label="{text}"><use href="#diagram-{last}"/></svg>\n'
            f'<figcaption aria-live="polite">{escape(label_of(replay, last))}</figcaption>\n</figure>\n'
            f'<p id="steps" hidden>{buttons}</p>\n</div>\n')


def game_page(site, published):
    game, record, replay = published.game, published.record, Replay(published)
    note = ""
    if published.kept_back:
        last = "ply is" if published.kept_back == 1 else f"{published.kept_back} plies are"
        note = f'<p class="faint">The last {last} not shown yet.</p>\n'
    body = (f'{pictures(published.event.kind)}\n<div class="game">\n{shown_board(replay)}<div class="side">\n'
            f"{facts(published)}{note}{move_list(replay)}"
            f'<p class="files">{link(game_file(game, record.ending), f"Record ({record.ending.upper()})")}</p>\n'
            f"</div>\n</div>\n{diagrams(replay)}")
    crumbs = [(event_file(published.event, "html"), published.event.name)]
    return page(site, title_of(game), crumbs, body, has_script=True)
