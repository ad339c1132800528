#!/usr/bin/env python3
"""Tests tools/publish: the pages, records, feed and calendars of a season with both games, and what happens to files.

    python3 tests/cli/publish.py

Positions and texts of moves come from tests/models, boards and records from the program's own `show` and `export`.
"""
import contextlib
import fcntl
import importlib
import json
import os
import pathlib
import pty
import random
import re
import signal
import subprocess
import sys
import tempfile
import time
import xml.etree.ElementTree as xml

sys.path[0] = str(pathlib.Path(__file__).resolve().parents[1])
sys.path.append(str(pathlib.Path(__file__).resolve().parents[1] / "page"))
import page_browser
from lib.club import FAST, PROGRAM, RECORDS, TOP, WAIT, club, run
from lib.pages import drawn_draughts, drawn_shogi, ids_of, links_of, read_page
from lib.report import check, exit_status, result, skip
from lib.server import serve
from lib.tool import Tool
from models import draughts, shogi
from season.boards import draughts_lines, letter_lines

PUBLISH = Tool("publish")
TOOL_DRAUGHTS = importlib.import_module("publish_of.draughts")
START, DAY = 1796000000, 86400  # 2026-11-30 00:53:20 UTC
LATER = START + 2 * DAY
KEYS = {"anna": "keyanna1", "bert": "KEYBERT2", "cara": "0cara0cara", "dora": "keydora4",
        "W" * 24: "widestkey6", "E.m_i-l": "emilemil5"}
BASE, TITLE = "https://club.example.org/games", 'Draughts <i>&</i> "shogi" of the club – ドラフツと将棋'
WORDS = "--base", BASE, "--title", TITLE
RULES = {"draughts": draughts, "shogi": shogi}
IMPORTS = (("import-pdn", "old1", "archive", "draw.pdn"), ("import-pdn", "old2", "archive", "evening.pdn"),
           ("import-csa", "k1", "fuji", "checkmate.csa"), ("import-csa", "k2", "fuji", "fourfold.csa"),
           ("import-csa", "k3", "fuji", "perpetual.csa"), ("import-csa", "k4", "fuji", "resigned.csa"))
ATOM = "{http://www.w3.org/2005/Atom}"
DATE = re.compile(r"\d{4}-\d\d-\d\dT\d\d:\d\d:\d\dZ")
ALWAYS = "index.html", "style.css", "steps.js"
ENDINGS = {"draughts": "pdn", "shogi": "csa"}
# A record as the program writes it, with a move that no piece can make.
UNPLAYABLE = """[Event "autumn"]
[Date "2026.11.30"]
[White "anna"]
[Black "bert"]
[Result "*"]
[GameType "20"]

1. 28-23
*
"""
# The tool, which is killed at a call of a function of os.
KILLED = """
import os, runpy, signal, sys
name, count, sys.argv = sys.argv[1], int(sys.argv[2]), sys.argv[3:]
real, calls = getattr(os, name), 0
def counting(*words):
    global calls
    calls += 1
    if calls == count:
        os.kill(os.getpid(), signal.SIGKILL)
    return real(*words)
setattr(os, name, counting)
sys.path[0] = os.path.dirname(sys.argv[0])
runpy.run_path(sys.argv[0], run_name="__main__")
"""


def orders(*lines, file="c.db", now=START):
    for line in lines:
        status, printed = club(file, *line.split(), now=now)
        assert status == 0, (line, printed)


def publish(*words, now=START, file="c.db", folder="site", program=PROGRAM):
    """The status of the tool, its output and its messages."""
    return PUBLISH.run("--club", program, *([] if now is None else ["--now", now]), *words, file, folder)


def random_game(kind, seed, most):
    """The texts of legal moves by chance, as the model writes them."""
    chance, line, texts = random.Random(seed), RULES[kind].Line(), []
    while len(texts) < most and not line.end():
        move = chance.choice(line.legal())
        texts.append(line.write(move))
        line.push(move)
    return texts


def play(number, texts, file="c.db"):
    """Plays the moves of a game from the command line."""
    pathlib.Path("moves").write_text("".join(f"move {number} {at} {it}\n" for at, it in enumerate(texts, 1)))
    orders("batch moves", file=file)


def lines_of(texts, kind):
    """The position of the model after each ply, from the opening on."""
    line = RULES[kind].Line()
    yield line.position
    for text in texts:
        line.push(line.read(text))
        yield line.position


class Season:
    """The club c.db, and for each game its rules, the texts of its moves, and whether it runs."""

    def __init__(self):
        self.games = {}
        orders("init", *(f"member {name} {key}" for name, key in KEYS.items()),
               f"event autumn draughts {7 * DAY} 3600", f"event fuji shogi {10 * DAY} {DAY}", "event none shogi 60 0",
               f"event archive draughts {30 * DAY} 0", "event quick draughts 90061 0",
               "round-robin rr autumn anna bert cara dora")
        self.games.update((number, ("draughts", [], True)) for number in range(1, 7))
        self.seat("chance autumn anna bert", "draughts", random_game("draughts", 5, 150))
        self.seat("drops fuji cara anna", "shogi", random_game("shogi", 10, 100))
        self.seat(f"g9 fuji {'W' * 24} E.m_i-l", "shogi", ["7g7f", "3c3d", "8h2b+", "3a2b", "B*4e"])
        self.play(1, "32-28 19-23 28x19".split())
        for command, key, event, record in IMPORTS:
            orders(f"{command} {key} {event} anna bert {RECORDS / record}")
            self.games[len(self.games) + 1] = *self.read_record(RECORDS / record), False
        self.seat("late quick anna bert", "draughts", [], is_running=False)
        orders("sweep", now=LATER)

    @staticmethod
    def read_record(path):
        data = path.read_bytes()
        if path.suffix == ".pdn":
            return "draughts", draughts.read_record(data)[0]
        return "shogi", shogi.read_records(data)[0][0]

    def seat(self, words, kind, texts, is_running=True):
        orders(f"seat {words}")
        self.games[len(self.games) + 1] = kind, [], is_running
        if texts:
            self.play(len(self.games), texts)

    def play(self, number, texts):
        play(number, texts)
        kind, line = self.games[number][0], RULES[self.games[number][0]].Line()
        for text in texts:
            line.push(line.read(text))
        self.games[number] = kind, texts, line.end() is None

    def file_names(self):
        """All names that the tool must write with --base."""
        games = {f"game-{number}.{ending}" for number, (kind, _, _) in self.games.items()
                 for ending in ("html", ENDINGS[kind])}
        events = {f"event-{name}.{ending}" for name in ("autumn", "fuji", "none", "archive", "quick")
                  for ending in ("html", "ics")}
        records = {"event-autumn.pdn", "event-fuji.csa", "event-archive.pdn", "event-quick.pdn"}
        return {*ALWAYS, "feed.xml", *games, *events, *records}


def names_in(folder):
    return {it.name for it in pathlib.Path(folder).iterdir() if not it.name.startswith(".publish")}


def read(name, folder="site"):
    return pathlib.Path(folder, name).read_text(encoding="utf-8")


def page_of(name, folder="site"):
    return read_page(read(name, folder))[0]


def writes_all(season):
    status, printed, messages = publish(*WORDS, now=LATER)
    count = len(season.file_names())
    check("the first run writes all files and says how many", (0, f"{count} written, 0 removed, 0 unchanged\n", ""),
          (status, printed, messages))
    check("the files are those of the events and games", sorted(season.file_names()), sorted(names_in("site")))
    check("each file may be read by a web server", set(), {name for name in names_in("site")
                                                           if os.stat(f"site/{name}").st_mode & 0o444 != 0o444})
    texts = {it.name: it.read_bytes() for it in pathlib.Path("site").iterdir()}
    check("no file has a member's key", [],
          [(name, key) for name, text in texts.items() for key in KEYS.values() if key.encode() in text])


def html_is_sound():
    """Nesting, ids and links of each page."""
    pages = {name: read_page(read(name)) for name in sorted(names_in("site")) if name.endswith(".html")}
    check(f"the nesting, the ids and the single elements of each page are right ({len(pages)})", {},
          {name: faults for name, (_, faults) in pages.items() if faults})
    ids, lost = {name: ids_of(page) for name, (page, _) in pages.items()}, []
    for name, (page, _) in pages.items():
        for address in links_of(page):
            target, _, fragment = address.partition("#")
            target = target or name
            if target not in names_in("site") or fragment and fragment not in ids[target]:
                lost.append((name, address))
    check("each link leads to a file that was written, and to an element in it", [], lost)
    linked = {address for page, _ in pages.values() for address in links_of(page)}
    check("each file is linked", set(), names_in("site") - {it.partition("#")[0] for it in linked})
    headings = {name: next(page.all("title")).text() for name, (page, _) in pages.items()}
    check("each page has the title of the site", [], [name for name, it in headings.items() if not it.endswith(TITLE)])
    result("<i>" not in "".join(map(read, pages)), "the title is escaped")
    policies = {next(it.attributes["content"] for it in page.all("meta") if "http-equiv" in it.attributes)
                for page, _ in pages.values()}
    check("each page forbids what it does not have itself", ["default-src 'none'"],
          [it.partition(";")[0] for it in policies])
    inline = [name for name, (page, _) in pages.items() for it in page.all()
              if "style" in it.attributes or it.tag == "style" or it.tag == "script" and it.text()]
    check("no page has a script or a style in it", [], inline)


def drawn_position(kind, group, turn):
    if kind == "draughts":
        return turn, drawn_draughts(group)
    return turn, *drawn_shogi(group)


def differing_diagrams(page, kind, texts):
    """The plies whose diagram or label differs from the model's position."""
    figures = [it for it in page.all("figure") if it.attributes["id"].startswith("ply-")]
    positions = list(lines_of(texts, kind))
    write = draughts.fen if kind == "draughts" else shogi.write_sfen
    found = [] if len(figures) == len(positions) else [f"{len(figures)} diagrams of {len(positions)}"]
    for ply, (figure, position) in enumerate(zip(figures, positions)):
        picture = next(figure.all("svg"))
        group = next(picture.all("g"))
        names = figure.attributes["id"], group.attributes["id"]
        drawn = drawn_position(kind, group, position[0])
        expected = (f"ply-{ply}", f"diagram-{ply}"), position, write(position)
        if (names, drawn, picture.attributes["aria-label"]) != expected:
            found.append(ply)
    return found


def boards(season):
    """Diagrams against the models, and the last one against `show`."""
    differing, shown, large = {}, {}, {}
    for number, (kind, texts, _) in season.games.items():
        page = page_of(f"game-{number}.html")
        if found := differing_diagrams(page, kind, texts):
            differing[number] = found
        group = next(it for it in page.all("g") if it.attributes.get("id") == f"diagram-{len(texts)}")
        drawn = (draughts_lines if kind == "draughts" else letter_lines)(drawn_position(kind, group, ""))
        printed = club("c.db", "show", *(["--letters"] if kind == "shogi" else []), number, now=LATER)[1].splitlines()
        if list(drawn) != printed[2:14 if kind == "shogi" else 12]:
            shown[number] = printed
        used = [it.attributes["href"] for it in next(it for it in page.all("figure")).all("use")]
        if used != [f"#diagram-{len(texts)}"]:
            large[number] = used
    plies = sum(len(texts) for _, texts, _ in season.games.values())
    check(f"the diagram after each of {plies} plies is the model's position", {}, differing)
    check("the last diagram of each game is the board that `show` prints", {}, shown)
    check("the large board of each game is its last diagram", {}, large)
    routes = [it for _, texts, _ in season.games.values() for it in texts if it.count("x") > 1]
    pages = "".join(read(f"game-{number}.html") for number in season.games)
    kinds = set(re.findall('href="#([^"]{1,2})"', pages))
    result(routes and {"W", "B", "+R", "+B", "+P", "+S", "+N"} <= kinds,
           "these games have captures with routes, kings, and promoted pieces", routes, sorted(kinds))


def usi_of(position, text):
    """A move of the pages as USI has it, if its piece, its `x` and its sign of promotion fit the position."""
    found = re.fullmatch(r"(\+?[KRBGSNLP])(?:\*|([1-9][a-i])([x-]))([1-9][a-i])([+=]?)", text)
    piece, start, sign, end, promotes = found.groups()
    if not start:
        return f"{piece}*{end}"
    turn, board, _ = position
    squares = shogi.square_of(start), shogi.square_of(end)
    may_promote = not shogi.step_fault(position, (*squares, True))
    is_right = shogi.letter_of(("b", *board[squares[0]][1:])) == piece and (sign == "x") == (squares[1] in board)
    return start + end + promotes.strip("=") if is_right and bool(promotes) == may_promote else f"wrong: {text}"


def some_positions():
    """Each man alone, and positions by chance with many kings."""
    for square in range(1, 51):
        yield "W", {square: ("W", False)} if square > 5 else {}
        yield "B", {square: ("B", False)} if square < 46 else {}
    chance = random.Random(1)
    for _ in range(600):
        squares = chance.sample(range(1, 51), 16)
        pieces = {it: ("W", chance.random() < .8) if at < 4 else ("B", chance.random() < .2)
                  for at, it in enumerate(squares)}
        yield chance.choice("WB"), {it: piece for it, piece in pieces.items() if piece[1] or 5 < it < 46}


def single_moves():
    """What the tool plays in such positions, against the model."""
    differing, most = {}, 0
    for turn, pieces in some_positions():
        letters = {it: side if is_king else side.lower() for it, (side, is_king) in pieces.items()}
        for move in draughts.legal((turn, pieces)):
            text = draughts.write_move((turn, pieces), move)
            found = TOOL_DRAUGHTS.play(TOOL_DRAUGHTS.Position(letters, turn), text).text()
            if found != draughts.fen(draughts.play((turn, pieces), move)):
                differing[draughts.fen((turn, pieces)), text] = found
            most = max(most, len(move[2]))
    check("men alone, and pieces in positions by chance, move as in the model", {}, differing)
    result(most > 5, "captures of more than five pieces were among them", most)


def moves(season):
    differing = {}
    for number, (kind, texts, _) in season.games.items():
        page = page_of(f"game-{number}.html")
        links = [it for item in page.all("ol") for it in item.all("a")]
        written = [it.text() for it in links]
        if kind == "shogi":
            written = [usi_of(*it) for it in zip(lines_of(texts, kind), written)]
        addresses = [it.attributes["href"] for it in links]
        if (written, addresses) != (texts, [f"#ply-{it}" for it in range(1, len(texts) + 1)]):
            differing[number] = written
    check("each page lists the moves of its game, each with a link to its diagram", {}, differing)
    captions = [next(it.all("figcaption")).text() for it in page_of("game-1.html").all("figure")]
    check("diagrams of draughts have their move with its number",
          ["2. 28x19", "Opening position", "1. 32-28", "1... 19-23", "2. 28x19"], captions)
    captions = [next(it.all("figcaption")).text() for it in page_of("game-9.html").all("figure")]
    check("diagrams of shogi have their move in Western notation",
          ["5. B*4e", "Opening position", "1. P7g-7f", "2. P3c-3d", "3. B8hx2b+", "4. S3ax2b", "5. B*4e"], captions)


def records(season):
    exported = {number: run(["c.db", "export", number], now=LATER)[1] for number in season.games}
    check("the record of each game is that of `export`", exported,
          {number: read(f"game-{number}.{ENDINGS[kind]}") for number, (kind, _, _) in season.games.items()})
    kinds = {"autumn": "pdn", "fuji": "csa", "archive": "pdn", "quick": "pdn"}
    check("the records of an event are those of `export-event`",
          {name: run(["c.db", "export-event", name], now=LATER)[1] for name in kinds},
          {name: read(f"event-{name}.{ending}") for name, ending in kinds.items()})


def cells_of(page, label):
    """The cells of the table with a label, row by row."""
    region = next((it for it in page.all("div") if it.attributes.get("aria-label") == label), None)
    return [[cell.text() for cell in row.children] for row in region.all("tr")] if region else None


def event_pages():
    page = page_of("event-fuji.html")
    rows = [line.split() for line in club("c.db", "table", "fuji", now=LATER)[1].splitlines()[1:]]
    check("the cross table is that of `table`",
          [[f"{it[0]} {it[1]}", *(cell.strip("-.") for cell in it[2:])] for it in rows],
          cells_of(page, "Cross table")[1:])
    cells = cells_of(page, "Running games")
    check("running games have the member to move and the deadline, the nearest first",
          [[f"{'W' * 24} – E.m_i-l", "E.m_i-l", "2026-12-12 00:53 UTC", "5"]],
          [it for it in cells if it[0].startswith("W")])
    facts = next(it.text() for it in page.all("p") if "faint" in it.attributes.get("class", ""))
    check("an event has its game and its time", "Shogi. Each player has 10 days, and 1 day more after each move. "
          "6 games, 2 running.", facts)
    page = page_of("event-autumn.html")
    check("the rounds are those of the Berger table",
          [("Round 1", ["anna – dora dora to move", "bert – cara bert to move"]),
           ("Round 2", ["anna – bert anna to move", "dora – cara dora to move"]),
           ("Round 3", ["cara – anna cara to move", "bert – dora bert to move"])],
          [(next(it.all("h3")).text(), [at.text() for at in it.all("li")]) for it in page.all("section")])
    page = page_of("event-none.html")
    check("the page of an event without games says so", (True, []),
          ("There are no games in this event yet." in read("event-none.html"), list(page.all("table"))))
    check("a game that ended on time says so", [["anna – bert", "0-2", "on time", "0"]],
          cells_of(page_of("event-quick.html"), "Ended games")[1:])


def feed_of(folder="site"):
    """The feed: the ids and dates of its entries, by their titles."""
    top = xml.fromstring(read("feed.xml", folder))
    return top, {it.findtext(f"{ATOM}title"): (it.findtext(f"{ATOM}id"), it.findtext(f"{ATOM}updated"))
                 for it in top.iter(f"{ATOM}entry")}


def feed(season):
    """What RFC 4287 demands of a feed and its entries."""
    top, entries = feed_of()
    check("the feed has one id, title, date and author", (f"{BASE}/", TITLE, TITLE, "2026-12-02T00:53:20Z"),
          (*(top.findtext(f"{ATOM}{it}") for it in ("id", "title")), top.findtext(f"{ATOM}author/{ATOM}name"),
           top.findtext(f"{ATOM}updated")))
    links = {it.get("rel"): it.get("href") for it in top.findall(f"{ATOM}link")}
    check("the feed has links to itself and to the site", {"self": f"{BASE}/feed.xml", "alternate": f"{BASE}/"}, links)
    ended = sum(not is_running for _, _, is_running in season.games.values())
    titles = ["anna – bert 0-2 (quick)", "anna – bert 0-2 (fuji)", "anna – bert 1-1 (archive)"]
    check("the newest entry is that of the newest ended game, and each ended game has one", (titles[0], True, ended),
          (list(entries)[0], set(titles) <= {*entries}, len(list(top.iter(f"{ATOM}entry")))))
    faults = []
    for it in top.iter(f"{ATOM}entry"):
        counts = {name: len(it.findall(f"{ATOM}{name}")) for name in ("id", "title", "updated", "summary", "link")}
        address = it.find(f"{ATOM}link").get("href")
        is_there = address.removeprefix(f"{BASE}/") in names_in("site")
        if set(counts.values()) != {1} or not DATE.fullmatch(it.findtext(f"{ATOM}updated")) or not is_there:
            faults.append(xml.tostring(it))
    check("each entry has one id, title, date, text and link to a page that was written", [], faults)
    ids = [it.findtext(f"{ATOM}id") for it in top.iter(f"{ATOM}entry")]
    result(len(ids) == len(set(ids)) and all(re.fullmatch(r"urn:uuid:[0-9a-f-]{36}", it) for it in ids),
           "the ids of entries are UUIDs, each once", ids)


def content_lines(data):
    """The content lines of an iCalendar, unfolded."""
    return re.sub(rb"\r\n[ \t]", b"", data).decode().split("\r\n")[:-1]


def calendars():
    """What RFC 5545 demands of lines, and the deadlines."""
    files = {name: pathlib.Path("site", name).read_bytes() for name in names_in("site") if name.endswith(".ics")}
    check("each line of a calendar ends with CRLF and has at most 75 octets", {},
          {name: data for name, data in files.items() if not data.endswith(b"END:VCALENDAR\r\n")
           or re.search(rb"(?<!\r)\n|\r(?!\n)", data) or any(len(it) > 75 for it in data.split(b"\r\n"))})
    result(any(b"\r\n " in it for it in files.values()), "a long line is folded")
    lines = content_lines(files["event-fuji.ics"])
    check("a calendar has its version and its product", ["BEGIN:VCALENDAR", "VERSION:2.0"], lines[:2])
    widest = f"E.m_i-l to move against {'W' * 24} (fuji\\, game 9)"
    check("a game has its deadline, its member to move and its page",
          ["DTSTAMP:20261202T005320Z", "DTSTART:20261212T005320Z", "SEQUENCE:5", f"SUMMARY:{widest}",
           f"URL:{BASE}/game-9.html"],
          lines[(at := lines.index("SEQUENCE:5")) - 2:at + 3])
    starts = [it for it in lines if it.startswith("DTSTART:")]
    check("each running game has an event with a UID, and the nearest deadline is first", (2, 2, 2, sorted(starts)),
          (lines.count("BEGIN:VEVENT"), lines.count("END:VEVENT"), len({it for it in lines if it.startswith("UID:")}),
           starts))
    empty = content_lines(files["event-none.ics"])
    check("a calendar without deadlines has a component nevertheless", (0, 1),
          (empty.count("BEGIN:VEVENT"), empty.count("BEGIN:VTIMEZONE")))


def signature(folder):
    """The times, places on the disk and bytes of all files."""
    found = {}
    for it in pathlib.Path(folder).iterdir():
        at = it.stat()
        found[it.name] = at.st_mtime_ns, at.st_ctime_ns, at.st_ino, it.read_bytes()
    return found


def second_runs(season):
    before = signature("site")
    count = len(season.file_names())
    check("a second run says that nothing was changed", (0, f"0 written, 0 removed, {count} unchanged\n", ""),
          publish(*WORDS, now=LATER + 1800))
    check("a second run touches no file", before, signature("site"))
    entries, stamps = feed_of()[1], content_lines(before["event-fuji.ics"][3])
    orders("move 9 6 4a3b", now=LATER + 3600)
    status, printed, _ = publish(*WORDS, now=LATER + 7200)
    changed = {name for name, it in signature("site").items() if it != before[name]}
    check("after a move the files of its game and event are written, and the index, and no others",
          (0, {"game-9.html", "game-9.csa", "event-fuji.html", "event-fuji.csa", "event-fuji.ics", "index.html",
               ".publish.json"}), (status, changed))
    lines = content_lines(pathlib.Path("site/event-fuji.ics").read_bytes())
    result([it for it in lines if "UID" in it] == [it for it in stamps if "UID" in it] and
           "DTSTAMP:20261202T025320Z" in lines and lines.count("DTSTAMP:20261202T005320Z") == 1,
           "a move changes the date of its game alone, and no UID", lines)
    check("a move of a running game leaves the feed as it is", entries, feed_of()[1])
    season.games[9] = "shogi", [*season.games[9][1], "4a3b"], True
    overdue = START + 40 * DAY
    orders("sweep", now=overdue)
    publish(*WORDS, now=overdue)
    later = feed_of()[1]
    check("older entries keep their ids and dates when games end", entries, {it: later[it] for it in entries})
    result(len(later) > len(entries) and list(later.values())[0][1] == "2027-01-09T00:53:20Z",
           "games that ended come first in the feed", later)
    newest = cells_of(page_of("index.html"), "Newest ended games")[1:]
    check("so they do on the index, the last to begin first",
          [f"{'W' * 24} – E.m_i-l fuji", "bert – dora autumn", "cara – anna autumn", "dora – cara autumn"],
          [it[0] for it in newest[:4]])
    check("an ended game of a round is listed in its round alone", [["anna – bert", "2-0", "no move left", "83"]],
          cells_of(page_of("event-autumn.html"), "Other ended games")[1:])


def hidden(texts, folder):
    """The files that have one of these texts."""
    return {name: it for name in sorted(os.listdir(folder)) for it in texts if it in read(name, folder)}


def delays():
    """Moves that are kept back are in no file: neither in a record nor as a position."""
    orders("init", "member anna keyanna1", "member bert KEYBERT2", f"event autumn draughts {DAY} 0",
           f"event fuji shogi {DAY} 0", "seat g1 autumn anna bert", "seat g2 fuji bert anna", "seat g3 fuji anna bert",
           file="d.db")
    orders(f"import-csa k1 fuji anna bert {RECORDS / 'resigned.csa'}", file="d.db")
    play(1, "32-28 19-23 28x19 14x23 37-32 10-14".split(), "d.db")
    play(2, "7g7f 3c3d 8h2b+ 3a2b B*4e".split(), "d.db")
    status = publish("--delay", "3", file="d.db", folder="delayed")[0]
    kept_back = ["14x23", "37-32", "10-14", "8822UM", "B8hx2b+", "3122GI", "S3ax2b", "0045KA", "B*4e"]
    for kind, texts, count in (("draughts", "32-28 19-23 28x19 14x23 37-32 10-14".split(), 3),
                               ("shogi", "7g7f 3c3d 8h2b+ 3a2b B*4e".split(), 2)):
        write = draughts.fen if kind == "draughts" else shogi.write_sfen
        kept_back += [write(it).split(" ")[0] for it in list(lines_of(texts, kind))[count + 1:]]
    check("`--delay` writes none of the last moves or positions to any file", (0, {}),
          (status, hidden(kept_back, "delayed")))
    publish(file="d.db", folder="open")
    texts = [read(name, "open") for name in os.listdir("open")]
    check("without `--delay` they are there", [], [it for it in kept_back if not any(it in text for text in texts)])
    check("a record ends before the moves that are kept back, as that of a running game",
          ("1. 32-28 19-23\n2. 28x19\n*\n", "+7776FU\nT0\n-3334FU\nT0\n%CHUDAN\n", '[Result "*"]'),
          (read("game-1.pdn", "delayed").partition("\n\n")[2], read("game-2.csa", "delayed").partition("\n+\n")[2],
           read("game-1.pdn", "delayed").splitlines()[4]))
    check("a game with fewer moves than are kept back shows the opening", [],
          differing_diagrams(page_of("game-3.html", "delayed"), "shogi", []))
    result("The last 3 plies are not shown yet." in read("game-1.html", "delayed"), "the page of a game says so")
    check("ended games are shown whole", read("game-4.csa", "open"), read("game-4.csa", "delayed"))


def berger(names):
    """The pairs of each round by docs/formats.md."""
    size = len(names) + len(names) % 2
    players = {number: name for number, name in enumerate(names, 1)}
    rounds = []
    for number in range(1, size):
        pairs = [(one, other) for one in range(1, size) for other in range(one + 1, size)
                 if (one + other - number - 1) % (size - 1) == 0]
        pairs += [(one, size) for one in range(1, size) if (2 * one - number - 1) % (size - 1) == 0]
        rounds.append({frozenset((players[it], players[at])) for it, at in pairs if at in players})
    return rounds


def rounds_by_keys():
    """Two round robins in one event, whose prefixes end with digits, beside keys that look like them."""
    names = "ada ben cy dan eva".split()
    orders("init", *(f"member {it} {it}keykey" for it in names), f"event league draughts {DAY} 0",
           f"round-robin 9 league {' '.join(names)}", f"round-robin --double x1 league {' '.join(names[:4])}",
           "seat 2024-03-15.63 league ada ben", "seat 9.9 league ada ben", "seat x1 league ada ben", file="r.db")
    publish("--base", BASE, file="r.db", folder="rounds")
    page = page_of("event-league.html", "rounds")
    sections = [{frozenset(next(it.all("a")).text().split(" – ")) for it in section.all("li")}
                for section in page.all("section")]
    check("two round robins have their rounds, the larger one first",
          (["Rounds of x1", "Rounds of 9"], [*berger(names[:4]) * 2, *berger(names)]),
          ([it.text() for it in page.all("h2") if it.text().startswith("Rounds")], sections))
    top, entries = feed_of("rounds")
    check("a feed without ended games has its date and its author", ({}, "2026-11-30T00:53:20Z", "Club"),
          (entries, top.findtext(f"{ATOM}updated"), top.findtext(f"{ATOM}author/{ATOM}name")))


def without_deadlines():
    """Games at the end of the year 9999, whose deadlines are after the last timestamp."""
    late = 253402300000
    orders("init", "member anna keyanna1", "member bert KEYBERT2", "event autumn draughts 31536000 0",
           "seat g1 autumn anna bert", file="n.db", now=late)
    status = publish(file="n.db", folder="never", now=late)[0]
    check("a game without a deadline says so, and is in no calendar",
          (0, [["anna – bert", "anna", "no deadline", "0"]], False),
          (status, cells_of(page_of("event-autumn.html", "never"), "Running games")[1:],
           "VEVENT" in read("event-autumn.ics", "never")))


def moves_meanwhile():
    """A move between two commands of the tool is left to its next run."""
    path = pathlib.Path("moving")
    move = [PROGRAM, "--now", str(START), "e.db", "move", "1", "2", "19-23"]
    path.write_text(f"#!{sys.executable}\nimport os, subprocess, sys\nif 'export-event' in sys.argv:\n"
                    f"    subprocess.run({move!r}, stdout=subprocess.DEVNULL)\n"
                    f"os.execv({PROGRAM!r}, [{PROGRAM!r}, *sys.argv[1:]])\n")
    path.chmod(0o700)
    orders("init", "member anna keyanna1", "member bert KEYBERT2", f"event autumn draughts {DAY} 0",
           "seat g1 autumn anna bert", "move 1 1 32-28", file="e.db")
    status = publish(file="e.db", folder="moving-site", program=str(path.absolute()))[0]
    page = page_of("game-1.html", "moving-site")
    check("a move that is made while the tool reads is in no file of that run", (0, "1. 32-28\n*\n", [], False),
          (status, read("game-1.pdn", "moving-site").partition("\n\n")[2],
           differing_diagrams(page, "draughts", ["32-28"]), "19-23" in read("event-autumn.pdn", "moving-site")))
    publish(file="e.db", folder="moving-site")
    check("the next run has it", run(["e.db", "export", 1])[1], read("game-1.pdn", "moving-site"))


def crashes():
    """A kill at each rename, and at each time that a file is flushed, while one club's pages take another's place."""
    publish(*WORDS, file="d.db", folder="other")
    publish(*WORDS, file="c.db", folder="whole", now=LATER + 3 * DAY)
    versions = [{it.name: it.read_bytes() for it in pathlib.Path(name).iterdir()} for name in ("other", "whole")]
    broken, left, killed = {}, {}, 0
    command = [sys.executable, "-c", KILLED]
    words = [PUBLISH.path, "--club", PROGRAM, "--now", str(LATER + 3 * DAY), *WORDS, "c.db", "crashed"]
    for call, count in [*(("replace", it) for it in (1, 2, 3, 25, 48)), ("fsync", 1), ("fsync", 30), ("unlink", 1)]:
        subprocess.run(["rm", "-rf", "crashed"], check=True)
        publish(*WORDS, file="d.db", folder="crashed")
        ran = subprocess.run([*command, call, str(count), *words], capture_output=True, timeout=WAIT, check=False)
        killed += ran.returncode == -signal.SIGKILL
        for name in os.listdir("crashed"):
            data = pathlib.Path("crashed", name).read_bytes()
            if not name.startswith(".publish") and all(it.get(name) != data for it in versions):
                broken[call, count, name] = data[:80]
        status = publish(*WORDS, now=LATER + 3 * DAY, folder="crashed")[0]
        files = {name: pathlib.Path("crashed", name).read_bytes() for name in names_in("crashed")}
        expected = {name: data for name, data in versions[1].items() if not name.startswith(".publish")}
        aside = [it for it in os.listdir("crashed") if it.startswith(".publish-")]
        if status or {*files} != {*expected} or aside:
            left[call, count] = status, {*files} ^ {*expected}, aside
    check("after a kill each file is the old one or the new one", {}, broken)
    check("the run after a kill leaves the new files and nothing else", {}, left)
    check("these runs were killed", 8, killed)


def removed_files():
    """Another club in the same folder: what the tool made goes, and nothing else."""
    publish(*WORDS, folder="moved", now=START + 41 * DAY)
    for name in ("favicon.ico", "game-99.html", "notes"):
        pathlib.Path("moved", name).write_text("mine")
    before = names_in("moved")
    status, printed, _ = publish(file="d.db", folder="moved")
    after = names_in("moved")
    gone = {"feed.xml", "game-5.html", "game-5.pdn"}
    check("files of games that are no more go, and the feed without `--base`", (0, gone),
          (status, gone & before - after))
    check("files that the tool did not make stay", ["mine"] * 3,
          [read(it, "moved") for it in ("favicon.ico", "game-99.html", "notes")])
    check("the files are those of the other club", names_in("open") | {"favicon.ico", "game-99.html", "notes"}, after)
    result(f"{len(before - after)} removed" in printed, "the tool says how many files went", printed)


def beside_a_server():
    """A running server answers the tool's commands, and takes the next move."""
    with serve("d.db", now=START) as server:
        count = len(names_in("open"))
        check("beside a server the tool reads the same", (0, f"0 written, 0 removed, {count} unchanged\n", ""),
              publish(file="d.db", folder="open"))
        check("the server goes on", 200, server.request("POST", "/games/3/moves/1", {"move": "2g2f"})[0])
        publish(file="d.db", folder="open")
        check("the next run has the move of a member", run(["d.db", "export", 3])[1], read("game-3.csa", "open"))


def refusals():
    """Each is refused before anything is written."""
    for folder, name, text in (("taken", "index.html", "mine"), ("strange", ".publish.json", "{}"),
                               ("escaping", ".publish.json", json.dumps({
                                   "version": 1, "begun": 1, "files": ["../kept"], "ended": {}, "turns": {}}))):
        os.mkdir(folder)
        pathlib.Path(folder, name).write_text(text)
        status, _, messages = publish(folder=folder)
        left = {it for it in os.listdir(folder) if it != ".publish.lock"}
        check(f"a folder with a strange {name} is refused, and nothing is written ({folder})", (1, True, {name}, text),
              (status, messages.startswith("publish: "), left, read(name, folder)))
    os.mkdir("within")
    os.symlink(os.path.abspath("c.db"), "within/linked.db")
    orders("init", file="within/c.db")
    check("a folder that has the club's file is refused", (1, True),
          ((it := publish(file="within/c.db", folder="within"))[0], "with all keys" in it[2]))
    os.makedirs("above/more/within")
    orders("init", file="above/more/within/c.db")
    check("so is a folder further above it", 1, publish(file="above/more/within/c.db", folder="above")[0])
    with open("site/.publish.lock", "wb") as lock:
        fcntl.flock(lock, fcntl.LOCK_EX)
        status, _, messages = publish()
    check("a second run at the same time is refused", (1, True), (status, "another run holds" in messages))
    for words in (["--delay", "x"], ["--delay", "-1"], ["--base", "ftp://x"], ["--base", "https://x/?a"],
                  ["--title", ""], ["--title", "a\nb"], ["--base", 'https://x/"'], ["--unknown"], ["more"]):
        check(f"the words {words} are bad words", 2, publish(*words)[0])
    check("a club that is not there is status 3, and no folder is made", (3, False),
          (publish(file="none.db", folder="nowhere")[0], os.path.exists("nowhere")))
    pathlib.Path("plain").write_text("")
    check("a folder that is a file is status 3", 3, publish(folder="plain")[0])
    for name, answer in (("games", "game 1 autumn <b> bert g ply 0 turn bert until never\n"),
                         ("export-event", "[Event]\n"), ("table", "Event autumn\n1 <b> 1 1 1 1 1 -\n")):
        program = stand_in(name, answer)
        check(f"a strange answer to `{name}` is status 3", 3, publish(folder="nowhere", program=program)[0])
    status, _, messages = publish(file="e.db", folder="nowhere", program=stand_in("export-event", UNPLAYABLE))
    check("a move that no piece can make is status 3", (3, "publish: game 1: no piece can make the move 28-23\n"),
          (status, messages))


def stand_in(name, answer):
    """A program that answers one command by a text, and gives all others to the real one."""
    path = pathlib.Path(f"stand-in-{name}")
    path.write_text(f"#!{sys.executable}\nimport os, sys\nif {name!r} in sys.argv:\n    sys.stdout.write({answer!r})\n"
                    f"else:\n    os.execv({PROGRAM!r}, [{PROGRAM!r}, *sys.argv[1:]])\n")
    path.chmod(0o700)
    return str(path.absolute())


def terminal():
    """The tool as a process: its help, and its progress on a terminal alone."""
    ran = subprocess.run([PUBLISH.path, "--help"], capture_output=True, text=True, timeout=WAIT, check=False)
    check("`tools/publish` runs as a program, and `--help` names each option", (0, []),
          (ran.returncode, [it for it in ("--title", "--base", "--delay", "--club", "FILE", "DIR")
                            if it not in ran.stdout]))
    main, other = pty.openpty()
    words = [PUBLISH.path, "--club", PROGRAM, "d.db", "open"]
    ran = subprocess.run(words, stdout=subprocess.PIPE, stderr=other, timeout=WAIT, check=False)
    os.close(other)
    shown = os.read(main, 1 << 16).decode()
    os.close(main)
    check("on a terminal the tool shows what it does", (0, True, True),
          (ran.returncode, "\rreading fuji (2 of 2)" in shown, "\rwriting index.html (" in shown))
    ran = subprocess.run(words, capture_output=True, timeout=WAIT, check=False)
    check("elsewhere it prints its counts alone", (0, b"", 1), (ran.returncode, ran.stderr, ran.stdout.count(b"\n")))


def script_texts(text):
    """The drawings of page/kanji.js: strings of SVG paths by the name of their piece."""
    constants = dict(re.findall(r"const (\w+) = '([^']*)'", text))
    whole = re.sub(r"\$\{(\w+)\}", lambda it: constants[it[1]], re.sub(r"['`]\s*\+ ['`]", "", text))
    return dict(re.findall(r"^  '?([+\w]+)'?: ['`]([^'`]*)['`],", whole, re.M))


def drawings():
    """The pieces and colours of the pages are those of the members' page."""
    strokes = script_texts((TOP / "page/kanji.js").read_text(encoding="utf-8"))
    page = read_page((TOP / "tools/publish_of/shogi.svg").read_text(encoding="utf-8"))[0]
    own = {it.attributes["id"]: next(at.attributes["d"] for at in it.all("path") if at.attributes["class"] == "sign")
           for it in page.all("g") if "id" in it.attributes}
    check("the pieces of shogi have the kanji of the members' page", (15, strokes),
          (len(own), {name: "".join(it.split("\n")) for name, it in own.items()}))
    colours = re.compile(r"--([a-z-]+): (light-dark\([^;]*\));")
    theirs, ours = (dict(colours.findall((TOP / it).read_text(encoding="utf-8")))
                    for it in ("page/base.css", "tools/publish_of/style.css"))
    check("the colours of the pages are those of the members' page", (True, ours),
          (len(ours) >= 9, {name: theirs.get(name) for name in ours}))


def stepping():
    """The script, in Chromium; and no page is wider than a phone."""
    if not page_browser.is_installed():
        skip("the script steps through a game", "Chromium is not installed")
        return
    caption = "document.querySelector('#shown figcaption').textContent"
    shown = f"[{caption}, document.querySelector('#shown use').getAttribute('href')]"
    with page_browser.Browser() as browser:
        page = browser.page(360, 800)
        page.open(pathlib.Path("site/game-1.html").absolute().as_uri())
        check("a game opens at its last position", ["2. 28x19", "#diagram-3"], page.value(shown))
        page.press("ArrowLeft")
        check("an arrow steps back", ["1... 19-23", "#diagram-2"], page.value(shown))
        page.click("#steps [value=first]")
        check("a button goes to the opening", ["Opening position", "#diagram-0"], page.value(shown))
        page.click(".moves a")
        check("a move shows its position", ["1. 32-28", "#diagram-1"], page.value(shown))
        check("the move that is shown is marked", "32-28", page.text("[aria-current]"))
        check("the policy of the page forbids nothing that it needs", [], page.faults())
        wide = []
        for name in sorted(names_in("site")):
            if name.endswith(".html"):
                page.open(pathlib.Path("site", name).absolute().as_uri())
                wide += [name] * (page.value("document.documentElement.scrollWidth") > 360)
        check("no page is wider than a phone", [], wide)


def main():
    with tempfile.TemporaryDirectory(dir=FAST) as folder, contextlib.chdir(folder):
        season = Season()
        writes_all(season)
        html_is_sound()
        boards(season)
        single_moves()
        moves(season)
        records(season)
        event_pages()
        feed(season)
        calendars()
        stepping()
        second_runs(season)
        delays()
        rounds_by_keys()
        without_deadlines()
        moves_meanwhile()
        crashes()
        removed_files()
        beside_a_server()
        refusals()
        terminal()
    drawings()
    return exit_status()


if __name__ == "__main__":
    sys.exit(main())
