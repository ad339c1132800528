"""Cases of the page: signing in, the home of a member, events and failures of the server."""
import contextlib
import json
import pathlib
import re
import sqlite3
import time

from page_room import ask_first, club, come_back, DAY, KEYS, move, says, sign_in, told, verdict
from page_shared import OPENINGS
from models.standings import standings

ODD_KEYS = "kéyanna1", "鍵keyanna", "key anna1", "keyanna1\u200b", "<b>keyanna1</b>", "key%0aanna1", "no-such-key"
COLUMNS = "place", "member", "points", "games", "wins", "draws", "losses", "sonneborn_berger", "running"  # of an event
NO_DEADLINE = """(() => {
    const real = window.fetch;
    window.fetch = async (path, how) => {
        const reply = await real(path, how);
        if (path !== 'me') return reply;
        const told = await reply.json();
        told.games.sort((one, other) => one.game - other.game).at(-2).deadline = null;
        return Response.json(told);
    };
})()"""
# Gives every event 501 games.
CROWD = """(() => {
    const real = window.fetch;
    window.fetch = async (path, how) => {
        const reply = await real(path, how);
        if (!path.endsWith('/games')) return reply;
        const { games } = await reply.json();
        return Response.json({ games: Array.from({ length: 501 }, () => ({ ...games[0], end: null, result: null })) });
    };
})()"""
# Records notifications and sounds in `made`, in place of the browser's own, and takes the focus from the page.
LISTEN = """(() => {
    window.made = [];
    window.Notification = class {
        static permission = 'granted';
        static requestPermission = async () => Notification.permission;
        constructor(words) { made.push(words); }
    };
    const part = () => new Proxy(() => {}, { get: (_, name) => (name === 'currentTime' ? 0 : part()), set: () => true, apply: part });
    window.AudioContext = class { constructor() { made.push('sound'); return part(); } };
    document.hasFocus = () => false;
})()"""
# Records the long pauses after which the page would look again, in `later`, in place of waiting.
LATER = """(() => {
    window.later = [];
    const real = window.setTimeout;
    window.setTimeout = (look, pause, ...more) => (pause > 3000 ? later.push({ look, pause }) : real(look, pause, ...more));
})()"""
HIDE = """(() => {
    Object.defineProperty(document, 'hidden', { configurable: true, get: () => true });
    document.dispatchEvent(new Event('visibilitychange'));
})()"""


def wrong_key(room):
    page = room.page()
    sign_in(page, "keynobody")
    told("a wrong key is told in words", page, "#wrong", "No member has this key")
    verdict("the form stays", False, page.value("document.getElementById('sign-in').hidden"))
    verdict("and has the focus", "name", page.value("document.activeElement.id"))
    fields = page.value("[...document.querySelectorAll('#sign-in input')].map((it) => it.autocomplete)")
    verdict("a password manager knows its fields", ["username", "current-password"], fields[:2])
    page.value("document.getElementById('key').value = ''")
    page.type("#key", KEYS["anna"])
    page.press("Enter")
    told("a key is given by keys", page, "#member", "anna")
    verdict("the focus goes to what comes", True, page.until("document.activeElement.id === 'title'"))


def odd_keys(room):
    page = room.page()
    for key in ODD_KEYS:
        page.value("document.getElementById('wrong').replaceChildren()")
        sign_in(page, key)
        told(f"the key {key!a} is unknown", page, "#wrong", "No member has this key")
    sign_in(page, "  keyanna1 ")
    told("blanks around a key do no harm", page, "#member", "anna")
    verdict("what was wrong is forgotten", "", page.text("#wrong"))


def other_name(room):
    page = room.page()
    page.type("#name", "Berta")
    sign_in(page, KEYS["anna"])
    told("who gives another member's name is told", page, "#wrong", "This key belongs to anna. You are signed in as anna.")
    page = room.page()
    page.type("#name", "Anna")
    sign_in(page, KEYS["anna"])
    says(page, "#member", "anna")
    page.browser.wait(0.5)
    verdict("capitals do not count", "", page.text("#wrong"))


def kept_key(room):
    page = room.member("anna")
    verdict("a key is kept for the tab alone", [1, 0], page.value("[sessionStorage.length, localStorage.length]"))
    page.open(room.url())
    told("the tab knows its member again", page, "#member", "anna")
    page.click("#open-settings")
    page.click("#sign-out")
    page.until("!document.getElementById('sign-in').hidden")
    verdict("who signs out is forgotten", [0, 0], page.value("[sessionStorage.length, localStorage.length]"))
    page.click("#remember")
    sign_in(page, KEYS["anna"])
    says(page, "#member", "anna")
    verdict("who asks for it is remembered", KEYS["anna"], page.value("localStorage.memberKey"))
    addresses = [*page.asked(), page.value("location.href")]
    verdict("no key stands in an address", [], [it for it in addresses if "keyanna1" in it])


def next_game(room):
    """From one game to the next that waits, without a look at the list."""
    games = [room.seat("autumn", "dora", "bert") for _ in range(3)]
    offered = room.seat("autumn", "bert", "dora")
    room.post("bert", f"games/{offered}/draw/1/offer")
    dora = room.member("dora", games[0])
    says(dora, "#state", "Your turn")
    verdict("where it is the reader's turn no other game is shown", "", dora.text("#next"))
    move(dora, "32", "28")
    told("behind a move comes the next game", dora, "#next", "Next game (3)")
    dora.click("#next a")
    told("a draw offer waits, too, and first", dora, "#title", f"Game {offered}, autumn")
    told("with its answer", dora, "#urgent", "Accept the draw")
    ask_first(dora, "Accept the draw", "Accept the draw")
    says(dora, "#state", "Draw: by agreement")
    told("then the game whose move is due", dora, "#next", "Next game (2)")
    dora.click("#next a")
    told("which comes", dora, "#title", f"Game {games[1]}, autumn")
    verdict("and may be played", True, dora.until("document.querySelectorAll('#board .movable').length > 0"))
    room.post("bert", f"games/{room.seat('autumn', 'bert', 'dora')}/draw/1/offer")
    dora.click("#brand")
    dora.until("!document.getElementById('home').hidden")
    told("at home offers stand apart", dora, "#games", "Draw offers")
    verdict("and count as what waits", True, dora.until("document.title === '(3) My games'"))


def shut_club(room):
    game = room.seat("autumn", "anna", "bert")
    anna = room.member("anna", game)
    pathlib.Path("c.db-desk").unlink(missing_ok=True)  # without its control socket the server releases the file
    with contextlib.closing(sqlite3.connect("c.db", timeout=120, isolation_level=None)) as other:
        other.execute("BEGIN EXCLUSIVE")
        move(anna, "32", "28")
        told("a shut club is told in words", anna, "#away", "The club is unavailable")
        told("the move was not sent", anna, "#unsent", f"Game {game}: your move 32-28 may not have arrived")
        back = "!!document.querySelector('[data-square=\"32\"]').firstChild"
        verdict("the piece is back", True, anna.until(back))
    verdict("an open club is told by itself", True, anna.until("!document.getElementById('away').textContent"))
    anna.click_words("#unsent button", "Send again")
    told("and the move is played", anna, "#state", "played 32-28")
    verdict("nothing is left to send", "", anna.text("#unsent"))


def silent_desk(room):
    anna = room.member("anna")
    room.desk.stop()
    come_back(anna)
    told("a silent desk is told in words", anna, "#away", "The server does not answer")
    room.desk.start()
    verdict("and forgotten by itself", True, anna.until("!document.getElementById('away').textContent"))
    anna.value("window.real = fetch; window.fetch = async () => new Response('<p>Bad gateway', { status: 502 }); null")
    come_back(anna)
    told("so is a server before it that has no desk", anna, "#away", "The server does not answer")
    anna.value("window.fetch = real; null")
    come_back(anna)
    verdict("and forgotten likewise", True, anna.until("!document.getElementById('away').textContent"))


def tables(room):
    game = room.seat("autumn", "cara", "king", OPENINGS["draughts"])
    other = room.seat("autumn", "cara", "king")
    room.post("cara", f"games/{game}/resign")
    anna = room.member("anna")
    anna.click_words("#events a", "autumn")
    anna.until("!document.getElementById('event').hidden")
    rows = anna.value("""[...document.querySelectorAll('#standings tbody tr')]
        .map((it) => [...it.children].map((cell) => cell.innerText.trim()))""")
    listed = [it.split() for it in club("games", "--event", "autumn").splitlines()]
    games = [(*it[3:5], it[10] if it[8] == "end" else None) for it in listed]
    expected = standings([it.split()[2] for it in club("members").splitlines()], games)
    names = [it[1] for it in rows]
    verdict("the places, sums, Sonneborn-Berger numbers and running games are those of the club",
            [[str(it[key]) for key in COLUMNS] for it in expected], [[*it[:3], *it[-6:]] for it in rows])
    verdict("whoever plays there stands in it", True, {"cara", "king"} <= {*names})
    pair = names.index("king"), names.index("cara")
    cell = rows[pair[0]][3 + pair[1]]
    verdict("a cell has each game of the two", True, "2" in cell and "\u2022" in cell)
    links = anna.value("[...document.querySelectorAll('#standings td a')].map((it) => it.hash)")
    verdict("from which one comes to the game", True, {f"#game/{game}", f"#game/{other}"} <= {*links})
    told("the games are listed", anna, "#event-games", "by resignation")
    left = re.search(r"cara to move \u00b7 [67] days left", anna.text("#event-games"))  # 7 in the game's first second
    verdict("with the time that is left", True, left is not None)
    anna.click(f"#event-games a[href='#game/{game}']")
    told("a game of others can be looked at", anna, "#state", "king won: by resignation (0-2)")
    verdict("and not played", 0, anna.value("document.querySelectorAll('.movable, #actions button, #urgent button').length"))


def home(room):
    """The cards of a member's games."""
    theirs = room.seat("autumn", "bert", "king")
    mine = room.seat("autumn", "king", "bert", OPENINGS["draughts"])
    shogi = room.seat("fuji", "king", "anna")
    flash = room.seat("flash", "bert", "king")
    over = room.seat("autumn", "king", "bert")
    room.post("king", f"games/{over}/resign")
    time.sleep(2)
    king = room.member("king")
    says(king, "#games", "Out of time: claim the win")
    listed = king.value("[...document.querySelectorAll('#games .card a')].map((it) => it.hash.slice(6))")
    verdict("first what may be claimed, then my turn, then theirs", True,
            listed.index(flash) < listed.index(mine) < listed.index(theirs) and listed.index(shogi) < listed.index(theirs))
    card = f"#games a[href='#game/{mine}']"
    told("a card says who, where, whose turn and how long", king, card, "Your turn")
    for words in ("bert", "autumn", "you play white", "days left"):
        told(f"as {words}", king, card, words)
    drawn = f"document.querySelector('#games a[href=\"#game/{mine}\"] .mini .one').getAttribute('d').split('M').length"
    verdict("and has a picture of the position", True, king.until(f"{drawn} === 20"))
    late = king.value(f"getComputedStyle(document.querySelector('#games a[href=\"#game/{flash}\"] .left')).color")
    verdict("what is late is red", "rgb(166, 27, 27)", late)
    count = len(king.value("[...document.querySelectorAll('#games .card.mine')].map(() => 1)"))
    title = king.value("document.title")
    verdict("the tab counts what waits", True, int(re.match(r"\((\d+)\)", title)[1]) >= count > 1)
    king.value(NO_DEADLINE)
    come_back(king)
    verdict("a game may have no deadline", True, king.until("[...document.querySelectorAll('.left')].some((it) => !it.innerText)"))
    king.click("#ended summary")
    told("ended games are found", king, "#ended-games", "You lost: by resignation (0-2)")
    king.click(card)
    told("a card leads to its game", king, "#title", f"Game {mine}, autumn")


def requests(room):
    """How often the server is asked, and what an unchanged reply costs."""
    games = [room.seat(("autumn", "fuji")[at % 2], "ella", "bert") for at in range(12)]
    ella = room.member("ella")
    asked = "performance.getEntriesByType('resource').map((it) => it.name.split('/').slice(3).join('/'))"
    drawn = "document.querySelectorAll('#games .mini .one').length"
    verdict("home shows twelve games with their positions", True, ella.until(f"{drawn} === 12"))
    verdict("from the reply that lists them", ["me", "me/events"], sorted(ella.value(asked)))
    ella.value("performance.clearResourceTimings(); window.changed = 0; null")
    ella.value("""new MutationObserver((all) => { changed += all.length; })
        .observe(document.querySelector('main'), { childList: true, subtree: true, characterData: true }); null""")
    come_back(ella)
    ella.until(f"{asked}.length > 0")
    ella.browser.wait(0.7)
    verdict("another look at home is one request, and nothing is drawn anew", [["me"], 0], ella.value(f"[{asked}, changed]"))
    room.at_game(ella, games[0])
    says(ella, "#state", "Your turn")
    ella.browser.wait(0.5)
    ella.value("performance.clearResourceTimings(); null")
    come_back(ella)
    ella.until(f"{asked}.length > 1")
    verdict("a look at a game is one request beside the member's own", [f"games/{games[0]}/page", "me"], sorted(ella.value(asked)))
    room.post("ella", f"games/{games[1]}/resign")
    room.post("ella", "challenges/1", {"event": "fuji", "first": True, "other": "bert"})
    room.post("bert", "answers/ella/1", {"accept": False})
    ella.click("#brand")
    ella.until("!document.getElementById('home').hidden")
    ella.click("#ended summary")
    told("ended games are one request, too", ella, "#ended-games", "You lost: by resignation (0-2)")
    told("a challenge that was declined is kept", ella, "#challenges", "Declined challenges")
    ella.click("#declined summary")
    told("with whom it was to", ella, "#declined li", "You challenged bert: fuji (shogi), ella begins")
    come_back(ella)
    ella.browser.wait(0.7)
    verdict("what was opened stays open", True, ella.value("document.getElementById('declined').open"))


def notices(room):
    """Notifications and sounds, where the member wants them."""
    game = room.seat("autumn", "cara", "bert")
    bert = room.member("bert")
    bert.value(LISTEN)
    room.post("cara", f"games/{game}/moves/1", {"move": "32-28"})
    come_back(bert)
    says(bert, f"#games a[href='#game/{game}']", "Your turn")
    verdict("who wants no notices has none", [], bert.value("made"))
    asked = "performance.getEntriesByType('resource').map((it) => it.name.replace(/.*[0-9]\\//, ''))"
    bert.value(HIDE)
    bert.browser.wait(0.5)
    before = bert.value(f"{asked}.length")
    bert.value("dispatchEvent(new Event('online')); null")
    bert.browser.wait(0.7)
    verdict("and while it is hidden the page asks nothing", before, bert.value(f"{asked}.length"))
    bert.value("delete document.hidden; null")
    come_back(bert)
    bert.click("#open-settings")
    for it in ("alerts", "sound"):
        bert.click(f"#{it}-choice")
    bert.press("Escape")
    room.post("bert", f"games/{game}/moves/2", {"move": "19-23"})
    room.post("cara", f"games/{game}/moves/3", {"move": "28x19"})
    heard = []
    for words, deed in (
            ("Your turn against cara (autumn)", None),
            ("cara challenges you: autumn", lambda: room.post("cara", "challenges/777", {"event": "autumn", "first": True, "other": "bert"})),
            ("The game against cara has ended (autumn)", lambda: room.post("bert", f"games/{game}/resign"))):
        if deed:
            deed()
        come_back(bert)
        heard += ["sound", words]
        bert.until(f"made.length >= {len(heard)}")
        verdict(f"a notice and a sound: {words}", heard, bert.value("made"))
    come_back(bert)
    bert.browser.wait(0.7)
    verdict("each comes once", heard, bert.value("made"))
    bert.value("document.hasFocus = () => true; null")
    room.post("cara", "challenges/777/withdraw")
    room.post("cara", "challenges/778", {"event": "autumn", "first": True, "other": "bert"})
    come_back(bert)
    bert.until(f"made.length > {len(heard)}")
    verdict("who looks at the page hears the sound alone", [*heard, "sound"], bert.value("made"))
    room.post("cara", "challenges/778/withdraw")
    hidden_notices(room, bert)
    bert.value("Notification.permission = 'denied'; null")
    bert.click("#open-settings")
    told("who has withdrawn the permission is told in the settings", bert, "#alerts-refused", "The browser does not allow notifications")
    bert.click("#alerts-choice")
    bert.click("#alerts-choice")
    told("a browser that forbids notifications is told", bert, "#alerts-refused", "The browser does not allow notifications")
    verdict("and the choice is off", [False, "false"], bert.value("[document.getElementById('alerts-choice').checked, localStorage.alerts]"))


def hidden_notices(room, bert):
    """A hidden page asks every five minutes, for who wants notices, and counts in its title."""
    offered = room.seat("autumn", "cara", "bert", ["32-28"])
    come_back(bert)
    bert.browser.wait(0.7)
    bert.value("made.length = 0; document.hasFocus = () => false; null")
    bert.value(LATER)
    bert.value(HIDE)
    verdict("hidden it asks in five minutes", [300000], bert.value("later.map((it) => it.pause)"))
    before = int(re.match(r"\((\d+)\)", bert.value("document.title"))[1])
    room.post("bert", f"games/{offered}/moves/2", {"move": "19-23"})
    room.post("bert", f"games/{offered}/draw/3/offer")
    room.post("cara", f"games/{offered}/moves/3", {"move": "28x19"})
    room.post("cara", f"games/{offered}/draw/4/offer")
    asked = "performance.getEntriesByType('resource').length"
    count = bert.value(asked)
    bert.value("later[0].look()")
    wanted = ["Your turn against cara (autumn)", "cara offers a draw (autumn)"]
    bert.until("made.length > 2")
    verdict("then it notifies, with one request", [sorted([*wanted, "sound"]), count + 1],
            [sorted(bert.value("made")), bert.value(asked)])
    verdict("its title counts", True, bert.value("document.title").startswith(f"({before}) "))
    verdict("and it asks again in five minutes", [300000] * 2, bert.value("later.map((it) => it.pause)"))
    room.post("cara", "challenges/790", {"event": "autumn", "first": True, "other": "bert"})
    bert.value("later[1].look()")
    verdict("a challenge is one more", True, bert.until(f"document.title.startsWith('({before + 1}) ')"))
    room.post("cara", "challenges/790/withdraw")
    room.post("bert", f"games/{offered}/resign")
    bert.value("made.length = 0; later[2].look()")
    bert.until("made.length > 1")
    verdict("an ended game is told", ["The game against cara has ended (autumn)", "sound"], sorted(bert.value("made")))
    bert.value("delete document.hidden; null")
    come_back(bert)


def installed(room):
    """The manifest and the icon, by which a browser can install the page."""
    anna = room.member("anna")
    manifest = anna.call("Page.getAppManifest")
    verdict("the manifest is read", [], manifest["errors"])
    verdict("and names this page", [room.url(), "standalone"], [json.loads(manifest["data"])[it] for it in ("start_url", "display")])
    verdict("nothing hinders an installation", [], anna.call("Page.getInstallabilityErrors")["installabilityErrors"])


def many_games(room):
    """An event of more games than one list shows."""
    club("event", "crowd", "draughts", str(7 * DAY), "0")
    club("round-robin", "crowd", "crowd", *KEYS)
    for at in range(60):
        room.seat("crowd", "bert", "cara")
    anna = room.member("anna")
    anna.value("location.hash = '#event/crowd'")
    rows = "[...document.querySelectorAll('#event-games li')]"
    anna.until(f"{rows}.length === 50")
    verdict("fifty games are shown at once", 50, anna.value(f"{rows}.length"))
    verdict("the reader's own first", True, anna.value(f"{rows}.slice(0, 5).every((it) => it.className === 'mine')"))
    anna.click_words("#event-games button", f"Show more ({75 - 50})")
    verdict("and more where one asks", 75, anna.value(f"{rows}.length"))
    anna.type("#search", "KING")
    verdict("games are found by name", 5, anna.value(f"{rows}.length"))
    anna.type("#search", "nobody")
    told("or not", anna, "#event-games", "None found.")
    anna.value("location.hash = '#event/autumn'")
    anna.until("document.getElementById('title').textContent === 'autumn' && !document.getElementById('event').hidden")
    verdict("another event is not searched", "", anna.value("document.getElementById('search').value"))
    anna.value(CROWD)
    anna.value("location.hash = '#event/crowd'")
    told("an event of hundreds of games", anna, "#event-games", f"Show more ({501 - 50})")
    anna.value("performance.clearResourceTimings(); null")
    come_back(anna)
    asked = "performance.getEntriesByType('resource').map((it) => it.name.split('/').slice(3).join('/'))"
    anna.until(f"{asked}.length > 0")
    anna.browser.wait(0.7)
    verdict("is not asked for at each look", ["me"], anna.value(asked))


def empty_club(room):
    club("member", "newcomer", "keynewcomer1")
    page = room.page()
    sign_in(page, "keynewcomer1")
    told("who has no games is told what to do", page, "#games", "Challenge a member below")
    verdict("the title counts nothing", "My games", page.value("document.title"))


def nowhere(room):
    """Addresses of nothing, and a key that is gone."""
    game = room.seat("autumn", "anna", "bert")
    anna = room.member("anna", game)
    for place, words in ("#game/4999", "No such game"), ("#event/nothing", "No such event"):
        anna.value(f"location.hash = '{place}'")
        told(f"{place} is told", anna, "#title", words)
        hidden = "['home', 'event', 'game', 'sign-in', 'waiting'].every((it) => document.getElementById(it).hidden)"
        verdict("and nothing else is shown", True, anna.value(hidden))
        anna.click("#missing a")
        told("home is one click away", anna, "#title", "My games")
    room.at_game(anna, game)
    says(anna, "#state", "Your turn")
    anna.browser.wait(0.5)
    room.post("anna", f"games/{game}/moves/1", {"move": "32-28"})
    move(anna, "31", "27")
    told("a refusal is told", anna, "#wrong", "Something else was done already")
    anna.click("#brand")
    anna.until("!document.getElementById('home').hidden")
    verdict("and stays in its view", "", anna.text("#wrong"))
    room.at_game(anna, game)
    anna.value("""window.real = fetch;
        window.fetch = async () => new Response('{"error":50,"name":"UnknownKey"}', { status: 401 }); null""")
    come_back(anna)
    told("a key that is gone leads to the form", anna, "#title", "Sign in")
    told("which says why", anna, "#wrong", "No member has this key")
    verdict("nothing of the game stays", True, anna.value("document.getElementById('game').hidden"))
    verdict("the address stays", f"#game/{game}", anna.value("location.hash"))
    anna.value("window.fetch = real; null")
    sign_in(anna, KEYS["anna"])
    told("and who signs in again is there", anna, "#title", f"Game {game}, autumn")
