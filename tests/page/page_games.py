"""Cases of the page: playing a game."""
import json
import pathlib
import tempfile
import time

import page_desk
from page_room import (
    ask_first, attempt, board, club, come_back, confirm, DAY, KEYS, move, of_fen, play, played, says, square, stored,
    stored_moves, told, TOP, verdict,
)
from page_shared import AMBIGUOUS, OPENINGS, PHONE, WHOLE_SHOGI

WHOLE_DRAUGHTS = [*AMBIGUOUS, *"""48x37x23x40 45x34 13-18 22x24 15-20 24x13 8x19 43-38 25-30 35x13 3-9 13x4 5-10 4x15
    14-20 15x29 7-12 29x32 2-8 32-19 6-11 19x16 1-7 16x2""".split()]
LONG_DRAUGHTS = [*AMBIGUOUS, *"""48x37x23x40 45x34 13-18 22x24 15-20 24x13 8x19 34-30 25x34 39x30 19-24 30x10 5x14
    36-31 21-27 31x22 11-17 22x11 6x17 41-36 7-11 50-45 3-8 45-40 14-20 33-29 20-24 29x20 2-7 44-39 8-12 49-44 17-22
    39-34 11-16 46-41 1-6 20-15 12-17 43-39 22-27 36-31 27x47 34-29 47x20 15x24 17-22 24-20 16-21 20-15 7-11 40-34
    22-27 44-40 21-26 34-30 11-17 30-24 17-22 15-10 27-31 39-34 22-27 34-29 31-37 10-5 6-11 5x41 27-32 41x6 26-31
    40-34 31-36 24-20 36-41 6-22 41-46 22-28 46x48 29-24 48-26 35-30 26-48 24-20 48x9""".split()]
AFTER_TWO = "B:W19,31,33,34,35,36,37,38,39,40,41,42,43,44,45,46,47,48,49,50:B1,2,3,4,5,6,7,8,9,10,11,12,13,14,15,16,17,18,20"
LOSE_NEXT = """(() => {
    const real = window.fetch;
    window.fetch = async (...how) => {
        window.fetch = real;
        await real(...how);
        throw Error('lost');
    };
})()"""


def whole_game(room, event, moves):
    """Two members play a game by clicks, to the end that the rules give it."""
    game = room.seat(event, "anna", "bert")
    anna, bert = (room.member(it, game) for it in ("anna", "bert"))
    verdict(f"a game of {event} is played by clicks", moves, play((anna, bert), moves))
    reason = {"autumn": "no move left", "fuji": "checkmate"}[event]
    told("who ends it is told so", anna, "#state", f"You won: {reason} (2-0)")
    come_back(bert)
    told("the other is told, too", bert, "#state", f"You lost: {reason} (2-0)")
    verdict("the club has the same moves", moves, stored_moves(game))
    verdict("and the pages show its last position", [stored(game, len(moves))] * 2, [board(anna), board(bert)])
    corners = [it.value("document.querySelector('#board button').dataset.square") for it in (anna, bert)]
    verdict("each from the own side", {"autumn": ["1", "50"], "fuji": ["9a", "1i"]}[event], corners)


def draughts_game(room):
    whole_game(room, "autumn", WHOLE_DRAUGHTS)


def shogi_game(room):
    whole_game(room, "fuji", WHOLE_SHOGI)


def choices(room):
    """What is asked where two moves have both squares."""
    one, other = room.seat("autumn", "anna", "bert", AMBIGUOUS), room.seat("fuji", "anna", "bert", WHOLE_SHOGI[:6])
    bert = room.member("bert", one)
    says(bert, "#state", "Your turn")
    attempt(bert, "48", "40")
    bert.until("document.getElementById('dialog').open")
    routes = bert.value("[...document.querySelectorAll('#options button')].slice(0, -1).map((it) => it.textContent)")
    verdict("two ways to capture are told", ["48x31x18x40", "48x37x23x40"], sorted(routes))
    shown = bert.value("[...document.querySelectorAll('#routes polyline')].map((it) => it.points.length)")
    verdict("and shown", [4, 4], shown)
    bert.press("Escape")
    verdict("Escape plays none", len(AMBIGUOUS), len(stored_moves(one)))
    move(bert, "48", "40", routes[1])
    told("the one that is taken is played", bert, "#state", f"bert played {routes[1]}")
    anna = room.member("anna", other)
    says(anna, "#state", "Your turn")
    attempt(anna, "4e", "6c")
    anna.until("document.getElementById('dialog').open")
    words = anna.value("[...document.querySelectorAll('#options button')].map((it) => it.innerText.trim())")
    verdict("a promotion is a choice", ["horse", "bishop", "Cancel"], [it.split("\n")[-1] for it in words])
    anna.click_words("#options button", "horse")
    confirm(anna)
    told("it promotes", anna, "#state", "anna played Bx6c+")


def resignation(room):
    game = room.seat("autumn", "anna", "bert")
    anna, bert = (room.member(it, game) for it in ("anna", "bert"))
    ask_first(anna, "Resign", "Cancel")
    verdict("who cancels goes on", "Your turn", says(anna, "#state", "Your turn"))
    ask_first(anna, "Resign", "Resign")
    told("who resigns has lost", anna, "#state", "You lost: by resignation (0-2)")
    verdict("the focus is not lost with the button", "title", anna.value("document.activeElement.id"))
    come_back(bert)
    told("the other has won", bert, "#state", "You won: by resignation (0-2)")


def tried(room):
    """A member tries moves on a copy of the board. None is sent, and the other sees nothing of it."""
    game = room.seat("autumn", "anna", "bert", ["32-28"])
    anna, bert = (room.member(it, game) for it in ("anna", "bert"))
    told("the game waits for the other", anna, "#state", "bert to move")
    anna.click("#analyse")
    told("an analysis is marked as one", anna, "#state", "Analysis:")
    told("and says that nothing is sent", anna, "#hint", "None is sent")
    verdict("the board is marked, too", True, anna.value("getComputedStyle(frame).outlineStyle === 'dashed'"))
    verdict("no action of the game is offered", [], actions(anna))
    attempt(anna, "19", "23")
    told("a move of the other side can be tried", anna, "#state", "Analysis:\n19-23")
    attempt(anna, "28", "19")
    told("and an answer to it", anna, "#state", "19-23, 28x19")
    verdict("the board shows the position after them", of_fen(AFTER_TWO), board(anna))
    come_back(anna)
    room.post("bert", f"games/{game}/moves/2", {"move": "20-24"})
    come_back(anna)
    played(anna, 2)
    told("a move of the game does not end it", anna, "#state", "19-23, 28x19")
    anna.click_words("#confirm button", "Undo")
    says(anna, "#hint", "None is sent")
    verdict("a move is undone", True, anna.until("document.getElementById('state').innerText.endsWith('19-23')"))
    anna.press("ArrowLeft")
    verdict("so it is by the keyboard", True, anna.until("document.getElementById('state').innerText.trim() === 'Analysis:'"))
    anna.press("ArrowLeft")
    verdict("back through the game", True, anna.until("!!document.querySelector('[data-square=\"32\"]').firstChild"))
    attempt(anna, "31", "26")
    told("other first moves can be tried", anna, "#state", "31-26")
    anna.press("End")
    anna.click_words("#confirm button", "Back to the game")
    told("the game is where it was", anna, "#state", "Your turn")
    verdict("and no longer marked", False, anna.value("getComputedStyle(frame).outlineStyle === 'dashed'"))
    verdict("the club has no move of the analysis", ["32-28", "20-24"], stored_moves(game))
    come_back(bert)
    told("nor does the other see one", bert, "#state", "bert played 20-24")
    other = room.seat("fuji", "anna", "bert", ["7g7f", "3c3d"])
    cara = room.member("cara", other)
    cara.until("!!document.getElementById('analyse')")
    cara.click("#analyse")
    says(cara, "#state", "Analysis:")
    attempt(cara, "8h", "2b", "horse")
    told("who looks on can try a promotion", cara, "#state", "Bx2b+")
    attempt(cara, "3a", "2b")
    told("and its capture", cara, "#state", "Sx2b")
    attempt(cara, "B*", "4e")
    told("and a drop from the hand", cara, "#state", "B*4e")
    verdict("the club has no move of it, either", ["7g7f", "3c3d"], stored_moves(other))


def refused_move(room):
    game = room.seat("autumn", "anna", "bert")
    one, other = (room.member("anna", game) for _ in range(2))
    move(one, "32", "28")
    says(one, "#state", "played 32-28")
    move(other, "31", "27")
    wanted = "Something else was done already"
    told("a refused move is told in words", other, "#wrong", wanted)
    shown = "!!document.querySelector('[data-square=\"28\"]').firstChild"
    verdict("the board shows what was played", True, other.until(shown))


def actions(page):
    return page.value("[...document.querySelectorAll('#side :is(#urgent, #actions) button:enabled')].map((it) => it.textContent)")


def offer(room):
    game = room.seat("autumn", "anna", "bert", OPENINGS["draughts"])
    anna, bert = (room.member(it, game) for it in ("anna", "bert"))
    ask_first(anna, "Offer a draw", "Offer a draw")
    told("an offer is seen by who made it", anna, "#hint", "You have offered a draw")
    verdict("who cannot accept it", ["Resign"], actions(anna))
    come_back(bert)
    told("an offer is seen by the other", bert, "#hint", "anna offers a draw")
    verdict("who can", ["Accept the draw"], actions(bert))
    ask_first(bert, "Accept the draw", "Accept the draw")
    told("an accepted offer ends the game", bert, "#state", "Draw: by agreement (1-1)")


def challenges(room):
    cara, king = (room.member(it) for it in ("cara", "king"))
    others = cara.value("[...document.querySelectorAll('#other option')].map((it) => it.value)")
    verdict("all others may be challenged", {*KEYS} - {"cara"}, {*KEYS} & {*others})
    for name, event in ("king", "fuji"), ("king", "autumn"):
        for choice, value in ("other", name), ("cup", event):
            cara.value(f"document.getElementById('{choice}').value = '{value}'")
        cara.click("#challenge button")
        told(f"a challenge in {event} is made", cara, "#challenges", f"You challenged king: {event}")
    come_back(king)
    told("it is seen", king, "#challenges", "cara challenges you: autumn (draughts), cara begins")
    verdict("and counted in the title of the tab", True, king.until("document.title === '(2) My games'"))
    king.click_words("#challenges li:nth-child(1) button", "Accept")
    says(king, "#games", "cara")
    king.click_words("#challenges button", "Decline")
    verdict("one is refused, one accepted", True, king.until("!document.querySelector('#challenges button')"))
    come_back(cara)
    told("the game is there", cara, "#challenges", "accepted")
    cara.click("#challenge button")
    says(cara, "#challenges", "Withdraw")
    cara.click_words("#challenges button", "Withdraw")
    verdict("one is withdrawn", True, cara.until("!document.querySelector('#challenges button')"))
    cara.click("#challenges a")
    told("its game can be played", cara, "#state", "Your turn")


def closed_event(room):
    """An event that is closed to challenges: it cannot be chosen, and a challenge into it can only be declined."""
    club("event", "league", "draughts", str(7 * DAY), str(DAY))
    room.post("cara", "challenges/795", {"event": "league", "first": True, "other": "king"})
    late = room.member("cara")
    choose = "document.getElementById('cup').value = 'league'; document.getElementById('other').value = 'bert'; null"
    late.value(choose)
    club("close", "league")
    late.click("#challenge button")
    told("a challenge that comes too late is refused in words", late, "#wrong", "Closed to challenges")
    king = room.member("king")
    told("the closed event is marked", king, "#events li:last-child", "Closed to challenges")
    choices = "[...document.querySelectorAll('#cup option')].map((it) => it.value)"
    verdict("and is no choice", ["autumn", "flash", "fuji"], sorted(king.value(choices)))
    buttons = "[...document.querySelectorAll('#challenges li.mine button')].map((it) => it.innerText)"
    verdict("its challenge can be declined only", ["Decline"], king.value(buttons))
    king.click_words("#challenges button", "Decline")
    verdict("and is declined", True, king.until("!document.querySelector('#challenges button')"))


def ends_meanwhile(room):
    game = room.seat("autumn", "anna", "bert")
    bert = room.member("bert", game)
    room.post("anna", f"games/{game}/resign")
    told("a game that ends is seen without a click", bert, "#state", "You won: by resignation (0-2)")


def lost_replies(room):
    """What was done, and whose reply did not come, is not done again."""
    game = room.seat("autumn", "king", "bert")
    king = room.member("king", game)
    king.value(LOSE_NEXT)
    move(king, "32", "28")
    told("a move is seen though its reply was lost", king, "#state", "king played 32-28")
    king.click("#brand")
    king.until("!document.getElementById('home').hidden")
    before = room.challenges_of("king")
    king.value("document.getElementById('other').value = 'bert'")
    sent = "performance.getEntriesByType('resource').filter((it) => it.name.includes('/challenges/')).length"
    king.value(LOSE_NEXT)
    for count, made in enumerate((1, 1, 2), 1):
        king.click("#challenge button")
        king.until(f"{sent} === {count}")
        verdict(f"challenge sent {count} times", before + made, room.challenges_of("king"))
        king.browser.wait(1)
    told("the page has them", king, "#challenges", "You challenged bert")
    verdict("what was wrong is over", "", king.text("#wrong"))


def claim(room):
    game = room.seat("flash", "anna", "bert")
    time.sleep(3)
    bert = room.member("bert", game)
    ask_first(bert, "Claim the win on time", "Claim the win on time")
    told("a claim ends the game", bert, "#state", "You won: on time (0-2)")


def declaration(room):
    """A king that has entered; in a file of schema 1 no event has declarations."""
    record = (TOP / "tests/data/records/entered.csa").read_text()
    pathlib.Path("resigned.csa").write_text(record.replace("%KACHI", "%TORYO"))
    moves = stored_moves(club("import-csa", "entered", "fuji", "anna", "bert", "resigned.csa").split()[-1])
    anna = room.member("anna", room.seat("fuji", "anna", "bert", moves))
    ask_first(anna, "Declare the entered king", "Declare the entered king")
    with page_desk.copied("c.db") as found:
        has_declarations = found.execute("SELECT schema FROM meta").fetchone()[0] > 1
    if has_declarations:
        told("a king that has entered is declared", anna, "#state", "You won: by declaration of the entered king (2-0)")
    else:
        told("a declaration is refused in words", anna, "#wrong", "The entered king cannot be declared here")


def dragging(room):
    game = room.seat("autumn", "anna", "bert")
    anna = room.member("anna", game)
    says(anna, "#state", "Your turn")
    anna.click(square("32"))
    wanted = ["27", "28"]
    marked = anna.value("[...document.querySelectorAll('.target')].map((it) => it.dataset.square).sort()")
    verdict("the targets of a touched piece are marked", wanted, marked)
    anna.drag(square("33"), square("45"))
    verdict("a drag to another square plays nothing", [], stored_moves(game))
    anna.drag(square("33"), square("29"))
    confirm(anna)
    told("a drag plays", anna, "#state", "played 33-29")
    verdict("the last move is marked", ["29", "33"], anna.value(
        "[...document.querySelectorAll('#board .last')].map((it) => it.dataset.square).sort()"))


def by_keyboard(room):
    game = room.seat("autumn", "anna", "bert")
    anna = room.member("anna", game)
    says(anna, "#state", "Your turn")
    anna.value("document.querySelector('#board [tabindex=\"0\"]').focus()")
    for key in ("ArrowUp", "ArrowUp", "ArrowUp", "ArrowRight", "Enter"):
        anna.press(key)
    name = anna.value("document.activeElement.ariaLabel")
    verdict("squares have names", "32, white man, touched, may move", name)
    anna.press("ArrowUp")
    verdict("so have targets", "27, empty, may go here", anna.value("document.activeElement.ariaLabel"))
    anna.press("ArrowRight")
    anna.press("Enter")
    verdict("the focus goes to the confirmation", "Confirm move", anna.value("document.activeElement.textContent"))
    anna.press("Enter")
    told("a move is played by keys", anna, "#state", "played 32-28")
    verdict("the focus stays", "28", anna.value("document.activeElement.dataset.square"))
    anna = room.at_game(anna, room.seat("fuji", "anna", "bert", WHOLE_SHOGI[:4]))
    verdict("who comes to a game is at its title", True, anna.until("document.activeElement.id === 'title'"))
    anna.value("document.querySelector('#near-hand button:not([hidden])').focus()")
    name = anna.value("document.activeElement.ariaLabel")
    verdict("a piece in hand has a name", "in hand 1, black bishop, may move", name)
    anna.press("Enter")
    anna.value("document.querySelector('#board [data-square=\"4e\"]').focus()")
    anna.press(" ")
    anna.press("Enter")
    told("a drop is played by keys", anna, "#state", "played B*4e")
    anna.click("#brand")
    anna.until("!document.getElementById('home').hidden")
    anna.press("ArrowLeft")
    verdict("at home no game is stepped through", "My games", anna.text("#title"))
    nameless = "[...document.querySelectorAll('button, select, input')].filter((it) => !it.hidden && !it.ariaLabel"
    nameless += " && !it.textContent.trim() && !it.labels?.[0]?.textContent.trim()).length"
    verdict("each control has a name", 0, anna.value(nameless))
    live = "['state', 'wrong'].map((it) => document.getElementById(it).role)"
    verdict("what happens is read aloud", ["status", "alert"], anna.value(live))


def by_screen_reader(room):
    """What the browser tells a screen reader."""
    game = room.seat("fuji", "anna", "bert", WHOLE_SHOGI[:4])
    anna = room.member("anna", game)
    says(anna, "#state", "Your turn")
    anna.click(square("B*"))
    nodes = anna.call("Accessibility.getFullAXTree")["nodes"]
    told = {}
    for it in nodes:
        if not it["ignored"]:
            told.setdefault(it["role"]["value"], []).append(it.get("name", {}).get("value", ""))
    verdict("the board is a grid of nine rows", ([f"Game {game}, fuji"], 9), (told["grid"], len(told["row"])))
    verdict("each square is told", 81, len(told["gridcell"]))
    wanted = ["9a, white lance", "2b, white silver, last move", "5e, empty, may go here"]
    verdict("with what stands there and may be done", wanted, [it for it in wanted if it in told["gridcell"]])
    verdict("pieces in hand are told", True, "in hand 1, black bishop, touched, may move" in told["button"])
    verdict("what happens is a status, what is wrong an alert", (2, 2), (len(told["status"]), len(told["alert"])))
    verdict("all is below a heading", 1, sum(it.startswith("Game ") for it in told["heading"]))


def tap(page, selector):
    page.until(f"!!document.querySelector({json.dumps(selector)})")
    page.tap(selector)


def tap_confirm(page):
    """Taps until it is heard: on a laden machine a tap may last so long that the browser takes it for a press."""
    for _ in range(3):
        tap(page, "#confirm .main")
        if page.until("document.getElementById('confirm').hidden", 5):
            return


def by_touch(room):
    game = room.seat("fuji", "anna", "bert")
    anna = room.member("anna", game, width=PHONE, height=740)
    anna.enable_touch()
    says(anna, "#state", "Your turn")
    for name in ("7g", "7f"):
        tap(anna, square(name))
    tap_confirm(anna)
    told("a move is played by touch", anna, "#state", "played P-7f")
    room.post("bert", f"games/{game}/moves/2", {"move": "3c3d"})
    come_back(anna)
    says(anna, "#state", "Your turn")
    anna.drag(square("2g"), square("2f"), by_touch=True)
    tap_confirm(anna)
    told("and by a drag of the finger", anna, "#state", "played P-2f")


def stepping(room):
    for event, moves in ("autumn", LONG_DRAUGHTS), ("fuji", WHOLE_SHOGI):
        game = room.seat(event, "anna", "bert", moves)
        anna = room.member("anna", game)
        played(anna, len(moves))
        anna.click("#steps [value=start]")
        verdict(f"at the start of {event} no move was made", "The starting position", anna.text("#state"))
        for ply in range(1, len(moves) + 1):
            anna.press("ArrowRight")
            current = anna.value("document.querySelector('#moves [aria-current]')?.value")
            if current != str(ply) or board(anna) != stored(game, ply):
                verdict(f"step {ply} of {event}", (str(ply), stored(game, ply)), (current, board(anna)))
        verdict(f"each step of {event} shows what the club holds", stored(game, len(moves)), board(anna))
        anna.click("#steps [value=back]")
        verdict(f"one back from the present of {event}", stored(game, len(moves) - 1), board(anna))
        anna.click("#moves button")
        verdict(f"the first move of {event} by its text", stored(game, 1), board(anna))
        corner = "document.querySelector('#board button').dataset.square"
        before = anna.value(corner)
        anna.press("f")
        verdict(f"the key F turns the board of {event}", True, anna.value(corner) != before)
        anna.press("f")
        anna.press("Home")
        verdict(f"the key Home of {event}", "The starting position", anna.text("#state"))
        anna.click("#steps [value=present]")
        verdict(f"back at the present of {event}", stored(game, len(moves)), board(anna))


def record(room):
    game = room.seat("autumn", "anna", "bert", OPENINGS["draughts"])
    anna = room.member("anna", game)
    with tempfile.TemporaryDirectory() as folder:
        anna.download_to(folder)
        anna.click("#record")
        file = pathlib.Path(folder, f"autumn-{game}.pdn")
        for _ in range(100):
            if file.exists() and file.stat().st_size:
                break
            room.browser.wait(0.1)
        verdict("the record is that of the club", club("export", game), file.read_text() if file.exists() else None)


def preview(room):
    """A move is shown before it is sent."""
    game = room.seat("autumn", "anna", "bert")
    anna = room.member("anna", game)
    says(anna, "#state", "Your turn")
    stands = "!!document.querySelector('[data-square=\"{}\"]').firstChild"
    attempt(anna, "32", "28")
    verdict("a tried move is seen", [True, False], [anna.value(stands.format(it)) for it in (28, 32)])
    verdict("and asked about", True, anna.text("#hint").startswith("32-28"))
    verdict("and not sent", [], stored_moves(game))
    anna.press("Escape")
    verdict("Escape takes it back", [False, True], [anna.value(stands.format(it)) for it in (28, 32)])
    verdict("and nothing is to be confirmed", True, anna.value("document.getElementById('confirm').hidden"))
    for place in ("28", "32"):
        attempt(anna, "32", "28")
        anna.click(square(place))
        verdict(f"so does a tap on {place}", [False, True], [anna.value(stands.format(it)) for it in (28, 32)])
    attempt(anna, "32", "28")
    anna.click_words("#confirm button", "Take back")
    verdict("so does the button", True, anna.value(stands.format(32)))
    attempt(anna, "32", "28")
    come_back(anna)
    anna.browser.wait(1)
    verdict("a look at the desk does not", True, anna.value(stands.format(28)))
    anna.click("#steps [value=flip]")
    corner = "document.querySelector('#board button').dataset.square"
    verdict("nor does a turn of the board", [True, "50"], [anna.value(stands.format(28)), anna.value(corner)])
    anna.click("#steps [value=flip]")
    confirm(anna)
    told("who confirms has played", anna, "#state", "anna played 32-28")
    room.post("bert", f"games/{game}/moves/2", {"move": "19-23"})
    come_back(anna)
    told("a capture that is due is explained", anna, "#hint", "You must capture the most pieces you can: use a marked piece")
    marked = anna.value("[...document.querySelectorAll('.must .movable')].map((it) => it.dataset.square)")
    verdict("and marked", ["28"], marked)
    anna.click(square("33"))
    verdict("who touches another piece is told again", True, anna.value("document.getElementById('say').matches('.told')"))
    anna.click("#open-settings")
    anna.click("#confirm-choice")
    anna.press("Escape")
    attempt(anna, "28", "19")
    told("who wants no confirmation has none", anna, "#state", "anna played 28x19")
    verdict("which is remembered", "false", anna.value("localStorage.confirm"))


def unsent_move(room):
    """A move that could not be sent."""
    game, other = room.seat("autumn", "anna", "bert"), room.seat("fuji", "anna", "bert")
    anna = room.member("anna", game)
    says(anna, "#state", "Your turn")
    room.desk.stop()
    move(anna, "32", "28")
    words = f"Game {game}: your move 32-28 may not have arrived"
    told("a move that was not sent is told", anna, "#unsent", words)
    stands = "!!document.querySelector('[data-square=\"32\"]').firstChild"
    verdict("its piece is back", True, anna.until(stands))
    told("and the club is away", anna, "#away", "The server does not answer")
    anna.value(f"location.hash = '#game/{other}'")
    verdict("elsewhere no old board is shown", True, anna.until("document.getElementById('game').hidden"))
    told("but its name", anna, "#title", f"Game {other}")
    told("and that the club is asked", anna, "#waiting", "Loading")
    verdict("the move is not forgotten", True, words in anna.text("#unsent"))
    room.desk.start()
    told("the club is back by itself", anna, "#title", f"Game {other}, fuji")
    verdict("the banner is gone", "", anna.text("#away"))
    verdict("the move is not forgotten yet", True, words in anna.text("#unsent"))
    anna.open(room.url(f"#game/{game}"))
    anna.reload()
    anna.browser.wait(2)
    told("nor when the page is loaded anew", anna, "#unsent", words)
    anna.click_words("#unsent button", "Send again")
    told("it is sent again", anna, "#state", "anna played 32-28")
    verdict("and done once", ["32-28"], stored_moves(game))
    verdict("nothing is left to send", "", anna.text("#unsent"))
    room.at_game(anna, other)
    says(anna, "#state", "Your turn")
    anna.browser.wait(0.5)
    anna.value(LOSE_NEXT)
    move(anna, "7g", "7f")
    told("where the reply alone was lost the move is seen", anna, "#state", "anna played P-7f")
    verdict("and nothing is left to send, either", True, anna.until("!document.getElementById('unsent').textContent"))
    third = room.seat("autumn", "anna", "bert")
    room.at_game(anna, third)
    says(anna, "#state", "Your turn")
    room.desk.stop()
    move(anna, "32", "28")
    told("once more", anna, "#unsent", f"Game {third}")
    anna.click_words("#unsent button", "Dismiss")
    verdict("it can be put away", "", anna.text("#unsent"))
    room.desk.start()
    anna.until("!document.getElementById('away').textContent")
    verdict("and is not sent then", [], stored_moves(third))


def clocks(room):
    game = room.seat("autumn", "anna", "bert")
    other = room.seat("flash", "anna", "bert")
    anna = room.member("anna", game)
    says(anna, "#state", "Your turn")
    told("a long clock has days, hours and minutes", anna, "#near-clock", "6 days 23:59")
    verdict("that of the other stands", "7 days 00:00", anna.text("#far-clock"))
    club("event", "hour", "draughts", "3600", "0")
    hour = room.seat("hour", "anna", "bert")
    room.at_game(anna, hour)
    one = anna.text("#near-clock")
    anna.browser.wait(2.2)
    verdict("a short clock goes down by seconds", True, anna.text("#near-clock") < one)
    verdict("and is red", True, anna.value("document.getElementById('near-clock').matches('.low')"))
    room.at_game(anna, other)
    told("time that is up is told", anna, "#state", "Your time is up")
