"""A club with its desk and a browser, for the tests of the page: what members do there, and what they see.

The program, `PROGRAM`, is the first word of the script that runs, or else build/club. The club is the file c.db of the
folder in which the script works.
"""
import json
import os
import pathlib
import re
import subprocess
import sys
import threading
import time
import urllib.request

# The page of these sources, whichever page the program has; with --real the program's own.
if "--real" not in sys.argv:
    os.environ["PAGE_OF_SOURCES"] = "1"
import page_browser as browser  # noqa: E402
import page_desk  # noqa: E402

TOP = pathlib.Path(__file__).resolve().parents[2]
WORDS = [it for it in sys.argv[1:] if it not in ("--firefox", "--pictures", "--real")]
PROGRAM = str(pathlib.Path(WORDS[0] if WORDS else TOP / "build/club").resolve())
KEYS = {"anna": "keyanna1", "bert": "keybert2", "cara": "keycara3", "king": "keyking4", "dora": "keydora5", "ella": "keyella6"}
PROMOTIONS = {"8h2b+": "horse", "4e6c": "bishop", "6c4a+": "horse"}
DAY = 86400
bad = []


def verdict(name, wanted, got):
    print(f"{'ok' if wanted == got else 'not ok'} {name}", flush=True)
    if wanted != got:
        print(f"  wanted: {wanted}\n  got:    {got}")
        bad.append(name)


def club(*words):
    """What a word of the officer's prints."""
    return subprocess.run([PROGRAM, "c.db", *words], capture_output=True, text=True, check=True).stdout


class Room:
    """A club in this folder with its desk, and a browser whose pages members sign in with."""

    def __init__(self, opened):
        self.browser, self.pages, self.faults, self.asked = opened, [], [], []
        club("init", "--arbiter")
        for name, key in KEYS.items():
            club("member", name, key)
        for words in f"autumn draughts {7 * DAY} {DAY}", f"fuji shogi {7 * DAY} {DAY}", "flash draughts 1 0":
            club("event", *words.split())
        self.desk = page_desk.Desk(PROGRAM, "c.db")
        self.port = self.desk.port
        if self.desk.lacks:
            print("a stand-in answers", *self.desk.lacks)
            stand_in = page_desk.StandIn(self.desk)
            self.port = stand_in.port
            threading.Thread(target=stand_in.serve_forever, daemon=True).start()

    def seat(self, event, first, second, moves=()):
        """The number of a new game in which these moves were played."""
        game = club("seat", f"k{time.monotonic_ns()}", event, first, second).split()[-1]
        for ply, text in enumerate(moves):
            self.post((first, second)[ply % 2], f"games/{game}/moves/{ply + 1}", {"move": text})
        return game

    def url(self, place=""):
        return f"http://127.0.0.1:{self.port}/play{place}"

    def page(self, **size):
        page = self.browser.page(**size)
        self.pages.append(page)
        page.open(self.url())
        return page

    def member(self, name, game=None, **size):
        """A page in which the member has signed in, and looks at a game."""
        page = self.page(**size)
        sign_in(page, KEYS[name])
        page.until("!document.getElementById('home').hidden")
        return self.at_game(page, game) if game else page

    def at_game(self, page, game):
        page.value(f"location.hash = '#game/{game}'")
        shown = f"document.getElementById('title').textContent.includes(' {game},')"
        page.until(f"!document.getElementById('game').hidden && {shown}")
        return page

    def post(self, name, path, body=None):
        url = f"http://127.0.0.1:{self.port}/{path}"
        asked = urllib.request.Request(url, json.dumps(body or {}).encode(), {"Member-Key": KEYS[name]})
        with urllib.request.urlopen(asked, timeout=30) as reply:
            return json.load(reply)

    def challenges_of(self, name):
        with page_desk.copied("c.db") as found:
            words = "SELECT count(*) FROM challenges WHERE member = (SELECT id FROM members WHERE name = ?)"
            return found.execute(words, (name,)).fetchone()[0]

    def clear(self):
        """Closes the pages, and keeps what went wrong in them."""
        for page in self.pages:
            self.faults += page.faults()
            self.asked += page.asked()
            page.close()
        self.pages = []


def sign_in(page, key):
    page.value("document.getElementById('key').value = ''")
    page.type("#key", key)
    page.click("#sign-in button")


def come_back(page):
    """The member comes back to the tab, so that the page looks again."""
    page.value("document.dispatchEvent(new Event('visibilitychange'))")


def square(name):
    return f'#play :enabled[data-square="{name}"]'


def says(page, selector, words, seconds=browser.PATIENCE):
    """The words of the element, or what it says in their place."""
    shown = f"document.querySelector({json.dumps(selector)})?.innerText"
    return words if page.until(f"{shown}.includes({json.dumps(words)})", seconds) else page.text(selector)


def told(name, page, selector, words):
    """The case of this name is that the page comes to say so."""
    verdict(name, words, says(page, selector, words))


def speak(page, language):
    """The reader chooses a language."""
    choice = "document.getElementById('language')"
    page.value(f"{choice}.value = '{language}'; {choice}.onchange()")


def attempt(page, origin, target, option=None):
    """Tries a move by two clicks, and where it is asked by which of the moves."""
    page.until(f"document.querySelector({json.dumps(square(origin))})?.matches('.movable')")
    page.click(square(origin))
    page.click(square(target))
    if option is not None:
        page.until("document.getElementById('dialog').open")
        page.click_words("#options button", option)


def confirm(page):
    page.until("!document.getElementById('confirm').hidden")
    page.click("#confirm button.main")


def move(page, origin, target, option=None):
    """Plays by two clicks and a confirmation."""
    attempt(page, origin, target, option)
    confirm(page)


def squares(text):
    """Where a move begins and ends."""
    parts = re.split("[-x]", text)
    return (parts[0], parts[-1]) if len(parts) > 1 else (text[:2], text[2:4])


def play(pages, moves):
    """The players play the moves in turn; the texts that the page lists in the end."""
    for ply, text in enumerate(moves):
        page = pages[ply % 2]
        come_back(page)
        move(page, *squares(text), PROMOTIONS.get(text, text if text.count("x") > 1 else None))
        played(page, ply + 1)
    return page.value("[...document.querySelectorAll('#moves button')].map((it) => it.title || it.textContent)")


def played(page, plies):
    """Waits until the page shows so many plies, and none that is on its way."""
    return page.until(f"document.querySelectorAll('#moves button').length === {plies}")


def ask_first(page, words, answer):
    """Presses an action's button, and the answer to its question."""
    page.until(f"[...document.querySelectorAll('#side p button')].some((it) => it.textContent === '{words}')")
    page.click_words("#side p button", words)
    page.until("document.getElementById('dialog').open")
    page.click_words("#options button", answer)
    page.until("!document.getElementById('dialog').open")


def board(page):
    """What stands on the squares that are not empty, and what is in hand."""
    return page.value("""Object.fromEntries([...document.querySelectorAll('#play [data-square]')]
        .filter((it) => !it.hidden && it.firstChild)
        .map((it) => [it.closest('#board') ? it.dataset.square : it.value[0], it.value.split(/true|false/)[0]
            + (it.dataset.count ?? '')]))""")


def stored_moves(game):
    with page_desk.copied("c.db") as found:
        rows = found.execute("SELECT text FROM moves WHERE game = ? ORDER BY ply", (int(game),))
        return [it["text"] for it in rows]


def stored(game, ply):
    """The position after so many plies as the club's file has it, as `board` tells it."""
    with page_desk.copied("c.db") as found:
        words = "SELECT position FROM moves WHERE game = ? AND ply = ?"
        position = found.execute(words, (int(game), ply)).fetchone()[0]
    return of_sfen(position) if "/" in position else of_fen(position)


def of_fen(position):
    white, black = position.split(":")[1:]
    listed = [(it, side[0]) for side in (white, black) for it in side[1:].split(",") if it]
    return {it.lstrip("K"): side if it[0] == "K" else side.lower() for it, side in listed}


def of_sfen(position):
    ranks, _, hands = position.split(" ")
    told = {}
    for rank, row in zip("abcdefghi", ranks.split("/")):
        file = 9
        for item in re.findall(r"\d|\+?[A-Za-z]", row):
            if not item.isdigit():
                told[f"{file}{rank}"] = item
            file -= int(item) if item.isdigit() else 1
    return told | {piece: piece + count for count, piece in re.findall(r"(\d*)([A-Za-z])", hands)}
