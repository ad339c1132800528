#!/usr/bin/env python3
"""Tells whether members can play with the page: they click through it in Chromium, over the desk of the program.

    python3 tests/page/page.py [--real] [--firefox] [--pictures] [PROGRAM [CASE ..]]

The page is page/play.html of these sources, and a stand-in (tests/page/page_desk.py) answers the paths that the program lacks.
With --real the page is the program's own, and a path that it lacks is a fault. Prints 'ok NAME' or 'not ok NAME' for each
check. With --firefox the same cases run in Firefox (firefox-esr). Prints 'skipped: ' with the reason if the browser is not
installed, or if it cannot be told to do what a case needs. With --pictures it writes the pictures of docs/.
"""
import contextlib
import re
import sqlite3
import subprocess
import sys
import tempfile
import urllib.request

import page_browser
import page_firefox
from page_games import (
    by_keyboard, by_screen_reader, by_touch, challenges, choices, claim, clocks, closed_event, declaration, dragging,
    draughts_game, ends_meanwhile, lost_replies, offer, preview, record, refused_move, resignation, shogi_game,
    stepping, tried, unsent_move,
)
from page_home import (
    empty_club, home, installed, kept_key, many_games, next_game, notices, nowhere, odd_keys, other_name, requests,
    shut_club, silent_desk, tables, wrong_key,
)
from page_looks import (
    above_the_fold, contrast, languages, light_and_dark, motion, nothing_forbidden, on_a_phone, on_its_side, policy,
    still, whole_texts,
)
from page_room import bad, Room, says, square, TOP, verdict, WORDS
from page_shared import AMBIGUOUS
from page_shogi import marks_of_shogi, written_in_japan

YOKOFUDORI = "7g7f 3c3d 2g2f 8c8d 2f2e 8d8e 6i7h 4a3b 2e2d 2c2d 2h2d 8e8f 8g8f 8b8f".split()
CASES = [
    wrong_key, odd_keys, other_name, kept_key, draughts_game, shogi_game, choices, next_game, resignation, refused_move,
    offer, challenges, closed_event, ends_meanwhile,
    shut_club, silent_desk, lost_replies, claim, declaration, home, requests, notices, installed, many_games,
    above_the_fold, written_in_japan, whole_texts, empty_club, preview, unsent_move, nowhere, marks_of_shogi,
    clocks, motion, still, contrast, dragging, by_keyboard, by_screen_reader,
    by_touch, stepping, tried, record, tables, languages, on_a_phone, on_its_side, policy, light_and_dark, nothing_forbidden,
]


def of_the_desk(room):
    """What the desk says without a key."""
    with urllib.request.urlopen(room.url(), timeout=30) as reply:
        got, page = reply.headers, reply.read()
    verdict("the page comes byte for byte", True, page == (TOP / "page/play.html").read_bytes())
    wanted = (TOP / "page/policy.txt").read_text().strip()
    verdict("with its policy", wanted, got["Content-Security-Policy"])
    verdict("as a page", "text/html", got.get_content_type())
    if "--real" in sys.argv:
        verdict("no path is answered by a stand-in", [], room.desk.lacks)


def of_the_sources():
    """What needs no browser."""
    words = [sys.executable, str(TOP / "page/join.py"), "--check"]
    ran = subprocess.run(words, capture_output=True, text=True, check=False)
    verdict("the page is what its sources give", "what the sources give\n", ran.stdout or ran.stderr)
    page = (TOP / "page/play.html").read_text(encoding="utf-8")
    verdict("it is below 110 KB", True, len(page.encode()) < 110 * 1000)
    verdict("it is ASCII", True, page.isascii())
    markup = page.split("<script")[0]
    verdict("it has no attribute of style or of an event", [], re.findall(r"<[^>]* (?:style|on\w+)=", markup))
    verdict("it makes no markup of texts", [], re.findall(r"(?:inner|outer|Adjacent)HTML|document\.write", page))
    verdict("it loads nothing from elsewhere", [], re.findall(r"(?:src|href)=[\"']?https?:|url\(|@import", page))


def pictures(room):
    """Writes the pictures of both boards for docs/, with a piece that is touched."""
    shown = ("autumn", "draughts", AMBIGUOUS[:20], "33"), ("fuji", "shogi", YOKOFUDORI, "2d")
    for event, name, moves, touched in shown:
        page = room.member("anna", room.seat(event, "anna", "bert", moves), width=1000, height=700)
        says(page, "#state", "Your turn")
        page.click(square(touched))
        page.move_pointer((1, 1))
        box = page.value("(({ x, y, width, height }) => ({ x, y, width, height }))(play.getBoundingClientRect())")
        clip = {"x": box["x"] - 8, "y": box["y"] - 8, "width": box["width"] + 16, "height": box["height"] + 16}
        picture = page.picture(clip)
        (TOP / f"docs/{name}.png").write_bytes(picture)
        verdict(f"docs/{name}.png is below 60 KB", True, len(picture) < 60 * 1024)


def main():
    browser = page_firefox if "--firefox" in sys.argv else page_browser
    chosen = [it for it in CASES if not WORDS[1:] or it.__name__ in WORDS[1:]]
    of_the_sources()
    if not browser.is_installed():
        print(f"skipped: {len(chosen)} cases of the page ({browser.PROGRAM} is not installed)")
        return int(bool(bad))
    with tempfile.TemporaryDirectory() as folder, contextlib.chdir(folder), browser.Browser() as opened:
        room = Room(opened)
        try:
            of_the_desk(room)
            for case in [pictures] if "--pictures" in sys.argv else chosen:
                try:
                    print(f"  {case.__name__}", flush=True)
                    case(room)
                except page_browser.LeftOut as reason:
                    print(f"skipped: the rest of {case.__name__} ({reason})")
                except (LookupError, RuntimeError, OSError, sqlite3.Error, subprocess.SubprocessError) as error:
                    verdict(f"{case.__name__} goes through", None, repr(error))
                room.clear()
        finally:
            room.desk.stop()
    return int(bool(bad))


if __name__ == "__main__":
    sys.exit(main())
