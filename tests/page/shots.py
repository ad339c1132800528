#!/usr/bin/env python3
"""Takes pictures of each view of the page at 1280, 768 and 360 pixels, light and dark, of a club in mid-season.

    python3 tests/page/shots.py PROGRAM FOLDER [NAME ..]
"""
import json
import os
import pathlib
import subprocess
import sys
import tempfile
import threading
import time
import urllib.request

os.environ["PAGE_OF_SOURCES"] = "1"
import page_browser as browser  # noqa: E402
import page_desk  # noqa: E402

PROGRAM, FOLDER, *ONLY = sys.argv[1:]
PROGRAM = os.path.abspath(PROGRAM)
FOLDER = pathlib.Path(FOLDER).resolve()
DAY = 86400
NAMES = "anna bert carl dora emil fred gina hans ines jan kees lies Maximiliaan-van-den-Berg yuki".split()
KEYS = {name: f"key{at:02}{'x' * 8}" for at, name in enumerate(NAMES)}
DRAUGHTS = """33-29 20-25 29-23 19x28 32x23 18x29 34x23 16-21 39-33 21-26 23-18 12x23 43-39 17-21 48-43 13-19 37-32
    26x48 40-34 23-28 33x22 9-13 38-33 4-9 47-42""".split()
KINGS = [*DRAUGHTS, *"""48x37x23x40 45x34 13-18 22x24 15-20 24x13 8x19 34-30 25x34 39x30 19-24 30x10 5x14
    36-31 21-27 31x22 11-17 22x11 6x17 41-36 7-11 50-45 3-8 45-40 14-20 33-29 20-24 29x20 2-7 44-39 8-12 49-44 17-22
    39-34 11-16 46-41 1-6 20-15 12-17 43-39 22-27 36-31 27x47""".split()]
SHOGI = "7g7f 3c3d 2g2f 8c8d 2f2e 8d8e 6i7h 4a3b 2e2d 2c2d 2h2d 8e8f 8g8f 8b8f".split()
MATE = "7g7f 3c3d 8h2b+ 3a2b B*4e 8c8d 4e6c 2a3c 6c4a+ 5a6b G*6c".split()
CHECK = "7g7f 3c3d 8h3c+".split()
SHOGI_MORE = [*SHOGI, *"2d3d 2b3c 5i5h 5a5b 3g3f 7a6b 8h3c+ 2a3c B*7g".split()]


def club(*words):
    return subprocess.run([PROGRAM, "c.db", *words], capture_output=True, text=True, check=True).stdout


def main():
    FOLDER.mkdir(exist_ok=True)
    with tempfile.TemporaryDirectory() as room:
        os.chdir(room)
        club("init")
        for name, key in KEYS.items():
            club("member", name, key)
        for words in ("lente2026 draughts 1209600 86400", "fuji2026 shogi 1209600 86400", "ladder draughts 43200 3600",
                      "blitz draughts 2 0", "a-very-long-event-name-1 shogi 86400 7200"):
            club("event", *words.split())
        club("round-robin", "r", "lente2026", *NAMES[:8])
        club("round-robin", "s", "fuji2026", "anna", "yuki", "ines", "jan", "kees", "lies")
        desk = page_desk.Desk(PROGRAM, "c.db")
        stand = page_desk.StandIn(desk)
        threading.Thread(target=stand.serve_forever, daemon=True).start()
        base = f"http://127.0.0.1:{stand.port}"

        def post(name, path, body=None):
            asked = urllib.request.Request(f"{base}/{path}", json.dumps(body or {}).encode(), {"Member-Key": KEYS[name]})
            with urllib.request.urlopen(asked, timeout=30) as reply:
                return json.load(reply)

        def get(name, path):
            asked = urllib.request.Request(f"{base}/{path}", headers={"Member-Key": KEYS[name]})
            with urllib.request.urlopen(asked, timeout=30) as reply:
                return json.load(reply)

        def play(game, moves):
            told = get("anna", f"games/{game}")
            sides = told["first"], told["second"]
            for ply, text in enumerate(moves):
                post(sides[ply % 2], f"games/{game}/moves/{ply + 1}", {"move": text})

        seats = {"n": 0}

        def seat(event, first, second, moves=()):
            seats["n"] += 1
            game = club("seat", f"z{seats['n']}", event, first, second).split()[-1]
            play(game, moves)
            return game

        lente = get("anna", "events/lente2026/games")["games"]
        fuji = get("anna", "events/fuji2026/games")["games"]
        for at, it in enumerate(lente):
            play(it["game"], DRAUGHTS[:(at * 7) % 24])
        for at, it in enumerate(lente):
            told = get("anna", f"games/{it['game']}")
            mover = (told["first"], told["second"])[told["ply"] % 2]
            other = (told["second"], told["first"])[told["ply"] % 2]
            if at % 3 == 1 and mover != "anna":
                post(mover, f"games/{it['game']}/resign")
            elif at % 7 == 3:
                post(mover, f"games/{it['game']}/draw/{told['ply'] + 1}/offer")
                post(other, f"games/{it['game']}/draw/{told['ply'] + 1}/accept")
        for at, it in enumerate(fuji):
            play(it["game"], SHOGI[:(at * 5) % 14])
        games = {
            "draughts": seat("lente2026", "anna", "fred", KINGS[:24]),
            "forced": seat("ladder", "anna", "Maximiliaan-van-den-Berg", DRAUGHTS[:4]),
            "kings": seat("lente2026", "bert", "anna", KINGS),
            "shogi": seat("fuji2026", "anna", "yuki", SHOGI),
            "hands": seat("fuji2026", "yuki", "anna", SHOGI_MORE),
            "check": seat("a-very-long-event-name-1", "Maximiliaan-van-den-Berg", "anna", CHECK),
            "mate": seat("fuji2026", "anna", "jan", MATE),
            "overdue": seat("blitz", "bert", "anna"),
            "resigned": seat("lente2026", "anna", "hans", DRAUGHTS[:21]),
        }
        post("hans", f"games/{games['resigned']}/resign")
        told = get("anna", f"games/{games['kings']}")
        post("bert", f"games/{games['kings']}/draw/{told['ply'] + 1}/offer")
        post("carl", "challenges/1", {"event": "ladder", "first": True, "other": "anna"})
        post("Maximiliaan-van-den-Berg", "challenges/1", {"event": "a-very-long-event-name-1", "first": False, "other": "anna"})
        post("anna", "challenges/1", {"event": "fuji2026", "first": True, "other": "lies"})
        club("member", "newcomer", "keynewcomer1")
        KEYS["newcomer"] = "keynewcomer1"
        time.sleep(3)
        with browser.Browser() as opened:
            try:
                shoot(opened, base, games, get)
            finally:
                desk.stop()


def shoot(opened, base, games, get):
    def page_of(name, width, height, scheme, language="en", phone=False, place=""):
        page = opened.page(width=width, height=height)
        page.size(width, height, phone=phone)
        page.prefer({"prefers-color-scheme": scheme})
        page.open(base + "/play")
        page.value(f"localStorage.language = '{language}'; {'localStorage.memberKey = ' + repr(KEYS[name]) if name else '0'}")
        page.open("about:blank")
        page.open(base + "/play" + place)
        page.browser.wait(1.2)
        return page

    def save(page, name, full=False):
        clip = None
        if full:
            box = page.value("[document.documentElement.scrollWidth, document.documentElement.scrollHeight]")
            clip = {"x": 0, "y": 0, "width": box[0], "height": min(box[1], 2600)}
        (FOLDER / f"{name}.png").write_bytes(page.picture(clip))
        if page.faults():
            print(name, page.faults())
        wide = page.value("document.documentElement.scrollWidth - innerWidth")
        if wide > 0:
            print(f"{name} scrolls sideways by {wide}")

    views = {"home": "", "event": "#event/lente2026", **{it: f"#game/{games[it]}" for it in games}}
    sizes = {"1280": (1280, 800, False), "768": (768, 1000, False), "360": (360, 740, True)}
    for size, (width, height, phone) in sizes.items():
        for scheme in ("light", "dark"):
            if ONLY and not any(it.startswith(("signin", size)) or it in views for it in ONLY):
                continue
            for view, place in views.items():
                name = f"{view}_{size}_{scheme}"
                if ONLY and not any(it in (view, name, size) for it in ONLY):
                    continue
                page = page_of("anna", width, height, scheme, phone=phone, place=place)
                save(page, name, full=view in ("home", "event") or size != "1280")
                page.close()
            if not ONLY or "signin" in ONLY:
                page = page_of(None, width, height, scheme, phone=phone)
                save(page, f"signin_{size}_{scheme}")
                page.close()
    extras(page_of, save, games)
    print("done")


def extras(page_of, save, games):
    """Takes pictures of what a click shows: a tried move, a choice, the settings, a failure; and of other languages."""
    def click(page, *selectors):
        for it in selectors:
            page.click(it)
            page.browser.wait(0.3)

    shown = {
        "preview": ("draughts", ["#board [data-square='33']", "#board [data-square='29']"]),
        "touched": ("shogi", ["#board [data-square='2d']"]),
        "drop": ("hands", ["#near-hand [data-square='B*']"]),
        "analysis": ("overdue", ["#analyse", "#board [data-square='32']", "#board [data-square='28']"]),
        "analysis_shogi": ("shogi", ["#analyse", "#board [data-square='2d']", "#board [data-square='3d']"]),
        "resign": ("draughts", ["#actions .danger"]),
        "settings": ("shogi", ["#open-settings"]),
    }
    for name, (game, clicks) in shown.items():
        sizes = {"1280": (1280, 800, False), "768": (768, 1000, False), "360": (360, 740, True)}
        for size, (width, height, phone) in sizes.items():
            if ONLY and not {name, "extras"} & {*ONLY}:
                continue
            scheme = "dark" if name in ("touched", "settings") else "light"
            page = page_of("anna", width, height, scheme, phone=phone, place=f"#game/{games[game]}")
            click(page, *clicks)
            page.move_pointer((1, 1))
            page.browser.wait(0.3)
            save(page, f"{name}_{size}")
            page.close()
    for name, who, place, language in (
            ("japanese", "anna", f"#game/{games['hands']}", "ja"), ("german", "anna", f"#game/{games['overdue']}", "de"),
            ("french", "anna", f"#game/{games['forced']}", "fr"), ("dutch_home", "anna", "", "nl"),
            ("empty", "newcomer", "", "en"), ("missing", "anna", "#game/4999", "en"),
            ("event_shogi", "anna", "#event/fuji2026", "ja")):
        for size, (width, height, phone) in {"1280": (1280, 800, False), "360": (360, 740, True)}.items():
            if ONLY and not {name, "extras"} & {*ONLY}:
                continue
            page = page_of(who, width, height, "light", language, phone=phone, place=place)
            save(page, f"{name}_{size}")
            page.close()
    for language in ("de", "nl", "ja", "fr"):
        for name, place in ("home", ""), ("shogi", f"#game/{games['hands']}"), ("draughts", f"#game/{games['forced']}"):
            for size, (width, height, phone) in {"1280": (1280, 800, False), "360": (360, 740, True)}.items():
                if ONLY and not {"languages", language} & {*ONLY}:
                    continue
                page = page_of("anna", width, height, "light", language, phone=phone, place=place)
                save(page, f"{name}_{language}_{size}", full=True)
                page.close()
    for size, (width, height, phone) in {"1280": (1280, 800, False), "360": (360, 740, True)}.items():
        if ONLY and not {"unsent", "extras"} & {*ONLY}:
            continue
        page = page_of("anna", width, height, "light", phone=phone, place=f"#game/{games['draughts']}")
        page.value("window.fetch = async () => { throw Error('away'); }; null")
        click(page, "#board [data-square='33']", "#board [data-square='29']", "#confirm .main")
        page.browser.wait(0.5)
        save(page, f"unsent_{size}")
        page.close()
        page = page_of("anna", width, height, "light", phone=phone, place=f"#game/{games['shogi']}")
        page.value("localStorage.letters = 'true'")
        page.reload()
        page.browser.wait(1.2)
        save(page, f"letters_{size}")
        page.close()


if __name__ == "__main__":
    main()
