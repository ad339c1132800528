"""Cases of the page: languages, sizes, colours and what a browser may do."""
import json
import time

from page_room import attempt, club, DAY, KEYS, played, says, sign_in, speak, told, TOP, verdict
from page_shared import OPENINGS, PHONE, WHOLE_SHOGI

WIDEST = "W" * 24
# Each text that is seen, with the ratio of its colour to that of the nearest ground behind it.
CONTRAST = r"""(() => {
    const parse = (it) => it.match(/[\d.]+/g).map(Number);
    const shade = ([r, g, b]) => [r, g, b].map((it) => it / 255)
        .map((it) => (it <= 0.04045 ? it / 12.92 : ((it + 0.055) / 1.055) ** 2.4))
        .reduce((sum, it, at) => sum + it * [0.2126, 0.7152, 0.0722][at], 0);
    const ground = (it) => {
        for (let at = it; at; at = at.parentElement) {
            const found = parse(getComputedStyle(at).backgroundColor);
            if (found.length < 4 || found[3] === 1) return found;
        }
        return [255, 255, 255];
    };
    const walk = document.createTreeWalker(document.body, NodeFilter.SHOW_TEXT);
    const found = {};
    while (walk.nextNode()) {
        const it = walk.currentNode.parentElement;
        if (!walk.currentNode.data.trim() || !it.checkVisibility() || it.closest('script, style, option, :disabled')) continue;
        const [one, other] = [shade(parse(getComputedStyle(it).color)), shade(ground(it))].sort((a, b) => b - a);
        found[`${it.tagName}.${it.className}`] = Math.min(found[`${it.tagName}.${it.className}`] ?? 99, (one + 0.05) / (other + 0.05));
    }
    return Object.entries(found);
})()"""
# Japanese punctuation is full-width; French has a no-break space before these signs.
STRAY = {"ja": r"/[:;?!,()]/", "fr": r"/(?<![\u00a0\u202f])[:;?!]/"}
SHIFTS = """new PerformanceObserver((list) => {
    for (const it of list.getEntries()) window.shifts = (window.shifts ?? 0) + it.value;
}).observe({ type: 'layout-shift', buffered: true });"""


def above_the_fold(room):
    """On a telephone what must be done now is seen without scrolling."""
    game = room.seat("flash", "anna", "bert")
    offered = room.seat("autumn", "anna", "bert")
    room.post("anna", f"games/{offered}/draw/1/offer")
    time.sleep(2)
    bert = room.member("bert", game, width=PHONE, height=640)
    bert.size(PHONE, 640, phone=True)
    for place, words in (game, "Claim the win on time"), (offered, "Accept the draw"):
        room.at_game(bert, place)
        told(f"{words} is offered", bert, "#urgent", words)
        box = bert.value("(({ top, bottom }) => [top, bottom])(document.querySelector('#urgent button').getBoundingClientRect())")
        verdict("within the window", True, 0 <= box[0] and box[1] <= 640 and bert.value("scrollY") == 0)


def whole_texts(room):
    """Each text exists in each language, with the same places for values and the punctuation of the language."""
    page = room.browser.page()
    source = (TOP / "page/texts.js").read_text().replace("export const", "const")
    found = page.value(f"""(() => {{ {source}
        const holes = (it) => [...it.matchAll(/\\{{(\\w+)\\}}/g)].map((hole) => hole[1]).sort().join();
        const isWhole = (row) => row.length === TEXTS.code.length && row.every((it) => it && holes(it) === holes(row[0]));
        return Object.entries(TEXTS).filter(([, row]) => !isWhole(row)).map(([name]) => name); }})()""")
    verdict("each text is in each language, with the same values", [], found)
    for language, stray in STRAY.items():
        found = page.value(f"""(() => {{ {source}
            const at = TEXTS.code.indexOf('{language}');
            return Object.keys(TEXTS).filter((name) => {stray}.test(TEXTS[name][at])); }})()""")
        verdict(f"its punctuation is that of {language}", [], found)
    page.close()


SPOKEN = {
    "en": ("Your turn", "bert played Sx2b"), "de": ("Sie sind am Zug", "bert zog Sx2b"),
    "nl": ("U bent aan zet", "bert speelde Sx2b"), "ja": ("あなたの手番です", "bert △同　銀"),
    "fr": ("À vous de jouer", "bert a joué Sx2b"),
}


def languages(room):
    game = room.seat("fuji", "anna", "bert", OPENINGS["shogi"])
    anna = room.member("anna", game)
    for language, words in SPOKEN.items():
        speak(anna, language)
        for it in words:
            told(f"the page speaks {language}", anna, "#state", it)
        verdict("and says so", language, anna.value("document.documentElement.lang"))
        blank = "[...document.querySelectorAll('[data-text]')].filter((it) => !it.textContent.trim()).length"
        verdict("in all its words", 0, anna.value(blank))
    anna.open(room.url(f"#game/{game}"))
    told("which is remembered", anna, "#state", "À vous de jouer")
    for language, wanted in ("nl-BE", "nl"), ("ja", "ja"), ("es", "en"), ("pt-BR,fr-FR", "fr"):
        page = room.browser.page()
        page.accept(language)
        page.open(room.url())
        verdict(f"a browser in {language} is spoken to in {wanted}", wanted, page.value("document.documentElement.lang"))
        page.close()


def on_a_phone(room):
    kinds = {"autumn": "draughts", "fuji": "shogi"}
    games = {event: room.seat(event, "anna", "bert", OPENINGS[kind]) for event, kind in kinds.items()}
    club("member", WIDEST, "keywidest")
    club("event", WIDEST, "draughts", str(7 * DAY), "0")
    games[WIDEST] = room.seat(WIDEST, "anna", WIDEST)
    room.post("anna", "challenges/1", {"event": WIDEST, "first": True, "other": WIDEST})
    anna = room.page(width=PHONE, height=740)
    anna.size(PHONE, 740, phone=True)
    wide = {"sign in": breadth(anna)}
    sign_in(anna, KEYS["anna"])
    says(anna, "#games", "autumn")
    places = {"home": "#", "event": f"#event/{WIDEST}", **{it: f"#game/{games[it]}" for it in games}}
    for language in ("en", "de", "nl", "ja", "fr"):
        speak(anna, language)
        for name, place in places.items():
            anna.value(f"location.hash = {json.dumps(place)}")
            view = name if name in ("home", "event") else "game"
            anna.until(f"!document.getElementById('{view}').hidden")
            anna.browser.wait(0.6)
            wide[f"{name} {language}"] = breadth(anna)
    verdict("nothing scrolls sideways at 360 pixels", dict.fromkeys(wide, PHONE), wide)
    anna.size(640, 400)
    anna.value("document.documentElement.style.fontSize = '200%'")
    wide = {}
    for name, place in places.items():
        anna.value(f"location.hash = {json.dumps(place)}")
        anna.browser.wait(0.6)
        wide[name] = breadth(anna)
    verdict("nor at 640 with letters twice as large", dict.fromkeys(wide, 640), wide)


def on_its_side(room):
    """A telephone on its side shows the whole board, and beside it what a move needs."""
    for event, kind in ("autumn", "draughts"), ("fuji", "shogi"):
        anna = room.member("anna", room.seat(event, "anna", "bert", OPENINGS[kind]), width=740, height=PHONE)
        anna.size(740, PHONE, phone=True)
        says(anna, "#state", "Your turn")
        anna.value("document.getElementById('frame').scrollIntoView(); null")
        attempt(anna, *{"draughts": ("31", "27"), "shogi": ("2g", "2f")}[kind])
        anna.until("!document.getElementById('confirm').hidden")
        for what in "#frame", "#confirm .main":
            box = anna.value(f"(({{ top, bottom }}) => [top, bottom])(document.querySelector('{what}').getBoundingClientRect())")
            verdict(f"{what} of {kind} is in the window ({box[0]:.0f} to {box[1]:.0f})", True, -1 <= box[0] and box[1] <= PHONE + 1)
        verdict("nothing scrolls sideways", 740, breadth(anna))


def breadth(page):
    return page.value("document.documentElement.scrollWidth")


def motion(room):
    """Pieces move where the reader lets them."""
    game = room.seat("autumn", "anna", "bert", OPENINGS["draughts"])
    anna = room.member("anna", game)
    played(anna, 6)
    moving = "document.getAnimations().filter((it) => it.effect.target.matches('.piece')).length"
    counts = []
    for how in ("no-preference", "reduce"):
        anna.browser.wait(0.5)
        anna.prefer({"prefers-reduced-motion": how})
        counts.append(anna.value(f"document.querySelector('#steps [value=back]').click(); {moving}"))
    verdict("a move is shown as motion, unless the reader has less of it", [1, 0], counts)


def still(room):
    """Nothing jumps while a view comes: what the browser itself reckons as layout shifts."""
    games = [room.seat("autumn", "anna", "bert", OPENINGS["draughts"]), room.seat("fuji", "anna", "bert", WHOLE_SHOGI[:4])]
    for width, height in (1280, 800), (PHONE, 740):
        anna = room.member("anna", width=width, height=height)
        for place in ("#", *(f"#game/{it}" for it in games), "#event/autumn"):
            anna.open("about:blank")
            anna.before_load(SHIFTS)
            anna.open(room.url(place))
            anna.browser.wait(1.5)
            shift = anna.value("window.shifts ?? 0")
            verdict(f"nothing jumps at {width} in {place} ({shift:.4f})", True, shift < 0.02)


def contrast(room):
    """Texts and what they stand on, light and dark: 4.5 to 1, as WCAG AA has it."""
    game = room.seat("autumn", "anna", "bert", OPENINGS["draughts"])
    shogi = room.seat("fuji", "anna", "bert", WHOLE_SHOGI)
    page = room.member("anna", game)
    least = {}
    for place in ("#", "#event/autumn", f"#game/{game}", f"#game/{shogi}", "#game/4999"):
        page.value(f"location.hash = '{place}'")
        page.browser.wait(0.8)
        for scheme in ("light", "dark"):
            page.prefer({"prefers-color-scheme": scheme, "prefers-reduced-motion": "reduce"})
            page.browser.wait(0.3)
            for words, ratio in page.value(CONTRAST):
                least[f"{scheme} {place} {words}"] = ratio
    verdict("each text has contrast enough", {}, {name: it for name, it in least.items() if it < 4.5})
    print(f"  {len(least)} texts, the least {min(least.values()):.2f}")


def policy(room):
    """What the browser forbids to whoever would bring something into the page."""
    page = room.member("anna")
    brought = {"script": "textContent: 'window.broken = 1'", "img": "src: '/none'", "style": "textContent: 'b{}'"}
    for tag, own in brought.items():
        page.value(f"document.body.append(Object.assign(document.createElement('{tag}'), {{ {own} }}))")
    page.value("document.body.setAttribute('onclick', 'window.broken = 2'); document.body.click()")
    verdict("no script runs but the page's own", None, page.value("window.broken"))
    asked = page.value(f"fetch('http://localhost:{room.port}/me').then(() => 'asked', () => 'refused')")
    verdict("nobody is asked but the desk", "refused", asked)
    forbidden = {"connect-src", "img-src", "script-src-attr", "script-src-elem", "style-src-elem"}
    verdict("each is told", forbidden, {it.split()[0] for it in page.value("window.violations")})
    room.pages.remove(page)
    page.close()
    other = room.browser.page()
    other.value(f"""new Promise((loaded) => {{
        const frame = Object.assign(document.createElement('iframe'), {{ src: '{room.url()}', onload: loaded }});
        document.body.append(frame);
    }}).then(() => null)""")
    verdict("the page stands in no other page", True, other.frame_address().startswith(("chrome-error:", "about:neterror")))
    other.close()


def light_and_dark(room):
    page = room.page()
    colours = []
    for scheme in ("light", "dark"):
        page.prefer({"prefers-color-scheme": scheme})
        colours.append(page.value("getComputedStyle(document.body).color"))
    verdict("the page is light or dark", ["rgb(33, 29, 23)", "rgb(237, 231, 219)"], colours)


def nothing_forbidden(room):
    """The last case: what went wrong in the pages of all others, and what they asked for."""
    verdict("no page broke its policy, or failed", [], room.faults)
    strange = [it for it in room.asked if not it.startswith((f"http://127.0.0.1:{room.port}/", "about:", "blob:", "data:"))]
    verdict("all pages asked nobody but the desk", [], strange)
    verdict("with no key in any address", [], [it for it in room.asked if any(key in it for key in KEYS.values())])
