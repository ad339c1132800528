"""Cases of the page: how shogi is written."""
import json

from page_room import board, says, speak, told, TOP, verdict

# Positions of shogi with Black to move, and how moves in them are written in Japan: the cases of like pieces.
NOTATIONS = [
    ("9/9/G1G6/9/9/9/9/9/9 b -", {"9c8b": "▲８二金左", "7c8b": "▲８二金右"}),
    ("9/5G3/4G4/9/9/9/9/9/9 b -", {"4b5b": "▲５二金寄", "5c5b": "▲５二金上"}),
    ("9/9/4GG3/9/9/9/9/9/9 b -", {"5c5b": "▲５二金直", "4c5b": "▲５二金右"}),
    ("9/9/9/9/9/9/S1S6/9/S1S6 b -", {"9i8h": "▲８八銀左上", "7i8h": "▲８八銀右上", "9g8h": "▲８八銀左引", "7g8h": "▲８八銀右引"}),
    ("9/9/9/9/9/9/9/1+R7/+R8 b -", {"9i8i": "▲８九竜寄", "8h8i": "▲８九竜引"}),
    ("9/9/9/9/9/9/9/9/+R+R7 b -", {"9i8h": "▲８八竜左", "8i8h": "▲８八竜右"}),
    ("9/9/9/9/9/9/9/9/3GGG3 b -", {"6i5h": "▲５八金左", "5i5h": "▲５八金直", "4i5h": "▲５八金右"}),
    ("9/9/9/9/9/9/9/4G4/9 b G", {"G*5g": "▲５七金打", "5h5g": "▲５七金"}),
    ("9/9/9/9/9/9/9/9/4G4 b G", {"G*5g": "▲５七金"}),
    ("9/4S4/9/9/9/9/9/9/9 b -", {"5b5a+": "▲５一銀成", "5b5a": "▲５一銀不成"}),
]
# How moves of like pieces to one square are distinguished, by the rules of the Japan Shogi Association
# (https://www.shogi.or.jp/faq/kihuhyouki.html): the piece, the square, and the mark for each origin. First movements,
# then sides, then both; dragons and horses, which never go 直; and pieces of which the rules say the same.
LIKE_PIECES = [
    ("G", "8b", {"9c": "上", "7b": "寄"}), ("G", "3b", {"4c": "上", "3a": "引"}), ("G", "5e", {"5f": "上", "4e": "寄"}),
    ("S", "8h", {"8i": "上", "7g": "引"}), ("S", "3h", {"4i": "上", "2g": "引"}),
    ("G", "8a", {"9b": "左", "7b": "右"}), ("G", "2b", {"3b": "左", "1b": "右"}), ("S", "5f", {"6e": "左", "4e": "右"}),
    ("G", "7h", {"8i": "左", "7i": "直"}), ("S", "3h", {"3i": "直", "2i": "右"}),
    ("G", "5b", {"6c": "左", "5c": "直", "4c": "右"}),
    ("+P", "8h", {"7i": "右", "8i": "直", "9i": "左上", "9h": "寄", "8g": "引"}),
    ("S", "2h", {"2i": "直", "1g": "右", "3i": "左上", "3g": "左引"}),
    ("+R", "8b", {"9a": "引", "8d": "上"}), ("+R", "4c", {"2c": "寄", "5b": "引"}), ("+R", "3e", {"5e": "左", "1e": "右"}),
    ("+R", "8h", {"9i": "左", "8i": "右"}), ("+R", "1g", {"2h": "左", "1i": "右"}),
    ("+B", "8b", {"9a": "左", "8a": "右"}), ("+B", "8e", {"9e": "寄", "6c": "引"}), ("+B", "1b", {"1a": "引", "3d": "上"}),
    ("+B", "7g", {"9i": "左", "5i": "右"}), ("+B", "2i", {"4g": "左", "1h": "右"}),
    ("N", "7e", {"8g": "左", "6g": "右"}), ("R", "5e", {"9e": "寄", "5i": "上"}), ("R", "5e", {"9e": "左", "1e": "右"}),
    ("R", "5e", {"5i": "上", "5d": "引"}), ("B", "5e", {"9i": "左", "1i": "右"}), ("+S", "5e", {"5f": "直", "4f": "右"}),
    ("+N", "5e", {"5d": "引", "6e": "寄"}), ("+L", "5e", {"6e": "左", "4e": "右"}), ("G", "5e", {"6f": ""}),
]
IN_JAPAN = {"G": "金", "S": "銀", "N": "桂", "R": "飛", "B": "角", "+P": "と", "+R": "竜", "+B": "馬", "+S": "成銀", "+N": "成桂", "+L": "成香"}
RANKS_IN_JAPAN = dict(zip("abcdefghi", "一二三四五六七八九"))


def written_in_japan(room):
    """How like pieces are told apart, on boards of their own: shogi.js alone, in an empty page."""
    page = room.browser.page()
    source = (TOP / "page/shogi.js").read_text().replace("export const shogi", "const shogi")

    def written(position, moves, side):
        return page.value(f"(() => {{ {source}\nconst it = shogi.read({json.dumps(position)});"
                          f" return {json.dumps([*moves])}.map((move) => shogi.writtenInJapan(it, move, {side})); }})()")
    for position, moves in NOTATIONS:
        verdict(f"moves of {position.split(' ')[0]} in Japan", [*moves.values()], written(position, moves, 0))
    for piece, target, origins in LIKE_PIECES:
        for side in range(2):
            place = turned(target) if side else target
            board = {turned(it) if side else it: piece.lower() if side else piece for it in origins}
            number = f"{'▲△'[side]}{chr(0xff10 + int(place[0]))}{RANKS_IN_JAPAN[place[1]]}{IN_JAPAN[piece]}"
            got = written(f"{sfen_of(board)} {'bw'[side]} -", [it + place for it in board], side)
            verdict(f"moves of {piece} to {place} in Japan", [number + mark for mark in origins.values()], got)
    page.close()


def turned(name):
    """The square of shogi as the other player sees it."""
    return f"{10 - int(name[0])}{chr(ord('a') + ord('i') - ord(name[1]))}"


def sfen_of(pieces):
    """The board of an SFEN text; digits in a row are empty squares one by one."""
    return "/".join("".join(pieces.get(f"{file}{rank}", "1") for file in range(9, 0, -1)) for rank in "abcdefghi")


def marks_of_shogi(room):
    check = room.seat("fuji", "bert", "anna", "7g7f 3c3d 8h3c+".split())
    anna = room.member("anna", check)
    told("a check is told", anna, "#hint", "You are in check")
    verdict("and marked", ["5a"], anna.value("[...document.querySelectorAll('.check')].map((it) => it.dataset.square)"))
    verdict("in words, too", True, anna.value("document.querySelector('.check').ariaLabel.includes('in check')"))
    movable = anna.value("[...document.querySelectorAll('#board .movable')].map((it) => it.dataset.square).sort()")
    verdict("pieces that help are marked", True, "2b" in movable and "9c" not in movable)
    verdict("pieces are strokes", [True, 0], anna.value(
        "[!!document.querySelector('#board .piece .sign'), document.querySelectorAll('#board text').length]"))
    moves = anna.value("[...document.querySelectorAll('#moves button')].map((it) => [it.textContent, it.title])")
    verdict("moves are written as players do", [["P-7f", "7g7f"], ["P-3d", "3c3d"], ["B-3c+", "8h3c+"]], moves)
    edges = anna.value("[files.innerText, ranks.innerText].map((it) => it.split('\\n').join(''))")
    verdict("files and ranks stand outside", ["123456789", "ihgfedcba"], edges)
    speak(anna, "ja")
    told("in Japanese", anna, "#hint", "王手です")
    anna.until("document.getElementById('moves').innerText.includes('馬') || true")
    moves = anna.value("[...document.querySelectorAll('#moves button')].map((it) => it.textContent)")
    verdict("moves are written as in Japan", ["▲７六歩", "△３四歩", "▲３三角成"], moves)
    ranks = anna.value("ranks.innerText.split('\\n').join('')")
    verdict("ranks likewise", "九八七六五四三二一", ranks)
    speak(anna, "en")
    says(anna, "#hint", "You are in check")
    sign = "document.querySelector('[data-square=\"5a\"] .sign').getAttribute('d')"
    before = anna.value(sign)
    anna.click("#open-settings")
    anna.click("#letters-choice")
    anna.press("Escape")
    verdict("letters are a choice", True, anna.value(sign) != before)
    verdict("which is remembered", "true", anna.value("localStorage.letters"))
