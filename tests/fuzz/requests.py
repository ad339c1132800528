"""Requests by a seed: whole ones, and ones that are changed, cut and sent in pieces, as clients may do it."""
import copy
import json

from models.routes import MEMBERS_ROUTES, WORDS

MOVE = next(it for it in MEMBERS_ROUTES if it.name == "move")
VERSIONS = "HTTP/1.0", "HTTP/1.1", "HTTP/2.0", "HTTP/1.2", "http/1.1", "HTTP/1.", "HTTP/01.1", "HTTP/1.1 ", "HTTP/", ""
METHODS = ("HEAD", "PUT", "get", "POST", "GET", "DELETE", "OPTIONS", "PO ST", "", "GET\t", "HEAD ", "POST\0", "G(T",
           "x" * 99)
TARGETS = ("http://club{}", "http://{}", "HTTP://club{}", "https://club{}", "http://a:b@c:1{}", "{}?{}", "{}#x",
           "//club{}", "{}/", "*", "club:80", "{}%31", "?{}", "http://club?{}", "{} ", " {}", "{}\x00", "{}\u00e9",
           "/.{}", "http:{}", "http://?{}", "{}?\u20ac", "{}\\", "/{}", "{}\udcff", "{}?\udcff")
LENGTHS = ("", "+5", "-1", "5, 5", "0x5", "5 5", " 5\t", "000000005", "0000000005", "65536", "65537", "999999999",
           "4294967297", "18446744073709551617", "5;", "\u0665")
FIELDS = ("Host: b", "host:", "HOST: a", "Transfer-Encoding: chunked", "transfer-encoding:",
          "Transfer-Encoding: identity", "Content-Length: 0", "content-length: 2", "Member-Key: keyanna1",
          "member-key: keybert2", "Member-Key:", "MEMBER-KEY: keycara3", "Expect: 100-continue",
          "Connection: keep-alive", " folded", "\tfolded", "No colon", ": empty", "Bad Name: x", "Name : x",
          "X: \x7f", "X: \x00", "X: \x01", "X: \udcff", "X:", "X:\t", "Cookie: a=b", "X-Member-Key: keyanna1",
          "Member-Key : keyanna1", "X: a\rb", "Member_Key: keyanna1", "Upgrade: h2c")
KEYS = ("keyanna1", "keybert2", "keycara3", "KEYANNA1", "keyanna", "keyanna11", "", "key anna1", "\"keyanna1\"",
        "keyanna1,keyanna1", " \tkeyanna1\t ", "keyann\u00e1", "1", "keyanna1\x00", "keybert0")
ENDS = "\r\n", "\n", "\r", "\r\r\n", "\n\r", "\r\n\r\n", "\x0b", "\x00\n"
NUMBERS = ("0", "1", "2", "3", "000000001", "0000000001", "999999999", "1000000000", "-1", "+1", "1.0", "", "x",
           "\u0661", "9999")
NAMES = ("anna", "bert", "cara", "dora", "autumn", "fuji", "short", "Autumn", "", "a" * 25, "an na", "\u00e4nna",
         "anna\0", ".")
MOVES = ("32-28", "31-26", "7g7f", "2g2f", "28x19", "51-46", "", "P*5e", "8h2b+", "3-3", "32-27", "031-26", "32 - 28",
         "3a1a+", "7g7g", "32-28\n", "\u0663\u0662-28", "1" * 200, "1" * 201, "\u20ac" * 67, "32x28x23", "28:19",
         "K*5e", "7g7f+", "20-24", "7c7d", "3c3d", "17-22", "36-31", "46-41", "9i9h", "5i5h", "4i5h", "2b3c")
JSONS = ("", " ", "{", "}", "[]", "null", "true", "1", '"x"', "{}", '{"move":null}', '{"move":1}', '{"move":["32-28"]}',
         '\ufeff{"move":"32-28"}', '{"move":"32-28"\x0b}',
         '{"move":"32-28"', '{"move":"32-28",}', '{"move":"32-28"} x', "\ufeff{}", '{"move":"32-28","move":1}',
         '{"move":1,"move":"32-28"}', '{"a":1e400,"move":"32-28"}', '{"a":1e-400,"move":"32-28"}',
         '{"a":-0,"move":"32-28"}', '{"a":01,"move":"32-28"}', '{"a":.5,"move":"32-28"}', '{"a":5.,"move":"32-28"}',
         '{"a":NaN,"move":"32-28"}', '{"a":"\\ud800","move":"32-28"}', '{"a":"\\ud83d\\ude00","move":"32-28"}',
         '{"a":"\\udc00","move":"32-28"}', '{"a":"\t","move":"32-28"}', '{"a":"\x7f","move":"32-28"}',
         '{"m\\u006fve":"\\u00332-28"}', '{"move":"32\\u002d28","a":{"b":[{}]}}', "{'move':'32-28'}",
         '{"Move":"32-28"}', '{"accept":1}', '{"accept":"true"}', '{"accept":true,"accept":false}', '{"accept":tru}',
         '{"accept":true}', '{"event":"autumn","first":1,"other":"bert"}', '{"event":"autumn","first":true}',
         '{"other":"bert","first":false,"event":"autumn","x":[1,2.5e3,"y",null]}', '{"\\u0000":1,"move":"32-28"}',
         '{"move":"32-28"}\x00', '/**/{"move":"32-28"}', '{"move":"32-28"}\n\n\t ', '{"move" : "32-28"}',
         '{"a":123456789012345678901234567890,"move":"32-28"}', '{"a":"\\x","move":"32-28"}',
         '{"a":"\udcff","move":"32-28"}', '{"a":"\\u00g0","move":"32-28"}', '{"a":1E+2,"move":"32-28"}',
         '{"a":+1,"move":"32-28"}', '{"a":1.7976931348623157e308,"move":"32-28"}',
         '{"a":1.7976931348623159e308,"move":"32-28"}', '{"a":0e999999999999,"move":"32-28"}',
         '{"a":1e999999999999,"move":"32-28"}', '{"a":-1e309,"move":"32-28"}', '{"a":-,"move":"32-28"}',
         '{"a":' + "9" * 310 + ',"move":"32-28"}', '{"a":' + "9" * 308 + ',"move":"32-28"}',
         '{"a":1e-999999999999,"move":"32-28"}', '{"a":1e,"move":"32-28"}', '{"moves":[]}', '{"moves":["32-28",1]}',
         '{"moves":"32-28"}', '{"moves":[],"game":1}', '{"moves":[],"ply":0}', '{"moves":[],"game":1,"ply":0}',
         '{"moves":[],"game":1.0,"ply":0}', '{"moves":[],"game":1,"ply":-0}',
         '{"moves":[],"game":true,"ply":false}', '{"moves":[],"game":18446744073709551615,"ply":0}',
         '{"moves":[],"game":18446744073709551616,"ply":0}', '{"moves":[],"game":1,"ply":18446744073709551615}',
         '{"moves":[],"position":null}', '{"moves":[],"position":""}', '{"moves":[[]]}',
         '{"moves":[],"position":"W:W33:BK1","game":1,"ply":0}', '{"moves":[],"position":"W:W33:BK1","ply":0}',
         '{"moves":["' + '","'.join(["x"] * 65) + '"]}', '{"moves":["' + "1" * 201 + '"]}')
POSITIONS = ("W:W33:BK1", "B:W33:BK1", "W:WK47:BK4", "W:W31,32:B1", "W:W32,31:B1", "W:W51:B", "W:W0:B", "W:W33:BK1.",
             "", "W", "W:W5:B", "B:W:B46", "W:W33:B33", "W:WK1,2:B", "k8/9/9/9/9/9/9/9/K8 b -",
             "k8/9/1G7/9/9/9/9/9/K8 b G", "k8/9/1G7/9/9/9/9/9/K8 w -", "k8/9/9/9/9/9/9/9/K7K b -",
             "k8/9/9/9/9/9/9/9/9 b -", "k8/9/9/9/9/9/9/9/K8 b", "k8/9/9/9/9/9/9/9/K8 b - 1",
             "k81/9/9/9/9/9/9/9/K8 b -", "k8/9/9/9/9/9/9/9/K8 b 19P", "P8/k8/9/9/9/9/9/9/K8 w -",
             "k8/9/9/9/9/9/P8/P8/K8 b -", "k8/9/9/9/9/9/9/9/K8 b P2G", "k8/9/9/9/9/9/9/9/K8 b 2GP",
             "k8/9/9/9/9/9/9/9/K8 b 2Gp")


class Request:
    """A request in parts that can be changed one by one."""

    def __init__(self, method, target, body, key="keyanna1"):
        self.method, self.target, self.version, self.body = method, target, "HTTP/1.1", body or ""
        self.fields = ["Host: localhost", f"Member-Key: {key}"]
        if body is not None:
            self.fields.append(f"Content-Length: {len(bytes_of(self.body))}")
        self.ends, self.before, self.behind = {}, "", ""

    def data(self):
        lines = [f"{self.method} {self.target} {self.version}", *self.fields, ""]
        head = "".join(line + self.ends.get(at, self.ends.get(None, "\r\n")) for at, line in enumerate(lines))
        return bytes_of(self.before + head + self.body + self.behind)


def bytes_of(text):
    return text.encode(errors="surrogateescape")


def whole(route):
    return Request(route.method, route.with_values(), route.body).data()


def path_of(chance, club):
    """A route, a path that is often one of its own, and a body that fits it."""
    number = chance.choice(NUMBERS) if chance.random() < 0.1 else str(chance.randint(1, len(club.games) + 1))
    game = game_of(club, number)
    ply = chance.choice(NUMBERS) if chance.random() < 0.1 else str(
        (game.plies() if game else 0) + chance.choice((1, 1, 1, 1, 0, 2, -1)))
    mine = chance.choice(NUMBERS) if chance.random() < 0.2 else str(chance.randint(1, 4))
    route = chance.choice((*MEMBERS_ROUTES, *[MOVE] * 4))
    names = {it: chance.choice(NAMES) for it in WORDS}
    return route, route.with_values(ID=number, PLY=ply, NUMBER=mine, **names), body_of(chance, route, game)


def game_of(club, number):
    is_there = number.isascii() and number.isdigit() and 1 <= int(number) <= len(club.games)
    return club.games[int(number) - 1] if is_there else None


def body_of(chance, route, game):
    if route.name == "answer":
        return json.dumps({"accept": chance.random() < 0.5})
    if route.name == "challenge":
        event, other = chance.choice(NAMES), chance.choice(NAMES)
        return json.dumps({"event": event, "first": chance.random() < 0.5, "other": other})
    if route == MOVE:
        return move_body(chance, game)
    if route.is_analysis:
        return analysis_body(chance, game)
    return chance.choice((None, "")) if route.method == "GET" else route.body


def move_body(chance, game):
    text = chance.choice(MOVES)
    if game and chance.random() < 0.6:
        moves = game.line.legal()
        text = game.line.write(chance.choice(moves)) if moves else text
    return json.dumps({"move": text})


def analysis_body(chance, game):
    """Moves that are tried from the opening, from a position or in a game."""
    line, body = copy.deepcopy(game.line) if game else None, {}
    if game and chance.random() < 0.5:
        body = {"game": game.number, "ply": chance.choice((game.plies(), game.plies(), 0, 1, game.plies() + 1))}
    elif chance.random() < 0.6:
        body = {"position": line.position_text() if line and chance.random() < 0.5 else chance.choice(POSITIONS)}
    body["moves"] = []
    for _ in range(chance.choice((0, 1, 2, 3, 12, 66))):
        moves = line.legal() if line and not line.end() else []
        if not moves or chance.random() < 0.05:
            body["moves"].append(chance.choice(MOVES))
            continue
        move = chance.choice(moves)
        body["moves"].append(line.write(move))
        line.push(move)
    return json.dumps(body)


def request_of(chance, club):
    route, target, body = path_of(chance, club)
    if chance.random() < (0.3 if body else 0.03):
        body = chance.choice(JSONS)
    return Request(route.method, target, body, chance.choice(KEYS if chance.random() < 0.1 else KEYS[:3]))


# ---- changes of a request in parts

def change_version(chance, request):
    request.version = chance.choice(VERSIONS)


def change_method(chance, request):
    request.method = chance.choice(METHODS)


def change_target(chance, request):
    request.target = chance.choice(TARGETS).replace("{}", request.target)


def add_field(chance, request):
    request.fields.insert(chance.randint(0, len(request.fields)), chance.choice(FIELDS))


def double_field(chance, request):
    if request.fields:
        request.fields.insert(chance.randint(0, len(request.fields)), chance.choice(request.fields))


def drop_field(chance, request):
    if request.fields:
        request.fields.pop(chance.randrange(len(request.fields)))


def other_case(chance, request):
    if request.fields:
        at = chance.randrange(len(request.fields))
        name, colon, value = request.fields[at].partition(":")
        request.fields[at] = chance.choice((name.upper(), name.lower(), name.swapcase())) + colon + value


def change_length(chance, request):
    request.fields = [it for it in request.fields if not it.startswith("Content-Length")]
    request.fields.append(f"Content-Length: {chance.choice(LENGTHS)}")


def change_end(chance, request):
    request.ends[chance.choice((None, *range(len(request.fields) + 2)))] = chance.choice(ENDS)


def add_before(chance, request):
    request.before = chance.choice(("\r\n", "\n", "\r\n\n\r\n", "\r", "\r\r\n", " ", "\n \n", "\ufeff", "\0"))


def add_behind(chance, request):
    request.behind = chance.choice(("x", "\r\n", "GET / HTTP/1.1\r\n\r\n", "x" * chance.choice((100, 70000))))


def change_body(chance, request):
    """Another body, of the length that is named, or nearly."""
    body = list(bytes_of(request.body))
    for _ in range(chance.randint(1, 3)):
        at = chance.randint(0, len(body))
        body[at:at + chance.choice((0, 1, 1))] = chance.choice(([], [chance.randrange(256)], body[at:at + 1] * 2))
    request.body = bytes(body).decode(errors="surrogateescape")
    with_length(request, len(body) + chance.choice((0, 0, 0, 0, -1, 1)))


def with_length(request, length):
    request.fields = [it for it in request.fields if not it.startswith("Content-Length")]
    request.fields.append(f"Content-Length: {max(length, 0)}")


def deepen(chance, request):
    depth = chance.choice((1, 5, 100, 125, 126, 127, 128, 129, 200, 5000))
    begins, ends = chance.choice((("[", "]"), ('{"a":', "}")))
    nested = begins * depth + "1" + ends * (depth - chance.choice((0, 0, 0, 1)))
    request.body = f'{{"z":{nested},"move":"32-28","moves":[],"accept":false,"event":"autumn","first":true,"other":"bert"}}'
    with_length(request, len(request.body))


def fill_body(chance, request):
    """A body of a length around the limit, by blanks after it or by more before its keys."""
    length = 65536 + chance.choice((-1, 0, 0, 1, 2))
    more = length - len(bytes_of(request.body))
    kind = chance.choice((" ", "\n", '"a":1,', "\\n", "\ud7ff", "\U0001f600"))
    if kind in " \n" or request.body[:1] != "{":
        request.body += chance.choice((" ", "\n")) * more
    elif kind == '"a":1,':
        request.body = "{" + kind * (more // 6) + " " * (more % 6) + request.body[1:]
    else:
        size = len(bytes_of(kind))
        request.body = '{"a":"' + kind * ((more - 7) // size) + "a" * ((more - 7) % size) + '",' + request.body[1:]
    with_length(request, length)


def fill_head(chance, request):
    """A head of a length around the limit, by a long field."""
    length = 16384 + chance.choice((-2, -1, 0, 0, 1, 2, 50))
    have = len(request.data()) - len(bytes_of(request.body + request.behind + request.before))
    request.fields.insert(chance.randint(0, len(request.fields)), "Long: " + "a" * max(length - have - 8, 0))


def fill_fields(chance, request):
    count = 64 + chance.choice((-1, 0, 0, 1, 1, 2, 300)) - len(request.fields)
    request.fields[chance.randint(0, len(request.fields)):0] = [chance.choice(("a: b", "a:", "Z: " + "z" * 50))] * count


CHANGES = (change_version, change_method, change_target, add_field, add_field, double_field, drop_field, other_case,
           change_length, change_end, change_end, add_before, add_behind, change_body, change_body, deepen, fill_body,
           fill_head, fill_fields)


def change_bytes(chance, data):
    """Bytes changed, doubled, dropped, moved or turned round."""
    data = bytearray(data)
    for _ in range(chance.choice((1, 1, 1, 2, 3, 8))):
        at = chance.randint(0, len(data))
        size = chance.choice((1, 1, 1, 2, 5, 40))
        some = bytes(data[at:at + size])
        odd = bytes([chance.choice((0, 9, 10, 13, 32, 47, 48, 58, 127, 128, 255, chance.randrange(256)))])
        data[at:at + size] = chance.choice((b"", some * 2, odd, odd + some, some[::-1], some.swapcase()))
    return bytes(data)


def unended(chance):
    """A head that does not end, of a length around the limit."""
    begin = chance.choice((b"GET / HTTP/1.1\r\n", b"", b"\r\n", b"HEAD / HTTP/1.1\r\n", b"\n\nHEAD "))
    fill = chance.choice((b"a", b"a: b\r\n", b"\xff", b"\r", b"a\n", b"\n", b"\r\n", b"\0"))
    length = 16384 + chance.choice((-1, 0, 1, 2, 4000, -16000))
    return (begin + fill * length)[:length]


def changed(chance, club):
    """A request that is whole, or changed in one or more ways."""
    if chance.random() < 0.03:
        return unended(chance)
    request = request_of(chance, club)
    for _ in range(chance.choice((0, 0, 1, 1, 1, 1, 2, 2, 3))):
        chance.choice(CHANGES)(chance, request)
    data = request.data()
    kind = chance.random()
    if kind < 0.2:
        data = change_bytes(chance, data)
    elif kind < 0.3:
        data = data[:chance.randint(0, len(data))]
    return data


def parted(chance, data):
    """The pieces in which bytes are sent."""
    kind = chance.random()
    if kind < 0.06 and len(data) < 400:
        return [data[at:at + 1] for at in range(len(data))]
    if kind < 0.25:
        places = sorted(chance.randint(0, len(data)) for _ in range(chance.randint(1, 4)))
        pieces = [data[begin:end] for begin, end in zip([0, *places], [*places, len(data)])]
        return [it for it in pieces if it]
    return [data]
