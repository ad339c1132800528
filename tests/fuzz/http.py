"""A model of the replies to requests that are whole, cut or changed.

`reply_to` gives the expected reply to any bytes, or None, by docs/http.md alone.
"""
import re
import socket

from lib.caching import caching_lines
from models import json as json_model
from models.club import NAMES, refusal, status_of
from models.draughts import Refused
from models.routes import MEMBERS_ROUTES, NUMBERS, WORDS

HEAD_LIMIT, FIELD_LIMIT, BODY_LIMIT = 16384, 64, 65536
START = re.compile(rb"([!#$%&'*+.^_`|~0-9A-Za-z-]+) ([!-~\x80-\xff]+) HTTP/1\.([01])")
FIELD = re.compile(rb"([!#$%&'*+.^_`|~0-9A-Za-z-]+):([\t -~\x80-\xff]*)")
NUMBER = re.compile(rb"[0-9]{1,9}")
PARAMETERS = NUMBERS + WORDS


class Reply:
    """The number of the status line, the fields behind the usual three, their kind, and the body."""

    def __init__(self, status, body, kind="application/json", further="", has_body=True, caller="-"):
        self.status, self.body, self.kind, self.further, self.has_body = status, body, kind, further, has_body
        self.caller = caller  # the name of the member who asked, as the log has it

    def __eq__(self, got):
        """Whether bytes that were got are this reply; its phrase may be any."""
        head, found, rest = got.partition(b"\r\n")
        length = len(self.body.encode())
        expected = (f"Content-Type: {self.kind}\r\nContent-Length: {length}\r\nConnection: close\r\n{self.further}\r\n"
                  f"{self.body if self.has_body else ''}")
        phrase = re.fullmatch(rb"HTTP/1\.1 ([0-9]{3}) [A-Z][A-Za-z ]*", head)
        return bool(found and phrase) and int(phrase[1]) == self.status and rest == expected.encode()

    def __repr__(self):
        return f"{self.status} {self.further!r} {self.body if self.has_body else 'without'} {self.body!r}"


def head_end(data):
    """The length of the head and how many of its lines are not empty, or None where it has no end."""
    at = lines = 0
    while (end := data.find(b"\n", at)) >= 0:
        if data[at:end] in (b"", b"\r"):
            if lines:
                return end + 1, lines
        else:
            lines += 1
        at = end + 1
    return None


def lines_of(head):
    """The lines of a head without their ends."""
    return [line[:-1] if line.endswith(b"\r") else line for line in head.split(b"\n")[:-1]]


def head_of(head):
    """The method, target, version and fields of a head; 80 where it is none."""
    lines = lines_of(head)
    while lines and not lines[0]:
        lines.pop(0)
    start = START.fullmatch(lines[0])
    fields = [FIELD.fullmatch(line) for line in lines[1:-1]]
    if not start or not all(fields):
        raise Refused(80)
    try:
        start[2].decode()
    except UnicodeDecodeError:
        raise Refused(80) from None
    return start[1], start[2], start[3], [(it[1].lower(), it[2].strip(b" \t")) for it in fields]


def values(fields, name):
    return [value for it, value in fields if it == name]


def length_of(method, version, fields):
    """The length of the body, or what the head is refused as."""
    named = values(fields, b"content-length")
    if len(named) > 1 or named and not NUMBER.fullmatch(named[0]):
        raise Refused(80)
    hosts = len(values(fields, b"host"))
    if hosts > 1 or version == b"1" and not hosts:
        raise Refused(88)
    if values(fields, b"transfer-encoding"):
        raise Refused(87)
    if method == b"POST" and not named:
        raise Refused(84)
    length = int(named[0]) if named else 0
    if length > BODY_LIMIT:
        raise Refused(85)
    return length


def route_of(target):
    """The route of a target, and the values in its path."""
    path = target.partition(b"?")[0]
    if path.startswith(b"http://"):
        authority, slash, rest = path[len(b"http://"):].partition(b"/")
        path = slash + rest if authority else b""
    words = path.split(b"/")
    for route in MEMBERS_ROUTES:
        parts = route.parts()
        if len(parts) == len(words) and all(word if part in PARAMETERS else part.encode() == word
                                            for part, word in zip(parts, words)):
            found = [(part, word) for part, word in zip(parts, words) if part in PARAMETERS]
            if not all(part in WORDS or NUMBER.fullmatch(word) for part, word in found):
                raise Refused(82)
            return route, [int(word) if part in NUMBERS else word.decode() for part, word in found]
    raise Refused(82)


def body_values(body, route):
    """The values of a route's keys in a body; of an analysis, where it begins and its moves."""
    if not route.keys:
        return []
    try:
        found = json_model.read(body)
    except json_model.NoJson:
        raise Refused(81) from None
    if not isinstance(found, dict) or not all(isinstance(found.get(key), kind) for key, kind in route.keys):
        raise Refused(81)
    values = [found[key] for key, _ in route.keys]
    return analysis_values(found, *values) if route.is_analysis else values


def analysis_values(found, texts):
    """Where an analysis begins (nothing, the text of a position, or the number of a game and a ply), and its moves."""
    begins = {it: found[it] for it in ("position", "game", "ply") if it in found}
    kinds = {it: type(value) for it, value in begins.items()}
    if not all(isinstance(it, str) for it in texts) or kinds not in ({}, {"position": str}, {"game": int, "ply": int}):
        raise Refused(81)
    return [begins.get("position", (begins["game"], begins["ply"]) if "game" in begins else None), texts]


def refused(number, has_body, further="", caller="-", target=b""):
    if number == 50:
        further = "WWW-Authenticate: Member-Key\r\n"
    assert number in NAMES
    further += caching_lines(target.decode("latin-1"), number)
    return Reply(status_of(number), refusal(number), further=further, has_body=has_body, caller=caller)


def reply_to(club, data):
    """The reply to the bytes of a connection, after which the input ends; None if there is none."""
    has_body, caller, found = not data.lstrip(b"\r\n").startswith(b"HEAD "), "-", b""
    end = head_end(data[:HEAD_LIMIT])
    try:
        if end is None:
            if len(data) > HEAD_LIMIT:
                raise Refused(86)
            return None
        if end[1] > FIELD_LIMIT + 1:
            raise Refused(86)
        method, target, version, fields = head_of(data[:end[0]])
        length = length_of(method, version, fields)
        if len(data) < end[0] + length:
            return None
        route, named = route_of(target)
        found = target
        if method != route.method.encode():
            return refused(83, has_body, f"Allow: {route.method}\r\n", target=found)
        shown = values(fields, b"member-key")
        key = shown[0].decode("latin-1") if len(shown) == 1 else ""
        if key not in club.keys:
            raise Refused(50)
        caller = club.keys[key]
        body = body_values(data[end[0]:end[0] + length], route)
        kind, text = club.answer(key, route.name, named, body)
        return Reply(200, text, kind, further=caching_lines(found.decode("latin-1")), caller=caller)
    except Refused as refusing:
        return refused(refusing.args[0], has_body, caller=caller, target=found)


def ask(port, pieces, ends):
    """What is replied to bytes that are sent in pieces, after which the input ends or not."""
    with socket.create_connection(("127.0.0.1", port), 30) as connection:
        connection.setsockopt(socket.IPPROTO_TCP, socket.TCP_NODELAY, 1)
        try:
            for piece in pieces:
                connection.sendall(piece)
            if ends:
                connection.shutdown(socket.SHUT_WR)
        except TimeoutError:
            return b"the server does not read"
        except OSError:
            pass  # the server has replied before it had all
        return received(connection)


def received(connection):
    """All bytes up to the end of a connection, or until it is reset."""
    got = b""
    try:
        while part := connection.recv(65536):
            got += part
    except TimeoutError:
        got += b", and no end"
    except ConnectionError:
        pass
    return got
