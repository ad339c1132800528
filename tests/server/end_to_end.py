#!/usr/bin/env python3
"""Serves a club over HTTP on a real file, and sends the requests of whole games, beside clients that are slow.

    python3 tests/server/end_to_end.py
"""
import contextlib
import pathlib
import re
import signal
import sys
import tempfile
import threading
import time

sys.path[0] = str(pathlib.Path(__file__).resolve().parents[1])
from lib.club import WAIT, change, club, is_within, query
from lib.report import check, exit_status, result
from lib.server import receive, serve

ROOKS = "2h3h 8b7b 3h2h 7b8b 2h3h 8b7b 3h2h 7b8b 2h3h 8b7b 3h2h".split()
FILE = "c.db"
MOST = 5  # seconds that a command may wait for the server
# The status, a part of the body, the key, the method, the path and the body of each request
DRAUGHTS = (
    (401, '{"error":50,"name":"UnknownKey"}', "keycara3", "GET", "/games/1"),
    (404, '{"error":53,"name":"UnknownGame"}', "keyanna1", "GET", "/games/3"),
    (200, '{"moves":["31-26","31-27","32-27","32-28","33-28","33-29","34-29","34-30","35-30"]}', "keyanna1", "GET", "/games/1/legal"),
    (409, '{"error":59,"name":"NotYourTurn"}', "keybert2", "POST", "/games/1/moves/1", '{"move":"32-28"}'),
    (200, '"move":"32-28","ply":1', "keyanna1", "POST", "/games/1/moves/1", '{"move":"32-28"}'),
    (200, '"move":"32-28","ply":1', "keyanna1", "POST", "/games/1/moves/1", '{"move":"32-28"}'),
    (409, '{"error":58,"name":"Conflict"}', "keyanna1", "POST", "/games/1/moves/1", '{"move":"31-26"}'),
    (200, '"move":"19-23","ply":2', "keybert2", "POST", "/games/1/moves/2", '{"move":"19-23"}'),
    (422, '{"error":11,"name":"MustCapture"}', "keyanna1", "POST", "/games/1/moves/3", '{"move":"33-29"}'),
    (200, '"move":"28x19","ply":3', "keyanna1", "POST", "/games/1/moves/3", '{"move":"28x19"}'),
    (400, '{"error":81,"name":"BadBody"}', "keybert2", "POST", "/games/1/moves/4", '{"text":"14x23"}'),
    (200, '{"draw":"offered","game":1,"ply":4}', "keybert2", "POST", "/games/1/draw/4/offer"),
    (200, '"offer":"bert"', "keyanna1", "GET", "/games/1"),
    (200, '{"end":"Agreed","game":1,"result":"1-1"}', "keyanna1", "POST", "/games/1/draw/4/accept"),
    (200, '"end":"Agreed"', "keybert2", "GET", "/games/1"),
    (200, "  1 anna                         1     1     0     1     0     -     1", "keybert2", "GET", "/events/autumn/table"),
    (404, '{"error":52,"name":"UnknownEvent"}', "keybert2", "GET", "/events/winter/table"),
    (405, '{"error":83,"name":"WrongMethod"}', "keybert2", "POST", "/games/1"),
    (404, '{"error":82,"name":"NoRoute"}', "keybert2", "GET", "/nowhere"),
    (404, '{"error":54,"name":"UnknownChallenge"}', "keyanna1", "POST", "/challenges/1/withdraw"),
    (404, '{"error":54,"name":"UnknownChallenge"}', "keybert2", "POST", "/answers/anna/1", '{"accept":true}'),
)
CHALLENGES = (
    (401, '{"error":50,"name":"UnknownKey"}', "keynone4", "POST", "/challenges/1", '{"event":"autumn","first":false,"other":"bert"}'),
    (405, '{"error":83,"name":"WrongMethod"}', "keyanna1", "GET", "/challenges/1"),
    (404, '{"error":82,"name":"NoRoute"}', "keyanna1", "POST", "/challenges/0000000001", '{"event":"autumn","first":false,"other":"bert"}'),
    (400, '{"error":81,"name":"BadBody"}', "keyanna1", "POST", "/challenges/1", '{"event":"autumn","other":"bert"}'),
    (404, '{"error":52,"name":"UnknownEvent"}', "keyanna1", "POST", "/challenges/0", '{"event":"winter","first":true,"other":"bert"}'),
    (422, '{"error":65,"name":"BadValue"}', "keyanna1", "POST", "/challenges/0", '{"event":"autumn","first":false,"other":"bert"}'),
    (422, '{"error":65,"name":"BadValue"}', "keyanna1", "POST", "/challenges/10000", '{"event":"autumn","first":false,"other":"bert"}'),
    (422, '{"error":65,"name":"BadValue"}', "keyanna1", "POST", "/challenges/1", '{"event":"autumn","first":true,"other":"anna"}'),
    (422, '{"error":65,"name":"BadValue"}', "keyanna1", "POST", "/challenges/1", '{"event":"autumn","first":true,"other":"nobody"}'),
    (200, '{"challenge":1,"state":"open"}', "keyanna1", "POST", "/challenges/1", '{"event":"autumn","first":false,"other":"bert"}'),
    (200, '{"challenge":1,"state":"open"}', "keyanna1", "POST", "/challenges/1", '{"event":"autumn","first":false,"other":"bert"}'),
    (409, '{"error":58,"name":"Conflict"}', "keyanna1", "POST", "/challenges/1", '{"event":"autumn","first":true,"other":"bert"}'),
    (404, '{"error":54,"name":"UnknownChallenge"}', "keycara3", "POST", "/answers/anna/1", '{"accept":true}'),
    (404, '{"error":54,"name":"UnknownChallenge"}', "keybert2", "POST", "/answers/anna/2", '{"accept":true}'),
    (404, '{"error":54,"name":"UnknownChallenge"}', "keybert2", "POST", "/answers/nobody/1", '{"accept":true}'),
    (400, '{"error":81,"name":"BadBody"}', "keybert2", "POST", "/answers/anna/1", '{"accept":"yes"}'),
    (200, '{"challenge":1,"game":6,"state":"accepted"}', "keybert2", "POST", "/answers/anna/1", '{"accept":true}'),
    (200, '{"challenge":1,"game":6,"state":"accepted"}', "keybert2", "POST", "/answers/anna/1", '{"accept":true}'),
    (409, '{"error":58,"name":"Conflict"}', "keybert2", "POST", "/answers/anna/1", '{"accept":false}'),
    (409, '{"error":58,"name":"Conflict"}', "keyanna1", "POST", "/challenges/1/withdraw"),
    (200, '{"challenge":2,"state":"open"}', "keyanna1", "POST", "/challenges/2", '{"event":"autumn","first":true,"other":"bert"}'),
    (200, '{"challenge":2,"state":"withdrawn"}', "keyanna1", "POST", "/challenges/2/withdraw"),
    (200, '{"challenge":2,"state":"withdrawn"}', "keyanna1", "POST", "/challenges/2/withdraw"),
    (409, '{"error":58,"name":"Conflict"}', "keybert2", "POST", "/answers/anna/2", '{"accept":true}'),
    (200, '{"challenge":2,"state":"open"}', "keyanna1", "POST", "/challenges/2", '{"event":"autumn","first":true,"other":"bert"}'),
    (200, '{"challenge":1,"state":"open"}', "keybert2", "POST", "/challenges/1", '{"event":"fuji","first":true,"other":"cara"}'),
    (200, '{"challenge":1,"state":"refused"}', "keycara3", "POST", "/answers/bert/1", '{"accept":false}'),
    (200, '{"challenge":1,"state":"refused"}', "keycara3", "POST", "/answers/bert/1", '{"accept":false}'),
    (409, '{"error":58,"name":"Conflict"}', "keycara3", "POST", "/answers/bert/1", '{"accept":true}'),
    (409, '{"error":58,"name":"Conflict"}', "keybert2", "POST", "/challenges/1/withdraw"),
    (200, '{"challenge":9999,"state":"open"}', "keybert2", "POST", "/challenges/9999", '{"event":"autumn","first":true,"other":"anna"}'),
    (200, '"first":"bert","game":6', "keyanna1", "GET", "/games/6"),
    (409, '{"error":59,"name":"NotYourTurn"}', "keyanna1", "POST", "/games/6/moves/1", '{"move":"32-28"}'),
    (200, '"move":"32-28","ply":1', "keybert2", "POST", "/games/6/moves/1", '{"move":"32-28"}'),
    (200, '{"end":"Resigned","game":6,"result":"2-0"}', "keyanna1", "POST", "/games/6/resign"),
    (200, "  1 bert                         3     3     1     1     1     -     0     3", "keyanna1", "GET", "/events/autumn/table"),
)


def check_command(status, printed, *words):
    check(f"`{' '.join(words)}` prints `{printed}`", (status, printed), club(FILE, *words, now=None))


def check_request(server, status, part, key, method, path, body=None):
    """Whether the reply has this status, and the part is in its body."""
    got, text = send(server, key, method, path, body)
    result((got, part in text) == (status, True), f"{method} {path} {body or ''} returns {status}", f"{got} {text}")


def send(server, key, method, path, body=None):
    head = f"{method} {path} HTTP/1.1\r\nHost: localhost\r\nMember-Key: {key}\r\n"
    length = "" if method == "GET" else f"Content-Length: {len(body or '')}\r\n"
    reply = server.send(f"{head}{length}\r\n{body or ''}".encode()).decode()
    return int(reply.split()[1]), reply.partition("\r\n\r\n")[2]


@contextlib.contextmanager
def server_for(count=None):
    """A server for so many connections, after which it must end by itself."""
    options = [] if count is None else ["--count", str(count)]
    with open("log", "wb") as log, serve(FILE, "--log", *options, now=None, stderr=log) as server:
        yield server
        if count is not None:
            check(f"the server ends after {count} connections", 0, server.process.wait(WAIT))


def log_lines():
    return [line.partition(" ")[2] for line in pathlib.Path("log").read_text().splitlines()]


def begin():
    check_command(3, "store 70 Foreign", "serve", "1")
    check_command(0, "ready", "init")
    check_command(0, "accepted member 1", "member", "anna", "keyanna1")
    check_command(0, "accepted member 2", "member", "bert", "keybert2")
    check_command(0, "accepted event 1", "event", "autumn", "draughts", "86400", "0")
    check_command(0, "accepted event 2", "event", "fuji", "shogi", "86400", "0")
    check_command(0, "accepted game 1", "seat", "d1", "autumn", "anna", "bert")
    check_command(0, "accepted game 2", "seat", "s1", "fuji", "anna", "bert")
    words = "--count", "0"
    with serve(FILE, *words, now=None) as server:
        result(True, "a server for no connection listens")
        check("a server for no connection ends", 0, server.process.wait(WAIT))


def draughts():
    """A game of draughts that ends by an agreed draw, and the log of its requests."""
    with server_for(len(DRAUGHTS)) as server:
        result(True, "a server for a game of draughts listens")
        for it in DRAUGHTS:
            check_request(server, *it)
    log, names = log_lines(), [line.split()[-1] for line in log_lines()]
    check("the log has a line for each connection", len(DRAUGHTS), len(log))
    check("no key is in the log", [], [it for it in log if re.search("key[a-c]", it)])
    check("a line of the log has method, path and status", "GET /games/{id} 401 -", log[0])
    check("a line of the log ends with the member", [10, 8, 3], [names.count(it) for it in ("anna", "bert", "-")])
    check("a request without a member is logged with a hyphen", ["POST /games/{id} 405 -", "GET /nowhere 404 -"],
          [it for it in log if re.search(" (405|404) -$", it)])


def shogi():
    """A game of shogi up to its end by the rules, with commands between its moves."""
    keys = "keyanna1", "keybert2"
    with server_for(len(ROOKS) + 4) as server:
        result(True, "a server for a game of shogi listens")
        for ply, text in enumerate(ROOKS, 1):
            check_request(server, 200, f'"move":"{text}","ply":{ply}', keys[(ply + 1) % 2], "POST", f"/games/2/moves/{ply}",
                          f'{{"move":"{text}"}}')
        check_command(0, "accepted member 3", "member", "cara", "keycara3")
        check_request(server, 200, '"end":"Fourfold"', "keybert2", "POST", "/games/2/moves/12", '{"move":"7b8b"}')
        check_request(server, 409, '{"error":56,"name":"GameOver"}', "keyanna1", "POST", "/games/2/moves/13", '{"move":"2h3h"}')
        check_request(server, 200, '"result":"1-1"', "keycara3", "GET", "/games/2")
        check_request(server, 200, '{"moves":[]}', "keycara3", "GET", "/games/2/legal")


def silent_client():
    """A client that sends nothing delays neither a command nor the move of another member."""
    check_command(0, "accepted game 3", "seat", "d2", "autumn", "bert", "cara")
    with server_for(3) as server:
        result(True, "a server for three connections listens")
        with server.connect():
            began = time.monotonic()
            check_command(0, "accepted member 4", "member", "dora", "keydora4")
            result(is_within(MOST, began), "a command does not wait for a silent client")
            check_request(server, 200, '"move":"33-28","ply":1', "keybert2", "POST", "/games/3/moves/1", '{"move":"33-28"}')
            result(is_within(MOST + 2, began), "a move does not wait for a silent client")
        check_request(server, 200, '"ply":1', "keycara3", "GET", "/games/3")


def dripping_client():
    """A client that sends a byte each second delays nobody, and receives no reply to a part of a request."""
    received = []

    def drip(connection):
        with contextlib.suppress(OSError):
            for byte in b"GET /games/3 HTTP/1.1":
                connection.sendall(bytes([byte]))
                time.sleep(1)
            received.append(receive(connection))

    with server_for(2) as server:
        result(True, "a server for two connections listens")
        began = time.monotonic()
        with server.connect() as connection:
            thread = threading.Thread(target=drip, args=(connection,))
            thread.start()
            time.sleep(1)
            check_request(server, 200, '"move":"19-23","ply":2', "keycara3", "POST", "/games/3/moves/2", '{"move":"19-23"}')
            result(is_within(3, began), "a move does not wait for a client that sends a byte each second")
            server.process.wait(WAIT)
            thread.join()
        check("a part of a request has no reply", [], [it for it in received if it])


def interrupted_clients():
    """A client that closes at once is ignored. One that pauses within its request is answered once the rest has come."""
    with server_for(3) as server:
        result(True, "another server for three connections listens")
        server.connect().close()
        check_request(server, 200, '"ply":2', "keycara3", "GET", "/games/3")
        with server.connect() as connection:
            connection.sendall(b"GET /games/3/legal HT")
            time.sleep(1)
            check_command(0, "accepted game 4", "seat", "d3", "autumn", "anna", "cara")
            time.sleep(4)  # meanwhile the server releases the file
            connection.sendall(b"TP/1.1\r\nHost: localhost\r\nMember-Key: keybert2\r\n\r\n")
            head, _, body = receive(connection).decode().partition("\r\n\r\n")
        check("a client that pauses within its request is answered", "HTTP/1.1 200 OK", head.splitlines()[0])
        check("a client that pauses receives the body", '{"moves":["28x19"]}', body)


def busy_server():
    """Three clients send one request after another, and a command is executed between them."""
    with server_for() as server:
        result(True, "a server without a count listens")
        over = threading.Event()

        def load():
            end = time.monotonic() + 60
            while not over.is_set() and time.monotonic() < end:
                send(server, "keyanna1", "GET", "/games/3")

        clients = [threading.Thread(target=load) for _ in range(3)]
        for it in clients:
            it.start()
        time.sleep(1)
        began = time.monotonic()
        check_command(0, "accepted game 5", "seat", "d4", "autumn", "bert", "dora")
        result(is_within(MOST, began), "a command does not wait for a busy server")
        over.set()
        for it in clients:
            it.join()
        check_request(server, 200, '{"end":"Resigned","game":3,"result":"0-2"}', "keybert2", "POST", "/games/3/resign")
        server.process.send_signal(signal.SIGTERM)
        server.process.wait(WAIT)
    commands = [it for it in log_lines() if it.startswith("officer ")]
    requests = [it for it in log_lines() if not it.startswith("officer ")]
    check("a busy server answers many requests", True, len(requests) > 6)
    check("a busy server refuses no client", [], [it for it in requests if not re.search(" 200 [ab][a-z]*$", it)])
    check("a command is logged with its status", ["officer seat 0"], commands)


def challenges():
    """Challenges are opened, repeated, withdrawn, refused, and accepted, which creates a game."""
    with server_for(len(CHALLENGES)) as server:
        result(True, "a server for challenges listens")
        for it in CHALLENGES:
            check_request(server, *it)
    check("the challenges are stored", [(1, 1, 1, 2, 0, 3, 6), (1, 2, 1, 2, 1, 1, None), (2, 1, 2, 3, 1, 2, None),
                                        (2, 9999, 1, 1, 1, 0, None)],
          query(FILE, "SELECT * FROM challenges ORDER BY 1, 2"))
    check("the game of an accepted challenge is stored without a key", [(1, 1, 2, 1)],
          query(FILE, 'SELECT "key" IS NULL, event, first, second FROM games WHERE id = 6'))


def rows():
    """The rows of all games, as sqlite3 reads them."""
    check("the integrity check of sqlite3 passes", [("ok",)], query(FILE, "PRAGMA integrity_check"))
    check("the ends of the games are stored",
          [(1, 3, "Agreed", "1-1"), (2, 12, "Fourfold", "1-1"), (3, 2, "Resigned", "0-2")],
          query(FILE, "SELECT id, plies, end, result FROM games WHERE id <= 3 ORDER BY id"))
    check("the moves are stored", [(1, 1, "32-28"), (1, 2, "19-23"), (1, 3, "28x19"), (3, 1, "33-28"), (3, 2, "19-23"),
                                   (6, 1, "32-28")],
          query(FILE, "SELECT game, ply, text FROM moves WHERE game <> 2 ORDER BY game, ply"))
    check("each move of shogi is stored", [(12,)], query(FILE, "SELECT count(*) FROM moves WHERE game = 2"))
    check_command(0, "sound", "verify")
    change(FILE, "DELETE FROM games WHERE id = 6")
    check_command(3, "store 72 Damaged challenges", "verify")


def main():
    with tempfile.TemporaryDirectory() as folder, contextlib.chdir(folder):
        for part in (begin, draughts, shogi, silent_client, dripping_client, interrupted_clients, busy_server, challenges, rows):
            part()
    return exit_status()


if __name__ == "__main__":
    sys.exit(main())
