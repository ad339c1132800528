#!/usr/bin/env python3
"""Tests what the log has of each connection, and that it never has a key.

    python3 tests/server/access_log.py
"""
import contextlib
import pathlib
import sys
import tempfile
import time

sys.path[0] = str(pathlib.Path(__file__).resolve().parents[1])
from lib.club import create
from lib.report import check, exit_status
from lib.server import serve

KEY = "keyanna1"
FIELDS = f"Host: a\r\nMember-Key: {KEY}\r\n"
WHOLE = (  # a start line, further fields, and the line of the log without its timestamp
    ("GET /games/1", "", "GET /games/{id} 200 anna"),
    ("GET /games/000000001/legal?key=" + KEY, "", "GET /games/{id}/legal 200 anna"),
    ("GET http://a/events/cup/table", "", "GET /events/{name}/table 200 anna"),
    ("POST /games/1/moves/1", "Content-Length: 0\r\n", "POST /games/{id}/moves/{ply} 400 anna"),
    ("POST /answers/bert/1", "Content-Length: 0\r\n", "POST /answers/{member}/{number} 400 anna"),
    ("GET /play", "", "GET /play 200 -"),
    ("GET /me/ended", "", "GET /me/ended 200 anna"),
    ("DELETE /me", "", "DELETE /me 405 -"),
    ("GET /nowhere", "", "GET /nowhere 404 -"),
    ("GET /nowhere/", "", "GET /nowhere/- 404 -"),
    ("GET /games/" + KEY, "", "GET /games/- 404 -"),
    ("GET /games/1/" + KEY + "/x", "", "GET /games/- 404 -"),
    ("GET /" + KEY, "", "GET /- 404 -"),
    ("GET /key=" + KEY + "/1", "", "GET /-/- 404 -"),
    ("GET /", "", "GET / 404 -"),
    ("GET //games/1", "", "GET //- 404 -"),
    ("GET " + KEY, "", "GET - 404 -"),
    (KEY + " /games/1", "", "- /games/{id} 405 -"),
    ("A-B-C-D-E-F-G-H-I-J /me", "", "A-B-C-D-E-F-G-H- /me 405 -"),
    ("GET /" + "a-" * 150, "", "GET /" + "a-" * 98 + "a 404 -"),
    ("GET /" + "a-" * 150 + "/x", "", "GET /" + "a-" * 98 + "a/- 404 -"),
    ("GET /games/1", "Content-Length: x\r\n", "GET /games/{id} 400 -"),
    ("POST /games/1/moves/1", "", "POST /games/{id}/moves/{ply} 411 -"),
    ("POST /challenges/1", "Content-Length: 70000\r\n", "POST /challenges/{number} 413 -"),
    ("GET /me", "A: " + "a" * 17000 + "\r\n", "GET /me 431 -"),
    ("GET /me", "Transfer-Encoding: chunked\r\n", "GET /me 501 -"),
    ("GET /me?" + "a" * 17000, "", "GET /me 431 -"),
)


def requests(server):
    for start, further, _ in WHOLE:
        server.send(f"{start} HTTP/1.1\r\n{FIELDS}{further}\r\n".encode())
    server.send(b"\x16\x03\x01\x02\x00\x01\xfc\r\n\r\n")


def ends(server):
    """Connections without a complete request: the client closes its side, or is too slow."""
    with server.connect() as connection:
        connection.sendall(f"GET /games/1/{KEY} HTTP/1.1\r\nHost".encode())
    with server.connect():
        pass
    with server.connect(30) as connection:
        connection.sendall(b"POST /games/1/resign HTTP/1.1\r\n")
        began = time.monotonic()
        check("a request that is not complete within ten seconds gets no reply", b"", connection.recv(1))
        check("the server waits ten seconds for it", True, 9 < time.monotonic() - began < 15)


def main():
    with tempfile.TemporaryDirectory() as folder, contextlib.chdir(folder):
        create()
        with open("log", "wb") as log, serve("c.db", "--log", stderr=log) as server:
            requests(server)
            ends(server)
            server.wait_until(lambda: pathlib.Path("log").read_bytes().count(b"\n") >= len(WHOLE) + 4)
        lines = pathlib.Path("log").read_text().splitlines()
        found = [line.partition(" ")[2] for line in lines]
        for (start, _, expected), line in zip(WHOLE, found):
            check(f"the log has the line of `{start[:60]}`", expected, line)
        check("a start line that is no text has no method and no path", "- - 400 -", found[len(WHOLE)])
        check("a connection without a complete request has a reason",
              ["GET /games/- - closed", "- - - closed", "POST /games/{id}/resign - timeout"], found[len(WHOLE) + 1:])
        check("each line begins with the timestamp", {"1000"}, {line.partition(" ")[0] for line in lines})
        check("no key is in the log", [], [line for line in lines if KEY in line])
        check("no path has more than 200 bytes", True, all(len(line.split()[2]) <= 200 for line in lines))
    return exit_status()


if __name__ == "__main__":
    sys.exit(main())
