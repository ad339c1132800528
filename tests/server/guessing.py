#!/usr/bin/env python3
"""Tests that nobody finds a key by trying: replies to wrong keys are limited, and right keys are served as before.

    python3 tests/server/guessing.py
"""
import contextlib
import pathlib
import sys
import tempfile
import time

sys.path[0] = str(pathlib.Path(__file__).resolve().parents[1])
from lib.club import create, is_within
from lib.report import check, exit_status, result
from lib.server import SHOW_GAME, receive, serve

FREE, LATER, SECOND = 20, 30, 10  # wrong keys whose replies are sent at once, those after them, and replies a second
CLOCK = 0.05  # seconds by which the clock of the poll loop may be late
WRONG = SHOW_GAME.replace(b"keyanna1", b"keywrong%d")
NONE = b"GET /games/1 HTTP/1.1\r\nHost: a\r\n\r\n"
REFUSAL = (b"HTTP/1.1 401 Unauthorized\r\nContent-Type: application/json\r\nContent-Length: 32\r\nConnection: close\r\n"
           b'WWW-Authenticate: Member-Key\r\n\r\n{"error":50,"name":"UnknownKey"}')


def at_once(server):
    """Replies to the first wrong keys, and to requests without a key."""
    began = time.monotonic()
    check("a request without a key is no guess", {REFUSAL}, {server.send(NONE) for _ in range(2 * FREE)})
    check("the first wrong keys are refused", {REFUSAL}, {server.send(WRONG % it) for it in range(FREE)})
    result(is_within(2, began), "that takes no time", time.monotonic() - began)


def guesses(server):
    """Many wrong keys at the same time."""
    connections = [server.connect(60) for _ in range(LATER)]
    began = time.monotonic()
    for it, connection in enumerate(connections):
        connection.sendall(WRONG % it)
    waits = []
    for _ in range(5):
        asked = time.monotonic()
        status = server.show()[0]
        waits.append((status, time.monotonic() - asked))
    check("a member is served while replies to wrong keys wait", {200}, {status for status, _ in waits})
    result(max(wait for _, wait in waits) < 1, "a member does not wait for them", waits)
    replies = [receive(it) for it in connections]
    passed = time.monotonic() - began
    check("each wrong key is refused with the same bytes", {REFUSAL}, set(replies))
    result(passed >= (LATER - 1) / SECOND - CLOCK, "replies to further wrong keys are sent ten times a second", passed)
    result(is_within(LATER / SECOND + 2, began), "none waits longer than that", passed)
    for it in connections:
        it.close()


def flood(server):
    """More wrong keys than may wait do not keep members out."""
    connections = [server.connect(60) for _ in range(300)]
    for it, connection in enumerate(connections):
        connection.sendall(WRONG % it)
    asked = time.monotonic()
    check("a member is served beside a flood of wrong keys", 200, server.show()[0])
    result(is_within(1, asked), "a member does not wait for the flood", time.monotonic() - asked)
    began, refused = time.monotonic(), 0
    for connection in connections:
        with contextlib.suppress(ConnectionResetError):
            refused += receive(connection) == REFUSAL
        connection.close()
    result(0 < refused <= 64 + SECOND * (time.monotonic() - began + 1), "at most ten a second are answered", refused)


def main():
    with tempfile.TemporaryDirectory() as folder, contextlib.chdir(folder):
        create()
        with open("log", "wb") as log, serve("c.db", "--log", stderr=log) as server:
            for part in (at_once, guesses, flood):
                part(server)
        lines = pathlib.Path("log").read_text().splitlines()
        check("the log says once that there are many wrong keys", 1, lines.count("1000 - - many wrong keys"))
        first = lines.index("1000 - - many wrong keys") if "1000 - - many wrong keys" in lines else 0
        check("it says so at the first one too many", 2 * FREE + FREE + 1,
              sum(line.endswith(" 401 -") for line in lines[:first]))
    return exit_status()


if __name__ == "__main__":
    sys.exit(main())
