#!/usr/bin/env python3
"""Tests what members get while a command has the file for itself, and while the system clock is out of range.

    python3 tests/server/leasing.py [--measure]
"""
import contextlib
import os
import pathlib
import signal
import subprocess
import sys
import tempfile
import threading
import time

sys.path[0] = str(pathlib.Path(__file__).resolve().parents[1])
from lib.club import PROGRAM, build_preload, club, create, is_within
from lib.report import check, exit_status, result
from lib.server import SHOW_GAME, serve

SEATS = 1500  # games of a club over which a command takes a while
WAIT = 20  # seconds at most until a command has the file
LAST = 253402300799  # the last timestamp, in Unix seconds
LATE = 100000  # a timestamp at which no player of the club has time left
MOST = 0.5  # seconds within which a request is answered while the file is lent
BODY = b'{"error":73,"name":"Store"}'
LENT = (b"HTTP/1.1 503 Service Unavailable\r\nContent-Type: application/json\r\nContent-Length: 27\r\n"
        b"Connection: close\r\nRetry-After: 2\r\n%s\r\n")
NO_STORE = b"Cache-Control: no-store\r\nX-Content-Type-Options: nosniff\r\n"
SHOW_MINE = SHOW_GAME.replace(b"/games/1", b"/me")
UNTIMED = b'{"error":76,"name":"Input"}'


def timed(server, request=SHOW_GAME):
    """A reply, and how long it took."""
    began = time.monotonic()
    return server.send(request), time.monotonic() - began


@contextlib.contextmanager
def lent(server, *words):
    """A command that stands still while it has the file; it goes on at the end."""
    with subprocess.Popen([PROGRAM, "--now", "1000", "c.db", *words], stdout=subprocess.PIPE, text=True) as command:
        try:
            end = time.monotonic() + WAIT
            while not is_open(command.pid, "c.db") and time.monotonic() < end:
                pass  # the file is open for some milliseconds
            command.send_signal(signal.SIGSTOP)
            result(is_open(command.pid, "c.db"), f"{words[0]} has the file")
            yield command
        finally:
            command.send_signal(signal.SIGCONT)


def is_open(process, file):
    """Whether a process has opened a file."""
    folder = f"/proc/{process}/fd"
    with contextlib.suppress(OSError):
        for name in os.listdir(folder):
            with contextlib.suppress(OSError):
                if os.readlink(f"{folder}/{name}") == os.path.realpath(file):
                    return True
    return False


def replies(server):
    """Replies to requests while the file is lent."""
    with lent(server, "verify") as command:
        found = [timed(server) for _ in range(5)]
        check("a request gets 503 and when to try again while the file is lent", {LENT % b"" + BODY},
              {reply for reply, _ in found})
        result(max(wait for _, wait in found) < MOST, "it gets that at once", found)
        check("the two fields about caching follow it", LENT % NO_STORE + BODY, server.send(SHOW_MINE))
        check("the reply to HEAD has no body", b"HTTP/1.1 405 ", server.send(SHOW_GAME.replace(b"GET", b"HEAD"))[:13])
        check("an unknown path is 404", b"HTTP/1.1 404 ", server.send(SHOW_GAME.replace(b"games", b"nowhere"))[:13])
        check("the page is shown", b"HTTP/1.1 200 ", server.send(b"GET /play HTTP/1.0\r\n\r\n")[:13])
        move = b"POST /games/1/moves/1 HTTP/1.0\r\nMember-Key: keyanna1\r\nContent-Length: 16\r\n\r\n" + b'{"move":"32-28"}'
        check("a command of a member gets the same", LENT % b"" + BODY, server.send(move))
        command.send_signal(signal.SIGCONT)
        check("the command ends as without a server", ("sound\n", 0), (command.communicate()[0], command.returncode))
    check("the game is shown after that", b"HTTP/1.1 200 ", server.send(SHOW_GAME)[:13])
    check("the refused move was not made", True, b'"ply":0' in server.send(SHOW_GAME))
    check("a backup has the file, too", (0, "copied"), club("c.db", "backup", "copy.db"))
    check("the game is shown after a backup", b"HTTP/1.1 200 ", server.send(SHOW_GAME)[:13])
    games = 1 + SEATS // 4
    check("a sweep beside the server ends no game if more games are overdue than it may end",
          (1, f"overdue {games}"), club("c.db", "sweep", "--most", str(games - 1), now=LATE))
    check("the game runs after that", True, b'"end":null' in server.send(SHOW_GAME))
    check("a sweep beside the server ends games up to its limit",
          (0, f"accepted sweep {games}"), club("c.db", "sweep", "--most", str(games), now=LATE))
    check("the game has ended after that", True, b'"end":"Time"' in server.send(SHOW_GAME))


def clocks():
    """A system clock that is out of the range of timestamps."""
    library = build_preload(".", "far_clock")
    environment = {**os.environ, "LD_PRELOAD": library, "FAR_CLOCK": os.path.abspath("second")}
    with open("log", "wb") as log, serve("c.db", "--log", now=None, env=environment, stderr=log) as server:
        check("a game is shown before", b"HTTP/1.1 200 ", server.send(SHOW_GAME)[:13])
        pathlib.Path("second").write_text(f"{LAST + 1}")
        reply = server.send(SHOW_GAME)
        check("a request without a timestamp gets 503 and 76", (b"HTTP/1.1 503 ", UNTIMED), (reply[:13], reply[-27:]))
        check("it does not say when to try again", False, b"Retry-After" in reply)
        check("the page is shown", b"HTTP/1.1 200 ", server.send(b"GET /play HTTP/1.0\r\n\r\n")[:13])
        check("a bad head is refused", b"HTTP/1.1 400 ", server.send(b"GET / HTTP/1.1\r\n\r\n")[:13])
        pathlib.Path("second").write_text(f"{LAST}")
        check("the last timestamp is served", b"HTTP/1.1 200 ", server.send(SHOW_GAME)[:13])
        os.remove("second")
        check("a game is shown after", b"HTTP/1.1 200 ", server.send(SHOW_GAME)[:13])
    lines = [line for line in pathlib.Path("log").read_text().splitlines() if line.startswith("0 ")]
    check("the log has such a request at timestamp 0", "0 GET /games/{id} 503 -", lines[0] if lines else "")


def seat(count):
    """So many further games, so that a command takes a while."""
    pathlib.Path("orders").write_text("".join(f"seat game{it} cup anna bert\n" for it in range(count)))
    club("c.db", "batch", "orders")


def measure():
    """Prints how long members wait beside commands that have the file for themselves."""
    seat(SEATS)
    with serve() as server:
        server.send(SHOW_GAME)
        for words in ("verify",), ("backup", "large.db"):
            waits, over = [], threading.Event()

            def ask():
                while not over.is_set():
                    reply, wait = timed(server)
                    waits.append((wait, reply.split()[1]))
                    time.sleep(0.02)

            member = threading.Thread(target=ask)
            member.start()
            began = time.monotonic()
            club("c.db", *words)
            took = time.monotonic() - began
            time.sleep(2)
            over.set()
            member.join()
            print(f"{words[0]}: {took:.2f} s; slowest of {len(waits)} requests {max(waits)[0]:.3f} s; "
                  f"refused {sum(status == b'503' for _, status in waits)}, slowest refusal "
                  f"{max((wait for wait, status in waits if status == b'503'), default=0):.3f} s")


def main():
    with tempfile.TemporaryDirectory() as folder, contextlib.chdir(folder):
        create()
        if "--measure" in sys.argv:
            measure()
            return 0
        seat(SEATS // 4)
        with serve() as server:
            server.send(SHOW_GAME)
            began = time.monotonic()
            replies(server)
            result(is_within(15, began), "no reply waits for the end of a lease")
        clocks()
    return exit_status()


if __name__ == "__main__":
    sys.exit(main())
