#!/usr/bin/env python3
"""Tests clients that send more than a request, a log that nobody reads, and a file that another program holds.

    python3 tests/server/bad_clients.py
"""
import contextlib
import fcntl
import pathlib
import re
import shutil
import sqlite3
import subprocess
import sys
import tempfile
import time

sys.path[0] = str(pathlib.Path(__file__).resolve().parents[1])
from lib.club import create, is_within, run
from lib.report import check, exit_status
from lib.server import SHOW_GAME, receive, serve, unavailable

LINES = 60  # requests of which nobody reads the log
PIPE = 8192  # bytes of log that fit before somebody reads: two pages, and fewer than those of so many lines
HOLDERS = "another program has locked FILE: a server, a long command, a backup, or an open prompt of sqlite3"


def reply(server, sent):
    """The status and the body of the reply to these bytes, or 0 and why there was none."""
    try:
        head, _, body = server.send(sent).partition(b"\r\n\r\n")
    except OSError as error:
        return 0, str(error)
    return int(head.split()[1]), body.decode()


def send_long_body(connection):
    """The beginning of the reply to a long body that is sent in pieces, or why it could not be sent."""
    try:
        for _ in range(30):
            connection.sendall(b"a" * 10000)
            time.sleep(0.01)
        return receive(connection)[:13]
    except OSError as error:
        return str(error)


def early_replies():
    """A client whose request is refused by its head sends its body, and receives the reply."""
    with serve() as server:
        head = b"POST /games/1/moves/1 HTTP/1.1\r\nHost: a\r\nMember-Key: keyanna1\r\nContent-Length: 300000\r\n\r\n"
        with server.connect() as connection:
            connection.sendall(head)
            time.sleep(0.3)
            check("a client that sends a body that is too long receives 413",
                  b"HTTP/1.1 413 ", send_long_body(connection))
        if shutil.which("curl"):
            pathlib.Path("long").write_bytes(b"a" * 300000)
            words = ["curl", "-s", "-o", "reply", "-w", "%{http_code}", "-H", "Expect:", "--data-binary", "@long"]
            ran = subprocess.run([*words, f"http://127.0.0.1:{server.port}/games/1/moves/1"], capture_output=True, text=True)
            check("curl receives 413 for a body that is too long", (0, "413"), (ran.returncode, ran.stdout))
        with server.connect() as connection:
            connection.sendall(SHOW_GAME + b"more than is asked for" * 1000)
            check("bytes after a request are ignored", b"HTTP/1.1 200 ", receive(connection)[:13])


def replies_to_head():
    """The reply to HEAD has no body, up to the last byte that decides."""
    with serve() as server:
        for breaks, method, is_bare in (8189, b"HEAD", True), (8190, b"HEAD", True), (8190, b"GETS", False):
            status, body = reply(server, b"\r\n" * breaks + method + b" / HTTP/1.0\r\n")
            name = f"{method.decode()} after {breaks} line breaks has a reply {'without' if is_bare else 'with'} body"
            check(name, (431, is_bare), (status, not body))


def log_lines():
    """Lines that nobody reads are left out and counted, and the server goes on."""
    with serve("c.db", "--log", stderr=subprocess.PIPE) as server:
        fcntl.fcntl(server.process.stderr, fcntl.F_SETPIPE_SZ, PIPE)
        long = b"GET /" + b"a-" * 2000 + b" HTTP/1.0\r\n\r\n"
        began = time.monotonic()
        statuses = {reply(server, long)[0] for _ in range(LINES)}
        check("requests are answered while nobody reads the log", {404}, statuses)
        check("a log that nobody reads does not delay requests", True, is_within(10, began))
        read = server.process.stderr.read1(PIPE // 2)
        reply(server, SHOW_GAME)
        time.sleep(0.5)
        server.process.kill()
        lines = (read + server.process.stderr.read()).decode().split("\n")
        left_out = [int(line.split()[3]) for line in lines if re.fullmatch(r"1000 - - \d+ left out", line)]
        check("each log line is written, or left out and counted", LINES, sum("a-a" in it for it in lines) + sum(left_out))
        check("lines are left out", 1, len(left_out))
        check("the next log line follows", ["1000 GET /games/{id} 200 anna", ""], lines[-2:])
    with open("log", "wb") as log, serve("c.db", "--log", stderr=log) as server:
        reply(server, b"GET /a\xc2\x85b HTTP/1.0\r\n\r\n")
        reply(server, b"GET /\x7f HTTP/1.0\r\n\r\n")
        reply(server, b"A-" * 20 + b" /games/1?key HTTP/1.0\r\n\r\n")
        reply(server, long)
        reply(server, SHOW_GAME)
    lines = pathlib.Path("log").read_text().split("\n")
    check("a path with a control character of Latin-1 is not logged", "1000 GET /- 404 -", lines[0])
    check("a path with DEL is not logged", True, lines[1] in ("1000 GET /- 404 -", "1000 GET /- 400 -"))
    check("a method of forty bytes is cut in the log", f"1000 {'A-' * 8} /games/{{id}} 405 -", lines[2])
    check("a path of 4,000 bytes is cut in the log", 198, len(lines[3].split()[2]))
    check("no key is in the log", 0, sum("keyanna1" in line for line in lines))


def file_in_use():
    """While another program holds the file each request fails at once, and succeeds once the file is free."""
    with serve() as server:
        check("a game is shown before another program holds the file", 200, reply(server, SHOW_GAME)[0])
        server.release("c.db")
        with contextlib.closing(sqlite3.connect("c.db", timeout=30, isolation_level=None)) as other:
            other.execute("BEGIN EXCLUSIVE")
            check("a request is fault 73 while another program holds the file",
                  unavailable(73), reply(server, SHOW_GAME))
            began = time.monotonic()
            check("further requests are fault 73 too", {unavailable(73)}, {reply(server, SHOW_GAME) for _ in range(20)})
            check("requests fail at once while another program holds the file", True, is_within(5, began))
            check("a command waits for the file, and explains fault 73", (3, "", f"store 73 Store\n{HOLDERS}\n"),
                  run(["--explain", "c.db", "verify"], now=None))
        check("a game is shown once the file is free", 200, reply(server, SHOW_GAME)[0])


def main():
    with tempfile.TemporaryDirectory() as folder, contextlib.chdir(folder):
        create()
        for part in (early_replies, replies_to_head, log_lines, file_in_use):
            part()
    return exit_status()


if __name__ == "__main__":
    sys.exit(main())
