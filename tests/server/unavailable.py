#!/usr/bin/env python3
"""Tests the timestamps of a server, what it replies while its club is unavailable, and requests whose reply was lost.

    python3 tests/server/unavailable.py

Each fault that 503 may name is caused from outside: by another file in place of the club's, by sqlite3, by a full disk
and by allocations that fail.
"""
import contextlib
import hashlib
import json
import os
import pathlib
import shutil
import socket
import sqlite3
import sys
import tempfile
import time

sys.path[0] = str(pathlib.Path(__file__).resolve().parents[1])
from lib.club import DRAUGHTS_MOVES, build_fail_malloc, change, club, create, limit_files_to, query_one
from lib.report import check, exit_status, skip
from lib.server import SHOW_GAME, receive, serve, unavailable


def hash_of(file):
    """The hash of a file's bytes, or None if there is no file."""
    return hashlib.sha256(pathlib.Path(file).read_bytes()).hexdigest() if os.path.exists(file) else None


def timestamps():
    create("m.db", budget=60)
    with serve("m.db", now=1010) as server:
        check("a move is accepted at the timestamp of --now", 200, server.move(1)[0])
    check("the move has the timestamp of --now",
          (1010, 1010, 50), query_one("m.db", "SELECT last, since, left1 FROM meta, games"))
    with serve("m.db", now=1005) as server:
        check("a move is accepted at an earlier timestamp", 200, server.move(2)[0])
    check("an earlier timestamp counts as the last one",
          (1010, 1010, 60), query_one("m.db", "SELECT last, since, left2 FROM meta, games"))
    claim = "POST", "/games/1/claim-time", None, "keybert2"
    with serve("m.db", now=1060) as server:
        check("a claim in the last second is refused", (409, '{"error":61,"name":"TimeLeft"}'), server.request(*claim))
        check("a claim by the side to move is refused", 409, server.request("POST", "/games/1/claim-time")[0])
    ended = 200, '{"end":"Time","game":1,"result":"0-2"}'
    with serve("m.db", now=1061) as server:
        check("a claim one second later is accepted", ended, server.request(*claim))
        check("a claim is repeated", ended, server.request(*claim))
    check("a claim ends the game at its timestamp",
          (1061, "Time", "0-2"), query_one("m.db", "SELECT last, end, result FROM meta, games"))
    with serve("m.db", now=9000) as server:
        check("a later server repeats the claim", ended, server.request(*claim))
    check("a repeated claim does not change the last timestamp", (1061,), query_one("m.db", "SELECT last FROM meta"))

    create("t.db")
    before = int(time.time())
    with serve("t.db", now=None) as server:
        server.request("POST", "/challenges/1", {"event": "cup", "first": True, "other": "bert"})
    last = query_one("t.db", "SELECT last FROM meta")[0]
    check("without --now the machine's clock counts", True, before <= last <= int(time.time()))


def faults():
    create("f.db")
    shutil.copyfile("f.db", "good.db")
    with serve("f.db") as server:
        check("a game is shown before any fault", 200, server.show()[0])

        def replace(name, fault, make):
            server.release("f.db")
            make()
            before = hash_of("f.db")
            check(f"{name} is fault {fault} of a request", unavailable(fault), server.show())
            check(f"{name} is fault {fault} of a move", unavailable(fault), server.move(1))
            time.sleep(2.5)  # after two seconds the server tries the file again
            server.release("f.db")
            check(f"{name} leaves the file unchanged", before, hash_of("f.db"))
            shutil.copyfile("good.db", "f.db")
            check(f"a game is shown once {name} is repaired", 200, server.show()[0])

        replace("a missing file", 70, lambda: os.remove("f.db"))
        replace("a missing table", 70, lambda: change("f.db", "DROP TABLE seen"))
        replace("another schema", 71, lambda: change("f.db", "UPDATE meta SET schema = 3"))
        replace("a damaged member", 72, lambda: change("f.db", "UPDATE members SET name = '' WHERE id = 2"))
        replace("a text file", 73, lambda: pathlib.Path("f.db").write_text("a letter to the members\n" * 400))

        server.release("f.db")
        with contextlib.closing(sqlite3.connect("f.db", timeout=30, isolation_level=None)) as other:
            other.execute("BEGIN EXCLUSIVE")
            check("a file that another program holds is fault 73 of a request", unavailable(73), server.show())
            check("a file that another program holds is fault 73 of a move", unavailable(73), server.move(1))
        time.sleep(2.5)  # after two seconds the server tries the file again
        check("a move is accepted once the file is free", 200, server.move(1)[0])
    check("the file is sound after all faults", (0, "sound"), club("f.db", "verify"))


def full_disk():
    """On a full disk a move fails with 73, requests after it are served, and nothing is lost."""
    create("d.db")
    limit = limit_files_to(os.path.getsize("d.db") // 4)
    with serve("d.db", preexec_fn=limit, restore_signals=False) as server:
        request = b"POST /games/1/moves/1 HTTP/1.1\r\nHost: a\r\nMember-Key: keyanna1\r\nContent-Length: 16\r\n\r\n"
        with contextlib.ExitStack() as stack:
            connections = [stack.enter_context(server.connect()) for _ in range(2)]
            for connection, data in zip(connections, (request + b'{"move":"32-28"}', SHOW_GAME)):
                connection.sendall(data)
            replies = [receive(connection).decode() for connection in connections]
        check("a move on a full disk is fault 73", unavailable(73)[1], replies[0].partition("\r\n\r\n")[2])
        check("a request after it is answered", True, replies[1].startswith("HTTP/1.1 200 "))
        replies = [(server.move(1), server.show()[0]) for _ in range(5)]
        check("on a full disk moves fail and games are shown", [(unavailable(73), 200)] * 5, replies)
    check("a full disk leaves the game unchanged", (0,), query_one("d.db", "SELECT plies FROM games"))
    with serve("d.db") as server:
        check("the move is accepted when there is room", 200, server.move(1)[0])


def failed_allocations():
    """A failed allocation makes the club unavailable, and leaves no part of a move."""
    if not shutil.which("gcc"):
        skip("allocations that fail in a server", "no gcc")
        return
    library = build_fail_malloc(".")
    create("r.db")
    shutil.copyfile("r.db", "before.db")

    def move_without(number):
        """The reply to a move if that allocation fails, and whether one failed."""
        for it in ("r.db-wal", "refused"):
            if os.path.exists(it):
                os.remove(it)
        shutil.copyfile("before.db", "r.db")
        environment = os.environ | {"LD_PRELOAD": library, "REFUSE": str(number)}
        reply = None
        with contextlib.suppress(OSError, RuntimeError), serve("r.db", env=environment, tries=1) as server:
            reply = server.move(1)
        return reply, os.path.exists("refused")

    allocations = 1
    while move_without(allocations)[1]:
        allocations *= 2
    replies, is_atomic = set(), True
    for number in range(1, allocations, max(allocations // 200, 1)):
        reply, has_failed = move_without(number)
        if reply and has_failed:
            rows = query_one("r.db", "SELECT plies, (SELECT count(*) FROM moves) FROM games")
            is_atomic = is_atomic and rows in ((1, 1), (1, 1) if reply[0] == 200 else (0, 0))
            replies.add(reply)
    failures = {it for it in replies if it[0] != 200}
    is_named = failures and failures <= {unavailable(73), unavailable(75)}
    check("a failed allocation of a server is fault 75, or 73 if it was the database's", True, bool(is_named))
    check("a move whose allocation fails is atomic", True, is_atomic)


def reset_at_end(connection):
    """Lets the connection end by a reset."""
    connection.setsockopt(socket.SOL_SOCKET, socket.SO_LINGER, b"\1\0\0\0\0\0\0\0")


def lost_replies():
    """A client that does not receive the reply sends its request again, and the move is there once."""
    create("l.db")
    with serve("l.db") as server:
        for ply, text in enumerate(DRAUGHTS_MOVES[:4], 1):
            key = ("keybert2", "keyanna1")[ply % 2]
            body = json.dumps({"move": text})
            head = f"POST /games/1/moves/{ply} HTTP/1.1\r\nHost: a\r\nMember-Key: {key}\r\n"
            with server.connect() as connection:
                reset_at_end(connection)
                connection.sendall(f"{head}Content-Length: {len(body)}\r\n\r\n{body}".encode())
                if ply % 2:
                    time.sleep(1)
            first = server.move(ply)
            check(f"the move of ply {ply} is idempotent after a lost reply", (200, first), (first[0], server.move(ply)))
        replies = [server.move(ply) for ply in (1, 2, 3, 4)]
        check("a resignation is accepted", 200, server.request("POST", "/games/1/resign")[0])
    check("each move is stored once", (4, 4), query_one("l.db", "SELECT count(*), plies FROM moves, games"))
    with serve("l.db") as server:
        again = [server.move(ply) for ply in (1, 2, 3, 4)]
        check("another server repeats each move of an ended game", replies, again)


def broken_requests():
    """A request that a reset cuts off leaves the club unchanged, and the server goes on."""
    create("b.db")
    body = json.dumps({"move": DRAUGHTS_MOVES[0]})
    head = "POST /games/1/moves/1 HTTP/1.1\r\nHost: a\r\nMember-Key: keyanna1\r\n"
    whole = f"{head}Content-Length: {len(body)}\r\n\r\n{body}".encode()
    with serve("b.db") as server:
        for size in (1, len(head) // 2, len(whole) - len(body), len(whole) - 1):
            with server.connect() as connection:
                reset_at_end(connection)
                connection.sendall(whole[:size])
        check("requests that are cut off make no move", 0, json.loads(server.show()[1])["ply"])
        check("the move is accepted after requests that were cut off", 200, server.move(1)[0])
    check("the move is stored once", (1, 1), query_one("b.db", "SELECT count(*), plies FROM moves, games"))


def main():
    with tempfile.TemporaryDirectory() as folder, contextlib.chdir(folder):
        for part in (timestamps, faults, full_disk, failed_allocations, lost_replies, broken_requests):
            part()
    return exit_status()


if __name__ == "__main__":
    sys.exit(main())
