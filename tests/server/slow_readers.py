#!/usr/bin/env python3
"""Tests that a member is served beside clients that do not read their replies.

    python3 tests/server/slow_readers.py
"""
import contextlib
import pathlib
import socket
import sys
import tempfile
import time

sys.path[0] = str(pathlib.Path(__file__).resolve().parents[1])
from lib.club import create, is_within
from lib.report import check, exit_status, result
from lib.server import receive, serve

PAGE = b"GET /play HTTP/1.1\r\nHost: a\r\n\r\n"  # a long reply, for which no key is needed
MOST = 0.05  # seconds that a member's request may take
TIMES = 10  # requests of the member
STALLED = 10  # seconds without progress after which a reply is given up
ROOM = 160 << 20  # bytes that the server may use beside clients that do not read


def connect(server):
    """A connection with small segments: of a reply that nobody reads the system takes only some 15 kilobytes."""
    connection = socket.socket()
    connection.setsockopt(socket.IPPROTO_TCP, socket.TCP_MAXSEG, 88)
    connection.setsockopt(socket.SOL_SOCKET, socket.SO_RCVBUF, 1)
    connection.setsockopt(socket.IPPROTO_TCP, socket.TCP_WINDOW_CLAMP, 1024)
    connection.settimeout(60)
    connection.connect(("127.0.0.1", server.port))
    return connection


@contextlib.contextmanager
def not_reading(count, server):
    """So many clients that have a beginning of the reply to their request, and do not read it."""
    with contextlib.ExitStack() as stack:
        connections = [stack.enter_context(connect(server)) for _ in range(count)]
        for it in connections:
            it.sendall(PAGE)
        for it in connections:
            with contextlib.suppress(ConnectionResetError):  # of a client that makes room for others
                it.recv(1, socket.MSG_PEEK)
        yield


def check_member(server, name):
    """Prints whether each of some requests of a member is answered in time, with the seconds of the slowest."""
    slowest, is_quick, statuses = 0, True, set()
    for _ in range(TIMES):
        began = time.monotonic()
        statuses.add(server.show()[0])
        slowest = max(slowest, time.monotonic() - began)
        is_quick = is_quick and is_within(MOST, began)
    result(statuses == {200} and is_quick, f"a member is answered {name} ({slowest * 1000:.0f} ms)",
           f"statuses {statuses}")


def memory(server):
    """The bytes of memory that the process of the server uses."""
    pages = int(pathlib.Path(f"/proc/{server.process.pid}/statm").read_text().split()[1])
    return pages * 4096


def slow_reader(server, whole):
    """A client that reads its reply late and in small pieces receives all of it."""
    with connect(server) as connection:
        connection.sendall(PAGE)
        time.sleep(1)
        pieces = []
        while piece := connection.recv(1000):
            pieces.append(piece)
            time.sleep(0.001)
    check("a client that reads late and slowly receives the whole reply", True, b"".join(pieces) == whole)


def stalled_reader(server, whole):
    """A client that does not read its reply is closed, and has received the beginning of the reply."""
    with connect(server) as connection:
        connection.sendall(PAGE)
        time.sleep(STALLED + 3)
        try:
            read = receive(connection)
        except ConnectionResetError:
            read = b""
    is_cut = len(read) < len(whole) and whole.startswith(read)
    result(is_cut, f"a reply that nobody reads is given up after {STALLED} seconds",
           f"{len(read)} of {len(whole)} bytes")


def main():
    with tempfile.TemporaryDirectory() as folder, contextlib.chdir(folder):
        create()
        with serve(now=None) as server:
            whole = server.send(PAGE)
            check_member(server, "by an idle server")
            with not_reading(60, server):
                check_member(server, "beside 60 clients that do not read")
            with not_reading(500, server):
                check_member(server, "beside 500 clients that do not read")
                used = memory(server)
                result(used < ROOM, f"the server uses less than {ROOM >> 20} MB then ({used >> 20} MB)")
            with not_reading(700, server):
                check_member(server, "after 700 clients that do not read")
            slow_reader(server, whole)
            stalled_reader(server, whole)
            check_member(server, "after all of them")
    return exit_status()


if __name__ == "__main__":
    sys.exit(main())
