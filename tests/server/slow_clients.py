#!/usr/bin/env python3
"""Tests that a member is served beside clients that send nothing, or one byte now and then.

    python3 tests/server/slow_clients.py
"""
import contextlib
import pathlib
import sys
import tempfile
import threading
import time

sys.path[0] = str(pathlib.Path(__file__).resolve().parents[1])
from lib.club import create, is_within
from lib.report import exit_status, result
from lib.server import serve

MOST = 2  # seconds that a request may take


def check_request(server, name):
    """Prints whether a request is answered in time, with its seconds."""
    began = time.monotonic()
    status, _ = server.show()
    took, is_quick = time.monotonic() - began, is_within(MOST, began)
    result(status == 200 and is_quick, f"a request is answered {name} ({took:.2f} s)", f"status {status}")


@contextlib.contextmanager
def silent(count, server):
    """So many clients that have connected and send nothing."""
    with contextlib.ExitStack() as stack:
        for _ in range(count):
            stack.enter_context(server.connect())
        yield


@contextlib.contextmanager
def dripping(count, server):
    """So many clients that send one byte of a request each fifth of a second."""
    request = b"GET /games/1 HTTP/1.1\r\nHost: a\r\nMember-Key: keyanna1\r\nLong: " + b"a" * 1000
    done = threading.Event()

    def drip(connection):
        for at in range(len(request)):
            if done.wait(0.2):
                return
            with contextlib.suppress(OSError):
                connection.sendall(request[at : at + 1])

    with contextlib.ExitStack() as stack:
        connections = [stack.enter_context(server.connect()) for _ in range(count)]
        threads = [threading.Thread(target=drip, args=(it,), daemon=True) for it in connections]
        for it in threads:
            it.start()
        time.sleep(0.5)
        yield
        done.set()
        for it in threads:
            it.join()


def main():
    with tempfile.TemporaryDirectory() as folder, contextlib.chdir(folder):
        create()
        with serve(now=None) as server:
            check_request(server, "by an idle server")
            check_request(server, "a second time")
            with silent(60, server):
                check_request(server, "beside 60 silent clients")
            with dripping(30, server):
                check_request(server, "beside 30 clients that send a byte at a time")
            with silent(200, server):
                check_request(server, "beside 200 silent clients")
            with silent(900, server):
                check_request(server, "after 900 silent clients")
                check_request(server, "a second time after 900 silent clients")
            with silent(480, server), dripping(60, server):
                check_request(server, "after 480 silent clients and 60 that send a byte at a time")
    return exit_status()


if __name__ == "__main__":
    sys.exit(main())
