#!/usr/bin/env python3
"""Tests a server that may open few files, beside more connections than that.

    python3 tests/server/few_descriptors.py
"""
import contextlib
import os
import pathlib
import resource
import select
import sys
import tempfile
import threading
import time

sys.path[0] = str(pathlib.Path(__file__).resolve().parents[1])
from lib.club import DRAUGHTS_MOVES, create, is_within, run
from lib.report import exit_status, result
from lib.server import serve

LIMITS = 24, 64, 256
MORE = 20  # clients beyond the limit
MOST = 2  # seconds that a request or a command may take
INHERITED = 12  # files that a server with the lowest limit has open from its start


def limit_files_to(count):
    """What a process must do first so that it may open so many files."""
    def limit():
        resource.setrlimit(resource.RLIMIT_NOFILE, (count, count))
    return limit


class Crowd(threading.Thread):
    """So many clients that send nothing. Once started, each connects again when the server closes it."""

    def __init__(self, count, server):
        super().__init__(daemon=True)
        self.server, self.is_over = server, threading.Event()
        self.connections = [server.connect() for _ in range(count)]

    def run(self):
        with contextlib.suppress(OSError):
            while not self.is_over.is_set():
                for it in select.select(self.connections, [], [], 0.01)[0]:
                    it.close()
                    self.connections[self.connections.index(it)] = self.server.connect()

    def __enter__(self):
        return self

    def __exit__(self, *_):
        self.is_over.set()
        self.join()
        for it in self.connections:
            it.close()


def check_member(server, ply, name):
    """Prints whether a member's move and a query are answered in time."""
    began = time.monotonic()
    statuses = [server.move(ply)[0], server.show()[0]]
    is_quick = is_within(MOST, began)
    result(statuses == [200, 200] and is_quick, f"a member is answered {name} ({time.monotonic() - began:.2f} s)",
           f"statuses {statuses}, {time.monotonic() - began:.2f} s")


def check_command(ply, name):
    """Prints whether a command of the officer is executed in time."""
    began = time.monotonic()
    status, *printed = run(["c.db", "move", 1, ply, DRAUGHTS_MOVES[ply - 1]])
    is_quick = is_within(MOST, began)
    result(status == 0 and is_quick, f"a command is executed {name} ({time.monotonic() - began:.2f} s)",
           f"status {status}, {printed}, {time.monotonic() - began:.2f} s")


def check_backup(name):
    """Prints whether the server releases the file in time to a command that needs it."""
    began = time.monotonic()
    status, *printed = run(["c.db", "backup", "copy.db"])
    is_quick = is_within(MOST, began)
    result(status == 0 and is_quick, f"a backup is made {name} ({time.monotonic() - began:.2f} s)",
           f"status {status}, {printed}, {time.monotonic() - began:.2f} s")


def check_server(limit, file_count=0):
    """A member and the officer are served beside more silent clients than the limit on open files."""
    create()
    name = f"with {limit} open files at most"
    name += f", {file_count} of them inherited," if file_count else ""
    with contextlib.ExitStack() as stack:
        inherited = [stack.enter_context(open(os.devnull, "rb")).fileno() for _ in range(file_count)]
        server = stack.enter_context(serve(preexec_fn=limit_files_to(limit), pass_fds=inherited))
        check_member(server, 1, name)
        with Crowd(limit + MORE, server) as crowd:
            time.sleep(0.5)
            check_command(2, f"{name} after {limit + MORE} silent clients")
            crowd.start()
            check_member(server, 3, f"{name} beside silent clients that connect again and again")
            check_backup(f"{name} beside them")
            check_member(server, 4, f"{name} beside them after that")
            check_command(5, f"{name} beside them after that")


def main():
    for limit, file_count in [*((it, 0) for it in LIMITS), (LIMITS[0] + INHERITED, INHERITED)]:
        with tempfile.TemporaryDirectory() as folder, contextlib.chdir(folder):
            check_server(limit, file_count)
    return exit_status()


if __name__ == "__main__":
    sys.exit(main())
