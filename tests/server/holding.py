#!/usr/bin/env python3
"""Tests that the server holds the file while nobody asks it anything, and gives it to the commands that need it.

    python3 tests/server/holding.py
"""
import contextlib
import pathlib
import re
import sqlite3
import sys
import tempfile
import time

sys.path[0] = str(pathlib.Path(__file__).resolve().parents[1])
from lib.club import club, create
from lib.report import check, exit_status, result
from lib.server import serve

QUIET = 2.5  # seconds: longer than the server waits between two looks at its control socket
SEATS = 400
FEW = 65536  # bytes, of which the file has several times as many


def bytes_read(server):
    """How many bytes the server has read so far, from files and sockets."""
    return int(re.search(r"rchar: (\d+)", pathlib.Path(f"/proc/{server.process.pid}/io").read_text())[1])


def is_locked(file):
    with contextlib.closing(sqlite3.connect(file, timeout=0)) as database:
        try:
            database.execute("SELECT last FROM meta").fetchone()
        except sqlite3.OperationalError:
            return True
        return False


def create_large(file):
    """A club whose file is large enough that reading all of it is seen."""
    create(file)
    pathlib.Path("orders").write_text("".join(f"seat game{it} cup anna bert\n" for it in range(SEATS)))
    status, _ = club(file, "batch", "orders")
    assert status == 0 and pathlib.Path(file).stat().st_size > 2 * FEW


def check_quiet(server, file):
    """A request after a quiet time finds the file open."""
    time.sleep(QUIET)
    check("a server that nobody asks holds the file", True, server.has_open(file))
    check("sqlite3 finds the file locked", True, is_locked(file))
    before = bytes_read(server)
    status, _ = server.show()
    read = bytes_read(server) - before
    result(status == 200 and read < FEW, "a request after a quiet time does not read the whole file", status, read)


def check_backup(server, file):
    """A backup gets the file, and the server opens it again without being asked."""
    check("a backup is made beside the server", (0, "copied"), club(file, "backup", "copy.db"))
    check("the backup is sound", (0, "sound"), club("copy.db", "verify"))
    check("the server opens the file again by itself", True, server.wait_until(lambda: server.has_open(file)))
    check_quiet(server, file)


def main():
    with tempfile.TemporaryDirectory() as folder, contextlib.chdir(folder):
        create_large("c.db")
        with serve(now=None) as server:
            check("the server opens the file before it is asked", True, server.wait_until(lambda: server.has_open("c.db")))
            check_quiet(server, "c.db")
            check_backup(server, "c.db")
            check("a server without a control socket releases the file", True, server.release("c.db"))
            check("sqlite3 reads the released file", False, is_locked("c.db"))
            check("the next request is served", 200, server.show()[0])
            check_quiet(server, "c.db")
    return exit_status()


if __name__ == "__main__":
    sys.exit(main())
