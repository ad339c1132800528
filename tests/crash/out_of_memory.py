#!/usr/bin/env python3
"""Tests that a command is atomic if an allocation fails, for each allocation of a command over a real file.

    python3 tests/crash/out_of_memory.py [--each N]

A command runs over a copy of a club once for each of its allocations (or each N-th; of all but a move each 11*N-th),
with that one failed. After a
fault the tables are unchanged, what was printed is a beginning of what is expected, and the command succeeds when it is
repeated (which is tried after each sixty-first). If the program could do without that memory, the command is complete.
"""
import argparse
import concurrent.futures
import contextlib
import os
import pathlib
import re
import shutil
import subprocess
import sys
import tempfile

sys.path[0] = str(pathlib.Path(__file__).resolve().parents[1])
from lib.club import RECORDS, build_fail_malloc, club, command_line, copy_club, create, move, read_tables
from lib.report import exit_status, result, skip

FAULT = re.compile(r"store (75 Memory|73 Store)\Z")
REPEATED = 61  # after so many allocations the command is repeated
MOST = 1_000_000  # more than any command makes


def bytes_of(file):
    """The bytes of a database and of its log; an empty log is as none."""
    return [pathlib.Path(it).read_bytes() if os.path.exists(it) else b"" for it in (file, f"{file}-wal")]


class Command:
    """A command over a club, and what it does if no allocation fails."""

    def __init__(self, folder, source, now, expected, words):
        self.folder, self.source, self.expected = folder, source, expected
        self.words = command_line(["r.db", *words], now)
        self.before, self.bytes = read_tables(source), bytes_of(source)
        copy_club(source, f"{folder}/r.db")
        self.run(folder)
        self.after = read_tables(f"{folder}/r.db")

    def run(self, folder, number=0):
        """The status of the command over r.db of a folder, and all that is printed."""
        failing = {"REFUSE": str(number), "LD_PRELOAD": f"{self.folder}/fail_malloc.so"} if number else {}
        ran = subprocess.run(self.words, cwd=folder, env=os.environ | failing, stdin=subprocess.DEVNULL,
                             stdout=subprocess.PIPE, stderr=subprocess.STDOUT, text=True, errors="replace")
        return ran.returncode, ran.stdout.rstrip("\n")

    def is_unchanged(self, folder):
        """Whether r.db has the tables of before."""
        return bytes_of(f"{folder}/r.db") == self.bytes or read_tables(f"{folder}/r.db") == self.before

    def wrong_after_fault(self, folder, number, printed):
        if not self.is_unchanged(folder):
            return f"after allocation {number} failed the tables are not those before"
        if not self.expected.startswith(FAULT.sub("", printed)):
            return f"allocation {number} failed: {printed}"
        if number % REPEATED == 0:
            again = self.run(folder)[1]
            return again != self.expected and f"repeated after allocation {number} failed: {again}"
        return None

    def fail_each(self, first, step):
        """Fails allocations, each so many after the one before: how many, how many faults, and what is wrong."""
        folder = tempfile.mkdtemp(dir=self.folder)
        tried = faults = 0
        for number in range(first, MOST, step):
            copy_club(self.source, f"{folder}/r.db")
            pathlib.Path(f"{folder}/refused").unlink(missing_ok=True)
            status, printed = self.run(folder, number)
            if not os.path.exists(f"{folder}/refused"):
                break
            tried += 1
            if status == 3 and FAULT.search(printed):
                faults += 1
                wrong = self.wrong_after_fault(folder, number, printed)
            elif status == 0 and printed == self.expected:
                is_complete = read_tables(f"{folder}/r.db") == self.after
                wrong = not is_complete and f"done without allocation {number}, but the tables are not those after"
            else:
                wrong = f"allocation {number} failed: {status} {printed}"
            if wrong:
                return tried, faults, wrong
        return tried, faults, None


def check_command(name, each, source, now, expected, *words):
    """Fails each so-manieth allocation of a command, in one thread for each processor."""
    with tempfile.TemporaryDirectory(prefix="refused.", dir=".") as folder:
        folder, lanes = os.path.abspath(folder), len(os.sched_getaffinity(0))
        build_fail_malloc(folder)
        command = Command(folder, source, now, expected, words)
        with concurrent.futures.ThreadPoolExecutor(lanes) as pool:
            found = [*pool.map(lambda it: command.fail_each(1 + it * each, lanes * each), range(lanes))]
    tried, faults = (sum(it[place] for it in found) for place in (0, 1))
    wrong = [it for _, _, it in found if it]
    is_well = not wrong and min(tried, faults) > 1000 // each
    result(is_well, f"{name} is atomic if an allocation fails ({tried} allocations, {faults} faults)", *wrong)


def main():
    if not shutil.which("gcc"):
        skip("commands whose allocations fail", "no gcc")
        return 0
    words = argparse.ArgumentParser()
    words.add_argument("--each", type=int, default=1)
    one = words.parse_args().each
    few = 11 * one
    with tempfile.TemporaryDirectory() as folder, contextlib.chdir(folder):
        create("before.db", budget=60)
        move("before.db", 1)
        copy_club("before.db", "later.db")
        move("later.db", 2)
        check_command("a move", one, "before.db", 1000, "accepted ply 2 19-23", "move", 1, 2, "19-23")
        record = RECORDS / "evening.pdn"
        check_command("an import",
                      few, "before.db", 1000, "accepted game 2", "import-pdn", "evening", "cup", "anna", "bert", record)
        check_command("an export", few, "before.db", 1000, club("before.db", "export", 1)[1], "export", 1)
        check_command("a list of games", few, "before.db", 1000, club("before.db", "games")[1], "games")
        check_command("a sweep", few, "later.db", 2000, "accepted sweep 1", "sweep")
        check_command("an upgrade to schema 3", few, "before.db", 1000, "upgraded", "upgrade", "--arbiter")
        copy_club("before.db", "arbiter.db")
        club("arbiter.db", "upgrade", "--arbiter")
        check_command("a new key", few, "arbiter.db", 1000, "accepted key 1", "key", "anna", 1, "keyanna9")
        check_command("a closing", few, "arbiter.db", 1000, "accepted closed", "close", "cup")
        check_command("a ruling", few, "arbiter.db", 1000, "accepted ruling 1", "rule", 1, 1, "award", "1-1")
    return exit_status()


if __name__ == "__main__":
    sys.exit(main())
