#!/usr/bin/env python3
"""Tests that each command is atomic if an allocation fails, over a database in memory.

    python3 tests/crash/out_of_memory_store.py [--each N]

A program of tests runs the first course of tests/crash/courses.txt and the first of a club with an arbiter, command by
command. Before a command the club is closed and opened again. If an allocation of the command fails, the answer is as without a failure, or 73 or 75, never
another number, and the next call is answered with 74. The command, repeated over the club as it is then, is repeated if
it was stored, else accepted (a sweep that was stored ends no further game). The same, without the 74, is tested of the
upgrades of the first database of schema 1 in the script of that program. Of N allocations one fails: N is 7, or 1 for all.
"""
import concurrent.futures
import os
import pathlib
import re
import shutil
import sys
import tempfile

sys.path[0] = str(pathlib.Path(__file__).resolve().parents[1])
from lib.club import TESTS, build_fail_malloc, lines_of_script, run_requests
from lib.report import exit_status, result, skip

COURSES = TESTS / "crash/courses.txt"
FAULTS, REOPEN = ("73 Store", "75 Memory"), "74 Reopen"
OWN = "memory allocation failed"  # of the program of tests, and not of the club
GOT = re.compile(r"line (\d+): .* \.\. got (.*)")
words = sys.argv[1:]
EACH = int(words.pop()) if "--each" in words and words.remove("--each") is None else 7


def commands(start):
    """The requests of the script that is stopped and begins so, each with its outcome."""
    found, _, rest = COURSES.read_text(encoding="utf-8").partition(f"\n{start} stopped 1\n")
    assert found and rest
    for line in rest.splitlines():
        if not line[:1].isdigit():
            return
        asked, _, outcome = line.rpartition(" = ")
        yield asked, outcome


def first_schema():
    """The line of the script that makes a database of schema 1."""
    return next(it for it in lines_of_script("storage") if it.startswith("sql CREATE TABLE") and "INSERT INTO meta VALUES(1,1," in it)


def again(outcome):
    """The answer to a command that is stored already."""
    if outcome == "upgraded":
        return "repeated upgrade"
    if outcome.startswith("accepted sweep"):
        return "accepted sweep 0"
    return outcome.replace("accepted", "repeated", 1) if outcome.startswith("accepted") else outcome


class Command:
    """A command after others: its answers if an allocation fails."""

    def __init__(self, room, start, before, asked, outcome):
        self.room, self.asked, self.outcome = room, asked, outcome
        self.kind = asked.split()[2]
        self.start = [start, *(f"{line} = {outcome}" for line, outcome in before), "again"]
        self.given = [f"{asked} = {outcome}"]
        self.rest = [f"alone {asked} = {REOPEN}", f"{asked} = {again(outcome)}"]
        self.closes = True

    @classmethod
    def upgrade(cls, room, words):
        """The upgrade of a database in memory by `upgrades` or `upgrades arbiter`."""
        made = cls(room, "database", [], f"memory of {words.replace(' ', '-')}", "upgraded")
        made.start, made.given = ["database", first_schema()], [f"{words} = upgraded"]
        made.rest = ["opens = sound", f"{words} = repeated upgrade"]
        made.closes = False  # an upgrade leaves no club that could receive a command
        return made

    def run(self, lines, number=0):
        """The process, and how many allocations it made."""
        counted = f"{self.room}/counted.{os.getpid()}"
        environment = os.environ | {"LD_PRELOAD": f"{self.room}/fail_malloc.so", "REFUSE": str(number), "COUNTED": counted}
        ran = run_requests("".join(f"{it}\n" for it in lines), cwd=self.room, env=environment)
        return ran, int(pathlib.Path(counted).read_text())

    def is_well(self, ran):
        printed = {int(number): got for number, got in GOT.findall(ran.stdout)}
        at = len(self.start) + 1
        if ran.returncode == 3 and not ran.stdout or at - 1 in printed or printed.get(at, "").startswith(OWN):
            return True  # an allocation of the program of tests, or of the opening before the command
        first, second = printed.get(at, self.outcome), printed.get(at + 2, again(self.outcome))
        if first == self.outcome:
            return second == again(self.outcome) or printed.get(at + 1, "").startswith(OWN)
        if self.closes and at + 1 in printed:
            return False
        return first in FAULTS and second in (self.outcome, again(self.outcome))

    def fail_each(self):
        """How many allocations failed, how many faults there were, and which answers were wrong."""
        _, before = self.run(self.start)
        _, after = self.run(self.start + self.given)
        tried = faults = 0
        wrong = []
        for number in range(before, after + 1, EACH):
            ran, _ = self.run(self.start + self.given + self.rest, number)
            tried += 1
            faults += any(fault in ran.stdout for fault in FAULTS)
            if not self.is_well(ran):
                wrong.append((number, ran.returncode, ran.stdout))
        return tried, faults, wrong


def main():
    if not shutil.which("gcc"):
        skip("allocations that fail within each command", "no gcc")
        return 0
    with tempfile.TemporaryDirectory() as room:
        build_fail_malloc(room)
        tried = [Command.upgrade(room, words) for words in ("upgrades", "upgrades arbiter")]
        for start in "club", "club arbiter":
            script = list(commands(start))
            tried += [Command(room, start, script[:at], *script[at]) for at in range(len(script))]
        with concurrent.futures.ProcessPoolExecutor(os.cpu_count()) as lanes:
            results = list(lanes.map(Command.fail_each, tried))
    kinds, whole = {}, 0
    for command, found in zip(tried, results):
        kinds.setdefault(command.kind, []).append((command, found))
    for kind, found in kinds.items():
        wrong = [(command.asked, *it) for command, (_, _, answers) in found for it in answers]
        allocations, faults = (sum(it[place] for _, it in found) for place in (0, 1))
        result(not wrong and allocations, f"`{kind}` is atomic if an allocation fails ({allocations} allocations, {faults} faults)",
               *wrong[:3])
        whole += allocations
    print(f"{whole} allocations failed")
    return exit_status()


if __name__ == "__main__":
    sys.exit(main())
