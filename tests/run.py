#!/usr/bin/env python3
"""Runs the tests of the repository, side by side where they allow it: what `./test` does.

    ./test              proves every crate, tries each edit that must fail, and then runs all tests
    ./test --anew       the same, and takes nothing that earlier runs on this machine kept
    ./test --quick      the tests that need no proof, over the program in build/ or release/
    ./test CRATE ..     proves these crates and those above them, tries their edits, and then runs the quick tests
    ./test --only TEXT  the quick tests whose command has this text

Each test is a process with a time limit; its output is printed together, with its seconds. The last line is
`N passed, M failed`, which counts the lines `ok` and `not ok` of the tests and, after a proof, those of the prover.
"""
import argparse
import concurrent.futures
import dataclasses
import os
import pathlib
import re
import signal
import subprocess
import sys
import tempfile
import time

sys.path[0] = str(pathlib.Path(__file__).resolve().parent)
from gate import build
from lib.club import PERFT, SCRIPTS, TESTS, TOP

LANES = max(2, len(os.sched_getaffinity(0)))
COUNTS = re.compile(r"^(\d+) passed, (\d+) failed", re.MULTILINE)
TABLE = re.compile(r"^crate .*processor seconds$", re.MULTILINE)


@dataclasses.dataclass(frozen=True)
class Test:
    """A program of tests, with its arguments in the whole gate and, if they differ, in the quick run."""

    command: str
    limit: int = 300  # seconds, on a machine that does other work
    quick: str = ""
    needs: pathlib.Path | None = None  # a program that only a proof builds
    is_whole: bool = False  # not part of the quick run
    is_alone: bool = False  # measures time, so that nothing else may run

    def words(self, is_quick):
        program, *words = (self.quick if is_quick and self.quick else self.command).split()
        return [sys.executable, str(TESTS / program), *words]


# The longest first.
TESTS_OF_PROGRAM = [
    Test("crash/out_of_memory.py", 900, quick="crash/out_of_memory.py --each 4"),
    Test("page/page.py --real", 900),
    Test("page/page.py --firefox", 1800, is_whole=True),
    Test("gate/edits_self_test.py", 600, is_whole=True),
    Test("crash/courses.py", 1200, needs=SCRIPTS),
    Test("crash/out_of_memory_store.py", 1200, needs=SCRIPTS),
    Test("cli/limits.py", 1200, needs=SCRIPTS),
    Test("server/unavailable.py"),
    Test("server/control_socket.py"),
    Test("fuzz/main.py"),
    Test("crash/kill.py"),
    Test("server/end_to_end.py"),
    Test("cli/at_rest.py"),
    Test("cli/scripts.py"),
    Test("server/openapi.py"),
    Test("server/member_lists.py"),
    Test("server/flood.py"),
    Test("server/bad_clients.py"),
    Test("server/holding.py"),
    Test("server/few_descriptors.py"),
    Test("server/listening.py"),
    Test("server/hosts.py"),
    Test("server/access_log.py"),
    Test("server/guessing.py"),
    Test("server/leasing.py"),
    Test("crash/power.py"),
    Test("cli/backup.py"),
    Test("season/season.py"),
    Test("games/long.py"),
    Test("upgrade/upgrade.py"),
    Test("cli/publish.py"),
    Test("cli/notify.py"),
    Test("cli/import_files.py"),
    Test("cli/batch.py"),
    Test("cli/records_batch.py", 120),
    Test("cli/commands.py"),
    Test("cli/install.py", 600),
    Test("cli/threats.py"),
    Test("cli/unread.py"),
    Test("cli/json_answers.py"),
    Test("cli/completions.py"),
    Test("cli/documented_commands.py"),
    Test("gate/manual.py"),
    Test("games/perft.py", needs=PERFT),
    Test("games/models.py"),
    Test("gate/build.py --compare", is_whole=True),
    Test("gate/layers.py"),
    Test("gate/names.py"),
    Test("gate/layout.py"),
    Test("gate/contracts.py"),
    Test("gate/contracts_self_test.py"),
    Test("gate/trusted.py"),
    Test("gate/trusted_self_test.py"),
    Test("gate/crosschecks.py"),
    Test("gate/bench.py"),
    Test("server/slow_clients.py", is_alone=True),
    Test("server/slow_readers.py", is_alone=True),
]


def say(*lines):
    print(*lines, sep="\n", flush=True)


def run(test, is_quick):
    """Runs a test up to its time limit, and prints its output. Returns how many results passed and failed."""
    began = time.monotonic()
    words = test.words(is_quick)
    name = " ".join(it.removeprefix(f"{TOP}/") for it in words[1:])
    with tempfile.TemporaryFile() as out:
        process = subprocess.Popen(words, cwd=TOP, stdin=subprocess.DEVNULL, stdout=out, stderr=subprocess.STDOUT,
                                   start_new_session=True)
        try:
            status = process.wait(test.limit)
        except subprocess.TimeoutExpired:
            status = None
            os.killpg(process.pid, signal.SIGKILL)
            process.wait()
        out.seek(0)
        lines = out.read().decode(errors="replace").splitlines()
    failed = sum(it.startswith("not ok ") for it in lines)
    if status is None:
        lines.append(f"not ok {name} ends within {test.limit} seconds")
    elif status and not failed:
        lines.append(f"not ok {name} ends without an error (status {status})")
    elif not any(it.startswith(("ok ", "not ok ", "skipped: ")) for it in lines):
        lines.append(f"not ok {name} prints a result")
    say(*lines, f"{time.monotonic() - began:.0f} seconds: {name}")
    return sum(it.startswith("ok ") for it in lines), sum(it.startswith("not ok ") for it in lines)


def choose(is_quick, text):
    """The tests of this run; those that are left out are printed."""
    chosen = []
    for test in TESTS_OF_PROGRAM:
        if text not in test.command or is_quick and test.is_whole:
            continue
        if is_quick and test.needs:
            say(f"skipped: {test.command} ({test.needs.relative_to(TOP)} is built by a proof: ./test runs it)")
        else:
            chosen.append(test)
    return chosen


def run_tests(is_quick, text=""):
    """Runs the tests side by side, then those that must be alone. Returns how many results passed and failed."""
    chosen = choose(is_quick, text)
    with concurrent.futures.ThreadPoolExecutor(LANES) as lanes:
        found = list(lanes.map(lambda it: run(it, is_quick), [it for it in chosen if not it.is_alone]))
    found += [run(it, is_quick) for it in chosen if it.is_alone]
    return tuple(map(sum, zip(*found))) if found else (0, 1)


def crates_above(names):
    """The crates and all that stand on them."""
    libraries, found = build.lines_of_crates(), set(names)
    unknown = found - set(libraries)
    if unknown:
        sys.exit(f"there is no crate {' '.join(sorted(unknown))}")
    while more := {crate for crate, below in libraries.items() if found & set(below)} - found:
        found |= more
    return [crate for crate in libraries if crate in found]


def prove(words):
    """Runs tests/gate/gate.py. Returns how many crates, edits and tests passed and failed, and the table of seconds."""
    process = subprocess.Popen([sys.executable, str(TESTS / "gate/gate.py"), *words], cwd=TOP, stdout=subprocess.PIPE,
                               stderr=subprocess.STDOUT, text=True, errors="replace")
    lines = []
    for line in process.stdout:
        sys.stdout.write(line)
        sys.stdout.flush()
        lines.append(line)
    status, text = process.wait(), "".join(lines)
    counts, table = COUNTS.findall(text), TABLE.search(text)
    passed, failed = map(int, counts[-1]) if counts else (0, 0)
    if status and not failed:
        failed = 1
    return passed, failed, text[table.start():].rstrip("\n") if table else ""


def main():
    words = argparse.ArgumentParser(prog="./test", usage=__doc__.split("\n\n")[1], add_help=True)
    words.add_argument("--quick", action="store_true")
    words.add_argument("--anew", action="store_true")
    words.add_argument("--plain", action="store_true", help="try edits as the kit does, one at a time")
    words.add_argument("--only", metavar="TEXT")
    words.add_argument("crates", nargs="*")
    asked = words.parse_args()
    passed = failed = 0
    table = ""
    is_quick = asked.quick or asked.only is not None or bool(asked.crates)
    crates = crates_above(asked.crates)
    if crates or not is_quick:
        flags = [f"--{it}" for it in ("anew", "plain") if getattr(asked, it)]
        passed, failed, table = prove([*flags, *crates])
    if not failed:
        is_built = not is_quick or "club" in crates
        if (build.take() if is_built else build.take_any()) != 0:
            say("not ok there is a program to test")
            failed += 1
        else:
            found = run_tests(is_quick, asked.only or "")
            passed, failed = passed + found[0], failed + found[1]
    if table:
        say(table)
    say(f"{passed} passed, {failed} failed")
    return int(failed > 0)


if __name__ == "__main__":
    sys.exit(main())
