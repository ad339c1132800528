#!/usr/bin/env python3
"""Stops the courses of tests/crash/courses.txt at each call of the disk, over a club in memory.

    python3 tests/crash/courses.py

A program of tests runs them. A course that was stopped nowhere fails.
"""
import concurrent.futures
import pathlib
import re
import sys

sys.path[0] = str(pathlib.Path(__file__).resolve().parents[1])
from lib.club import TESTS, run_requests
from lib.report import exit_status, result

SCRIPT = TESTS / "crash/courses.txt"
STOPS = re.compile(r"(\d+) stops\n")


def courses(text):
    """Each course; it begins with a club."""
    starts = [it.start() for it in re.finditer(r"^club ", text, re.MULTILINE)]
    return [text[start:end] for start, end in zip(starts, [*starts[1:], len(text)])]


def name_of(course):
    """The line that says where a course is stopped."""
    return next(line for line in course.splitlines() if "stopped" in line)


def run(course):
    """What the program prints for a course, at how many calls it was stopped, and whether all lines hold."""
    ran = run_requests(course)
    lines = sum(1 for it in course.splitlines() if it and not it.startswith("#"))
    found = STOPS.fullmatch(ran.stderr)
    stops = int(found[1]) if found else 0
    holds = ran.returncode == 0 and ran.stdout == f"{lines} lines hold\n"
    return ran.stdout or ran.stderr, stops, holds and stops > 0


def main():
    given, whole = courses(SCRIPT.read_text(encoding="utf-8")), 0
    with concurrent.futures.ThreadPoolExecutor() as lanes:
        for course, (printed, stops, is_well) in zip(given, lanes.map(run, given)):
            last = printed.splitlines()[-1] if printed else "nothing is printed"
            result(is_well, f"each stop of the course `{name_of(course)}` leaves a club ({last}, {stops} stops)",
                   *(it[:300] for it in printed.splitlines()[:5]))
            whole += stops
    print(f"stopped at {whole} calls of the disk")
    return exit_status()


if __name__ == "__main__":
    sys.exit(main())
