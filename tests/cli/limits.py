#!/usr/bin/env python3
"""Fills a club up to each of its limits, in memory: a program of tests runs a script that is generated here.

    python3 tests/cli/limits.py [--games N]

200 members and one more, 50 events and one more, 5,000 games (or N) and one more, challenges up to number 9,999, a
record of 65,536 bytes and one of a byte more, and a game of shogi of 600 plies, which ends by its number of plies.
After every twentieth command the club is closed and opened again, and no row may have changed.
"""
import pathlib
import sys

sys.path[0] = str(pathlib.Path(__file__).resolve().parents[1])
from games.long import shogi_line
from lib.club import run_requests
from lib.report import exit_status, result

MEMBERS, EVENTS, GAMES, CHALLENGES, RECORD = 200, 50, 5000, 9999, 65536
EACH = 20
MOVES = r"32-28\n19-23\n28x19\n14x23\n"


def with_reopening(lines):
    """The lines, with a line that closes and opens the club after every twentieth and after the last."""
    for number, line in enumerate(lines, 1):
        yield line
        if number % EACH == 0:
            yield "again"
    yield "again"


def key(number):
    return f"key{number:05}"


def members(count):
    for number in range(1, count + 1):
        yield f"1000 officer member m{number} {key(number)} = accepted member {number}"


def events(count):
    for number in range(1, count + 1):
        yield f"1000 officer event e{number} {('draughts', 'shogi')[number % 2]} 60 5 = accepted event {number}"


def full_of_members():
    yield "club"
    yield from with_reopening([*members(MEMBERS), "1000 officer member more keymore1 = refused 66 Full",
                       f"1000 officer member m{MEMBERS} {key(MEMBERS)} = repeated member {MEMBERS}"])


def full_of_events():
    yield "club"
    yield from with_reopening([*events(EVENTS), "1000 officer event more shogi 60 5 = refused 66 Full",
                       f"1000 officer event e{EVENTS} {('draughts', 'shogi')[EVENTS % 2]} 60 5 = repeated event {EVENTS}"])


def seats(count):
    """Games of all members in all events; every hundredth is a record that is imported."""
    for number in range(1, count + 1):
        sides = f"m{number % MEMBERS + 1} m{(number + number // MEMBERS) % MEMBERS + 2 if number % 7 else 1}"
        first, second = sides.split()
        second = second if second != first and int(second[1:]) <= MEMBERS else f"m{int(first[1:]) % MEMBERS + 1}"
        event = f"e{2 * (number % (EVENTS // 2)) + 2}"
        if number % 100:
            yield f"1000 officer seat g{number} {event} {first} {second} = accepted game {number}"
        else:
            yield (f"1000 officer import g{number} {event} {first} {second} 1 pdn {MOVES}1-1 "
                   f"= accepted game {number}")


def full_of_games(count):
    yield "club"
    yield from members(MEMBERS)
    yield from events(EVENTS)
    yield from with_reopening(seats(count))
    if count == GAMES:
        yield "1000 officer seat more e2 m1 m2 = refused 66 Full"
        yield f"1000 officer import more e2 m1 m2 1 pdn {MOVES}1-1 = refused 66 Full"
        yield "1000 officer import more e2 m1 m2 1 pdn nothing = refused 66 Full"
        yield f"1000 {key(1)} challenge 1 e2 m2 first = accepted challenge 1 open"
        yield f"1000 {key(2)} answer m1 1 accept = refused 66 Full"
        yield f"1000 {key(2)} answer m1 1 refuse = accepted challenge 1 refused"
    yield f"1060 officer sweep = accepted sweep 0"
    yield f"1061 officer sweep = accepted sweep {count - count // 100}"
    yield "again"


def numbers_of_challenges():
    yield "club"
    yield from members(2)
    yield from events(2)
    asked = [*range(1, 61), *range(CHALLENGES - 60, CHALLENGES + 1)]
    yield from with_reopening([f"1000 {key(1)} challenge {it} e1 m2 first = accepted challenge {it} open" for it in asked])
    for number in 0, CHALLENGES + 1:
        yield f"1000 {key(1)} challenge {number} e1 m2 first = refused 65 BadValue"
    yield f"1000 {key(1)} withdraw {CHALLENGES + 1} = refused 54 UnknownChallenge"
    yield f"1000 {key(2)} answer m1 {CHALLENGES} accept = accepted challenge {CHALLENGES} accepted game 1"
    yield "again"


def long_records():
    yield "club"
    yield from members(2)
    yield from events(2)
    record = f"{MOVES}1-1"
    most = RECORD - len(record.replace(r"\n", "n")) - len("{}") - 1  # the program ends each line of the record
    for name, length, answer in (("long", most, "accepted game 1"), ("more", most + 1, "refused 65 BadValue")):
        yield f"1000 officer import {name} e2 m1 m2 1 pdn {{{'a' * length}}}{record} = {answer}"
    yield "again"
    yield "rows SELECT plies, end, result FROM games = 4|Recorded|1-1"


def longest_game():
    yield "club"
    yield from members(2)
    yield "1000 officer event long shogi 86400 0 = accepted event 1"
    yield "1000 officer seat g1 long m1 m2 = accepted game 1"
    line = shogi_line()
    end = {len(line): " end PlyLimit"}
    yield from with_reopening([f"{1000 + ply} {key(2 - ply % 2)} move 1 {ply} {text} = accepted ply {ply} {text}{end.get(ply, '')}"
                       for ply, text in enumerate(line, 1)])
    yield f"9000 {key(1)} move 1 601 9a9b = refused 56 GameOver"
    yield "9000 officer sweep = accepted sweep 0"
    yield "rows SELECT plies, end, result FROM games = 600|PlyLimit|1-1"


def main():
    words = sys.argv[1:]
    games = int(words.pop()) if "--games" in words and words.remove("--games") is None else GAMES
    for name, script in (("members", full_of_members()), ("events", full_of_events()), ("games", full_of_games(games)),
                         ("challenges", numbers_of_challenges()), ("records", long_records()), ("plies", longest_game())):
        lines = list(script)
        given = "".join(f"{it}\n" for it in lines)
        ran = run_requests(given)
        holds = ran.returncode == 0 and ran.stdout == f"{len(lines)} lines hold\n"
        result(holds, f"a club works up to its limit of {name} ({len(lines)} lines)",
               f"{ran.returncode} {ran.stdout[-2000:]} {ran.stderr[-400:]}")
    return exit_status()


if __name__ == "__main__":
    sys.exit(main())
