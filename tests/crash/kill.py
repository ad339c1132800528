#!/usr/bin/env python3
"""Kills commands and servers at random times: what was answered is stored, and every command is atomic.

    python3 tests/crash/kill.py [--seconds N] [--seed N]

Clubs execute a list of commands, from the command line or over HTTP. Each process is killed (SIGKILL) at a random time,
or, if strace is there, every second one at a call on its files. Then the rows are those after all commands that were
answered, or after one more; `verify` prints `sound`; and the commands, given again, are accepted or repeated with the
same answers. The expected rows are those of a club that was not disturbed.
"""
import argparse
import collections
import concurrent.futures
import contextlib
import http.client
import os
import pathlib
import random
import signal
import subprocess
import sys
import tempfile
import threading
import time

sys.path[0] = str(pathlib.Path(__file__).resolve().parents[1])
from lib import disks
from lib.club import (
    ARBITERS_TABLES, Command, FAST, NO_CLUB, TABLES, WAIT, arguments, copy_files, execute, input_of, query, read_rows,
    start, verify,
)
from lib.report import exit_status, result
from lib.server import FAILURES, Request, post, serve

WORKERS = 4  # two for commands and two for servers; one of each in a folder in which fsync takes no time
TURNS = 5  # times at most that a command is killed before it may end
REACH = 1.1  # the latest time of a kill, as a part of the time that a command takes
BUSY = 0.2  # seconds after which a busy server is killed, at most
IDLE = 0.9, 1.6  # seconds after which an idle server is killed: it releases the file then
LATE = 100000
CALLS = "pwrite64,ftruncate,fsync,fdatasync"  # on files
MOST_CALLS = 32  # a little more than most commands make; one that makes fewer ends by itself
TRACED = ["strace", "-f", "-qq", "-o", os.devnull, "-e", f"trace={CALLS}", "-e"]
VERIFY = Command("verify", "sound", "sound")
GAME = 'SELECT plies, "end", result FROM games WHERE id = {}'
ROOKS = ["2h3h", "8b7b", "3h2h", "7b8b"] * 3
MEN = ["32-28", "19-23", "28x19", "14x23"]
START = """init = ready
member anna keyanna1 = accepted member 1
member bert keybert2 = accepted member 2
event cup draughts 8640000 0 = accepted event 1
event fuji shogi 8640000 0 = accepted event 2
event quick draughts 60 0 = accepted event 3
seat d1 cup anna bert = accepted game 1
seat s1 fuji anna bert = accepted game 2
seat q1 quick anna bert = accepted game 3
seat q2 quick bert anna = accepted game 4"""
ENDED = {1: (4, None, None), 2: (12, "Fourfold", "1-1"), 3: (0, "Void", None), 4: (0, "Time", "0-2")}
SERVED = {1: (4, "Agreed", "1-1"), 2: (12, "Fourfold", "1-1"), 5: (1, "Resigned", "2-0")}


# What a command prints when it is repeated, if that is not its answer as a repeated one.
AGAIN = {"init": "store 70 Foreign", "upgrade --arbiter": "repeated upgrade", "sweep": "accepted sweep 0"}


def command(text, **more):
    words, printed = text.split(" = ")
    return Command(words, printed, AGAIN.get(words, printed.replace("accepted", "repeated")), **more)


def commands():
    """The commands of the officer."""
    yield from map(command, START.splitlines())
    for ply, made in enumerate(MEN, 1):
        yield command(f"move 1 {ply} {made} = accepted ply {ply} {made}")
    for ply, made in enumerate(ROOKS, 1):
        yield command(f"move 2 {ply} {made} = accepted ply {ply} {made}" + " end Fourfold" * (ply == 12))
    yield command("import-pdn old1 cup anna bert - = accepted game 5", record="evening.pdn")
    yield command("import-csa old2 fuji bert anna - = accepted game 6", record="checkmate.csa")
    yield command("sweep = accepted sweep 2", now=LATE)
    yield command("upgrade --arbiter = upgraded")
    yield command("key anna 1 keyanna9 = accepted key 1", now=LATE)
    yield command("close cup = accepted closed", now=LATE)
    yield command("rule 3 1 void = accepted ruling 1", now=LATE)


def requests():
    """The commands of members; an undisturbed server gives the expected replies."""
    keys = "keyanna1", "keybert2"

    def post(member, path, body=None):
        return Request(keys[member], path, body, None)

    for ply, made in enumerate(ROOKS, 1):
        yield post((ply + 1) % 2, f"/games/2/moves/{ply}", {"move": made})
        if ply <= len(MEN):
            yield post((ply + 1) % 2, f"/games/1/moves/{ply}", {"move": MEN[ply - 1]})
            yield post(0, f"/challenges/{ply}", {"event": "cup", "first": ply == 1, "other": "bert"})
    yield post(1, "/games/1/draw/5/offer")
    yield post(0, "/games/1/draw/5/accept")
    yield post(0, "/challenges/4/withdraw")
    yield post(1, "/answers/anna/1", {"accept": True})
    yield post(1, "/answers/anna/2", {"accept": False})
    yield post(0, "/games/5/moves/1", {"move": "32-28"})
    yield post(1, "/games/5/resign")


def named(state):
    """Each row of a state with the name of its table."""
    return {(name, row) for name, held in zip((*TABLES, *ARBITERS_TABLES), state) for row in held}


class Wrong(Exception):
    """What differs from what is expected."""


class Course:
    """Commands, and the rows before them and after each of them if nothing is disturbed."""

    def __init__(self, folder, steps, ends):
        self.steps, self.states = [], [read_rows(folder)]
        for step, printed in zip(steps, self.answers(folder, steps)):
            if isinstance(step, Request):
                step = Request(step.key, step.path, step.body, printed)
            if printed != step.printed or isinstance(printed, tuple):
                raise Wrong(f"undisturbed {step} prints {printed}")
            self.steps.append(step)
        if len(set(map(str, self.states))) != len(self.states):
            raise Wrong("a command leaves the rows unchanged")
        for game, ended in ends.items():
            if (found := query(f"{folder}/c.db", GAME.format(game))) != [ended]:
                raise Wrong(f"sqlite3 reads {found} of game {game}, expected {ended}")

    def answers(self, folder, steps):
        """The answer to each command, in turn; the rows after it are kept."""
        with contextlib.ExitStack() as stack:
            if isinstance(steps[0], Request):
                count = str(len(steps) + 1)
                server = stack.enter_context(serve("c.db", "--count", count, now=steps[0].now, folder=folder))
            for step in steps:
                printed = execute(folder, step) if isinstance(step, Command) else post(server.port, step)
                self.states.append(read_rows(folder))
                yield printed

    def nearest(self, found):
        """How the rows differ from the state with which they have most rows in common."""
        if not isinstance(found, list):
            return found
        held = named(found)
        apart = min(map(named, self.states[1:]), key=lambda it: len(it ^ held))
        return f"{sorted(held - apart)} in place of {sorted(apart - held)}"

    def count_done(self, found, least, most):
        """How many of the commands the rows have; so many at least and at most are expected."""
        if found not in self.states:
            raise Wrong(f"the rows are of no state: {self.nearest(found)}")
        done = self.states.index(found)
        if not least <= done <= most:
            raise Wrong(f"{done} commands are stored, expected {least} to {most}")
        return done


class Killer:
    """Kills processes until a time, and counts them."""

    def __init__(self, course, start, place, draw, until):
        self.course, self.start, self.place = course, start, place
        self.draw, self.until = draw, until
        self.counts, self.faults = collections.Counter(), []
        self.span = 0.05  # seconds that a command takes, about
        self.can_trace = disks.traces() is not None

    def is_over(self):
        return time.monotonic() >= self.until

    def run(self):
        """Executes the commands, over one new club after another."""
        while not self.is_over():
            with tempfile.TemporaryDirectory(dir=self.place) as folder:
                copy_files(self.start, folder)
                try:
                    self.execute_all(folder)
                except (Wrong, *FAILURES) as failure:
                    self.faults.append(f"{type(failure).__name__}: {failure}")
        return self

    def found(self, folder, least, most, name):
        """How many commands are stored after a kill; `verify` prints `sound`, and changes nothing."""
        try:
            raw = read_rows(folder)
            printed = verify(folder)
            if printed == "store 70 Foreign" and least == 0 and self.course.states[0] == NO_CLUB:
                return 0
            if printed != "sound":
                raise Wrong(f"verify prints {printed}")
            done = self.course.count_done(read_rows(folder), least, most)
            if raw != self.course.states[done]:
                raise Wrong(f"sqlite3 reads other rows: {str(raw)[:200]}")
        except Wrong as wrong:
            raise Wrong(f"{name}: {wrong}") from None
        return done

    def kill_command(self, folder, step):
        """Kills a command at a random time, or at a call on its files: when, and what it had printed."""
        words, delay, call = arguments(step), self.draw.uniform(0, REACH * self.span), None
        if self.can_trace and self.draw.randrange(2):
            call = self.draw.randrange(1, MOST_CALLS)
            words = [*TRACED, f"inject={CALLS}:signal=SIGKILL:when={call}", *words]
        with start(folder, words, stdin=subprocess.PIPE) as ran:
            with contextlib.suppress(BrokenPipeError):
                ran.stdin.write(input_of(step))
                ran.stdin.close()
            if not call:
                time.sleep(delay)
                ran.kill()
            printed = ran.stdout.read().decode()
        self.counts["killed" if ran.returncode == -signal.SIGKILL else "ended"] += 1
        return f"at call {call} on its files" if call else f"after {delay * 1000:.1f} ms", printed


class CommandKiller(Killer):
    """Kills each command some times, until it is stored, and then repeats it."""

    def execute_all(self, folder):
        for number, step in enumerate(self.course.steps):
            done, turns = number, TURNS
            while done == number and turns:
                if self.is_over():
                    return
                done, turns = self.kill(folder, step, number), turns - 1
            began = time.monotonic()
            printed = execute(folder, step)
            self.span += (time.monotonic() - began - self.span) / 8
            expected = step.printed if done == number else step.again
            if printed != expected:
                raise Wrong(f"{step.words}, repeated, prints {printed}, expected {expected}")
            self.course.count_done(read_rows(folder), number + 1, number + 1)

    def kill(self, folder, step, number):
        """How many commands are stored after one was killed, before which so many were stored."""
        when, printed = self.kill_command(folder, step)
        is_answered = printed.startswith(("accepted", "repeated", "ready", "upgraded"))
        name = f"{step.words} killed {when}"
        done = self.found(folder, number + is_answered, number + 1, name)
        self.counts["before" if done == number else "after"] += 1
        self.counts["unanswered"] += done > number and not is_answered
        return done


class ServerKiller(Killer):
    """Kills servers, each of which continues from where the one before it was killed."""

    def execute_all(self, folder):
        done = 0
        while done < len(self.course.steps):
            if self.is_over():
                return
            done = self.kill(folder, done)

    def kill(self, folder, done):
        """How many commands are stored after a server was killed; it first receives the last one that is stored."""
        is_idle = self.draw.randrange(10) == 0
        most = self.draw.randrange(1, 4) if is_idle else len(self.course.steps)
        delay = self.draw.uniform(*IDLE) if is_idle else self.draw.uniform(0, BUSY)
        answered, steps = done, self.course.steps
        with serve("c.db", "--count", str(len(steps) + 1), now=steps[0].now, folder=folder) as server:
            timer = threading.Timer(delay, server.process.kill)
            timer.start()
            with contextlib.suppress(OSError, http.client.HTTPException):
                for number in range(max(done - 1, 0), min(done + most, len(steps))):
                    reply = post(server.port, steps[number])
                    if reply != steps[number].printed:
                        raise Wrong(f"{steps[number]} receives {reply}")
                    answered = max(answered, number + 1)
            server.process.wait(WAIT)
        self.counts["servers"] += 1
        name = f"a server killed after {delay * 1000:.1f} ms and {answered - done} new answers"
        for _ in range(self.draw.randrange(3)):
            name += f", and verify killed {self.kill_command(folder, VERIFY)[0]}"
        now = self.found(folder, answered, min(answered + 1, len(steps)), name)
        self.counts["answered"] += answered - done
        self.counts["unanswered"] += now > answered
        return now


def totals(killers):
    """The counts and the faults of several."""
    counts = sum((it.counts for it in killers), collections.Counter())
    return counts, [fault for it in killers for fault in it.faults]


def courses(room):
    """The two lists of commands, each with the files of the folder before them."""
    made = {it: f"{room}/{it}" for it in ("nothing", "commands", "seated", "served")}
    for folder in made.values():
        os.mkdir(folder)
    yield CommandKiller, Course(made["commands"], list(commands()), ENDED), made["nothing"]
    for step in map(command, START.splitlines()):
        execute(made["seated"], step)
    copy_files(made["seated"], made["served"])
    yield ServerKiller, Course(made["served"], list(requests()), SERVED), made["seated"]


def main():
    words = argparse.ArgumentParser()
    words.add_argument("--seconds", type=float, default=13)
    words.add_argument("--seed", type=int, default=1)
    asked = words.parse_args()
    print(f"seed {asked.seed}", flush=True)
    killers = []
    with tempfile.TemporaryDirectory(dir=FAST) as room:
        try:
            found = list(courses(room))
        except (Wrong, *FAILURES) as failure:
            result(False, "commands that are not disturbed are executed", failure)
            return exit_status()
        until = time.monotonic() + asked.seconds
        for number in range(WORKERS):
            kind, course, files = found[number % 2]
            place, draw = None if number < 2 else FAST, random.Random(f"{asked.seed} {number}")
            killers.append(kind(course, files, place, draw, until))
        with concurrent.futures.ThreadPoolExecutor(WORKERS) as workers:
            list(workers.map(lambda it: it.run(), killers))
    counts, faults = totals(killers[0::2])
    counted = "{killed} killed, {ended} ended before that; {before} without the command, {after} with it, "
    counted += "{unanswered} of these before its answer"
    name = "a command that is killed at a random time is atomic"
    result(not faults, f"{name} ({counted.format_map(counts)})", *faults[:8])
    counts, faults = totals(killers[1::2])
    counted = "{servers} killed after {answered} answers, {unanswered} with one command more; and {killed} of `verify`"
    name = "every answered request is stored after its server is killed at a random time"
    result(not faults, f"{name} ({counted.format_map(counts)})", *faults[:8])
    return exit_status()


if __name__ == "__main__":
    sys.exit(main())
