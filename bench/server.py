#!/usr/bin/env python3
"""Measures the server over loopback, one connection for each request, beside a server in C over sqlite3.

    bench/server.py [--rounds N] [--seconds N] [PART ..]      5 rounds, 50 seconds; all parts

The parts:

    rates       a game shown, a game of 590 plies shown and moves made, with 1, 10 and 50 clients, by ours and by
                server_peer.c in turn: the best rate of each, and the least processor time of a request; the file is
                in memory (/dev/shm), so a sync costs nothing
    lists       processor time of `/me`, `/me/ended`, `/me/events` and of the officer's `games --member` and `events`
                in a club of 5,000 games, of which the member plays 60
    commands    processor time of a seat, of an accepted challenge and of an import, in a club of 4,500 games and of 60
    club        a club of 5,000 games: for so many seconds three clients ask for games, and the officer gives a command
                each second; how often each status was sent, and how soon the clients were answered
    officer     how long a command of the officer takes beside a server with 5,000 games, and with 60
    pause       how long a game takes to be shown after so many seconds without a request, and just after that
    idle        how long a game takes to be shown beside 1,000 connections that send nothing

The program is build/club; cc and the library sqlite3 are needed. Processor time is that of the server's process alone.
"""
import argparse
import collections
import contextlib
import json
import os
import pathlib
import random
import resource
import socket
import sqlite3
import statistics
import subprocess
import sys
import tempfile
import threading
import time

from club_files import BENCH, PROGRAM, add_members, begin, club, multiply, require_program, shogi_moves

LARGE, SMALL = 5000, 60
PAUSES = (3, 30)  # seconds
TICKS = os.sysconf("SC_CLK_TCK")
REQUESTS = 100  # of a list, or commands
GAME = '[Result "2-0"]\n\n1. 32-28 19-23 2-0\n'


# ---- servers

def compile_peers(folder):
    for name, library in (("server_peer", "sqlite3"), ("load", "pthread")):
        subprocess.run(["cc", "-O2", "-o", folder / name, BENCH / f"{name}.c", f"-l{library}"], check=True)


class Server:
    """A server's process, and the port at which it listens."""

    def __init__(self, process, port):
        self.process, self.port = process, port

    def processor_seconds(self):
        text = pathlib.Path(f"/proc/{self.process.pid}/stat").read_text(encoding="utf-8")
        fields = text.rpartition(")")[2].split()
        return (int(fields[11]) + int(fields[12])) / TICKS

    def send(self, method, path, body="", key="keyanna1"):
        """The status of a reply, and the seconds that it took."""
        head = f"{method} {path} HTTP/1.1\r\nHost: c\r\nMember-Key: {key}\r\n"
        length = f"Content-Length: {len(body)}\r\n" if method == "POST" else ""
        began = time.monotonic()
        try:
            with socket.create_connection(("127.0.0.1", self.port), 60) as connection:
                connection.sendall(f"{head}{length}\r\n{body}".encode())
                reply = b"".join(iter(lambda: connection.recv(65536), b""))
            status = int(reply.split()[1])
        except (OSError, IndexError):
            status = 0
        return status, time.monotonic() - began

    def show(self, game=1):
        return self.send("GET", f"/games/{game}")


@contextlib.contextmanager
def started(*words):
    """A server that listens on the port which is the last word."""
    with subprocess.Popen([*map(str, words)], stdout=subprocess.PIPE, stderr=subprocess.DEVNULL) as process:
        try:
            if not process.stdout.readline():
                sys.exit(f"{words[0]} does not listen")
            yield Server(process, words[-1])
        finally:
            process.kill()


def ours(path, _folder=None):
    return started(PROGRAM, "--now", "1000", path, "serve", random.randrange(20000, 32000))


def in_c(path, folder):
    return started(folder / "server_peer", path, random.randrange(20000, 32000))


@contextlib.contextmanager
def club_of(games, plies=60):
    """A club of so many games, in a file that is removed at the end."""
    with tempfile.TemporaryDirectory() as room:
        path = pathlib.Path(room, "c.db")
        begin(path, plies)
        multiply(path, games)
        yield path


# ---- rates

def load(folder, server, *words):
    """The requests a second, and the microseconds of the processor that each took."""
    began = server.processor_seconds()
    command = [folder / "load", str(server.port), *map(str, words)]
    ran = subprocess.run(command, capture_output=True, text=True, check=True)
    rate, _, _, _, refused = map(float, ran.stdout.split())
    if refused:
        sys.exit(f"{refused:.0f} requests were refused: {' '.join(map(str, words))}")
    return rate, 1e6 * (server.processor_seconds() - began) / (words[1] * words[2])


def seat_games(path, games):
    add_members(path)
    club(path, "event", "long", "shogi", 86400, 0)
    for game in range(1, games + 1):
        club(path, "seat", f"g{game}", "long", "anna", "bert")


def measure_rates(folder, server):
    """Each kind of load of one server, with its rate and its processor time."""
    moves = folder / "moves"
    server.show()
    for clients, each in ((1, 3000), (10, 1000), (50, 200)):
        yield f"GET, {clients} clients", load(folder, server, "get", clients, each, 1)
    for clients, each, game in ((1, 590, 1), (10, 59, 2), (39, 15, 12)):
        yield f"moves, {clients} clients", load(folder, server, "post", clients, each, game, moves)
    yield "GET of 590 plies, 1 client", load(folder, server, "get", 1, 1000, 1)


def rates(folder, options):
    (folder / "moves").write_text("\n".join(shogi_moves()), encoding="utf-8")
    found = collections.defaultdict(list)
    for _ in range(options.rounds):
        for start in (ours, in_c):
            with tempfile.TemporaryDirectory(dir="/dev/shm") as room:
                path = pathlib.Path(room, "c.db")
                seat_games(path, 51)
                with start(path, folder) as server:
                    for name, measured in measure_rates(folder, server):
                        found[name, start].append(measured)
    for name in dict.fromkeys(name for name, _ in found):
        rate, other_rate = (max(it for it, _ in found[name, start]) for start in (ours, in_c))
        spent, other_spent = (min(it for _, it in found[name, start]) for start in (ours, in_c))
        print(f"{name}: {rate:.0f} a second, in C {other_rate:.0f}, {rate / other_rate:.2f} of it; {spent:.0f} us of "
              f"the processor, in C {other_spent:.0f}, {other_spent / spent:.2f} of the speed", flush=True)


# ---- lists and commands, by processor time

def spend(server, call, count=REQUESTS):
    """The milliseconds of the server's processor time that each of so many calls takes."""
    began = server.processor_seconds()
    for number in range(count):
        call(number)
    return 1000 * (server.processor_seconds() - began) / count


def expect(expected, got):
    if got != expected:
        sys.exit(f"the reply has the status {got}, not {expected}")


def ask_officer(path, *words):
    subprocess.run([PROGRAM, "--now", "1000", path, *words], stdout=subprocess.DEVNULL, check=True)


def give_to_others(path):
    """Has two further members play all games but the first 60."""
    for name in "carl", "dora":
        club(path, "member", name, f"key{name}3")
    with contextlib.closing(sqlite3.connect(path)) as base:
        base.execute("UPDATE games SET first = 3, second = 4 WHERE id > ?", (SMALL,))
        base.commit()
        base.execute("PRAGMA wal_checkpoint(TRUNCATE)")


def lists(_folder, _options):
    with club_of(LARGE) as path:
        give_to_others(path)
        measure_lists(path)


def measure_lists(path):
    with ours(path) as server:
        server.show()
        for name in "/me", "/me/ended", "/me/events":
            took = spend(server, lambda _, name=name: expect(200, server.send("GET", name)[0]))
            print(f"GET {name} with {LARGE} games: {took:.2f} ms of the processor", flush=True)
        for words in ("games", "--member", "anna"), ("events",):
            took = spend(server, lambda _, words=words: ask_officer(path, *words))
            print(f"`{' '.join(words)}` with {LARGE} games: {took:.2f} ms of the server's processor time", flush=True)


def accept(server, number):
    body = json.dumps({"event": "draughts", "first": True, "other": "bert"})
    expect(200, server.send("POST", f"/challenges/{number}", body)[0])
    expect(200, server.send("POST", f"/answers/anna/{number}", json.dumps({"accept": True}), "keybert2")[0])


def commands(folder, _options):
    record = folder / "game.pdn"
    record.write_text(GAME, encoding="utf-8")
    for games in LARGE - 500, SMALL:
        with club_of(games) as path, ours(path) as server:
            server.show()
            seat = spend(server, lambda it: ask_officer(path, "seat", f"s{it}", "draughts", "anna", "bert"))
            play = spend(server, lambda it: accept(server, it + 1))
            words = "draughts", "anna", "bert", record
            read = spend(server, lambda it, words=words: ask_officer(path, "import-pdn", f"i{it}", *words))
            print(f"{games} games: a seat {seat:.2f} ms of the processor, a challenge with its acceptance {play:.2f}, "
                  f"an import {read:.2f}", flush=True)


# ---- clubs of many games, by the clock

def order(path, number):
    """The status of a command that adds a member, and the seconds that it took."""
    began = time.monotonic()
    words = [PROGRAM, "--now", "1000", path, "member", f"m{number}", f"keymember{number}"]
    return subprocess.run(words, capture_output=True, check=False).returncode, time.monotonic() - began


def show_on(server, done, found):
    while not done.is_set():
        found.append(server.show(random.randrange(1, SMALL)))


def busy_club(_folder, options):
    done, found, orders = threading.Event(), [], []
    with club_of(LARGE) as path, ours(path) as server:
        clients = [threading.Thread(target=show_on, args=(server, done, found)) for _ in range(3)]
        for it in clients:
            it.start()
        for number in range(options.seconds):
            orders.append(order(path, number))
            time.sleep(max(0.0, 1 - orders[-1][1]))
        done.set()
        for it in clients:
            it.join()
    replies, done_orders = (dict(collections.Counter(status for status, _ in it)) for it in (found, orders))
    times = sorted(took for _, took in found)
    print(f"{LARGE} games, {options.seconds} s: replies {replies}, commands {done_orders}, 99 of 100 within "
          f"{times[len(times) * 99 // 100] * 1000:.1f} ms, longest {times[-1] * 1000:.1f} ms", flush=True)


def order_beside(games, rounds):
    with club_of(games) as path, ours(path) as server:
        server.show()
        return statistics.median(order(path, number)[1] for number in range(4 * rounds))


def officer(_folder, options):
    large, small = order_beside(LARGE, options.rounds), order_beside(SMALL, options.rounds)
    print(f"a command beside a server: {large * 1000:.1f} ms with {LARGE} games, {small * 1000:.1f} with {SMALL}, "
          f"{large / small:.2f} times", flush=True)


def pause(_folder, options):
    with club_of(LARGE) as path, ours(path) as server:
        server.show()
        for seconds in PAUSES:
            after, warm = [], []
            for _ in range(options.rounds):
                time.sleep(seconds)
                after.append(server.show()[1])
                warm.append(server.show()[1])
            print(f"shown after {seconds} s: {statistics.median(after) * 1000:.2f} ms, just after that "
                  f"{statistics.median(warm) * 1000:.2f} ms", flush=True)


def idle(_folder, options):
    least, most = resource.getrlimit(resource.RLIMIT_NOFILE)
    resource.setrlimit(resource.RLIMIT_NOFILE, (min(max(least, 2000), most), most))
    with tempfile.TemporaryDirectory() as room, contextlib.ExitStack() as connections:
        path = pathlib.Path(room, "c.db")
        seat_games(path, 1)
        with ours(path) as server:
            server.show()
            for _ in range(1000):
                connections.enter_context(socket.create_connection(("127.0.0.1", server.port), 60))
            took = [server.show() for _ in range(4 * options.rounds)]
    print(f"shown beside 1,000 idle connections: longest {max(it for _, it in took) * 1000:.1f} ms, "
          f"statuses {dict(collections.Counter(status for status, _ in took))}", flush=True)


PARTS = {"rates": rates, "lists": lists, "commands": commands, "club": busy_club, "officer": officer, "pause": pause,
         "idle": idle}


def main():
    parser = argparse.ArgumentParser()
    parser.add_argument("--rounds", type=int, default=5)
    parser.add_argument("--seconds", type=int, default=50)
    parser.add_argument("parts", nargs="*", choices=[[], *PARTS])
    options = parser.parse_args()
    require_program()
    with tempfile.TemporaryDirectory() as folder:
        folder = pathlib.Path(folder)
        compile_peers(folder)
        for name in options.parts or PARTS:
            PARTS[name](folder, options)


if __name__ == "__main__":
    main()
