"""Sends requests of all kinds to a server, and compares each reply and the rows of the club with a model."""
import contextlib
import copy
import pathlib
import random
import re
import subprocess
import tempfile
import time

from fuzz.http import ask, reply_to
from fuzz.requests import changed, parted, whole
from lib.club import copy_club, read_tables
from lib.server import serve
from models.club import Club
from models.routes import MEMBERS_ROUTES

MOMENT = 2000
BATCH = 250
PATIENCE = 8  # seconds; if this machine is slower to send than the server waits, the request is sent again
ROUND = 3000
MEMBERS = ("anna", "keyanna1"), ("bert", "keybert0"), ("cara", "keycara3")
LATER_KEY = "keybert2"  # of bert
EVENTS = ("autumn", "draughts", 86400, 5), ("fuji", "shogi", 86400, 0), ("short", "draughts", 60, 0)
LOGGED = re.compile(rb"%d [!-~\x80-\xff]+ [!-~\x80-\xff]+ ((?:[0-9]{3}|-) [!-~]+)" % MOMENT)
SEATS = "autumn anna bert", "fuji anna bert", "short bert anna", "autumn cara anna", "fuji bert cara", "short anna bert"


def order(program, file, moment, *words):
    ran = subprocess.run([program, "--now", str(moment), file, *map(str, words)], capture_output=True, check=True)
    return ran.stdout.decode()


def begun(program, file):
    """A club in a new file, and what it must be."""
    club = Club(MOMENT)
    club.has_arbiter = True
    order(program, file, 1000, "init", "--arbiter")
    for member in MEMBERS:
        order(program, file, 1000, "member", *member)
        club.member(*member)
    for event in EVENTS:
        order(program, file, 1000, "event", *event)
        club.event(*event)
    for number, words in enumerate(SEATS, 1):
        order(program, file, 1000, "seat", f"g{number}", *words.split())
        club.seat(f"g{number}", *words.split(), 1000)
    order(program, file, 1000, "key", "bert", 1, LATER_KEY)
    club.members["bert"].append(LATER_KEY)
    order(program, file, 1000, "close", "short")
    club.closings["short"] = 1000
    club.last = 1000
    return club


@contextlib.contextmanager
def logged_server(file, now=MOMENT):
    """A server over the file at a timestamp; its log is beside the file."""
    with open(f"{file}.log", "wb") as log, serve(file, "--log", now=now, stderr=log) as server:
        yield server


class Asking:
    """Requests of one round, over one club."""

    def __init__(self, test, club, file, port):
        self.test, self.club, self.file, self.port = test, club, file, port
        self.statuses, self.expected_log = {}, []

    def ask(self, name, data, pieces, ends):
        """Whether the reply is that of the model."""
        expected, begun = reply_to(self.club, data), time.monotonic()
        got = ask(self.port, pieces, ends or expected is None)
        if expected and not got and time.monotonic() - begun > PATIENCE:
            self.expected_log.append("- timeout")
            got = ask(self.port, pieces, ends)
        self.statuses[expected and expected.status] = self.statuses.get(expected and expected.status, 0) + 1
        self.expected_log.append(f"{expected.status} {expected.caller}" if expected else "- closed")
        return self.test.check(got == b"" if expected is None else expected == got, name, expected, got, data)

    def are_rows_kept(self, name):
        """The rows are those of the model; they are read again if the server may just have copied its log."""
        expected = self.club.rows()
        for pause in (0, 1, 3):
            time.sleep(pause)
            got = read_tables(self.file)
            differing = {table: (expected[table], got[table]) for table in expected if expected[table] != got[table]}
            if not differing:
                break
        return self.test.check(not differing, f"{name}, rows", "those of the model", differing)

    def is_logged(self, name):
        """Each connection has its line, with the status of its reply and who asked, and never a key of a field."""
        late = time.monotonic() + 10
        while len(lines := self.logged()) < len(self.expected_log) and time.monotonic() < late:
            time.sleep(0.02)
        found = [LOGGED.fullmatch(line) for line in lines]
        bad = [(line, expected) for line, it, expected in zip(lines, found, self.expected_log)
               if not it or it[1] != expected.encode()]
        is_well = len(lines) == len(self.expected_log) and not bad
        return self.test.check(is_well, f"{name}: the log", len(self.expected_log), (len(lines), bad[:3]))

    def logged(self):
        """The lines of connections: without those that say that replies to wrong keys wait."""
        lines = pathlib.Path(f"{self.file}.log").read_bytes().split(b"\n")[:-1]
        return [line for line in lines if not line.endswith(b" - - many wrong keys")]

    def beginnings(self):
        """Each beginning of a whole request of each route has no reply, and changes nothing."""
        for route in MEMBERS_ROUTES:
            data = whole(route)
            for size in range(len(data)):
                if self.test.is_over() or not self.ask(f"{route.method} {route.path}, {size} bytes", data[:size],
                                                       [data[:size]] if size else [], True):
                    return
        self.are_rows_kept("beginnings")

    def changed(self, number, chance):
        """Requests that are changed; in the first round the beginnings of whole ones come after the first batch."""
        for index in range(ROUND):
            name = f"round {number} request {index}"
            data = changed(chance, self.club)
            pieces, ends = parted(chance, data), chance.random() < 0.5
            if self.test.is_over() or not self.ask(name, data, pieces, ends):
                break
            if index % BATCH == BATCH - 1 and not self.are_rows_kept(name):
                return
            if (number, index) == (0, BATCH - 1):
                self.beginnings()
        self.are_rows_kept(f"round {number}")


def run(test):
    """Rounds of requests until the time is over; each begins with the same club."""
    statuses = {}
    with tempfile.TemporaryDirectory() as room:
        base = f"{room}/base.db"
        club = begun(test.program, base)
        number = 0
        while number == 0 or not test.is_over():
            file = f"{room}/c{number}.db"
            copy_club(base, file)
            with logged_server(file) as server:
                asking = Asking(test, copy.deepcopy(club), file, server.port)
                asking.changed(number, random.Random(f"{test.seed} desk {number}"))
                asking.is_logged(f"round {number}")
            for status, count in asking.statuses.items():
                statuses[status] = statuses.get(status, 0) + count
            ran = subprocess.run([test.program, file, "verify"], capture_output=True)
            test.check(ran.stdout == b"sound\n", f"round {number}: verify", "sound", ran.stdout + ran.stderr)
            number += 1
    summary = ", ".join(f"{count} {status or 'without reply'}" for status, count in
                     sorted(statuses.items(), key=lambda it: it[0] or 0))
    return summary
