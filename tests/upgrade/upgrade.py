#!/usr/bin/env python3
"""Tests `upgrade` with files that earlier versions created (tests/data/files, schema 1).

    python3 tests/upgrade/upgrade.py

Every other command is refused and changes nothing. The upgrade keeps every row, adds a 0 for each event and the number
of the schema, and can be repeated; a kill during it leaves the file as it was or upgraded. A king that has entered can
be declared in an event that is added after it, and not in one from before. `upgrade --arbiter` does the same to schema 3,
from schema 1 and from schema 2, unless a foreign table has the name of one of the arbiter's.
"""
import contextlib
import pathlib
import random
import shutil
import signal
import sqlite3
import subprocess
import sys
import tempfile
import time

sys.path[0] = str(pathlib.Path(__file__).resolve().parents[1])
import lib.club
from lib.club import ARBITERS_TABLES, DATA, RECORDS, TABLES, command_line
from lib.report import check, exit_status
from lib.server import Request, post_all
from models import shogi

FILES = DATA / "files"
FIRST_TABLES = [it for it in TABLES if it != "event_rules"]
ENTERED = RECORDS / "entered.csa"
KEYS = "keyanna1", "keybert2"
KILLS = 40
RULES = "CREATE TABLE event_rules (event INTEGER PRIMARY KEY, declares INTEGER NOT NULL) STRICT"
DAMAGED = (  # what damages the file, and the fault of `upgrade`
    ("UPDATE members SET name = 'A b' WHERE id = 1", "72 Damaged members"),
    ("UPDATE events SET game = 2 WHERE id = 1", "72 Damaged events"),
    ("UPDATE challenges SET state = 3 WHERE number = 2", "72 Damaged challenges"),
    ("UPDATE moves SET text = '33-28' WHERE game = 1 AND ply = 1", "72 Damaged moves"),
    ("UPDATE games SET left1 = 5 WHERE id = 1", "72 Damaged games"),
    ("UPDATE seen SET count = 2 WHERE game = 1 AND first_ply = 1", "72 Damaged seen"),
    ("UPDATE scores SET wins = 5", "72 Damaged scores"), ("UPDATE meta SET last = 5", "72 Damaged meta"),
    ("UPDATE games SET end = 'Declared', result = '2-0' WHERE id = 2", "72 Damaged games"),
    ("UPDATE meta SET schema = 2", "70 Foreign"), ("UPDATE meta SET schema = 7", "71 Schema 7"),
    ("UPDATE meta SET schema = 0", "71 Schema 0"), (f"UPDATE meta SET schema = 3; {RULES}", "71 Schema 3"),
    ("DELETE FROM meta", "70 Foreign"), ("INSERT INTO meta VALUES (2, 1, 0)", "70 Foreign"),
    ("DROP TABLE scores", "70 Foreign"), (RULES, "70 Foreign"))


def file_in(room):
    """The bytes of the file; there may be an empty log."""
    return pathlib.Path(f"{room}/c.db").read_bytes()


def club(room, *words, now=6000):
    return lib.club.club("c.db", *words, now=now, folder=room)


def read(file, tables):
    with contextlib.closing(sqlite3.connect(f"file:{file}?mode=ro", uri=True)) as found:
        return {it: found.execute(f"SELECT * FROM {it} ORDER BY 1, 2").fetchall() for it in tables}


@contextlib.contextmanager
def old(name):
    """A folder with a copy of an old file."""
    with tempfile.TemporaryDirectory() as room:
        shutil.copyfile(FILES / name, f"{room}/c.db")
        yield room


def rows_before(name):
    """The rows of an old file, of which a copy is read."""
    with old(name) as room:
        return read(f"{room}/c.db", FIRST_TABLES)


def after(name):
    """The rows of an old file as they must be after the upgrade."""
    expected = rows_before(name)
    (number, _, last), = expected["meta"]
    return expected | {"meta": [(number, 2, last)], "event_rules": [(event[0], 0) for event in expected["events"]]}


def refused_before(name):
    with old(name) as room:
        before = file_in(room)
        for words in ("verify", "member zoe keyzoe99", "event new shogi 60 0", "move 1 1 32-28", "legal 1", "export 1",
                      "table autumn", "sweep", "serve 1", "init"):
            expected = "store 70 Foreign" if words == "init" else "store 71 Schema 1"
            check(f"`{words}` of {name} before the upgrade is a fault", (3, expected), club(room, *words.split()))
        check(f"commands before the upgrade leave {name} unchanged", before, file_in(room))


def upgraded(name):
    with old(name) as room:
        check(f"`upgrade` of {name} succeeds at any timestamp",
              (0, "upgraded"), club(room, "upgrade", now=5_000_000_000))
        check(f"`upgrade` of {name} keeps every row", after(name), read(f"{room}/c.db", TABLES))
        check(f"`verify` of {name} prints `sound` after the upgrade", (0, "sound"), club(room, "verify"))
        before = file_in(room)
        check(f"`upgrade` of {name} is repeated", (0, "repeated upgrade"), club(room, "upgrade"))
        with tempfile.TemporaryDirectory() as other:
            shutil.copyfile(f"{room}/c.db", f"{other}/c.db")
            check(f"the file of {name} alone is sound", (0, "sound"), club(other, "verify"))
        check(f"a repeated upgrade leaves {name} unchanged", before, file_in(room))


def beside_a_foreign_table(name):
    """A foreign table was created after those of schema 1: the upgrade creates its own after both, and its rows stay."""
    notes = [(1, "pays in May"), (2, "")]
    with old(name) as room:
        with contextlib.closing(sqlite3.connect(f"{room}/c.db", isolation_level=None)) as found:
            found.execute("CREATE TABLE notes (id INTEGER PRIMARY KEY, text TEXT UNIQUE)")
            found.executemany("INSERT INTO notes VALUES (?, ?)", notes)
        check(f"`verify` of {name} with a foreign table is fault 71", (3, "store 71 Schema 1"), club(room, "verify"))
        check(f"`upgrade` of {name} with a foreign table succeeds", (0, "upgraded"), club(room, "upgrade"))
        expected = after(name) | {"notes": notes}
        check(f"`upgrade` of {name} with a foreign table keeps every row",
              expected, read(f"{room}/c.db", [*TABLES, "notes"]))
        for words, printed in (("verify", "sound"), ("upgrade", "repeated upgrade")):
            check(f"`{words}` of {name} with a foreign table prints `{printed}` after the upgrade",
                  (0, printed), club(room, words))
        check(f"{name} with a foreign table accepts a member", 0, club(room, "member", "zoe", "keyzoe99")[0])


def with_arbiter(name, *steps):
    """`upgrade --arbiter` from schema 1, or after `upgrade`: every row stays, and the new tables are empty."""
    with old(name) as room:
        for words in steps:
            check(f"`{words}` of {name} succeeds", (0, "upgraded"), club(room, *words.split()))
        held = after(name)
        (number, _, last), = held["meta"]
        expected = held | {"meta": [(number, 3, last)]} | {it: [] for it in ARBITERS_TABLES}
        check(f"{name} has every row and the arbiter's empty tables", expected, read(f"{room}/c.db", [*TABLES, *ARBITERS_TABLES]))
        for words, printed in (("verify", "sound"), ("upgrade", "repeated upgrade"), ("upgrade --arbiter", "repeated upgrade"),
                               ("verify", "sound"), ("key anna 1 keyanna9", "accepted key 1")):
            check(f"`{words}` of {name} then prints `{printed}`", (0, printed), club(room, *words.split()))


def beside_an_arbiters_table(name, table):
    """A foreign table with a name of the arbiter's: the club can be upgraded to schema 2 only."""
    with old(name) as room:
        with contextlib.closing(sqlite3.connect(f"{room}/c.db", isolation_level=None)) as found:
            found.execute(f"CREATE TABLE {table} (id INTEGER PRIMARY KEY, text TEXT)")
            found.execute(f"INSERT INTO {table} VALUES (1, 'pays in May')")
        for words, expected in (("upgrade --arbiter", (3, "store 70 Foreign")), ("verify", (3, "store 71 Schema 1")),
                                ("upgrade", (0, "upgraded")), ("upgrade --arbiter", (3, "store 70 Foreign")),
                                ("verify", (0, "sound")), ("key anna 1 keyanna9", (3, "store 71 Schema 2"))):
            check(f"`{words}` of {name} beside a foreign table {table}", expected, club(room, *words.split()))
        expected = after(name) | {table: [(1, "pays in May")]}
        check(f"{name} and its foreign table {table} keep every row", expected, read(f"{room}/c.db", [*TABLES, table]))


def schemas_are_one(*words):
    """A file that was upgraded has the schema of one that is made."""
    with old("worked.db") as room, tempfile.TemporaryDirectory() as other:
        club(room, "upgrade", *words)
        club(other, "init", *words)
        schemas = []
        for it in room, other:
            with contextlib.closing(sqlite3.connect(f"{it}/c.db")) as found:
                schemas.append(found.execute("SELECT type, name, tbl_name, rootpage, sql FROM sqlite_master").fetchall())
        check(f"a file that `{' '.join(('upgrade', *words))}` made has the schema of a new one", schemas[1], schemas[0])


def worked_goes_on():
    with old("worked.db") as room:
        for words, expected in (("upgrade", "upgraded"), ("upgrade", "repeated upgrade"), ("verify", "sound"),
                              ("move 1 1 32-28", "repeated ply 1 32-28")):
            check(f"`{words}` over worked.db prints `{expected}`", (0, expected), club(room, *words.split(), now=900))
        check("repeated commands keep the last timestamp", [(1, 2, 2000)], read(f"{room}/c.db", ["meta"])["meta"])


def damaged(sql, expected):
    with old("season.db") as room:
        with contextlib.closing(sqlite3.connect(f"{room}/c.db")) as found, found:
            found.executescript(sql)
        before = file_in(room)
        check(f"`upgrade` after `{sql}` is fault {expected}", (3, f"store {expected}"), club(room, "upgrade"))
        check(f"`upgrade` after `{sql}` leaves the file unchanged", before, file_in(room))


def line():
    return shogi.read_records(ENTERED.read_bytes())[0][0]


def ask(room, now, requests):
    return post_all(room, [Request(key, path, body, None, now=now) for key, path, body in requests])


def declared():
    """Declarations in an event of before and in one that is added after the upgrade."""
    with old("season.db") as room:
        club(room, "upgrade")
        record = str(ENTERED)
        check("a record with a declaration is refused in an old event", (1, "refused 46 ResultDiffers"),
                club(room, "import-csa", "new1", "fuji", "anna", "bert", record))
        declare = KEYS[0], "/games/2/declare/83", None
        no = 409, '{"error":67,"name":"NotDeclarable"}'
        check("a declaration is refused in an old event", [no], ask(room, 6000, [declare]))
        club(room, "event", "yama", "shogi", "86400", "0")
        check("a new event has declarations", [(1, 0), (2, 0), (3, 0), (4, 1)],
                read(f"{room}/c.db", ["event_rules"])["event_rules"])
        check("a record with a declaration is accepted in a new event", (0, "accepted game 8"),
                club(room, "import-csa", "new1", "yama", "anna", "bert", record))
        check("a game is created in a new event",
              (0, "accepted game 9"), club(room, "seat", "new2", "yama", "anna", "bert"))
        played = ask(room, 6000, [(KEYS[ply % 2], f"/games/9/moves/{ply + 1}", {"move": text})
                                  for ply, text in enumerate(line())])
        check("82 plies of that game are accepted", 82, sum(isinstance(it, dict) for it in played))
        yes = {"end": "Declared", "game": 9, "result": "2-0"}
        late = 409, '{"error":56,"name":"GameOver"}'
        check("a declaration in a new event is accepted and repeated", [yes, yes, late],
                ask(room, 6000, [(KEYS[0], "/games/9/declare/83", None)] * 2 + [(KEYS[1], "/games/9/declare/83", None)]))
        status, record_text = club(room, "export", "9")
        check("a declared game is exported with its declaration", (0, "%KACHI"), (status, record_text.splitlines()[-1]))
        pathlib.Path(f"{room}/9.csa").write_text(f"{record_text}\n")
        check("an exported declaration is imported", (0, "accepted game 10"),
                club(room, "import-csa", "new3", "yama", "anna", "bert", "9.csa"))
        check("an upgraded club is sound after a declaration", (0, "sound"), club(room, "verify"))


def killed(*words):
    """Kills during the upgrade: the file has schema 1 with the old rows, or the new schema with the new ones."""
    before, chance, counts = rows_before("season.db"), random.Random(2), {"upgraded": 0, "repeated upgrade": 0}
    whole = True
    for _ in range(KILLS):
        with old("season.db") as room:
            ran = subprocess.Popen(command_line(["c.db", "upgrade", *words], None), cwd=room, stdout=subprocess.PIPE)
            time.sleep(chance.random() * 0.06)
            ran.send_signal(signal.SIGKILL)
            answered = bool(ran.communicate()[0])
            status, again = club(room, "upgrade", *words)
            whole &= status == 0 and again in counts and not (answered and again == "upgraded")
            counts[again] = counts.get(again, 0) + 1
            held = after("season.db")
            if words:
                held["meta"] = [(number, 3, last) for number, _, last in held["meta"]]
            whole &= read(f"{room}/c.db", TABLES) == held and before == rows_before("season.db")
    check(f"`{' '.join(('upgrade', *words))}` is atomic if it is killed", True, whole)
    print(f"  {KILLS} kills: {counts}")


def main():
    for name in ("worked.db", "season.db"):
        refused_before(name)
        upgraded(name)
        beside_a_foreign_table(name)
        with_arbiter(name, "upgrade --arbiter")
        with_arbiter(name, "upgrade", "upgrade --arbiter")
    for table in ARBITERS_TABLES:
        beside_an_arbiters_table("season.db", table)
    schemas_are_one()
    schemas_are_one("--arbiter")
    worked_goes_on()
    for sql, expected in DAMAGED:
        damaged(sql, expected)
    declared()
    killed()
    killed("--arbiter")
    return exit_status()


if __name__ == "__main__":
    sys.exit(main())
