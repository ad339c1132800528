#!/usr/bin/env python3
"""Tests what the program leaves on disk between commands, and that only `init` creates a file.

    python3 tests/cli/at_rest.py

After each command the database file alone is the club. Backups are made in the ways that people make them, and restored
over each state that the write-ahead log may be in. Databases of other programs, and tables beside those of a club, stay
as they are.
"""
import contextlib
import hashlib
import os
import pathlib
import shutil
import sqlite3
import sys
import tempfile
import time

sys.path[0] = str(pathlib.Path(__file__).resolve().parents[1])
from lib.club import DRAUGHTS_MOVES, TABLES, WAIT, club, create, limit_files_to, move, read_tables
from lib.report import check, exit_status
from lib.server import serve, unavailable


def backup(file, to):
    with contextlib.closing(sqlite3.connect(file)) as found, contextlib.closing(sqlite3.connect(to)) as other:
        found.backup(other)


def vacuum_into(file, to):
    with contextlib.closing(sqlite3.connect(file)) as found:
        found.execute("VACUUM INTO ?", (to,))


METHODS = {"cp": shutil.copyfile, "mv of a copy": shutil.copyfile, ".backup": backup, "VACUUM INTO": vacuum_into}


def folder_content():
    """The files of the folder with a hash of each."""
    files = sorted(it for it in pathlib.Path(".").rglob("*") if it.is_file())
    return [(str(it), hashlib.sha256(it.read_bytes()).hexdigest()) for it in files]


def file_alone_after_each_command():
    create("alone.db")
    for ply in (1, 2):
        move("alone.db", ply)
        shutil.copyfile("alone.db", f"alone{ply}.db")
        check(f"the database file without its log holds the club after ply {ply}",
              read_tables("alone.db"), read_tables(f"alone{ply}.db"))
        check(f"a copy of the file alone is sound after ply {ply}", (0, "sound"), club(f"alone{ply}.db", "verify"))
        expected = (0, f"accepted ply {ply + 1} {DRAUGHTS_MOVES[ply]}")
        check(f"the copy of ply {ply} accepts the next move", expected, move(f"alone{ply}.db", ply + 1))


def empty_log(file):
    """An earlier version of the program left the log, or a server."""
    pathlib.Path(f"{file}-wal").touch(0o600)
    club(file, "sweep")


def read_by_sqlite(file):
    """Another program reads the file last."""
    with contextlib.closing(sqlite3.connect(file)) as found:
        found.execute("SELECT count(*) FROM moves").fetchall()


STATES = {"an empty log": empty_log, "no log": lambda file: None, "the log as sqlite3 leaves it": read_by_sqlite}


def restore(method, state):
    """A backup is restored over a club that has changed since."""
    file, name = "club.db", f"a backup by {method} restored over {state}"
    create(file)
    move(file, 1)
    before = read_tables(file)
    METHODS[method](file, "back.db")
    move(file, 2)
    move(file, 3)
    STATES[state](file)
    (os.replace if method.startswith("mv") else shutil.copyfile)("back.db", file)
    check(f"{name} is sound", (0, "sound"), club(file, "verify"))
    check(f"{name} has the rows of the backup", before, read_tables(file))
    check(f"{name} accepts the next move", (0, "accepted ply 2 19-23"), move(file, 2))
    with contextlib.closing(sqlite3.connect(file)) as found:
        check(f"{name} passes the integrity check of sqlite3",
              [("ok",)], found.execute("PRAGMA integrity_check").fetchall())
    for left in [*pathlib.Path(".").glob("club.db*"), *pathlib.Path(".").glob("back.db*")]:
        left.unlink()


def only_init_makes_a_file():
    before = folder_content()
    for words in ("member anna keyanna1", "verify", "move 1 1 32-28", "sweep", "export 1", "serve 1"):
        check(f"`{words}` without a file is fault 70", (3, "store 70 Foreign"), club("nothing.db", *words.split()))
    check("`verify` in a folder that does not exist is fault 73", (3, "store 73 Store"), club("nowhere/c.db", "verify"))
    check("`init` in a folder that does not exist is fault 73", (3, "store 73 Store"), club("nowhere/c.db", "init"))
    check("commands that fail create no file", before, folder_content())


def other_files_are_unchanged():
    pathlib.Path("notes.txt").write_text("Notes of the club, of more than sixteen letters.\n")
    pathlib.Path("short").write_text("x")
    pathlib.Path("empty.db").write_text("")
    os.mkdir("folder")
    os.symlink("gone.db", "link.db")
    before = folder_content()
    faults = {"notes.txt": "73 Store", "short": "73 Store", "folder": "73 Store", "link.db": "70 Foreign"}
    for file, fault in faults.items():
        check(f"`verify` of {file}, which is no database, is fault {fault}",
              (3, f"store {fault}"), club(file, "verify"))
    check("`verify` of an empty file is fault 70", (3, "store 70 Foreign"), club("empty.db", "verify"))
    check("`init` over a text file is fault 73", (3, "store 73 Store"), club("notes.txt", "init"))
    check("files that are no databases are unchanged", before, folder_content())
    check("`init` over an empty file creates a club", (0, "ready"), club("empty.db", "init"))


def other_databases_are_unchanged():
    """A database without the tables of a club is not changed. A club may have any page size."""
    made = {}
    for mode in ("delete", "wal"):
        for size in (512, 4096, 65536):
            file = f"{mode}{size}.db"
            with contextlib.closing(sqlite3.connect(file, isolation_level=None)) as found:
                found.execute(f"PRAGMA page_size = {size}")
                found.execute(f"PRAGMA journal_mode = {mode}")
                found.execute("CREATE TABLE members (id INTEGER PRIMARY KEY, title TEXT)")
                found.execute("INSERT INTO members (title) VALUES ('a song')")
            made[file] = found
    before = folder_content()
    for file in made:
        for words in ("verify", "member anna keyanna1", "export 1", "serve 1"):
            check(f"`{words}` over a foreign database ({file}) is fault 70",
                  (3, "store 70 Foreign"), club(file, *words.split()))
    check("foreign databases are unchanged", before, folder_content())
    check("`init` beside a foreign table of a name that a club needs is fault 70",
          (3, "store 70 Foreign"), club("delete4096.db", "init"))
    with contextlib.closing(sqlite3.connect("delete4096.db")) as found, found:
        found.execute("ALTER TABLE members RENAME TO songs")
    check("`init` beside foreign tables of other names creates a club", (0, "ready"), club("delete4096.db", "init"))
    check("a club beside foreign tables is sound", (0, "sound"), club("delete4096.db", "verify"))
    create("pages.db")
    for size in (512, 1024, 65536):
        with contextlib.closing(sqlite3.connect("pages.db")) as found:
            found.execute(f"PRAGMA page_size = {size}")
            found.execute("VACUUM INTO ?", (f"club{size}.db",))
        check(f"a club with pages of {size} bytes is sound", (0, "sound"), club(f"club{size}.db", "verify"))


# A part of a table's CREATE statement, what another program wrote in its place, and further statements of it
INCOMPATIBLE = {
    "a key without regard to case": ("games", "key TEXT UNIQUE", "key TEXT COLLATE NOCASE UNIQUE", ""),
    "names without regard to case": ("members", "name TEXT", "name TEXT COLLATE NOCASE", ""),
    "texts without regard to spaces": ("moves", "text TEXT", "text TEXT COLLATE RTRIM", ""),
    "a CHECK of a column": ("members", "id INTEGER PRIMARY KEY", "id INTEGER PRIMARY KEY CHECK (id < 3)", ""),
    "a CHECK of the table": ("events", ") STRICT", ", CHECK (budget < 90000)) STRICT", ""),
    "a key that is not unique": ("members", "key TEXT NOT NULL UNIQUE", "key TEXT NOT NULL", ""),
    "a missing key": ("moves", ", PRIMARY KEY (game, ply)", "", ""),
    "a key of fewer columns": ("moves", "(game, ply)", "(game)", ""),
    "a key of more columns": ("challenges", "(member, number)", "(member, number, event)", ""),
    "a key of a part of the rows": (
        "members", "name TEXT NOT NULL UNIQUE", "name TEXT NOT NULL",
        "CREATE UNIQUE INDEX more ON members (name) WHERE id > 1"),
    "rows that another column numbers": (
        "seen", "count INTEGER NOT NULL, first_ply INTEGER NOT NULL, PRIMARY KEY",
        "count INTEGER PRIMARY KEY, first_ply INTEGER NOT NULL, UNIQUE", ""),
    "rows that no column numbers": ("members", "id INTEGER PRIMARY KEY", "id INT PRIMARY KEY", ""),
    "rows without numbers": ("scores", " STRICT", " WITHOUT ROWID", ""),
    "a column that hides the numbers of rows": ("challenges", "game INTEGER,", "game INTEGER, rowid TEXT,", ""),
    "a missing NOT NULL": ("moves", "text TEXT NOT NULL", "text TEXT", ""),
    "an additional NOT NULL": ("games", "key TEXT UNIQUE", "key TEXT NOT NULL UNIQUE", ""),
    "an additional UNIQUE": ("games", "", "", "CREATE UNIQUE INDEX more ON games (event)"),
    "UNIQUE without regard to case": ("members", "", "", "CREATE UNIQUE INDEX more ON members (name COLLATE NOCASE)"),
    "a foreign key": ("seen", "game INTEGER", "game INTEGER REFERENCES games (id)", ""),
    "a name with the affinity of a number": (
        "members", "name TEXT NOT NULL UNIQUE, key TEXT NOT NULL UNIQUE) STRICT",
        "name INT NOT NULL UNIQUE, key TEXT NOT NULL UNIQUE)", ""),
    "a budget with the affinity of a float": ("events", "budget INTEGER", "budget REAL", ""),
    "a generated column": ("members", "name TEXT", "more TEXT AS (name), name TEXT", ""),
    "a further column with NOT NULL": ("challenges", "game INTEGER,", "game INTEGER, notes TEXT NOT NULL,", ""),
    "a further column whose default is refused": (
        "challenges", "game INTEGER,", "game INTEGER, notes INTEGER DEFAULT 'none',", ""),
    "a further column whose default may fail": (
        "challenges", "game INTEGER,", "game INTEGER, notes INTEGER DEFAULT (abs(-9223372036854775807 - 1)),", ""),
    "a trigger": ("seen", "", "", "CREATE TRIGGER more AFTER INSERT ON moves BEGIN DELETE FROM seen; END"),
    "a view": (
        "seen", "", "", "ALTER TABLE scores RENAME TO kept; CREATE VIEW scores AS SELECT * FROM kept"),
    "a missing table": ("seen", "", "", "DROP TABLE event_rules"),
}
COMPATIBLE = {
    "tables that are not strict": ("members", " STRICT", "", ""),
    "types of other names": (
        "members", "name TEXT NOT NULL UNIQUE, key TEXT NOT NULL UNIQUE) STRICT",
        "name VARCHAR(30) NOT NULL UNIQUE, key CLOB NOT NULL UNIQUE)", ""),
    "numbers of other names": (
        "meta", "schema INTEGER NOT NULL, last INTEGER NOT NULL) STRICT",
        "schema INT NOT NULL, last NUMERIC NOT NULL)", ""),
    "no names of types": ("members", "name TEXT NOT NULL UNIQUE, key TEXT", "name ANY NOT NULL UNIQUE, key ANY", ""),
    "names in capitals": ("members", "name TEXT", "NAME TEXT", ""),
    "words of a column in another order": ("members", "name TEXT NOT NULL UNIQUE", "name TEXT UNIQUE NOT NULL", ""),
    "columns in another order": ("seen", "count INTEGER NOT NULL, first_ply", "first_ply INTEGER NOT NULL, count", ""),
    "a key in another order": ("moves", "(game, ply)", "(ply, game)", ""),
    "a key that descends": ("moves", "(game, ply)", "(game, ply DESC)", ""),
    "a key by an index": (
        "moves", ", PRIMARY KEY (game, ply)", "", "CREATE UNIQUE INDEX more ON moves (game, ply)"),
    "a further index": ("moves", "", "", "CREATE INDEX more ON moves (text)"),
    "a further index without regard to case": ("moves", "", "", "CREATE INDEX more ON moves (text COLLATE NOCASE)"),
    "a further unique index that refuses no row": (
        "members", "", "", "CREATE UNIQUE INDEX more ON members (key, id); CREATE UNIQUE INDEX most ON members (id)"),
    "a further column": ("members", "key TEXT NOT NULL UNIQUE", "key TEXT NOT NULL UNIQUE, notes TEXT", ""),
    "a further column with a default": (
        "moves", "position TEXT NOT NULL", "position TEXT NOT NULL, notes TEXT NOT NULL DEFAULT ''", ""),
    "a default of a column of ours": ("games", "since INTEGER NOT NULL", "since INTEGER NOT NULL DEFAULT 0", ""),
    "a key with another answer to a conflict, which the program does not give": (
        "members", "key TEXT NOT NULL UNIQUE", "key TEXT NOT NULL UNIQUE ON CONFLICT REPLACE", ""),
    "a further table that refers to ours": (
        "members", "", "", "CREATE TABLE more (member INTEGER REFERENCES members (id))"),
}


def recreate_table(table, old, new, further):
    """A club with a game, one of whose tables is created again by another statement, with the same rows."""
    create("remade.db")
    with contextlib.closing(sqlite3.connect("remade.db", isolation_level=None)) as found:
        (text,) = found.execute("SELECT sql FROM sqlite_schema WHERE name = ?", (table,)).fetchone()
        assert old in text, old
        columns = ", ".join(row[1] for row in found.execute(f"PRAGMA table_info({table})"))
        found.execute(f"ALTER TABLE {table} RENAME TO old")
        found.execute(text.replace(old, new, 1) if old else text)
        found.execute(f"INSERT INTO {table} ({columns}) SELECT {columns} FROM old")
        found.execute("DROP TABLE old")
        found.executescript(further)
    file = "another.db"
    for end in ("", "-wal"):
        pathlib.Path(file + end).unlink(missing_ok=True)
    shutil.move("remade.db", file)
    pathlib.Path("remade.db-wal").unlink(missing_ok=True)
    return file


def tables_of_other_statements():
    """Tables that another program created are accepted if they behave as those of a club; else they are foreign."""
    for name, made in INCOMPATIBLE.items():
        file = recreate_table(*made)
        before = read_tables(file)
        check(f"`verify` over {name} is fault 70", (3, "store 70 Foreign"), club(file, "verify"))
        check(f"a move over {name} is fault 70", (3, "store 70 Foreign"), move(file, 1))
        check(f"rows over {name} are unchanged", before, read_tables(file))
    for name, made in COMPATIBLE.items():
        file = recreate_table(*made)
        check(f"a club over {name} is sound", (0, "sound"), club(file, "verify"))
        check(f"a member is accepted over {name}", (0, "accepted member 3"), club(file, "member", "cora", "keycora33"))
        check(f"a move is accepted over {name}", (0, "accepted ply 1 32-28"), move(file, 1))


def read_notes(file):
    """The rows of the foreign table."""
    with contextlib.closing(sqlite3.connect(file)) as found:
        return found.execute("SELECT id, text, member FROM notes ORDER BY id").fetchall()


NOTE_ROWS = [(1, "pays in May", 1), (2, "", 2)]
NOTES = "CREATE TABLE notes (id INTEGER PRIMARY KEY AUTOINCREMENT, text TEXT, member INTEGER)"


def create_notes(found):
    """A foreign table with AUTOINCREMENT, an index on it and a view."""
    found.execute(NOTES)
    found.executemany("INSERT INTO notes VALUES (?, ?, ?)", NOTE_ROWS)
    found.execute("CREATE INDEX notes_of ON notes (member)")
    found.execute("CREATE VIEW long_notes AS SELECT text FROM notes WHERE length(text) > 5")


def after_foreign_tables(file):
    """`init` creates the club after the foreign tables."""
    with contextlib.closing(sqlite3.connect(file, isolation_level=None)) as found:
        create_notes(found)
    create(file)


def before_foreign_tables(file):
    """The foreign tables are created after those of the club, with an index on one of the club's."""
    create(file)
    with contextlib.closing(sqlite3.connect(file, isolation_level=None)) as found:
        create_notes(found)
        found.execute("CREATE INDEX games_of ON games (event)")


def among_foreign_tables(file):
    """The tables of the club are in another order, with foreign ones among them."""
    create("made.db")
    with contextlib.closing(sqlite3.connect(file, isolation_level=None)) as found:
        found.execute("ATTACH 'made.db' AS made")
        for at, table in enumerate(reversed(TABLES)):
            if at == 4:
                create_notes(found)
            (text,) = found.execute("SELECT sql FROM made.sqlite_schema WHERE name = ?", (table,)).fetchone()
            found.execute(text)
            found.execute(f"INSERT INTO {table} SELECT * FROM made.{table}")
    for end in ("", "-wal"):
        pathlib.Path("made.db" + end).unlink(missing_ok=True)


def beside_foreign_tables():
    """Wherever the tables of a club are among foreign ones, the club works, and the foreign rows stay."""
    for make in (after_foreign_tables, before_foreign_tables, among_foreign_tables):
        name, file = f"a club {make.__name__.replace('_', ' ')}", f"{make.__name__}.db"
        make(file)
        check(f"{name} is sound", (0, "sound"), club(file, "verify"))
        check(f"{name} accepts a move", (0, "accepted ply 1 32-28"), move(file, 1))
        check(f"{name} repeats the move", (0, "repeated ply 1 32-28"), move(file, 1))
        check(f"{name} accepts a member", (0, "accepted member 3"), club(file, "member", "cora", "keycora33"))
        with serve(file, now=None) as server:
            check(f"{name} is served", (200, True), shows_move(server))
        check(f"`init` over {name} is fault 70", (3, "store 70 Foreign"), club(file, "init"))
        check(f"{name} keeps the foreign rows", NOTE_ROWS, read_notes(file))
        check(f"{name} is backed up", (0, "copied"), club(file, "backup", f"of_{file}"))
        check(f"the backup of {name} is sound", (0, "sound"), club(f"of_{file}", "verify"))
        with contextlib.closing(sqlite3.connect(f"of_{file}")) as found:
            names = {it for (it,) in found.execute("SELECT name FROM sqlite_schema WHERE sql IS NOT NULL")}
        check(f"the backup of {name} has no foreign table", set(TABLES), names)
        with contextlib.closing(sqlite3.connect(file, isolation_level=None)) as found:
            found.execute("UPDATE members SET name = 'A b' WHERE id = 1")
        check(f"{name} with a damaged table is fault 72", (3, "store 72 Damaged members"), club(file, "verify"))


def log_has_mode_of_file():
    """The log is created with the mode of the file."""
    create("group.db")
    os.chmod("group.db", 0o660)
    with serve("group.db") as server:
        server.show()
        check("the log has the mode of the file", "660", f"{os.stat('group.db-wal').st_mode & 0o777:o}")
    check("only the owner may read a new file", "600", f"{os.stat('alone.db').st_mode & 0o777:o}")


def logs():
    return sorted(str(it) for it in pathlib.Path(".").glob("rest*-wal"))


def damaged(file, statements):
    """A copy of rest.db that another program has changed."""
    shutil.copyfile("rest.db", file)
    with contextlib.closing(sqlite3.connect(file, isolation_level=None)) as found:
        found.executescript(statements)
    return file


def no_log_is_left():
    """Behind a file that had no log no command leaves one: not after a refusal or a fault, and none beside a copy."""
    create("rest.db")
    pathlib.Path("game.pdn").write_text('[Result "0-2"]\n1. 32-28 19-23\n0-2\n')
    pathlib.Path("rest_orders").write_text("".join(f"member r{it} keymember{it}\n" for it in range(200)) + "sweep\n")
    for status, *words in (
            (0, "verify"), (0, "members"), (0, "show", "1"), (1, "show", "9"), (0, "move", "1", "1", "32-28"),
            (1, "move", "1", "2", "1-50"), (0, "import-pdn", "old", "cup", "bert", "anna", "game.pdn"), (0, "sweep"),
            (0, "round-robin", "r", "cup", "anna", "bert"), (1, "batch", "rest_orders"), (0, "upgrade"), (3, "init"),
            (0, "export-event", "cup"), (0, "backup", "rest_copy.db"), (3, "backup", "rest_copy.db")):
        check(f"`{' '.join(words)}` leaves no log", (status, []), (club("rest.db", *words)[0], logs()))
    for words in ("verify",), ("member", "late", "keymember"), ("upgrade",), ("backup", "rest_none.db"):
        for file in (damaged("rest_72.db", "UPDATE members SET key = 'short' WHERE id = 1"),
                     damaged("rest_70.db", "DROP TABLE seen"), damaged("rest_73.db", "PRAGMA foreign_keys = off;"
                     "CREATE TABLE mine (of INTEGER REFERENCES members); INSERT INTO mine VALUES (999)")):
            check(f"`{words[0]}` of {file} leaves no log", (3, f"store {file[5:7]}", []),
                  (*(lambda it: (it[0], it[1][:8]))(club(file, *words)), logs()))
    os.symlink("rest.db", "rest_link.db")
    check("a command through a link leaves no log", (0, []), (club("rest_link.db", "sweep")[0], logs()))
    os.remove("rest_copy.db")
    check("the name of a backup can be used again", [(0, "copied"), (0, "sound"), (0, "copied")], [
        club("rest.db", "backup", "rest_copy.db"), club("rest_copy.db", "verify"),
        (os.remove("rest_copy.db"), club("rest.db", "backup", "rest_copy.db"))[1]])
    check("a file without a log has each command", (0, "sound"), club("rest.db", "verify"))
    size = os.path.getsize("rest.db")
    said = club("rest.db", "backup", "rest_full.db", preexec_fn=limit_files_to(size // 2))
    check("a backup that does not fit leaves no log", ((3, "store 77 Output"), []), (said, logs()))
    pathlib.Path("rest.db-wal").touch(0o600)
    check("a log that was there stays", (0, ["rest.db-wal"]), (club("rest.db", "sweep")[0], logs()))
    os.remove("rest.db-wal")


def server_leaves_no_log():
    """A server that ends by itself, or gives its file up, leaves no log behind a file that had none."""
    create("rest_served.db")
    with serve("rest_served.db", "--count", "2", now=1000) as server:
        check("a served move is accepted", (200, 200), (server.move(1)[0], server.show()[0]))
        check("the server ends after two connections", 0, server.process.wait(WAIT))
    check("a server that has ended leaves no log", [], logs())
    check("the move is in the file alone", (0, "accepted ply 2 19-23"), club("rest_served.db", "move", "1", "2", "19-23"))
    with serve("rest_served.db", now=1000) as server:
        server.show()
        check("a server that holds the file has a log", ["rest_served.db-wal"], logs())
        server.release("rest_served.db")
        check("a server that has given the file up leaves no log", [], logs())
    pathlib.Path("rest_served.db-wal").touch(0o600)
    with serve("rest_served.db", "--count", "1", now=1000) as server:
        check("a game is shown beside a log that was there", 200, server.show()[0])
        server.process.wait(WAIT)
    check("a server leaves a log that was there", ["rest_served.db-wal"], logs())
    os.remove("rest_served.db-wal")


def shows_move(server):
    """The status of the reply that shows the game, and whether its first move is there."""
    code, text = server.show()
    return code, "32-28" in text


def move_away_while_served():
    create("away.db")
    move("away.db", 1)
    with serve("away.db", now=None) as server:
        check("the server shows the game before its file is moved", (200, True), shows_move(server))
        server.release("away.db")
        os.replace("away.db", "aside.db")
        check("a file that was moved away is fault 70", unavailable(70), server.show())
        check("no file is created in its place", False, os.path.exists("away.db") or os.path.exists("away.db-wal"))
        os.replace("aside.db", "away.db")
        time.sleep(2.5)  # the server tries the file again
        check("the server shows the game once the file is back", (200, True), shows_move(server))


def main():
    with tempfile.TemporaryDirectory() as folder, contextlib.chdir(folder):
        file_alone_after_each_command()
        for method in METHODS:
            for state in STATES:
                restore(method, state)
        only_init_makes_a_file()
        other_files_are_unchanged()
        other_databases_are_unchanged()
        tables_of_other_statements()
        beside_foreign_tables()
        log_has_mode_of_file()
        no_log_is_left()
        server_leaves_no_log()
        move_away_while_served()
    return exit_status()


if __name__ == "__main__":
    sys.exit(main())
