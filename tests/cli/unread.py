#!/usr/bin/env python3
"""Tests which files with features of other programs are opened, and that --explain names what is not read.

    python3 tests/cli/unread.py

`sqlite3` puts each feature beside a club. What it does not touch is passed over where the kit can; else the file is not
opened, fault 73, and the explanation names the object or the feature. Nothing is changed, and no log is left.
"""
import contextlib
import hashlib
import pathlib
import shutil
import sqlite3
import struct
import subprocess
import sys
import tempfile

sys.path[0] = str(pathlib.Path(__file__).resolve().parents[1])
from lib.club import FAST, PROGRAM, WAIT, create
from lib.report import check, exit_status, skip

OBJECT = "FILE has{}, which this program does not read: remove it, or keep it in a file of its own"
RULES = ("rows of a table break its rules, or are older than a column with a default: 'PRAGMA foreign_key_check' and "
         "'PRAGMA integrity_check' of sqlite3 name the former, and an UPDATE of the column helps the latter")
UTF_16 = "the texts of FILE are in UTF-16: copy them into a database in UTF-8"
AUTO_VACUUM = ("FILE has auto_vacuum, which this program does not read: in sqlite3 give 'PRAGMA auto_vacuum = 0' and "
               "'VACUUM'")
RESERVED = "FILE has reserved bytes in its pages, which this program does not read: copy its tables into another database"
MALFORMED = ("FILE is damaged, or has an object that this program does not read: 'PRAGMA integrity_check' of sqlite3 says "
             "what is damaged")
# What sqlite3 is given, and what the explanation names.
UNREAD = {
    "CREATE VIRTUAL TABLE notes USING fts5 (body)": " the virtual table notes",
    "CREATE VIRTUAL TABLE boxes USING rtree (id, low, high)": " the virtual table boxes",
    "CREATE VIEW ranked AS SELECT name, row_number() OVER (ORDER BY id) FROM members": " the view ranked",
    "CREATE VIEW some AS SELECT count(*) FILTER (WHERE id > 1) FROM members": " the view some",
    "CREATE VIEW names AS SELECT name FROM members;"
    "CREATE TRIGGER enters INSTEAD OF INSERT ON names BEGIN SELECT 1; END": " the trigger on a view enters",
    "CREATE TABLE log (x); CREATE TRIGGER log AFTER INSERT ON log BEGIN DELETE FROM log; END":
        ", with the name of a table or a view, the trigger log",
    "CREATE TABLE log (x); CREATE VIEW seen_by AS SELECT 1;"
    "CREATE TRIGGER seen_by AFTER INSERT ON log BEGIN DELETE FROM log; END":
        ", with the name of a table or a view, the trigger seen_by",
    'CREATE VIEW "two\nlines" AS SELECT id, row_number() OVER () FROM members': " the view two?lines",
}
BROKEN = {
    "a foreign key of ours that is not met": "CREATE TABLE n (m REFERENCES members (id)); INSERT INTO n VALUES (99)",
    "a foreign key of others that is not met":
        "CREATE TABLE p (id INTEGER PRIMARY KEY); CREATE TABLE n (m REFERENCES p (id)); INSERT INTO n VALUES (9)",
    "a row that breaks a CHECK":
        "PRAGMA ignore_check_constraints = 1; CREATE TABLE x (a CHECK (a > 0)); INSERT INTO x VALUES (-1)",
    "rows older than a column with a default":
        "CREATE TABLE x (a); INSERT INTO x VALUES (1); ALTER TABLE x ADD COLUMN b DEFAULT 5",
    "members older than a column with a default": "ALTER TABLE members ADD COLUMN notes TEXT DEFAULT 'none'",
}
PASSED_OVER = [
    "CREATE VIEW v AS SELECT name FROM members", "CREATE VIEW v AS SELECT json_extract(name, '$') FROM members",
    "CREATE VIEW v AS SELECT other(name) FROM members", "CREATE TABLE g (a INTEGER, b AS (a + 1)); INSERT INTO g VALUES (1)",
    "CREATE TABLE w (a TEXT PRIMARY KEY) WITHOUT ROWID; INSERT INTO w VALUES ('x')",
    "CREATE TABLE x (a); CREATE INDEX xi ON x (lower(a)); INSERT INTO x VALUES ('B'), ('a')",
    "CREATE TABLE x (a); CREATE INDEX xi ON x (a) WHERE a > 1; INSERT INTO x VALUES (1), (2)",
    "CREATE TABLE x (a CHECK (json_valid(a))); INSERT INTO x VALUES ('{}')",
    "CREATE TABLE log (x); CREATE TRIGGER t AFTER INSERT ON log BEGIN DELETE FROM log; END",
    "CREATE TABLE n (m REFERENCES members (id)); INSERT INTO n VALUES (1)",
    "CREATE TABLE n (m REFERENCES nowhere (id))", "CREATE TABLE x (a); INSERT INTO x VALUES (1); ALTER TABLE x ADD COLUMN b",
    "ALTER TABLE members ADD COLUMN notes TEXT", "ANALYZE", "PRAGMA user_version = 7", "PRAGMA application_id = 7",
    "CREATE TABLE x (id INTEGER PRIMARY KEY AUTOINCREMENT); INSERT INTO x DEFAULT VALUES",
]


def explain(*words):
    ran = subprocess.run([PROGRAM, "--explain", "--now", "1000", "t.db", *words], capture_output=True, text=True,
                         timeout=WAIT, check=False)
    return ran.returncode, ran.stdout, ran.stderr


def give(statements, file="t.db"):
    """A copy of the club in which sqlite3 executes statements; whether it can."""
    shutil.copyfile("c.db", file)
    with contextlib.closing(sqlite3.connect(file, isolation_level=None)) as database:
        try:
            database.executescript(statements)
        except sqlite3.OperationalError as error:
            return "no such module" not in str(error)
    return True


def digest(file):
    return hashlib.sha256(pathlib.Path(file).read_bytes()).hexdigest()


def is_refused(name, line):
    """The file is refused with this explanation, and is as it was."""
    before = digest("t.db")
    expected = 3, "", f"store 73 Store\n{line}\n"
    check(name, ([expected] * 2, before, []),
          ([explain("verify"), explain("member", "late", "keymember")], digest("t.db"),
           [it.name for it in pathlib.Path(".").glob("t.db-*")]))


def objects():
    for statements, named in UNREAD.items():
        if not give(statements):
            skip(f"a file with {named.strip(', ')} is not opened", "sqlite3 has no such module")
            continue
        is_refused(f"a file with {named.strip(', ')} is not opened, and it is named", OBJECT.format(named))
    for name, statements in BROKEN.items():
        give(statements)
        is_refused(f"a file with {name} is not opened", RULES)
    give(BROKEN["members older than a column with a default"])
    with contextlib.closing(sqlite3.connect("t.db", isolation_level=None)) as database:
        database.execute("UPDATE members SET notes = notes")
    check("an UPDATE of the column helps", (0, "sound\n", ""), explain("verify"))
    for statements in PASSED_OVER:
        give(statements)
        check(f"a club beside `{statements}` is sound", (0, "sound\n", ""), explain("verify"))


def dumped(*pragmas):
    """The club's tables in a new file with these settings."""
    pathlib.Path("t.db").unlink(missing_ok=True)
    with contextlib.closing(sqlite3.connect("t.db", isolation_level=None)) as database, \
            contextlib.closing(sqlite3.connect("c.db")) as source:
        for pragma in pragmas:
            database.execute(pragma)
        for line in source.iterdump():
            database.execute(line)


def whole_files():
    for encoding in "UTF-16le", "UTF-16be":
        dumped(f"PRAGMA encoding = '{encoding}'")
        is_refused(f"a file with texts in {encoding} is not opened", UTF_16)
    for mode in 1, 2:
        dumped(f"PRAGMA auto_vacuum = {mode}")
        is_refused(f"a file with auto_vacuum {mode} is not opened", AUTO_VACUUM)
    with contextlib.closing(sqlite3.connect("t.db", isolation_level=None)) as database:
        database.execute("PRAGMA auto_vacuum = 0")
        database.execute("VACUUM")
    check("without auto_vacuum it is opened", (0, "sound\n", ""), explain("verify"))
    if shutil.which("sqlite3"):
        pathlib.Path("t.db").unlink()
        subprocess.run(["sqlite3", "t.db", ".filectrl reserve_bytes 16", "CREATE TABLE x (a)"], capture_output=True,
                       timeout=WAIT, check=False)
        script = "\n".join(it for it in sqlite3.connect("c.db").iterdump())
        subprocess.run(["sqlite3", "t.db"], input=script, text=True, capture_output=True, timeout=WAIT, check=False)
        if pathlib.Path("t.db").read_bytes()[20]:
            is_refused("a file with reserved bytes is not opened", RESERVED)
        else:
            skip("a file with reserved bytes is not opened", "this sqlite3 reserves none")
    shutil.copyfile("c.db", "t.db")
    with open("t.db", "r+b") as file:
        size = struct.unpack(">H", file.read(18)[16:])[0]
        file.seek(2 * size)
        file.write(b"\xff" * 64)
    is_refused("a file with a damaged page is not opened", MALFORMED)


if __name__ == "__main__":
    with tempfile.TemporaryDirectory(dir=FAST) as folder, contextlib.chdir(folder):
        create("c.db")
        objects()
        whole_files()
    sys.exit(exit_status())
