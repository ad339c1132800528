#!/usr/bin/env python3
"""Tests `backup`: the copy, the club, what is in the way of a copy, and repairs after a wrong clock.

    python3 tests/cli/backup.py

The copy must be the whole club in one file that only its owner may read, without a log; the club must be unchanged,
byte for byte. If anything is at the path of the copy, or the copy cannot be created or written, that is fault 77, and
what was there is unchanged. The repairs are the commands that docs/operating.md shows.
"""
import contextlib
import hashlib
import os
import pathlib
import re
import shutil
import sqlite3
import stat
import subprocess
import sys
import tempfile
import time

sys.path[0] = str(pathlib.Path(__file__).resolve().parents[1])
from lib.club import (
    DRAUGHTS_MOVES, FAST, PROGRAM, TOP, TWO_MEMBERS, WAIT, club, copy_of, limit_files_to, read_tables,
)
from lib.report import check, exit_status, skip
from lib.server import serve

ORDERS = [*TWO_MEMBERS, "event cup draughts 86400 0", "event fuji shogi 86400 60", "seat g cup anna bert",
          "seat h fuji bert anna", "move 2 1 7g7f",
          *(f"move 1 {ply} {text}" for ply, text in enumerate(DRAUGHTS_MOVES, 1))]
NO_COPY = (3, "store 77 Output")
LOG_HEADER = 32  # bytes of a write-ahead log before its first frame
LINE = "FILE2 must be a new name, not that of a log, in a folder that can be written and has room"


def create(file="c.db"):
    """A club with running games and an ended one."""
    for words in ORDERS:
        assert club(file, *words.split())[0] == 0, words
    pathlib.Path("game.pdn").write_text('[Result "0-2"]\n1. 32-28 19-23\n0-2\n')
    assert club(file, "import-pdn", "old", "cup", "bert", "anna", "game.pdn")[0] == 0


def rows(file):
    """All rows of a database, and the result of its integrity check."""
    with copy_of(file) as database:
        integrity = database.execute("PRAGMA integrity_check").fetchall()
    return read_tables(file), integrity


def folder_content():
    """The folder: files with their hash, links with their target, else names; the log, which each command begins anew,
    by its name."""
    found = {}
    for it in sorted(pathlib.Path(".").rglob("*")):
        if it.is_symlink():
            found[str(it)] = "link", os.readlink(it)
        elif it.is_file() and str(it) != "c.db-wal":
            found[str(it)] = "file", hashlib.sha256(it.read_bytes()).hexdigest()
        else:
            found[str(it)] = "other", ""
    return found


def mode(file):
    return oct(stat.S_IMODE(os.stat(file).st_mode))


def whole_copy():
    before, expected = folder_content(), rows("c.db")
    check("`backup` copies a club", (0, "copied"), club("c.db", "backup", "copy.db"))
    after = folder_content()
    check("a backup creates one file", {"copy.db"}, set(after) - set(before))
    check("a backup leaves all other files unchanged", before, {it: held for it, held in after.items() if it in before})
    check("only the owner may read a copy", "0o600", mode("copy.db"))
    check("a copy has the rows of all tables", expected, rows("copy.db"))
    check("the copied tables are not empty", [True] * len(expected[0]),
            [bool(held) or it in ("challenges", "event_rules") for it, held in expected[0].items()])
    check("a copy is sound", (0, "sound"), club("copy.db", "verify"))
    check("a copy lists the games of the club", club("c.db", "games"), club("copy.db", "games"))
    check("a copy accepts the next move", (0, "accepted ply 7 41-37"), club("copy.db", "move", "1", "7", "41-37"))
    check("a move in a copy does not change the club", expected, rows("c.db"))
    check("a copy can be backed up", (0, "copied"), club("copy.db", "backup", "again.db"))
    check("the copy of a copy has its rows", rows("copy.db"), rows("again.db"))


def other_paths():
    os.mkdir("inner")
    os.symlink("inner", "linked")
    expected = rows("c.db")
    for path in ("inner/copy.db", "linked/other.db", os.path.abspath("inner/third.db"), "inner/a name", "inner/-odd"):
        check(f"`backup` writes to {os.path.basename(path)}", (0, "copied"), club("c.db", "backup", path))
        check(f"the copy {os.path.basename(path)} has the rows and no log",
              (expected, False), (rows(path), os.path.lexists(f"{path}-wal")))
    check("`backup` takes a timestamp", (0, "copied"), club("c.db", "backup", "inner/later.db"))
    os.symlink("c.db", "link.db")
    check("`backup` copies a club behind a symbolic link", (0, "copied"), club("link.db", "backup", "inner/behind.db"))
    check("the copy of a linked club has its rows", expected, rows("inner/behind.db"))


def existing_paths():
    pathlib.Path("full.db").write_text("Notes of the club.\n")
    pathlib.Path("empty.db").write_text("")
    club("other.db", "init")
    os.mkdir("room")
    os.symlink("gone.db", "nowhere.db")
    os.symlink("full.db", "somewhere.db")
    for end in ("-wal", "-journal"):
        pathlib.Path(f"logged{end}.db{end}").write_text("")
        os.symlink("gone", f"linked{end}.db{end}")
    os.mkfifo("pipe.db")
    paths = ["c.db", "./c.db", "full.db", "empty.db", "other.db", "room", "nowhere.db", "somewhere.db", "pipe.db",
             "c.db-wal", "logged-wal.db", "logged-journal.db", "linked-wal.db", "linked-journal.db", "c.db-journal",
             "new.db-wal", "new.db-journal", "none/copy.db", "full.db/copy.db", "room/", "", ":memory:", "file:new.db",
             "n" * 256, "n" * 253]
    before = folder_content()
    for path in paths:
        name = repr(path) if len(path) < 20 else f"a name of {len(path)} letters"
        check(f"`backup` to {name} is fault 77", NO_COPY, club("c.db", "backup", path))
    check("a backup that fails changes no file", before, folder_content())
    check("the second backup to a path is fault 77", [(0, "copied"), NO_COPY],
            [club("c.db", "backup", "twice.db"), club("c.db", "backup", "twice.db")])
    check("the second backup leaves the first unchanged", rows("c.db"), rows("twice.db"))


def folders_without_permission():
    """A folder that may not be written in. Root may write everywhere, so that is not tested as root."""
    os.mkdir("closed", 0o500)
    if os.access("closed", os.W_OK):
        check("`backup` to a folder that takes no files is fault 77", NO_COPY, club("c.db", "backup", "/proc/copy.db"))
    else:
        check("`backup` to a folder without write permission is fault 77",
              NO_COPY, club("c.db", "backup", "closed/copy.db"))
    check("a folder without write permission stays empty", [], os.listdir("closed"))


def no_club():
    """What is no club of this schema has the fault of every command, and no copy is created."""
    shutil.copyfile("c.db", "bad.db")
    with contextlib.closing(sqlite3.connect("bad.db")) as found, found:
        found.execute("UPDATE scores SET points = points + 1")
    for end in ("-wal", "-shm"):
        with contextlib.suppress(FileNotFoundError):
            os.remove(f"bad.db{end}")
    pathlib.Path("text").write_text("Notes of the club, of more than sixteen letters.\n")
    before = folder_content()
    check("`backup` of a missing file is fault 70", (3, "store 70 Foreign"), club("gone.db", "backup", "no.db"))
    check("`backup` of an empty file is fault 70", (3, "store 70 Foreign"), club("empty.db", "backup", "no.db"))
    check("`backup` of a text file is fault 73", (3, "store 73 Store"), club("text", "backup", "no.db"))
    check("a backup of no club creates no file", before, folder_content())
    check("`backup` of a damaged club is the fault of `verify`",
          club("bad.db", "verify"), club("bad.db", "backup", "no.db"))
    check("a wrong score is fault 72", (3, "store 72 Damaged scores"), club("bad.db", "backup", "no.db"))
    check("no copy of a damaged club is created", False, os.path.lexists("no.db"))


def club_in_use():
    """`backup` waits five seconds for a file that another program holds, and then fails."""
    with contextlib.closing(sqlite3.connect("c.db", isolation_level=None)) as other:
        other.execute("BEGIN IMMEDIATE")
        check("`backup` of a club that another program holds is fault 73",
              (3, "store 73 Store"), club("c.db", "backup", "used.db"))
        other.execute("ROLLBACK")
    check("no copy of a club in use is created", False, os.path.lexists("used.db"))
    check("`backup` copies a club that is free again", (0, "copied"), club("c.db", "backup", "used.db"))


def explained():
    expected = f"store 77 Output\n{LINE}"
    check("`--explain` explains fault 77", (3, expected), club("--explain", "c.db", "backup", "full.db"))
    status, said = club("--explain", "gone.db", "backup", "no.db")
    check("`--explain` explains fault 70",
          (3, "store 70 Foreign", 2), (status, said.splitlines()[0], len(said.splitlines())))
    check("`--explain` adds nothing to a backup that succeeds",
          (0, "copied"), club("--explain", "c.db", "backup", "explained.db"))
    for words in (["backup"], ["backup", "a.db", "b.db"], ["backup", "--now", "5", "a.db"]):
        check(f"`{' '.join(words)}` is a usage error", 2, club("c.db", *words)[0])
    with open("/dev/full", "wb") as full:
        words = [PROGRAM, "c.db", "backup", "silent.db"]
        ran = subprocess.run(words, stdout=full, stderr=subprocess.PIPE, timeout=WAIT)
    check("a backup without standard output is fault 77", (3, b"store 77 Output\n"), (ran.returncode, ran.stderr))
    check("a copy without standard output is complete", rows("c.db"), rows("silent.db"))


def beside_a_server():
    with serve("c.db") as server:
        check("the server shows a game before a backup", 200, server.show()[0])
        for it in range(3):
            check(f"backup {it + 1} succeeds while the server has the file",
                  (0, "copied"), club("c.db", "backup", f"served{it}.db"))
            check(f"the server shows a game after backup {it + 1}", 200, server.show()[0])
        check("the server executes a command", (0, "accepted member 3"), club("c.db", "member", "cara", "keycara3"))
        check("a backup succeeds after a command", (0, "copied"), club("c.db", "backup", "served3.db"))
        check("that backup has what the command wrote", 3, len(rows("served3.db")[0]["members"]))
        check("`backup` to the path of the control socket is fault 77", NO_COPY, club("c.db", "backup", "c.db-desk"))
        check("the server shows a game after all backups", 200, server.show()[0])
    check("a backup from before the command is sound", (0, "sound"), club("served0.db", "verify"))
    check("a backup from before the command lacks what it wrote", 2, len(rows("served0.db")[0]["members"]))


def full_disks():
    """No file may grow above a limit: the copy is whole, or `verify` finds no club in it, and the club is as it was.

    Where not even the header of a log has room, the club itself is not opened.
    """
    whole, done, before = os.path.getsize("c.db"), set(), folder_content()
    no_log = (3, "store 73 Store")
    steps = [0, 1, 100, 511, 4095, 4096, 4097, 8192, *range(12288, 2 * whole, 16384), 4 * whole]
    for size in steps:
        said = club("c.db", "backup", f"full{size}.db", preexec_fn=limit_files_to(size))
        done.add(said)
        found = club(f"full{size}.db", "verify")
        if said != (0, "copied"):
            due = NO_COPY if size >= LOG_HEADER else no_log
            check(f"a backup with room for {size} bytes is no club or sound",
                  (due, True), (said, found in ((3, "store 70 Foreign"), (0, "sound"))))
        else:
            check(f"a backup with room for {size} bytes is complete",
                  ((0, "sound"), rows("c.db")), (found, rows(f"full{size}.db")))
    check("some backups had enough room, and some had not", {NO_COPY, (0, "copied")}, done - {no_log})
    check("backups on a full disk leave the club unchanged",
          before, {name: held for name, held in folder_content().items() if name in before})


def killed_backups():
    """A backup that is killed leaves the club unchanged, and either no copy, a file that is no club, or all of it."""
    expected, found = rows("c.db"), []
    for it in range(40):
        file = f"killed{it}.db"
        with subprocess.Popen([PROGRAM, "c.db", "backup", file], stdout=subprocess.DEVNULL) as ran:
            time.sleep(0.0005 * it)
            ran.kill()
        if not os.path.exists(file):
            found.append(True)
        else:
            said = club(file, "verify")
            found.append(said == (3, "store 70 Foreign") or said == (0, "sound") and rows(file) == expected)
    check("a killed backup leaves no club or a complete one", [True] * 40, found)
    check("a killed backup leaves the club unchanged", (expected, (0, "sound")), (rows("c.db"), club("c.db", "verify")))


def documented_repairs():
    """The blocks of commands for a wrong clock: to see the club's clock, to set it back, to go back to a backup."""
    text = (TOP / "docs/operating.md").read_text(encoding="utf-8")
    section = text.partition("\n## After a wrong clock\n")[2].partition("\n## ")[0]
    blocks = re.findall(r"^```sh\n(.*?)^```$", section, re.MULTILINE | re.DOTALL)
    return [re.sub("^sudo .*\n", "", it, flags=re.MULTILINE) for it in blocks]


def repair(block):
    """What the commands of a block print, if each succeeds."""
    ran = subprocess.run(["bash", "-e", "-c", block], capture_output=True, text=True, timeout=WAIT, check=False)
    return ran.stdout.splitlines() if ran.returncode == 0 else (ran.returncode, ran.stdout, ran.stderr)


def game_lines(file="ourclub.db"):
    return club(file, "games", now=None)[1].splitlines()


def has_day_left(line):
    """Whether a move of this game is due a day from now, give or take what this test may take."""
    due = re.search(r"until (\S+)$", line)
    latest = time.time() + 86400
    earliest, latest = (time.strftime("%Y-%m-%dT%H:%M:%SZ", time.gmtime(it)) for it in (latest - WAIT, latest))
    return due is not None and earliest <= due[1] <= latest


def prepare_wrong_clock(began):
    """A club of an hour ago with a running game, and its backup; a move was made since."""
    for words in ("init", "member anna keyanna1", "member bert keybert2", "event cup draughts 86400 0",
                  "seat g1 cup anna bert", "move 1 1 32-28", "backup backup.db"):
        assert club("ourclub.db", *words.split(), now=began)[0] == 0, words
    assert club("ourclub.db", "move", "1", "2", "19-23", now=began + 60)[0] == 0


def clock_set_back():
    """The clock was ahead by a month, and nothing was ended or moved: docs/operating.md sets the club's clock back."""
    began = int(time.time()) - 3600
    prepare_wrong_clock(began)
    assert club("ourclub.db", "member", "cara", "keycara3", now=began + 30 * 86400)[0] == 0
    look, set_back, _ = documented_repairs()
    ahead, true = re.findall(r"\d{4}-\d\d-\d\d", " ".join(repair(look)))
    check("the club's clock is seen to be ahead", True, ahead > true)
    club("ourclub.db", "seat", "g2", "cup", "bert", "cara", now=None)
    check("after a clock that was ahead, a game begins at the club's clock", False, has_day_left(game_lines()[1]))
    shutil.copy("backup.db", "ourclub.db")
    pathlib.Path("ourclub.db-wal").unlink(missing_ok=True)
    assert club("ourclub.db", "member", "cara", "keycara3", now=began + 30 * 86400)[0] == 0
    check("the club's clock is set back, and the club is sound", ["copied", "sound"], repair(set_back))
    club("ourclub.db", "seat", "g2", "cup", "bert", "cara", now=None)
    check("then a game begins at the true time", True, has_day_left(game_lines()[1]))


def back_to_a_backup():
    """The clock was ahead by a year, and `sweep` ended a game: docs/operating.md goes back to a backup."""
    began = int(time.time()) - 3600
    prepare_wrong_clock(began)
    check("a sweep by a clock that is ahead ends a game that is not overdue", (0, "accepted sweep 1"),
          club("ourclub.db", "sweep", now=began + 365 * 86400))
    _, set_back, go_back = documented_repairs()
    for it in ("ourclub.db", "ourclub.db-wal"):
        if os.path.exists(it):
            shutil.copy(it, it.replace("ourclub", "swept"))
    check("setting the clock back does not help: the club is then damaged", True,
          "store 72 Damaged meta" in str(repair(set_back)))
    for it in ("ourclub.db", "ourclub.db-wal", "before-change.db"):
        pathlib.Path(it).unlink(missing_ok=True)
    shutil.copy("swept.db", "ourclub.db")
    check("the commands go back to the backup, and play the later moves again",
          ["sound", "1 repeated ply 1 32-28", "2 accepted ply 2 19-23", "sound"], repair(go_back))
    check("the game that was ended runs again", ["game 1 cup anna bert g1 ply 2 turn anna until"],
          [it.rpartition(" ")[0] for it in game_lines()])
    check("nobody lost the time of the repair", True, has_day_left(game_lines()[0]))


def wrong_clocks():
    if not shutil.which("sqlite3"):
        skip("the club is repaired after a wrong clock", "there is no sqlite3")
        return
    for part in clock_set_back, back_to_a_backup:
        with tempfile.TemporaryDirectory(dir=FAST) as folder, contextlib.chdir(folder):
            os.symlink(PROGRAM, "club")
            part()


def main():
    with tempfile.TemporaryDirectory(dir=FAST) as folder, contextlib.chdir(folder):
        create()
        for part in (whole_copy, other_paths, existing_paths, folders_without_permission, no_club, club_in_use, explained,
                     beside_a_server, full_disks, killed_backups):
            part()
    wrong_clocks()
    return exit_status()


if __name__ == "__main__":
    sys.exit(main())
