"""A club's file for tests: the commands of the program over it, and its rows as sqlite3 reads them.

The environment variable CLUB names another program than build/club.
"""
import contextlib
import dataclasses
import os
import pathlib
import resource
import shutil
import signal
import sqlite3
import subprocess
import tempfile
import time

TESTS = pathlib.Path(__file__).resolve().parents[1]
TOP = TESTS.parent
DATA = TESTS / "data"
RECORDS = DATA / "records"
PROGRAM = str(pathlib.Path(os.environ.get("CLUB", TOP / "build/club")).resolve())
# Programs of tests, which `rt ci` builds from crates of the same names.
SCRIPTS = TOP / "crates/scripts/out/scripts"
PERFT = TOP / "crates/perft/out/perft"

TABLES = "meta members events event_rules challenges moves games seen scores".split()
ARBITERS_TABLES = "keys", "rulings", "closings"  # of schema 3
BESIDE = "", "-wal", "-shm", "-journal"  # the suffixes of a database's files
FAST = "/dev/shm" if os.access("/dev/shm", os.W_OK) else None  # a folder in which fsync takes no time
RUNS, IDLE_RUN = 20, 0.003  # seconds of a command that does nothing, on an idle machine
WAIT = 120  # seconds after which a program or a reply counts as hanging
LAST_MOMENT = 253402300799  # the last second of the year 9999
NO_CLUB = "no club"
FAULTS = {70: "Foreign", 71: "Schema", 72: "Damaged", 73: "Store", 74: "Reopen", 75: "Memory"}
DRAUGHTS_MOVES = "32-28 19-23 28x19 14x23 37-32 10-14".split()
TWO_MEMBERS = "init", "member anna keyanna1", "member bert keybert2"


@dataclasses.dataclass(frozen=True)
class Command:
    """A command over the file c.db, and what it prints the first time and when it is repeated."""

    words: str
    printed: str = ""
    again: str = ""
    now: int = 1000
    record: str = ""  # the file of tests/data/records that is its standard input


def command_line(words, now=1000, program=None):
    """The arguments of a process that runs a command; without a timestamp it uses the machine's clock."""
    return [program or PROGRAM, *([] if now is None else ["--now", str(now)]), *(it if isinstance(it, bytes) else str(it) for it in words)]


def run(words, now=1000, folder=None, data=b"", **how):
    """The status of a command, its standard output and its standard error."""
    data = data if isinstance(data, bytes) else data.encode()
    ran = subprocess.run(command_line(words, now), input=data, capture_output=True, cwd=folder, timeout=WAIT, **how)
    return ran.returncode, ran.stdout.decode(errors="replace"), ran.stderr.decode(errors="replace")


def club(*words, **how):
    """The status of a command, and what it prints on one of the two streams."""
    status, out, err = run(words, **how)
    return status, (out or err).strip()


def is_within(seconds, began):
    """Whether less time than this has passed since a time; on a busy machine, as much more as a command takes longer."""
    passed = time.monotonic() - began
    return passed <= seconds or passed <= seconds * slowness()


def slowness():
    """How many times longer than on an idle machine a command takes now."""
    began = time.monotonic()
    for _ in range(RUNS):
        subprocess.run([PROGRAM, "--version"], capture_output=True, check=True)
    return max(1, (time.monotonic() - began) / RUNS / IDLE_RUN)


def start(folder, words, **how):
    """A process in a folder, whose output is read."""
    return subprocess.Popen(words, cwd=folder, stdout=subprocess.PIPE, stderr=subprocess.PIPE, **how)


def arguments(command):
    """The arguments of the process that executes a command over c.db."""
    return command_line(["c.db", *command.words.split()], command.now)


def execute(folder, command):
    """What a command over c.db prints."""
    with start(folder, arguments(command), stdin=subprocess.PIPE) as process:
        try:
            printed = process.communicate(input_of(command), WAIT)
        finally:
            process.kill()
    return (printed[0] or printed[1]).decode().strip()


def verify(folder):
    return execute(folder, Command("verify"))


def create(file="c.db", budget=86400):
    """Creates a club with two members and a game of draughts."""
    for words in (*TWO_MEMBERS, f"event cup draughts {budget} 0", "seat g cup anna bert"):
        status, printed = club(file, *words.split())
        assert status == 0, (words, printed)


def lines_of_script(heading):
    """The lines of the script under this heading, `rules` or `storage`, in crates/scripts/stdin."""
    _, _, rest = (TOP / "crates/scripts/stdin").read_text(encoding="utf-8").partition(f"== {heading}\n")
    return rest.partition("\n== ")[0].splitlines()


def run_requests(script, program=SCRIPTS, **how):
    """Runs a script of requests to the store."""
    return subprocess.run([program], input=f"== storage\n{script}", capture_output=True, text=True, **how)


def move(file, ply):
    """Makes a move of a game of draughts from the command line."""
    return club(file, "move", "1", ply, DRAUGHTS_MOVES[ply - 1])


def input_of(command):
    """The standard input of a command."""
    return (RECORDS / command.record).read_bytes() if command.record else b""


def copy_club(source, to):
    """Copies a database with its write-ahead log, in place of what is there."""
    for suffix in BESIDE:
        pathlib.Path(f"{to}{suffix}").unlink(missing_ok=True)
    for suffix in ("", "-wal"):
        if os.path.exists(f"{source}{suffix}"):
            shutil.copyfile(f"{source}{suffix}", f"{to}{suffix}")


def copy_files(source, to):
    """Copies the files of a folder, without sockets."""
    for name in os.listdir(source):
        if os.path.isfile(f"{source}/{name}"):
            shutil.copyfile(f"{source}/{name}", f"{to}/{name}")


def files_in(folder):
    return {it.name: it.read_bytes() for it in pathlib.Path(folder).iterdir() if it.is_file()}


@contextlib.contextmanager
def copy_of(file):
    """A connection of sqlite3 to a copy of a database and its log, so that the original is not touched."""
    with tempfile.TemporaryDirectory(dir=FAST) as folder:
        copy_club(file, f"{folder}/c.db")
        with contextlib.closing(sqlite3.connect(f"{folder}/c.db")) as database:
            yield database


def query(file, sql, *values):
    """The rows of a query, over a copy of the database."""
    with copy_of(file) as database:
        return database.execute(sql, values).fetchall()


def query_one(file, sql):
    """The first row of a query, over the database itself."""
    with contextlib.closing(sqlite3.connect(file, timeout=30)) as database:
        return database.execute(sql).fetchone()


def change(file, sql):
    """Changes a database by sqlite3."""
    with contextlib.closing(sqlite3.connect(file, timeout=30)) as database, database:
        database.executescript(sql)


def rows_by_table(database):
    """The rows of each table of a club, by its name."""
    found = [name for name, in database.execute("SELECT name FROM sqlite_master WHERE type = 'table'")]
    tables = [*TABLES, *(it for it in ARBITERS_TABLES if it in found)]
    return {it: database.execute(f"SELECT * FROM {it} ORDER BY 1, 2").fetchall() for it in tables}


def read_tables(file):
    """All rows of each table, over a copy; or the error of sqlite3."""
    with copy_of(file) as database:
        try:
            return rows_by_table(database)
        except sqlite3.Error as error:
            return str(error)


def read_rows(folder):
    """All rows of the club c.db; or that there is none, or what sqlite3 finds wrong with it."""
    if not os.path.exists(f"{folder}/c.db"):
        return NO_CLUB
    with copy_of(f"{folder}/c.db") as database:
        try:
            rows = list(rows_by_table(database).values())
            integrity = database.execute("PRAGMA integrity_check").fetchall()
        except sqlite3.Error as error:
            return str(error)
    return rows if integrity == [("ok",)] else str(integrity)


def limit_files_to(size):
    """What a process must do first so that no file grows above a size: its writes then fail as on a full disk."""
    def limit():
        signal.signal(signal.SIGXFSZ, signal.SIG_IGN)
        resource.setrlimit(resource.RLIMIT_FSIZE, (size, size))
    return limit


def build_fail_malloc(folder):
    """Compiles tests/lib/fail_malloc.c: a process that preloads it fails the allocation whose number REFUSE gives."""
    return build_preload(folder, "fail_malloc")


def build_preload(folder, name):
    """Compiles a file of tests/lib into a library that a process preloads, and returns its path."""
    library = f"{os.path.abspath(folder)}/{name}.so"
    source = str(TESTS / f"lib/{name}.c")
    subprocess.run(["gcc", "-shared", "-fPIC", "-O1", "-o", library, source, "-ldl"], check=True)
    return library
