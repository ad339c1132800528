"""Clubs of many games for measuring, and the program that is measured."""
import pathlib
import sqlite3
import subprocess
import sys

BENCH = pathlib.Path(__file__).resolve().parent
TOP = BENCH.parent
PROGRAM = TOP / "build/club"
KINDS = ("draughts", "shogi")
SHOGI_LINE = BENCH / "programs/shogi_line.txt"


def require_program():
    if not PROGRAM.is_file():
        sys.exit("build/club is not there: `python3 tests/gate/build.py --take` takes the program of release/")


def club(path, *words):
    """What the program prints for a command that must be accepted."""
    command = [PROGRAM, "--now", "1000", path, *map(str, words)]
    ran = subprocess.run(command, capture_output=True, text=True, check=False)
    if ran.returncode != 0:
        sys.exit(f"club {' '.join(map(str, words))}: {ran.stderr.strip()}")
    return ran.stdout


def add_members(path):
    """Creates a club with the members anna and bert."""
    club(path, "init")
    for name, key in (("anna", "keyanna1"), ("bert", "keybert2")):
        club(path, "member", name, key)


def play(path, game, plies):
    """Plays legal moves in a game that a fixed sequence of numbers chooses."""
    number = 1
    for ply in range(1, plies + 1):
        moves = club(path, "legal", game).split()
        if not moves:
            sys.exit(f"game {game} has ended after {ply - 1} plies")
        number = (number * 48271) % 2147483647
        club(path, "move", game, ply, moves[number % len(moves)])


def begin(path, plies):
    """Creates a club with game 1 of draughts and game 2 of shogi, each with so many plies."""
    add_members(path)
    for game, kind in enumerate(KINDS, 1):
        club(path, "event", kind, kind, 86400, 0)
        club(path, "seat", kind, kind, "anna", "bert")
        play(path, game, plies)


def like_kinds(game):
    """The game, 1 or 2, that another one copies: the kinds in turn."""
    return 2 - game % 2


def rows_of(base, table):
    """The rows of games 1 and 2 in a table, without the game."""
    query = f"SELECT * FROM {table} WHERE game = ?"
    return {game: [row[1:] for row in base.execute(query, (game,))] for game in (1, 2)}


def copy_games(base, numbers, like):
    """Writes rows of `games`, each of these numbers like the game that `like` names."""
    columns = [it[1] for it in base.execute("PRAGMA table_info(games)")]
    games = {row[0]: list(row[1:]) for row in base.execute("SELECT * FROM games")}
    key = columns.index("key") - 1
    for number in numbers:
        row = list(games[like(number)])
        row[key] = f"g{number}"
        base.execute(f"INSERT INTO games VALUES ({','.join('?' * len(columns))})", [number, *row])


def copy_rows(base, table, numbers, like, is_interleaved):
    """Writes the rows of games in a table: game after game, or ply after ply as in a club where all play at once."""
    held = rows_of(base, table)
    rows = [(place, number, row) for number in numbers for place, row in enumerate(held[like(number)])]
    if is_interleaved:
        rows.sort(key=lambda it: it[:2])
    if rows:
        marks = ",".join("?" * (1 + len(rows[0][2])))
        base.executemany(f"INSERT INTO {table} VALUES ({marks})", [(number, *row) for _, number, row in rows])


def multiply(path, games, like=like_kinds, is_interleaved=False):
    """Writes the rows of games 1 and 2 again until there are so many games. Returns the number of moves."""
    base = sqlite3.connect(path)
    first = base.execute("SELECT max(id) FROM games").fetchone()[0] + 1
    numbers = range(first, games + 1)
    copy_games(base, numbers, like)
    for table in "moves", "seen":
        copy_rows(base, table, numbers, like, is_interleaved)
    base.commit()
    moves = base.execute("SELECT count(*) FROM moves").fetchone()[0]
    base.execute("PRAGMA wal_checkpoint(TRUNCATE)")
    base.close()
    return moves


def shogi_moves():
    """The moves of a long line of shogi."""
    return SHOGI_LINE.read_text(encoding="utf-8").split("\n", 1)[1].split()
