#!/usr/bin/env python3
"""Tests `batch` and `round-robin`: what they print, and the rows that they write.

    python3 tests/cli/batch.py

What is expected is written or computed here: the numbers of lines, the Berger tables of FIDE's handbook, and which
orders are not executed if one is refused, if a line is no order, or if the disk is full in the middle of a batch.
"""
import collections
import itertools
import pathlib
import subprocess
import sys
import tempfile

sys.path[0] = str(pathlib.Path(__file__).resolve().parents[1])
from lib.club import FAST, PROGRAM, WAIT, limit_files_to, query, run
from lib.report import check, exit_status
from lib.server import serve

NAMES = "anna bert cara dora emil fred".split()
# The Berger tables of FIDE's handbook: for each round the games of players by their numbers, First and then Second.
FIDE = {
    4: ["1-4 2-3", "4-3 1-2", "2-4 3-1"],
    6: ["1-6 2-5 3-4", "6-4 5-3 1-2", "2-6 3-1 4-5", "6-5 1-4 2-3", "3-6 4-2 5-1"],
}
MEMBERS = "# The members.\n" + "".join(f"member {name} key{name}1\n" for name in NAMES)
EVENTS = "\r\nevent autumn draughts 604800 86400\r\n   \r\nevent  fuji\tshogi 86400 60\r\n"
PDN = b"1. 32-28 19-23 2. 28x19 14x23 1-1\n"


def give(folder, words, text="", now=1000, **how):
    """The status of a command over c.db, its standard output and its standard error."""
    return run(["c.db", *words], now=now, folder=folder, data=text, **how)


def rows(folder, sql):
    return query(f"{folder}/c.db", sql)


def all_rows(folder):
    """The rows of all tables that orders change."""
    return [rows(folder, f"SELECT * FROM {table}") for table in ("meta", "members", "events", "games", "moves")]


def output(lines):
    return "".join(f"{number} {what}\n" for number, what in lines)


def pairs_of(folder, event):
    """The keys of an event's games, with the names of both players."""
    return {key: (first, second) for key, first, second in rows(
        folder, "SELECT g.key, a.name, b.name FROM games g JOIN members a ON a.id = g.first JOIN members b "
                f"ON b.id = g.second JOIN events e ON e.id = g.event WHERE e.name = '{event}'")}


def berger(prefix, names, is_double=False):
    """The games of FIDE's table by their keys, boards by the lower player, without the bye of an odd number."""
    table = FIDE[len(names) + len(names) % 2]
    rounds = [[tuple(map(int, game.split("-"))) for game in games.split()] for games in table]
    if is_double:
        rounds += [[(second, first) for first, second in games] for games in rounds]
    found = {}
    for number, games in enumerate(rounds, 1):
        played = sorted((game for game in games if max(game) <= len(names)), key=min)
        for board, (first, second) in enumerate(played, 1):
            found[f"{prefix}{number}.{board}"] = names[first - 1], names[second - 1]
    return found


def members_and_events(folder):
    check("`init` creates a club", (0, "ready\n", ""), give(folder, ["init"]))
    expected = output([*((2 + i, f"accepted member {1 + i}") for i in range(6)),
                   (9, "accepted event 1"), (11, "accepted event 2")])
    check("one batch adds six members and two events",
          (0, expected, ""), give(folder, ["batch", "-"], MEMBERS + EVENTS))
    before = all_rows(folder)
    (pathlib.Path(folder) / "orders").write_text(MEMBERS + EVENTS)
    check("the same batch from a file is repeated", (0, expected.replace("accepted", "repeated"), ""),
            give(folder, ["batch", "orders"], now=2000))
    check("a repeated batch changes no row", before, all_rows(folder))
    check("a batch without orders prints nothing", (0, "", ""), give(folder, ["batch", "-"], "# nothing\n\n"))


def round_robins(folder):
    for prefix, event, games in ("a", "autumn", 0), ("f.", "fuji", 15):
        expected = output((1 + i, f"accepted game {games + 1 + i}") for i in range(15))
        dry = give(folder, ["round-robin", "--dry", prefix, event, *NAMES])
        check(f"a dry round robin of {event} creates no game", {}, pairs_of(folder, event))
        table = berger(prefix, NAMES)
        lines = "".join(f"seat {key} {event} {first} {second}\n" for key, (first, second) in table.items())
        check(f"a dry round robin of {event} prints the orders", (0, lines, ""), dry)
        check(f"a round robin of {event} creates its games",
              (0, expected, ""), give(folder, ["round-robin", prefix, event, *NAMES]))
        check(f"the games of {event} are those of FIDE's Berger table", table, pairs_of(folder, event))
        again = expected.replace("accepted", "repeated")
        check(f"a second round robin of {event} is repeated", (0, again, ""),
                give(folder, ["round-robin", prefix, event, *NAMES], now=3000))
        check(f"the orders of the dry round robin of {event} are repeated as a batch",
              (0, again, ""), give(folder, ["batch", "-"], dry[1]))
    give(folder, ["event", "winter", "draughts", "60", "5"])
    for prefix, names, is_double in ("d", NAMES[:4], True), ("o", NAMES[:3], False), ("t", NAMES[:5], True):
        words = ["round-robin", "--double", prefix, "winter", *names]
        status = give(folder, words if is_double else [words[0], *words[2:]])[0]
        seated = {key: pair for key, pair in pairs_of(folder, "winter").items() if key.startswith(prefix)}
        check(f"a {'double ' if is_double else ''}round robin of {len(names)} players has the games of the Berger table", (0, berger(prefix, names, is_double)), (status, seated))
    dry = give(folder, ["round-robin", "--double", "--dry", "k", "winter", *(f"m{i}" for i in range(32))])
    seats = [line.split()[1:] for line in dry[1].splitlines()]
    met = collections.Counter((first, second) for _key, _event, first, second in seats)
    check("in a double round robin of 32 players each pair meets once with each side",
            {(f"m{i}", f"m{j}"): 1 for i, j in itertools.permutations(range(32), 2)}, dict(met))
    plays = collections.Counter((key.split(".")[0], name) for key, _event, *two in seats for name in two)
    check("in a double round robin each of 32 players plays once in each round", {1}, set(plays.values()))


def refusals(folder):
    text = "member gina keygina01\nmember anna another01\n\nseat a1.1 autumn anna bert\nmember hans keyhans01\nsweep\n"
    expected = output([(1, "accepted member 7"), (2, "refused 64 NameTaken"), (4, "refused 58 Conflict"),
                   (5, "accepted member 8"), (6, "accepted sweep 0")])
    check("a batch goes on after a refused order", (1, expected, ""), give(folder, ["batch", "-"], text))
    before = all_rows(folder)
    for name, words in (
            ("a name twice", ["round-robin", "x", "autumn", "anna", "bert", "anna"]),
            ("an unknown name", ["round-robin", "x", "autumn", "anna", "bert", "cara", "zoe"]),
            ("a malformed name", ["round-robin", "x", "autumn", "anna", "b c"]),
            ("keys that are too long", ["round-robin", "x" * 22, "autumn", *NAMES]),
            ("malformed keys", ["round-robin", "x/", "autumn", *NAMES])):
        check(f"a round robin with {name} is refused", (1, "", "refused 65 BadValue\n"), give(folder, words))
    check("a dry round robin with a name twice is refused", (1, "", "refused 65 BadValue\n"),
            give(folder, ["round-robin", "--dry", "x", "autumn", "anna", "anna"]))
    check("a refused round robin changes no row", before, all_rows(folder))
    with tempfile.TemporaryDirectory(dir=FAST) as empty:
        words = ["round-robin", "x", "autumn", "anna", "anna"]
        check("a fault of the file comes before the refusal of a round robin", (3, "", "store 70 Foreign\n"),
              give(empty, words))
        check("a dry run opens no file", (1, "", "refused 65 BadValue\n"), give(empty, [*words[:1], "--dry", *words[1:]]))
    for words in ["round-robin", "x", "autumn", "anna"], ["round-robin", "x", "autumn", *(f"m{i}" for i in range(33))]:
        status, out, err = give(folder, words)
        check(f"a round robin of {len(words) - 3} players is a usage error",
              (2, "", True), (status, out, err.startswith("error: ")))


def explained(folder):
    """With --explain standard error says why each refused order was refused, by the number of its line."""
    text = ("# orders\nmember a/b keykeykey\nmember cara2 short\nmember anna another01\n\nevent winter2 draughts 0 5\n"
            "seat y1 autumn anna anna\nseat y2 autumn anna zoe\nseat y3 nowhere anna bert\nmove 9999 1 32-28\nsweep\n")
    why = ("2 this value is not allowed: NAME must be 1 to 24 letters, digits, '.', '_' or '-'\n"
           "3 this value is not allowed: KEY, the member's secret, must be 8 to 64 letters and digits\n"
           "4 the name is taken with other values, or a member has or had this key; choose another\n"
           "6 this value is not allowed: BUDGET must be 1 to 31,536,000 seconds; 1209600 is 14 days\n"
           "7 FIRST and SECOND are the same member\n"
           "8 FIRST or SECOND is not a member; 'members' lists them\n"
           "9 there is no event of this name; 'events' lists them\n"
           "10 there is no game with this number; 'games' lists them\n")
    expected = output([(2, "refused 65 BadValue"), (3, "refused 65 BadValue"), (4, "refused 64 NameTaken"),
                       (6, "refused 65 BadValue"), (7, "refused 65 BadValue"), (8, "refused 65 BadValue"),
                       (9, "refused 52 UnknownEvent"), (10, "refused 53 UnknownGame"), (11, "accepted sweep 0")])
    give_explained = [PROGRAM, "--explain", "--now", "1000", "c.db"]

    def ask(*words, data=b""):
        ran = subprocess.run([*give_explained, *words], input=data, capture_output=True, cwd=folder, timeout=WAIT)
        return ran.returncode, ran.stdout.decode(), ran.stderr.decode()

    check("each refused order of a batch is explained", (1, expected, why), ask("batch", "-", data=text.encode()))
    check("without --explain no order is", (1, expected, ""), give(folder, ["batch", "-"], text))
    check("an accepted batch has no explanation", (0, "1 accepted sweep 0\n", ""), ask("batch", "-", data=b"sweep\n"))
    with serve(f"{folder}/c.db") as server:
        server.show()
        check("beside a server each refused order is explained, too", (1, expected, why),
              ask("batch", "-", data=text.encode()))
    check("orders that cannot be read are called ORDERS",
          (3, "", "store 76 Input\nORDERS cannot be read: check its path\n"), ask("batch", "none"))
    check("a record of a batch that cannot be read is called RECORD",
          (3, "", "store 76 Input\nRECORD cannot be read: check its path\n"),
          ask("batch", "-", data=b"import-pdn z1 autumn anna bert none.pdn\n"))
    for words, line in (
            ("x autumn anna bert anna", "a NAME stands twice"),
            ("x autumn anna bert zoe", "a NAME is no member's; 'members' lists them"),
            ("x autumn anna b/c", "this value is not allowed: each NAME must be 1 to 24 letters, digits, '.', '_' or '-'"),
            ("x" * 22 + " autumn anna bert cara", "this value is not allowed: PREFIX and the number of each game must be "
             "1 to 24 letters, digits, '.', '_' or '-'")):
        check(f"the 65 of `round-robin {words}` is explained", (1, "", f"refused 65 BadValue\n{line}\n"),
              ask("round-robin", *words.split()))
    with open("/dev/full", "wb") as full:
        ran = subprocess.run([*give_explained, "batch", "-"], input=text.encode(), stdout=full, stderr=subprocess.PIPE,
                             cwd=folder, timeout=WAIT)
    said = ran.stderr.decode().splitlines(keepends=True)
    check("a batch without standard output is explained behind its fault", (3, "store 77 Output\n", True, why),
          (ran.returncode, said[0], said[1].startswith("the output could not be written"), "".join(said[2:])))


def refusals_unheard(folder):
    """A refusal whose standard error cannot be written keeps its status, over the file and beside a server."""
    def statuses():
        found = []
        for words in "show 9999", "member anna another01", "move 9999 1 32-28":
            with open("/dev/full", "wb") as full:
                ran = subprocess.run([PROGRAM, "--now", "1000", "c.db", *words.split()], stdout=subprocess.DEVNULL,
                                     stderr=full, cwd=folder, timeout=WAIT)
            found.append(ran.returncode)
        return found

    check("a refusal that cannot be printed has status 1", [1] * 3, statuses())
    with serve(f"{folder}/c.db") as server:
        server.show()
        check("beside a server a refusal that cannot be printed has status 1", [1] * 3, statuses())


def byte_order_mark(folder):
    mark = "\ufeff"
    check("a batch may begin with a byte order mark", (0, "1 repeated member 1\n", ""),
          give(folder, ["batch", "-"], f"{mark}member anna keyanna1\n"))
    status, out, err = give(folder, ["batch", "-"], f"sweep\n{mark}sweep\n")
    check("a byte order mark in the middle of a batch is a usage error",
          (2, "", True), (status, out, err.startswith("error: line 2: ")))


def bad_lines(folder):
    before = all_rows(folder)
    member = "member ida keyida0001\n"
    for name, text, number in (
            ("an unknown command", member * 6 + "frob\n", 7),
            ("a query", member + "\ntable autumn\n", 3),
            ("`init`", "init\n", 1), ("a batch in a batch", member + "batch -\n", 2),
            ("a missing argument", "# one\n" + member + "member ida\n", 3), ("an argument too many", "sweep now\n", 1),
            ("a timestamp", member + "--now 5 sweep\n", 2), ("a malformed number", "move one 1 32-28\n", 1),
            ("a record from standard input", "import-pdn o1 autumn anna bert -\n", 1),
            ("bytes that are not UTF-8", member.encode() + b"member \xff keykeykey\n", 2),
            ("more than 10000 orders", "sweep\n" * 10001, 10001)):
        status, out, err = give(folder, ["batch", "-"], text)
        check(f"{name} in line {number} of a batch is a usage error",
              (2, "", True), (status, out, err.startswith(f"error: line {number}: ")))
    status, out, err = give(folder, ["batch", "-"], "#" * 1048576 + "\n")
    check("a batch of more than 1048576 bytes is a usage error",
          (2, "", True), (status, out, err.startswith("error: ")))
    check("a batch with a bad line changes no row", before, all_rows(folder))
    with tempfile.TemporaryDirectory(dir=FAST) as empty:
        check("a bad line is a usage error even if there is no club", 2, give(empty, ["batch", "-"], "frob\n")[0])
        check("a batch without a file is fault 70", (3, "", "store 70 Foreign\n"), give(empty, ["batch", "-"], member))
        check("a batch that cannot be read is fault 76", (3, "", "store 76 Input\n"), give(empty, ["batch", "none"]))


def records(folder):
    before = all_rows(folder)
    text = "member ida keyida0001\nimport-pdn old1 autumn anna bert game.pdn\n"
    check("a batch with a record that cannot be read is fault 76",
          (3, "", "store 76 Input\n"), give(folder, ["batch", "-"], text))
    check("a batch with an unreadable record changes no row", before, all_rows(folder))
    (pathlib.Path(folder) / "game.pdn").write_bytes(PDN)
    (pathlib.Path(folder) / "bad.pdn").write_bytes(b"1. 32-28 19-24 2. 28x19 0-2\n")
    number = rows(folder, "SELECT COUNT(*) FROM games")[0][0] + 1
    status, out, err = give(folder, ["batch", "-"], text + "import-pdn old2 autumn anna bert bad.pdn\n")
    lines = out.splitlines()
    check("a batch imports records", (1, ["1 accepted member 9", f"2 accepted game {number}"], True, ""),
            (status, lines[:2], lines[2].startswith("3 refused "), err))


def full_disk():
    """No file may grow above a limit: a write in the middle of the batch fails, and the batch ends with it."""
    text = "".join(f"member m{i} key{i:08}\n" for i in range(1, 201))
    with tempfile.TemporaryDirectory(dir=FAST) as folder:
        give(folder, ["init"])
        size = (pathlib.Path(folder) / "c.db").stat().st_size + 4096
        status, out, err = give(folder, ["batch", "-"], text, preexec_fn=limit_files_to(size))
        answered = len(out.splitlines())
        expected = output((i, f"accepted member {i}") for i in range(1, answered + 1))
        check("a full disk ends a batch with fault 73", (3, expected, "store 73 Store\n"), (status, out, err))
        check("a full disk ends the batch after some orders", True, 0 < answered < 200)
        names = [name for name, in rows(folder, "SELECT name FROM members ORDER BY id")]
        check("the club has the answered orders of the batch, or one more", True, names in (
            [f"m{i}" for i in range(1, answered + 1)], [f"m{i}" for i in range(1, answered + 2)]))
        check("a club on a full disk is sound", (0, "sound\n", ""), give(folder, ["verify"]))
        expected = output((i, f"{'repeated' if i <= len(names) else 'accepted'} member {i}") for i in range(1, 201))
        check("the same batch continues when there is room", (0, expected, ""), give(folder, ["batch", "-"], text))


def arbiters_orders():
    """A batch with an arbiter's order is 71 as a whole over a file of schema 2, and goes on after `upgrade --arbiter`."""
    text = "member bert keybert2\nkey anna 1 keyanna9\nclose autumn\nkey anna 3 keyanna8\n"
    refused = 3, "", "store 71 Schema 2\n"
    done = output([(1, "accepted member 2"), (2, "accepted key 1"), (3, "accepted closed"), (4, "refused 65 BadValue")])
    with tempfile.TemporaryDirectory(dir=FAST) as folder:
        for words in ("init", "member anna keyanna1", "event autumn draughts 60 5"):
            give(folder, words.split())
        before = all_rows(folder)
        check("a file of schema 2 refuses a batch with an arbiter's orders", refused, give(folder, ["batch", "-"], text))
        with serve(f"{folder}/c.db"):
            check("so it does beside a server", refused, give(folder, ["batch", "-"], text))
        check("nothing of the batch is done", before, all_rows(folder))
        check("the file gets schema 3", (0, "upgraded\n", ""), give(folder, ["upgrade", "--arbiter"]))
        with serve(f"{folder}/c.db"):
            check("beside a server the batch is done", (1, done, ""), give(folder, ["batch", "-"], text))
        again = done.replace("accepted", "repeated")
        check("the same batch is repeated", (1, again, ""), give(folder, ["batch", "-"], text))
        message = "error: line 1: a line of a batch reads no standard input\n"
        check("a line of a batch takes no key from standard input",
              (2, "", message), give(folder, ["batch", "-"], "key anna 2 -\n"))


def no_output(folder):
    with open("/dev/full", "wb") as full:
        ran = subprocess.run([PROGRAM, "--now", "1000", "c.db", "batch", "-"], input=b"member anna keyanna1\n",
                             stdout=full, stderr=subprocess.PIPE, cwd=folder, timeout=WAIT)
    check("a batch without standard output is fault 77", (3, b"store 77 Output\n"), (ran.returncode, ran.stderr))


def main():
    with tempfile.TemporaryDirectory(dir=FAST) as folder:
        members_and_events(folder)
        round_robins(folder)
        refusals(folder)
        explained(folder)
        refusals_unheard(folder)
        byte_order_mark(folder)
        bad_lines(folder)
        records(folder)
        no_output(folder)
    arbiters_orders()
    full_disk()
    return exit_status()


if __name__ == "__main__":
    sys.exit(main())
