#!/usr/bin/env python3
"""Makes batches of many records by `tools/records --orders`, and gives them to the program.

    python3 tests/cli/records_batch.py
"""
import contextlib
import os
import pathlib
import re
import subprocess
import sys
import tempfile

sys.path[0] = str(pathlib.Path(__file__).resolve().parents[1])
from lib.club import FAST, TOP, WAIT, club, query, run
from lib.report import check, exit_status, result

TOOL = str(TOP / "tools/records")
NAMES = '# Who is who.\n\n"Jansen, Anna",anna\nA. Jansen,anna\nBert de Vries,bert\n佐藤,cara\nDora,dora\n'
KEY = r"(?:[0-9]{4}(?:-[0-9]{2}){0,2}|undated)\.[0-9a-f]{8}"
WON = "1. 32-28 17-21 2. 34-29 18-22 3. 28x26"


def pdn(white, black, date, moves=WON, result="2-0", ending="*"):
    """A game as many programs write it: its score stands in the Result tag alone."""
    return f'[White "{white}"]\n[Black "{black}"]\n[Date "{date}"]\n[Result "{result}"]\n\n{moves} {ending}\n\n'


def csa(first, second, date, end):
    return f"V2.2\nN+{first}\nN-{second}\n$START_TIME:{date}\nPI\n+\n+7776FU\n-3334FU\n{end}\n/\n"


LEAGUE = "".join((
    pdn("Jansen, Anna", "Bert de Vries", "2024.03.15"),  # 1
    pdn("BERT  de vries", "A. Jansen", "2023.11.??"),  # 2: another spelling, the day unknown, before the first by date
    pdn("Jansen, Anna", "Dora", "????.??.??"),  # 3: no date
    pdn("Jansen, Anna", "Elsa", "2024.03.16"),  # 4: no member
    pdn("Jansen, Anna", "Dora", "2024.03.17", result="*"),  # 5: not finished
    pdn("Jansen, Anna", "Dora", "2024.03.18", moves="1. 32-28 17-99"),  # 6: not understood
    pdn("Jansen, Anna", "A. Jansen", "2024.03.19"),  # 7: one member on both sides
    pdn("Jansen, Anna", "Dora", "2024.03.20", moves="1. 32-28 19-23 2. 33-29"),  # 8: the club refuses it
))
CUP = pdn("A. Jansen", "Bert de Vries", "2024.3.15", "1. 32-28 17-21 {best} 2. 34-29 18-22 3. 28:26", ending="2-0")


def tool(*words):
    """The status of the tool, its output and the lines of its messages."""
    ran = subprocess.run([TOOL, *words], capture_output=True, timeout=WAIT)
    return ran.returncode, ran.stdout.decode(), ran.stderr.decode().splitlines()


def orders_of(text):
    return [it for it in text.splitlines() if not it.startswith("#")]


def keys_hidden(lines):
    """The lines with the hash of each key replaced."""
    return [re.sub(r"(?<=\.)[0-9a-f]{8}\b", "HASH", it) for it in lines]


def draughts():
    words = "--orders", "names.csv", "--event", "autumn", "pdn", "league.pdn", "cup.pdn", "empty.pdn"
    status, text, messages = tool("--all", "ready", *words)
    expected = ["import-pdn 2023-11.HASH autumn bert anna ready/league-2.pdn",
                "import-pdn 2024-03-15.HASH autumn anna bert ready/league-1.pdn",
                "import-pdn 2024-03-20.HASH autumn anna dora ready/league-8.pdn",
                "import-pdn undated.HASH autumn anna dora ready/league-3.pdn"]
    check("the batch has an order for each game, by date, with the date in the key", (1, expected),
          (status, keys_hidden(orders_of(text))))
    left_out = ['league.pdn: game 4: left out: no member is named for "Elsa"',
                "league.pdn: game 5: left out: it has no result",
                next(it for it in messages if it.startswith("league.pdn: game 6: left out: ")),
                "league.pdn: game 7: left out: both players are anna",
                "cup.pdn: game 1: left out: it is the same game as league.pdn: game 1",
                "empty.pdn: left out: it has no game"]
    check("the report says what was left out, and why, and which names have no member",
          [*left_out, "4 of 9 games are in the batch", 'names.csv: no row for "Elsa" (1 game)'], messages)
    result("17-99" in left_out[2], "the report says which move is not understood", left_out[2])
    check("the batch begins with the report, as comments", [f"# {it}" for it in left_out], text.splitlines()[:6])
    check("each record of the batch is a file, and no other", sorted(it.split("/")[1] for it in expected),
          sorted(it.name for it in pathlib.Path("ready").iterdir()))
    keys = [it.split()[1] for it in orders_of(text)]
    check("the keys are labels of at most 24 letters", [],
          [it for it in keys if not re.fullmatch(KEY, it) or len(it) > 24])
    return words, text


def program_takes_it(words, text):
    status, printed, _ = run(["c.db", "batch", "-"], data=text)
    check("the program imports the batch, and refuses the illegal game",
          (1, ["7 accepted game 1", "8 accepted game 2", "9 refused", "10 accepted game 3"]),
          (status, [" ".join(it.split()[:2]) if "refused" in it else it for it in printed.splitlines()]))
    check("the games have the keys and the results of the records",
          [(f"{it.split()[1]}", "2-0") for it in orders_of(text) if "league-8" not in it],
          [(key, {0: "0-2", 1: "1-1", 2: "2-0"}.get(score, score)) for key, score in
           query("c.db", "SELECT key, result FROM games ORDER BY id")])
    status, again, _ = tool("--all", "again", *words)
    check("a second run gives the same keys", [it.split()[:5] for it in orders_of(text)],
          [it.split()[:5] for it in orders_of(again)])
    printed = run(["c.db", "batch", "-"], data=again)[1]
    check("a second import is repeated", 3, printed.count("repeated game"))
    check("a second run into the same folder is refused",
          (1, "", ["batch: refused: ready/league-1.pdn is there already"]), tool("--all", "ready", *words))


def folders(text):
    """The same games in a folder of folders."""
    for path, data in (("archive/2024/spring/league.PDN", LEAGUE), ("archive/2023/league.pdn", CUP),
                       ("archive/2023/notes.txt", CUP), ("archive/2023/match.csa", "V2.2")):
        pathlib.Path(path).parent.mkdir(parents=True, exist_ok=True)
        pathlib.Path(path).write_text(data, encoding="utf-8")
    os.symlink("nowhere", "archive/2023/lost.pdn")
    words = "--orders", "names.csv", "--event", "autumn", "pdn", "archive"
    status, found, messages = tool("--all", "archive/ready", *words)
    check("the files of the kind in a folder make the same orders as those that are named",
          (1, sorted(it.split()[:5] for it in orders_of(text))),
          (status, sorted(it.split()[:5] for it in orders_of(found))))
    check("records from folders have the folders' names", ["2023-league-1.pdn", "2024-spring-league-2.pdn",
          "2024-spring-league-3.pdn", "2024-spring-league-8.pdn"],
          sorted(it.name for it in pathlib.Path("archive/ready").iterdir()))
    result("archive/2023/lost.pdn: left out: No such file or directory" in messages,
           "a file of a folder that cannot be read is left out, with the reason", messages)
    printed = run(["c.db", "batch", "-"], data=found)[1]
    check("the batch of the folder is repeated by the program", 3, printed.count("repeated game"))
    pathlib.Path("archive/more").mkdir()
    pathlib.Path("archive/more/other.pdn").write_text(pdn("Dora", "A. Jansen", "2020.01.01"))
    check("the folder of the output is not read", 4, len(orders_of(tool("--all", "archive/more", *words)[1])))
    pathlib.Path("empty").mkdir()
    check("a folder without a file of the kind is refused", (1, "", ["batch: refused: empty has no file .pdn"]),
          tool("--all", "none", *words[:-1], "empty"))
    check("a file that is named and missing is status 2", (2, ""), tool("--all", "none", *words, "missing.pdn")[:2])


def shogi():
    pathlib.Path("match.csa").write_text(
        csa("佐藤", "Dora", "2024/05/01 10:00:00", "%TORYO") + csa("Dora", "佐藤", "2024/04/01", "%TORYO")
        + csa("Dora", "佐藤", "2024/04/02", "%CHUDAN"), encoding="utf-8")
    pathlib.Path("old.csa").write_bytes(csa("佐藤", "Dora", "2019", "%TORYO").encode("cp932"))
    words = "--all", "ready", "--orders", "names.csv", "--event", "fuji", "csa", "match.csa", "old.csa"
    status, text, messages = tool(*words)
    expected = ["import-csa 2019.HASH fuji cara dora ready/old-1.csa",
                "import-csa 2024-04-01.HASH fuji dora cara ready/match-2.csa",
                "import-csa 2024-05-01.HASH fuji cara dora ready/match-1.csa"]
    check("a batch of CSA records has their dates", (1, expected), (status, keys_hidden(orders_of(text))))
    result("match.csa: game 3: left out: it has no result" in messages, "an interrupted game of shogi is left out",
           messages)
    status, printed, _ = run(["c.db", "batch", "-"], data=text)
    check("the program imports the batch of shogi", (0, 3), (status, printed.count("accepted game")))
    check("the club is sound", (0, "sound"), club("c.db", "verify"))


def tables_of_names():
    words = "--event", "autumn", "--all", "more", "pdn", "cup.pdn"
    pathlib.Path("semicolons.csv").write_bytes("\ufeffA. Jansen;anna\r\nBert de Vries;bert\r\n".encode())
    status, text, _ = tool("--orders", "semicolons.csv", *words)
    check("a table with semicolons and a byte order mark is read", (0, 1), (status, len(orders_of(text))))
    for name, table in (("a row of three", "A. Jansen,anna,x\n"), ("a member that is none", "A. Jansen,an na\n"),
                        ("an order in it", 'A. Jansen,"anna\nsweep"\n'), ("a name twice", "A,anna\nA,bert\n")):
        pathlib.Path("bad.csv").write_text(table)
        status, text, messages = tool("--orders", "bad.csv", *words)
        check(f"a table with {name} is refused", (1, "", True),
              (status, text, messages[0].startswith("batch: refused: bad.csv: row ")))
    hostile = pdn("A\nsweep", "x\r\nsweep", "2024.01.01")
    pathlib.Path("hostile.pdn").write_text(hostile)
    text = tool("--orders", "names.csv", *words[:-1], "hostile.pdn")[1]
    check("a name with a line end makes no order", [], orders_of(text))
    pathlib.Path("a b.pdn").write_text(CUP)
    text = tool("--orders", "names.csv", "--event", "autumn", "--all", "blank", "pdn", "a b.pdn")[1]
    check("a blank in a file's name is none in the order", "blank/a_b-1.pdn", text.split()[-1])
    for arguments in (["--event", "autumn"], ["--orders", "names.csv"],
                      ["--orders", "names.csv", "--event", "a b", "--all", "x"],
                      ["--orders", "names.csv", "--event", "autumn"], ["--all", "x"],
                      ["--orders", "names.csv", "--event", "autumn", "--all", "x y"]):
        check(f"the arguments {' '.join(arguments)} with two files are a usage error", (2, ""),
              tool(*arguments, "pdn", "cup.pdn", "league.pdn")[:2])
    check("a table that is missing is status 2", 2, tool("--orders", "none.csv", *words)[0])


def main():
    with tempfile.TemporaryDirectory(dir=FAST) as folder, contextlib.chdir(folder):
        for line in ("init", "member anna keyanna1", "member bert keybert2", "member cara keycara3",
                     "member dora keydora4", "event autumn draughts 86400 0", "event fuji shogi 86400 0"):
            assert club("c.db", *line.split())[0] == 0, line
        for name, text in ("names.csv", NAMES), ("league.pdn", LEAGUE), ("cup.pdn", CUP), ("empty.pdn", "\n"):
            pathlib.Path(name).write_text(text, encoding="utf-8")
        words, text = draughts()
        program_takes_it(words, text)
        folders(text)
        shogi()
        tables_of_names()
    return exit_status()


if __name__ == "__main__":
    sys.exit(main())
