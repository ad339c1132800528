#!/usr/bin/env python3
"""Converts files of other programs with tools/records, and imports what it writes.

    python3 tests/cli/import_files.py

tests/data/foreign/cases.txt says for each file what the tool must print, which record it must write, and what the club
must do with that: refuse it, or import it and export the same moves.
"""
import concurrent.futures
import contextlib
import importlib.machinery
import importlib.util
import io
import pathlib
import re
import subprocess
import sys
import tempfile
import traceback

sys.path[0] = str(pathlib.Path(__file__).resolve().parents[1])
from lib.club import DATA, RECORDS, TOP, club, query_one
from lib.report import check, exit_status

TOOL = str(TOP / "tools/records")
FOREIGN = DATA / "foreign"
ORDERS = ("init", "member anna keyanna1", "member bert keybert2", "event cup draughts 86400 0",
          "event fuji shogi 86400 0")
SMALL = b'[Result "2-0"]\n\n1. 32-28 17-21 2. 34-29 18-22 3. 28x26 *\n'
READY = b'[Result "2-0"]\n\n1. 32-28 17-21 2. 34-29 18-22 3. 28x26 2-0\n'
SAID = "game 1: the score 2-0 of the Result tag is put at the end, where * stood\n"


class Case:
    """A file, the words before it, what must be messages, and what must come out."""

    def __init__(self, line):
        self.name = line
        self.file, *self.words = line.split()
        self.says, self.gives = [], []

    def expected(self, record):
        return (FOREIGN / self.file if record == "itself" else FOREIGN / "wanted" / record).read_bytes()

    def kind(self):
        return {"pdn": "pdn", "csa": "csa"}.get(self.file.rpartition(".")[2], "kif")


def read_cases():
    """The cases of cases.txt, and the lines of moves by their names."""
    cases, games = [], {}
    for line in (FOREIGN / "cases.txt").read_text(encoding="utf-8").splitlines():
        word, _, rest = line.partition(" ")
        if word == "case":
            cases.append(Case(rest))
        elif word == "says":
            cases[-1].says.append(rest)
        elif word == "gives":
            cases[-1].gives.append(rest.partition(": ")[::2])
        elif word == "game":
            name, _, moves = rest.partition(" = ")
            games[name] = moves.split()
        else:
            assert not word or word == "#", line
    return cases, games


def loaded():
    """The tool, read once for all cases."""
    sys.path.insert(0, str(TOP / "tools"))
    loader = importlib.machinery.SourceFileLoader("tool", TOOL)
    module = importlib.util.module_from_spec(importlib.util.spec_from_loader("tool", loader))
    loader.exec_module(module)
    return module


MAIN = loaded().main


def tool(*words, given=b"", folder=FOREIGN):
    """The status of the tool, its output and what it says; it is called here, which is much quicker than a process."""
    output, messages = io.TextIOWrapper(io.BytesIO()), io.StringIO()
    sys.argv, sys.stdin = [TOOL, *words], io.TextIOWrapper(io.BytesIO(given))
    with contextlib.chdir(folder), contextlib.redirect_stdout(output), contextlib.redirect_stderr(messages):
        try:
            status = MAIN()
        except SystemExit as ended:
            status = ended.code
        except Exception:
            status = traceback.format_exc()
    output.flush()
    return status, output.buffer.getvalue(), messages.getvalue()


def convert(case, folder):
    """What the tool makes of a case: its status, what it says, and the records that come out by their names."""
    words = [str(folder) if word == "out" else word for word in case.words]
    status, output, messages = tool(*words, case.kind(), case.file)
    records = {path.name: path.read_bytes() for path in sorted(folder.glob("*"))}
    if output:
        records[""] = output
    return status, messages, records


def check_conversion(case, status, messages, records):
    """Whether the tool made of a case what it must."""
    refused = any("refused: " in line for line in case.says)
    expected = [case.expected(record) for record, _ in case.gives]
    check(f"tools/records {'refuses' if refused else 'converts'} {case.name}", int(refused), status)
    check(f"tools/records explains {case.name}", "".join(f"{case.file}: {line}\n" for line in case.says), messages)
    check(f"tools/records writes the record of {case.name}", expected, list(records.values()))
    if "--all" in case.words:
        check(f"tools/records names the files of {case.name}", [record for record, _ in case.gives], list(records))


def moves_of(export):
    """The moves of a record that the club wrote."""
    if export.startswith("V2.2"):
        return re.findall(r"^[+-][0-9]{4}[A-Z]{2}$", export, re.M)
    return re.findall(r"\b[0-9]+[-x][0-9x]+", export.partition("\n\n")[2].rpartition("\n")[0])


def score_of(file, number):
    return query_one(file, f"SELECT result FROM games WHERE id = {number}")[0]


def imported(file, key, case, record):
    """What the club makes of a record: its refusal, or the moves that it exports and the score that it keeps."""
    word, event = ("import-pdn", "cup") if case.kind() == "pdn" else ("import-csa", "fuji")
    printed = club(file, word, key, event, "anna", "bert", "-", data=record)
    number = printed[1].rpartition(" ")[2]
    if printed != (0, f"accepted game {number}"):
        return printed
    return moves_of(club(file, "export", number)[1]), score_of(file, number)


def expected_of(printed, games):
    if printed.startswith("refused"):
        return 1, printed
    game, score = printed.split()
    return games[game], score


def all_imported(file, cases, results):
    """What a new club makes of the records of these cases, case by case."""
    for words in ORDERS:
        assert club(file, *words.split())[0] == 0, words
    found = [[imported(file, f"k{number}-{part}", case, record) for part, record in enumerate(records.values())]
             for number, (case, (_, _, records)) in enumerate(zip(cases, results))]
    return found + [club(file, "verify")]


def run_cases():
    """All cases: the tool first, and then four clubs side by side, each with every fourth case."""
    cases, games = read_cases()
    results = [convert(case, pathlib.Path(f"out{number}").resolve()) for number, case in enumerate(cases)]
    with concurrent.futures.ThreadPoolExecutor(4) as pool:
        clubs = [pool.submit(all_imported, f"club{it}.db", cases[it::4], results[it::4]) for it in range(4)]
        found = [it.result() for it in clubs]
    for number, (case, (status, messages, records)) in enumerate(zip(cases, results)):
        check_conversion(case, status, messages, records)
        expected = [expected_of(printed, games) for _, printed in case.gives]
        check(f"the club imports or refuses {case.name} as expected", expected, found[number % 4][number // 4])
    check("the clubs are sound after all imports", [(0, "sound")] * 4, [it[-1] for it in found])


def every_file_has_a_case():
    cases, _ = read_cases()
    files = {path.name for path in FOREIGN.iterdir() if path.is_file()} - {"cases.txt"}
    check("every foreign file has a case", files, {case.file for case in cases})
    expected = {record for case in cases for record, _ in case.gives} - {"itself"}
    check("every expected record has a case", {path.name for path in (FOREIGN / "wanted").iterdir()}, expected)


def own_records_are_unchanged():
    """What the club reads comes out as it is; a file of two records by its parts, of which each is in the file."""
    for path in sorted(RECORDS.iterdir()):
        if path.name != "two.csa":
            printed = tool(path.suffix[1:], str(path))
            check(f"tools/records leaves {path.name} unchanged", (0, path.read_bytes(), ""), printed)
    two = RECORDS / "two.csa"
    first = two.read_bytes().partition(b"/\n")[0]
    check("tools/records writes the first record of two.csa", (0, first, ""), tool("--game", "1", "csa", str(two)))


def words_of_the_tool():
    ran = subprocess.run([TOOL, "pdn", "-"], input=SMALL, capture_output=True)
    check("tools/records runs as a program",
          (0, READY, f"-: {SAID}"), (ran.returncode, ran.stdout, ran.stderr.decode()))
    status, printed, messages = tool("--help")
    check("`tools/records --help` names each option", (0, True, ""),
            (status, all(it in printed for it in (b"--game", b"--all", b"--encoding", b"pdn", b"csa", b"kif")), messages))
    for words in ("", "pdn", "xyz -", "--game x pdn -", "--game 1 --all out pdn -", "--encoding klingon pdn -"):
        check(f"`tools/records {words}` is a usage error", (2, b""), tool(*words.split())[:2])
    printed = tool("pdn", "nothing.pdn")
    check("tools/records reports a missing file", (2, b"", "nothing.pdn: No such file or directory\n"), printed)
    check("tools/records refuses an empty file", (1, b"", "-: refused: it has no game\n"), tool("pdn", "-"))
    check("tools/records refuses bytes of no known encoding",
          (1, b"", "-: refused: its letters are of no encoding that fits; name the right one with "
                           "--encoding\n"), tool("csa", "-", given=b"V2.2\nN+\x81\n"))
    named = tool("--encoding", "cp850", "pdn", "-", given=READY.replace(b"x", b"\x9e"))
    check("tools/records takes a named encoding", (0, READY), named[:2])
    large = SMALL[:-2] + b"{" + b"a" * 65536 + b"} *\n"
    status, record, messages = tool("pdn", "-", given=large)
    printed = f"-: game 1: refused: the record has {len(large) + 2} bytes, and the club takes 65536\n"
    check("tools/records refuses a record that is too large", (1, b"", printed), (status, record, messages))


def nothing_is_written_over():
    pathlib.Path("small.pdn").write_bytes(SMALL)
    words, here = ("--all", "kept", "pdn", "small.pdn"), pathlib.Path.cwd()
    check("tools/records writes a new file", (0, b"", f"small.pdn: {SAID}"), tool(*words, folder=here))
    pathlib.Path("kept/small-1.pdn").write_bytes(b"mine")
    printed = (1, b"", "small.pdn: refused: kept/small-1.pdn is there already\n")
    check("tools/records refuses to overwrite a file", printed, tool(*words, folder=here))
    check("a file that is not overwritten is unchanged", b"mine", pathlib.Path("kept/small-1.pdn").read_bytes())


def main():
    with tempfile.TemporaryDirectory() as room, contextlib.chdir(room):
        run_cases()
        every_file_has_a_case()
        own_records_are_unchanged()
        words_of_the_tool()
        nothing_is_written_over()
    return exit_status()


if __name__ == "__main__":
    sys.exit(main())
