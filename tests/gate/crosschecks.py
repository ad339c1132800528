#!/usr/bin/env python3
"""Counts the comparisons with the world outside, and compares the counts with the table in docs/crosschecks.md.

    python3 tests/gate/crosschecks.py            prints a diff and fails if the document is stale
    python3 tests/gate/crosschecks.py --write    writes the table into the document

The table is between the two marker lines. The text around it repeats none of its numbers.
"""
import collections
import difflib
import pathlib
import re
import sys

sys.path[0] = str(pathlib.Path(__file__).resolve().parents[1])
from cli import at_rest, batch, import_files, scripts
from lib.club import DATA, RECORDS, TESTS, TOP, lines_of_script
from lib.report import exit_status, result

DOCUMENT = "docs/crosschecks.md"
BEGIN = "<!-- The table of counts, made by tests/gate/crosschecks.py --write -->"
END = "<!-- The end of the table -->"
NO_TESTS = "text", "read", "copy", "change"  # first words of lines of tests/cli/scripts that compare nothing

# The subjects of questions: the first word, or the first two, of a question. The first that fits counts.
SUBJECTS = (
    ("counts of move sequences", "club-draughts lines|club-shogi lines"),
    ("declarations of an entered king", "shogi declares"),
    ("ends and tracks of lines of moves", r"(draughts|shogi)-line .*|club-\w+ track(-of)?"),
    ("texts of positions and moves", "draughts (fen|told|texts|read)|shogi (sfen|told|usi)"),
    ("records", "(pdn|csa|writer) .*"),
    ("squares, boards and moves", "(draughts|shogi|draughts-board|shogi-board) .*"),
    ("games as the club sees them", r"club-\w+ .*"),
    ("texts of faults", "fault .*"),
)


def questions():
    """The questions of crates/scripts/stdin, each in one line."""
    found, begun = [], ""
    for line in lines_of_script("rules"):
        if line.endswith("\\") and not line.startswith("#"):
            begun += line[:-1]
            continue
        line, begun = begun + line, ""
        if line.strip() and not line.startswith("#") and not line.startswith("text "):
            found.append(line)
    return found


def subject(question):
    words = " ".join(question.split()[:2])
    return next(name for name, form in SUBJECTS if re.fullmatch(form, words))


def perft_lines():
    """Each known count: the game, the position, the depth and the number of sequences."""
    form = re.compile(r"club-(draughts|shogi) lines (.+) \| (\d+) = (\d+)")
    found = (form.fullmatch(it) for it in questions())
    return [(it[1], it[2], int(it[3]), int(it[4])) for it in found if it]


def depth_of_opening(game):
    return max(depth for kind, position, depth, _ in perft_lines() if (kind, position) == (game, "opening"))


def script_lines():
    """How many lines of tests/cli/scripts compare something; of these the rows that sqlite3 reads, and the requests."""
    all_lines = rows = requests = 0
    for path in scripts.SCRIPTS.glob("*.txt"):
        is_serving = False
        for _, line in scripts.whole_lines(path.read_text()):
            first = line.split()[0]
            all_lines += first not in NO_TESTS
            rows += first == "rows"
            requests += is_serving and first not in ("end", "serve", *NO_TESTS)
            is_serving = first == "serve" or is_serving and first != "end"
    return all_lines, rows, requests


def ending_counts(folder):
    """How many files a folder has, by the ends of their names."""
    return collections.Counter(it.suffix[1:] for it in folder.iterdir() if it.is_file() and it.suffix != ".txt")


def said(counts):
    return ", ".join(f"{number} {name}" for name, number in sorted(counts.items()))


def rows():
    """The rows of the table: what is counted, the number, and the file."""
    subjects = collections.Counter(map(subject, questions()))
    yield "Questions about rules, texts and records", len(questions()), "`crates/scripts/stdin`"
    for name, _ in SUBJECTS:
        yield f"– {name}", subjects[name], ""
    yield "Greatest known depth of draughts, from the opening", depth_of_opening("draughts"), "`crates/scripts/stdin`"
    yield "Greatest known depth of shogi, from the opening", depth_of_opening("shogi"), "`crates/scripts/stdin`"
    yield "Records that are imported as they are", said(ending_counts(RECORDS)), "`tests/data/records`"
    yield "Files in dialects of other programs", said(ending_counts(import_files.FOREIGN)), "`tests/data/foreign`"
    cases, _ = import_files.read_cases()
    yield "Conversions of such files", len(cases), "`tests/data/foreign/cases.txt`"
    yield "– refused by the converter", sum(not it.gives for it in cases), ""
    yield "– converted, and refused by the club", sum(
        any(score.startswith("refused") for _, score in it.gives) for it in cases), ""
    all_lines, read_rows, requests = script_lines()
    yield "Lines of scripts that run the program", all_lines, "`tests/cli/scripts`"
    yield "– rows that sqlite3 reads", read_rows, ""
    yield "– requests over HTTP", requests, ""
    yield "Berger tables of FIDE, by players", " and ".join(map(str, batch.FIDE)), "`tests/cli/batch.py`"
    yield "Tables of other CREATE statements, accepted", len(at_rest.COMPATIBLE), "`tests/cli/at_rest.py`"
    yield "Tables of other CREATE statements, refused", len(at_rest.INCOMPATIBLE), "`tests/cli/at_rest.py`"
    yield "Files of earlier versions", len(list((DATA / "files").glob("*.db"))), "`tests/data/files`"
    yield "Models in Python", len(list((TESTS / "models").glob("*.py"))), "`tests/models`"


def table():
    """The lines of the table."""
    return ["| What | Count | Where |", "|---|---:|---|", *(f"| {' | '.join(map(str, it))} |" for it in rows())]


def parts(text):
    """The lines of the document before the table, of the table, and after it."""
    lines = text.splitlines()
    begin, end = lines.index(BEGIN) + 1, lines.index(END)
    return lines[:begin], lines[begin:end], lines[end:]


def main():
    path = TOP / DOCUMENT
    before, found, after = parts(path.read_text())
    if sys.argv[1:] == ["--write"]:
        path.write_text("\n".join([*before, *table(), *after]) + "\n")
        return 0
    differing = list(difflib.unified_diff(found, table(), DOCUMENT, "counted", lineterm=""))
    result(not differing, f"the counts of {DOCUMENT} are current", *differing,
           *(["`python3 tests/gate/crosschecks.py --write` makes them anew"] if differing else []))
    return exit_status()


if __name__ == "__main__":
    sys.exit(main())
