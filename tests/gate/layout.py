#!/usr/bin/env python3
"""Checks the layout of the sources and the names of clauses.

    python3 tests/gate/layout.py [--all]

1. No line of src/ and specs/ has more than 120 characters, but a line that is one string literal, or one attribute:
   `rt fmt` keeps these on one line. Files that a script makes are left out.
2. In the crates of CLEAR_CLAUSES no clause is named by a bare participle, a preposition or a pronoun. With `--all` the
   places in the other crates are printed, too, and count as failures.
3. The kit takes the text of each crate: its files are laid out as `rt fmt` lays them, and have no word that the kit
   refuses before it proves anything. Where there is no kit this is left out.
"""
import contextlib
import io
import pathlib
import re
import subprocess
import sys

sys.path[0] = str(pathlib.Path(__file__).resolve().parents[1])
from gate.names import PREPOSITIONS, TOP, crates, is_participle, line_of, sources
from lib import kit
from lib.report import exit_status, result, skip

LONGEST = 120  # characters in a line
MADE = {"club_page/src/joined.rt", "club_page/specs/Joined.antt"}  # by page/join.py
UNBROKEN = re.compile(r'\s*(?:b?"(?:[^"\\]|\\.)*"[,;]?|#\[.*\])')
CLAUSE = re.compile(r"^\s*(?:ensures|requires) (\w+) \{", re.MULTILINE)
PRONOUNS = set("""
    all another any are both each either every few first is it last least many more most much neither nobody none nothing
    one only other others own rest same some still such that them then there they this those two what which who whose
""".split())
ADJECTIVES = {"acknowledged", "unchanged", "untouched"}  # participles that name a property
CASES = {"some", "none"}  # of an Option, as `ok` and `err` are those of a Result
# The crates whose clauses all have such names. Those of the others are older: a clause is a field of the proofs that use
# it, so a new name proves these again.
CLEAR_CLAUSES = set(
    "memory game_history perft diagrams club_laws schema_match club_lists club_page http_bodies club club_tests".split())


def long_lines():
    for crate in crates():
        for folder in "src", "specs":
            for path in sorted((TOP / "crates" / crate / folder).rglob("*")):
                name = str(path.relative_to(TOP / "crates"))
                if path.suffix not in (".rt", ".antt") or name in MADE:
                    continue
                for number, line in enumerate(path.read_text(encoding="utf-8").splitlines(), 1):
                    if len(line) > LONGEST and not UNBROKEN.fullmatch(line):
                        yield f"crates/{name}:{number}: {len(line)} characters"


def vague_clauses():
    """The crate, the place and the name of each clause whose name is no name of a property."""
    for crate, path, text in sources():
        for it in CLAUSE.finditer(text):
            if is_participle(it[1]) and it[1] not in ADJECTIVES or it[1] in (PREPOSITIONS | PRONOUNS) - CASES:
                yield crate, f"crates/{path}:{line_of(text, it.start(1))}: clause {it[1]}"


def refused_texts(rt):
    """What the kit says of each crate whose text it refuses before a proof."""
    crates_of_kit = rt.rtlib.crates_below(str(TOP))
    for crate in crates_of_kit:
        said = io.StringIO()
        with contextlib.redirect_stderr(said), contextlib.suppress(SystemExit):
            rt.rtlib.stop_on_links(crate.folder)
            rt.rtlib.stop_on_unread(crate.folder, crates_of_kit)
            rt.rtlib.stop_on_text(crate, "verdict")
            rt.stop_on_words(crate)
            files = [it for it in rt.rtlib.files_of(crate.folder) if it.endswith((".rt", ".antt"))]
            ran = subprocess.run([rt.rtlib.RATTLE, "fmt", "--check", *files], stderr=subprocess.PIPE, check=False)
            said.write(ran.stderr.decode(errors="replace") if ran.returncode else "")
        yield from said.getvalue().splitlines()


def main():
    rt = kit.load()
    if rt is None:
        skip("the kit takes the text of each crate", "there is no `rt` on the path")
    else:
        found = list(refused_texts(rt))
        result(not found, "the kit takes the text of each crate", *found)
    found = list(long_lines())
    result(not found, f"no line of src/ and specs/ has more than {LONGEST} characters", *found)
    found = [place for crate, place in vague_clauses() if crate in CLEAR_CLAUSES or "--all" in sys.argv[1:]]
    which = "any crate" if "--all" in sys.argv[1:] else f"{len(CLEAR_CLAUSES)} crates"
    result(not found, f"no clause of {which} is a bare participle, a preposition or a pronoun", *found)
    return exit_status()


if __name__ == "__main__":
    sys.exit(main())
