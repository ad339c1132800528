#!/usr/bin/env python3
"""Tests of the command line that no script can express: the launcher, permissions, and records that are changed.

    python3 tests/cli/commands.py
"""
import contextlib
import os
import pathlib
import re
import subprocess
import sys
import tempfile

sys.path[0] = str(pathlib.Path(__file__).resolve().parents[1])
from lib.club import PROGRAM, RECORDS, TOP, club, create, run
from lib.report import check, exit_status, result, skip

SOURCES = "crates/*/src/*", "crates/*/specs/*", "crates/*/proofs/*", "crates.txt"
PDN = '[Result "2-0"]\n[GameType "20"]\n\n1. 32-28 19-23\n2. 28x19 14x23\n3. 37-32 10-14\n2-0\n'
CSA = "V2.2\nPI\n+\n+7776FU,T12\n%TORYO\n"


def lines_of(*words, folder=None):
    return subprocess.run(words, capture_output=True, text=True, cwd=folder).stdout.splitlines()


def versions():
    """The launcher adds to the version the hash of the sources, and the commit that last changed them."""
    version = lines_of(PROGRAM, "--version")
    check("`--version` prints a version", True, bool(re.fullmatch(r"club \d+\.\d+\.\d+", "".join(version))))
    stamp = lines_of(sys.executable, str(TOP / "tests/gate/build.py"), "--stamp")
    built = TOP / "build/club.sources"
    if not built.exists() or built.read_text().splitlines()[:1] != stamp:
        skip("the launcher prints the hash of the sources, and their commit", "build/club is of other sources")
        return
    printed = lines_of(str(TOP / "club"), "--version")
    check("the launcher prints the version and the hash of the sources", [*version, f"sources {stamp[0]}"], printed[:2])
    if lines_of("git", "-C", str(TOP), "rev-parse", "-q", "HEAD"):
        found = re.fullmatch(r"commit ([0-9a-f]{40})(, and changes since)?", "".join(printed[2:3]))
        differing = found and (found[2] or lines_of("git", "-C", str(TOP), "diff", "--name-only", found[1], "--", *SOURCES))
        result(found and (found[2] or not differing), "the launcher prints the commit of the sources",
               printed, differing)


def permissions():
    create()
    check("only the owner may read the file of a club", "600", f"{os.stat('c.db').st_mode & 0o777:o}")
    check("an argument that is not UTF-8 is a usage error",
          (2, "", "error: a word is not UTF-8\n"), run(["c.db", b"\xff"]))
    for words, said in (
        (("event", "cup", "draughts", "a week", 0), "'a week' for '<BUDGET>': it must be a whole number"),
        (("move", 1, 10 ** 20, "32-28"), f"'{10 ** 20}' for '<PLY>': the number is too large"),
    ):
        status, out, err = run(["c.db", *words])
        check(f"`{words[0]}` names a number that it cannot read, and says why",
              (2, "", f"error: invalid value {said}"), (status, out, err.split("\n")[0]))
    pathlib.Path("empty.db").write_bytes(b"")
    check("`verify` of an empty file is fault 70", (3, "store 70 Foreign"), club("empty.db", "verify"))


def refused_records():
    """Records whose result is not that of their moves."""
    club("c.db", "event", "fuji", "shogi", 86400, 0)

    def check_refused(name, words, text, refusal):
        check(f"a record {name} is refused",
              (1, f"refused {refusal}"), club("c.db", *words, "anna", "bert", "-", data=text))

    csa, pdn = ("import-csa", "new", "fuji"), ("import-pdn", "new", "cup")
    entered, fourfold = ((RECORDS / it).read_text() for it in ("entered.csa", "fourfold.csa"))
    check_refused("that declares a king one ply too early", csa, entered.replace("-3334FU\n", ""), "46 ResultDiffers")
    check_refused("that resigns after a fourfold repetition",
                  csa, fourfold.replace("%SENNICHITE", "%TORYO"), "46 ResultDiffers")
    check_refused("whose Result tag differs", pdn, PDN.replace('Result "2-0"', 'Result "0-2"'), "27 ResultDiffers")
    lost = PDN.replace("2-0", "0-2")
    check_refused("whose Result tag was reversed",
                  pdn, lost.replace('Result "0-2"', 'Result "2-0"'), "27 ResultDiffers")


def truncated_records():
    """Each beginning of a record that lacks a part of its last statement is refused."""
    for word, event, text in ("import-pdn", "cup", PDN), ("import-csa", "fuji", CSA):
        accepted = [size for size in range(len(text) - 1)
                    if club("c.db", word, "begun", event, "anna", "bert", "-", data=text[:size])[0] != 1]
        check(f"`{word}` refuses each truncated record", [], accepted)


def main():
    with tempfile.TemporaryDirectory() as folder, contextlib.chdir(folder):
        for part in (versions, permissions, refused_records, truncated_records):
            part()
    return exit_status()


if __name__ == "__main__":
    sys.exit(main())
