#!/usr/bin/env python3
"""Tests the completions of the shells, and the man page.

    python3 tests/cli/completions.py

Each shell completes lines as at its prompt; a shell that is not installed is skipped.
"""
import pathlib
import shutil
import subprocess
import sys
import tempfile

sys.path[0] = str(pathlib.Path(__file__).resolve().parents[1])
from lib.club import PROGRAM, TOP, WAIT
from lib.report import check, exit_status, result, skip
from lib.zsh_lines import complete

FOLDER = TOP / "tools/completions"
FILES = ["orders.txt", "ourclub.db"]
# A line up to the cursor, what is offered, and what else is said of it.
LINES = [
    ("club ", FILES, "the first word is a file"),
    ("club our", ["ourclub.db"], "a file is completed"),
    ("club --e", ["--explain"], "an option before the file is completed"),
    ("club --j", ["--json"], "`--json` is completed"),
    ("club --now 5 our", ["ourclub.db"], "the value of an option is not taken for the file"),
    ("club ourclub.db ver", ["verify"], "a command is completed"),
    ("club --json ourclub.db ch", ["challenges"], "a command is completed behind `--json`"),
    ("club ourclub.db event", ["event", "events"], "two commands are offered"),
    ("club ourclub.db games --o", ["--overdue"], "an option of a command is completed"),
    ("club ourclub.db event autumn ", ["draughts", "shogi"], "the values of an argument are offered"),
    ("club ourclub.db batch ord", ["orders.txt"], "an argument that is a file is completed"),
    ("club ourclub.db import-csa --part 2 k e a b ord", ["orders.txt"], "arguments are counted without options"),
    ("club ourclub.db member ord", [], "an argument that is no file is not completed"),
    ("club ourclub.db unknown ", [], "an unknown command has no completions"),
]
# At a terminal only what is completed at once can be read: a line, and the line after a tabulator.
ZSH_LINES = [
    ("club our", "club ourclub.db "),
    ("club --ex", "club --explain "),
    ("club ourclub.db ver", "club ourclub.db verify "),
    ("club --now 5 ourclub.db games --ov", "club --now 5 ourclub.db games --overdue "),
    ("club ourclub.db event autumn sh", "club ourclub.db event autumn shogi "),
    ("club ourclub.db batch ord", "club ourclub.db batch orders.txt "),
    ("club ourclub.db import-csa --part 2 k e a b ord", "club ourclub.db import-csa --part 2 k e a b orders.txt "),
]
BASH = """
source "$1"
IFS=' ' read -r -a COMP_WORDS <<< "$2"
[[ $2 != *' ' ]] || COMP_WORDS+=('')
COMP_CWORD=$((${#COMP_WORDS[@]} - 1)) COMP_LINE=$2 COMP_POINT=${#2}
_club
printf '%s\\n' "${COMPREPLY[@]}"
"""


def output(*words, **how):
    ran = subprocess.run(words, capture_output=True, text=True, timeout=WAIT, check=False, **how)
    return ran.returncode, ran.stdout, ran.stderr


def test_bash(folder):
    for line, offered, name in LINES:
        _, out, err = output("bash", "-c", BASH, "-", str(FOLDER / "club.bash"), line, cwd=folder)
        check(f"bash: {name}", (offered, ""), (sorted(out.split()), err))
    _, out, _ = output("bash", "-c", 'source "$1"; complete -p club', "-", str(FOLDER / "club.bash"))
    check("bash completes the words of club by its function", "complete -F _club club\n", out)


def test_fish(folder):
    if not shutil.which("fish"):
        skip("fish completes", "there is no fish")
        return
    for line, offered, name in LINES:
        script = 'source $argv[1]; complete -C $argv[2] | string replace -r "\\t.*" ""'
        _, out, err = output("fish", "--no-config", "-c", script, str(FOLDER / "club.fish"), line, cwd=folder)
        check(f"fish: {name}", (offered, ""), (sorted(out.split()), err))


def test_zsh(folder):
    if not shutil.which("zsh"):
        skip("zsh completes", "there is no zsh")
        return
    check("zsh accepts the syntax of its completions", (0, "", ""), output("zsh", "-n", str(FOLDER / "_club")))
    for (line, expected), got in zip(ZSH_LINES, complete(ZSH_LINES, str(FOLDER), folder), strict=True):
        result(expected in got, f"zsh completes: {line}", f"expected: {expected}", f"printed: {got!r}")


def test_commands(_):
    """Each command that the program lists is offered by each shell."""
    _, out, err = output(PROGRAM, "--help")
    listed = [it.split()[0] for it in (out or err).split("Commands:\n")[1].split("\n\n")[0].splitlines()]
    for name in ("club.bash", "_club", "club.fish"):
        text = (FOLDER / name).read_text(encoding="utf-8")
        missing = [it for it in listed if it not in text and it != "help"]
        result(not missing, f"{name} has each command of the program", missing)


def test_page(_):
    if not shutil.which("groff"):
        skip("groff formats the man page without a warning", "there is no groff")
        return
    check("groff formats the man page without a warning", (0, ""),
          output("groff", "-man", "-ww", "-Tutf8", "-z", str(TOP / "docs/club.1"))[::2])


if __name__ == "__main__":
    with tempfile.TemporaryDirectory() as at:
        for file in FILES:
            pathlib.Path(at, file).touch()
        for test in (test_bash, test_fish, test_zsh, test_commands, test_page):
            test(at)
    sys.exit(exit_status())
