#!/usr/bin/env python3
"""The scripts of bench/ can be read, and the programs and the libraries that they name are there.

    python3 tests/gate/bench.py

It measures nothing, and builds none of the programs.
"""
import ast
import pathlib
import sys

sys.path[0] = str(pathlib.Path(__file__).resolve().parents[1])
from lib import kit
from lib.club import TOP
from lib.report import exit_status, result, skip

BENCH = TOP / "bench"


def libraries_of(tree):
    """The libraries that a script names as those below its program."""
    for node in tree.body:
        if isinstance(node, ast.Assign) and ast.unparse(node.targets[0]) == "BELOW":
            return node.value.func.value.value.split()
    return []


def crates():
    lines = (TOP / "crates.txt").read_text(encoding="utf-8").splitlines()
    return {line.partition(":")[0].strip() for line in lines if ":" in line.partition("#")[0]}


def check_script(path, known):
    try:
        tree = ast.parse(path.read_text(encoding="utf-8"))
    except SyntaxError as error:
        result(False, f"bench/{path.name} can be read", str(error))
        return
    below = libraries_of(tree)
    lacking = [it for it in below if it not in known]
    if below and not (BENCH / f"programs/{path.stem}.rt.txt").is_file():
        lacking.append(f"programs/{path.stem}.rt.txt")
    result(not lacking, f"bench/{path.name} can be read, and names nothing that is not there", *lacking)


def main():
    rt = kit.load()
    if rt is None:
        skip("the scripts of bench/ name what is there", "there is no `rt` on the path")
        return exit_status()
    known = crates() | {it.name for it in pathlib.Path(rt.KIT, "rattle").iterdir()}
    for path in sorted(BENCH.glob("*.py")):
        check_script(path, known)
    return exit_status()


if __name__ == "__main__":
    sys.exit(main())
