"""Builds a program of bench/programs. They are text there, since they are no crates of the repository."""
import os
import shutil
import subprocess
import sys

from club_files import BENCH, TOP


def rows():
    """The libraries of each crate, as crates.txt has them."""
    found = {}
    for line in (TOP / "crates.txt").read_text(encoding="utf-8").splitlines():
        name, colon, below = line.partition("#")[0].partition(":")
        if colon:
            found[name.strip()] = below.split()
    return found


def needed(names, table):
    """These crates and those below them."""
    found, left = set(), [it for it in names if it in table]
    while left:
        name = left.pop()
        if name not in found:
            found.add(name)
            left += [it for it in table[name] if it in table]
    return found


def copy_crate(name, to):
    """Copies the sources of a crate, and the library that an earlier check built of it."""
    for part in "src", "specs", "proofs", "out/rlib":
        folder = TOP / "crates" / name / part
        if folder.is_dir():
            shutil.copytree(folder, to / "crates" / name / part, copy_function=os.link)


def build(name, below, folder):
    """Proves and builds a program over these libraries, in a folder beside the repository's. Returns its path."""
    table = rows()
    crates = needed(below, table)
    for it in crates:
        copy_crate(it, folder)
    source = folder / "crates" / name / "src"
    source.mkdir(parents=True)
    shutil.copy(BENCH / f"programs/{name}.rt.txt", source / "main.rt")
    shutil.copy(TOP / "HANDLES", folder)
    listed = [f"{it}: {' '.join(table[it])}" for it in table if it in crates]
    (folder / "crates.txt").write_text("\n".join([*listed, f"{name}: {' '.join(below)}", ""]), encoding="utf-8")
    subprocess.run(["git", "init", "-q", folder], check=True)
    ran = subprocess.run(["rt", "run"], cwd=source.parent, stdin=subprocess.DEVNULL, capture_output=True, text=True,
                         check=False)
    program = source.parent / "out" / name
    if not program.is_file():
        sys.exit(ran.stdout + ran.stderr)
    return program
