#!/usr/bin/env python3
"""Makes the table of crates in docs/architecture.md, from crates.txt and the first sentence of each crate's head.

    python3 tests/gate/crate_table.py            prints a diff and fails if the document is stale
    python3 tests/gate/crate_table.py --write    writes the table into the document

The table is between the two marker lines. Its groups are the comments of crates.txt, and its order is that of the lines
there. A library below another one of the same row is left out, and libraries of the kit have one name for each family.
"""
import difflib
import pathlib
import re
import sys

TOP = pathlib.Path(__file__).resolve().parents[2]
DOCUMENT = TOP / "docs/architecture.md"
BEGIN = "<!-- The table of crates, made by tests/gate/crate_table.py --write -->"
END = "<!-- The end of the table -->"
FAMILIES = "sqlite", "jiff"  # libraries of the kit that are named by their family


def read_groups():
    """The groups of crates.txt in order: the title, and the libraries of each crate by its name."""
    groups = []
    for line in (TOP / "crates.txt").read_text().splitlines():
        title = re.fullmatch(r"# (\w+): .*", line)
        if title:
            groups.append((title[1], {}))
        elif ":" in line and not line.startswith("#"):
            crate, libraries = line.split(":")
            groups[-1][1][crate] = libraries.split()
    return groups


def all_libraries():
    """The libraries of each crate, by its name."""
    return {crate: libraries for _, crates in read_groups() for crate, libraries in crates.items()}


def below(crate, libraries):
    """All crates and libraries that a crate uses, directly or through another one."""
    return set().union(*({it} | below(it, libraries) for it in libraries.get(crate, ())))


def first_sentence(crate):
    """The first sentence of the head of a crate's lib.rt or main.rt."""
    source = TOP / "crates" / crate / "src/lib.rt"
    lines = (source if source.exists() else source.with_name("main.rt")).read_text().splitlines()
    head = []
    for line in lines:
        text = line.removeprefix("//!").strip()
        if not line.startswith("//!") or not text:
            break
        head.append(text)
    return re.match(r".*?\.(?= [A-Z]|$)|.*", " ".join(head))[0]


def direct_libraries(crate, libraries):
    """The libraries of a crate that are not below another one of them; those of the kit by family, last."""
    direct = libraries[crate]
    covered = set().union(*(below(it, libraries) for it in direct))
    ours = [it for it in direct if it in libraries and it not in covered]
    kit = [next((family for family in FAMILIES if it.startswith(family)), it) for it in direct
           if it not in libraries and it not in covered]
    return list(dict.fromkeys(ours + kit))


def table():
    """The lines of the table."""
    libraries = all_libraries()
    lines = ["| Group | Crate | Content | Built on |", "|---|---|---|---|"]
    for title, crates in read_groups():
        for number, crate in enumerate(crates):
            used = ", ".join(f"`{it}`" for it in direct_libraries(crate, libraries))
            lines.append(f"| {title.lower() if not number else ''} | `{crate}` | {first_sentence(crate)} | {used} |")
    return lines


def parts(text):
    """The lines of the document before the table, of the table, and after it."""
    lines = text.splitlines()
    begin, end = lines.index(BEGIN) + 1, lines.index(END)
    return lines[:begin], lines[begin:end], lines[end:]


def difference():
    """The lines of a diff from the table in the document to the table of the sources; none if it is current."""
    _, found, _ = parts(DOCUMENT.read_text())
    return list(difflib.unified_diff(found, table(), "docs/architecture.md", "crates.txt and crates/", lineterm=""))


def main():
    if sys.argv[1:] == ["--write"]:
        before, _, after = parts(DOCUMENT.read_text())
        DOCUMENT.write_text("\n".join([*before, *table(), *after]) + "\n")
        return 0
    found = difference()
    print(*found, sep="\n", end="\n" if found else "")
    return int(bool(found))


if __name__ == "__main__":
    sys.exit(main())
