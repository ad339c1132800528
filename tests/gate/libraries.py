#!/usr/bin/env python3
"""Prints the libraries of crates.txt that no file of the crate names, one line for each crate: `CRATE: LIBRARY ..`.

A crate takes time to load each library, and is checked again when it changes.
"""
import pathlib
import re

TOP = pathlib.Path(__file__).resolve().parents[2]


def lines():
    for line in (TOP / "crates.txt").read_text().splitlines():
        if ":" in line and not line.startswith("#"):
            crate, libraries = line.split(":")
            yield crate.split()[0], libraries.split()


def text_of(crate):
    files = [it for it in sorted((TOP / "crates" / crate).rglob("*")) if it.suffix in (".rt", ".antt")]
    return "\n".join(it.read_text() for it in files if "out" not in it.relative_to(TOP).parts)


def is_named(library, text):
    """Whether the text names it: in a path of code, in a `use`, or in a name of its statements."""
    return re.search(rf"\b{library}\s*::|\buse\s+{library}\b|\bRattle[.-]{library}\b", text) is not None


def main():
    for crate, libraries in lines():
        text = text_of(crate)
        without_need = [it for it in libraries if not is_named(it, text)]
        if without_need:
            print(f"{crate}: {' '.join(without_need)}")


if __name__ == "__main__":
    main()
