#!/usr/bin/env python3
"""Makes docs/contracts.md from the section `# Guarantees` in the head comment of each crate.

    python3 tests/gate/contracts.py            fails if the document is stale or a section names what is not there
    python3 tests/gate/contracts.py --write    writes the document

A guarantee is a list item of the head: the items that it is about, each with the clauses that state it, a colon, and
the guarantee in words. An item is a function, a method, a type, an implementation or a public lemma of the crate. A
clause must be an `ensures` of that function. A name in the words must occur in some crate.
"""
import collections
import difflib
import functools
import pathlib
import re
import sys

sys.path[0] = str(pathlib.Path(__file__).resolve().parents[1])
from gate.crate_table import first_sentence, read_groups
from lib.report import exit_status, result

TOP = pathlib.Path(__file__).resolve().parents[2]
DOCUMENT = TOP / "docs/contracts.md"
TITLE = "# Guarantees"
MOST_WORDS = 30  # in a sentence
# Programs, which have no lib.rt: what they guarantee, or nothing if no contract says more than that they are safe.
PROGRAMS = {
    "perft": [
        "- `leaves`: the number of sequences of so many legal moves, for any game whose list and count of them are exact.",
        "- `print_counts`: a line for each legal move in order, with its text and its count, and then the total.",
    ],
    "club": [],
    "scripts": [],
}
WITHOUT = {"club_tests"}  # libraries that guarantee nothing
HEAD = """# Contracts, crate by crate

`python3 tests/gate/contracts.py --write` makes this page from the head comment of each crate. The gate fails where the
two differ, and where a clause that is named here is not in the contract of its function.

This page is for a reader who has read [the theorem](proof.md) and wants to know which call promises what. The prover
refuses a body that does not keep its contract. [What is not proved](unproved.md) has the limits and the tests.

Every function of every crate is proved total and safe. It ends, it stays within its numbers and its slices, and lack of
memory is an answer. The lists below say what is promised beyond that. Each item names the functions, and in parentheses
the clauses that state it. A function without parentheses has a contract of one clause, or is a law or a trait's method.

| Term | Meaning |
|---|---|
| crash | the process is killed, the machine loses power, or a call of the file system fails |
| the state machine | `step` in `club_core/specs/State` |
| a legal club | `IsLegalState` in `club_core/specs/LegalState` |
| its tables | `tables_of` in `club_rows/specs/Tables` |
| a history leads to a state | each session adds the first k of its accepted requests; k covers all acknowledged ones |
| foreign tables | tables, indexes and views of other programs in the same file |
| 70 to 77 | the faults of [formats.md](formats.md#the-command-line) |

All guarantees about a database assume that no other program writes the file, and that the disk returns what was synced
(`HasCleanDisk` of the kit's `sqlite`). Those of `store` hold for any store of `sqlite`, and those of `store_files` for
its files (`opens_again`). The theorem is the clause `history` of [`club_session`](#club_session)."""

FUNCTION = re.compile(r"^\s*(?:pub(?:\([^)]*\))? )?(?:const )?fn (\w+)")
BLOCK = re.compile(r"^(?:pub(?:\([^)]*\))? )?(impl|trait)\b(.*)")
TYPE = re.compile(r"^\s*(?:pub(?:\([^)]*\))? )?(?:struct|enum|trait|type) (\w+)", re.MULTILINE)
CLAUSE = re.compile(r"^\s*ensures (?:(\w+) )?\{")
ITEM = re.compile(r"`([\w:]+)`(?: for `(\w+)`)?(?: \(((?:`\w+`(?:, )?)+)\))?(?:, |$)")


def head_of(crate):
    """The lines of a crate's head comment, without their marks; nothing if it has no lib.rt."""
    path = TOP / "crates" / crate / "src/lib.rt"
    lines = []
    for line in path.read_text(encoding="utf-8").splitlines() if path.exists() else ():
        if not line.startswith("//!"):
            break
        lines.append(line.removeprefix("//!").removeprefix(" "))
    return lines


def guarantees_of(crate):
    """The lines of a crate's section: list items and paragraphs, each on one line, and titles."""
    if crate in PROGRAMS:
        return PROGRAMS[crate]
    lines = head_of(crate)
    found = []
    is_open = False  # whether the line above goes on
    for line in lines[lines.index(TITLE) + 1:] if TITLE in lines else ():
        text = line.strip()
        if is_open and text and not text.startswith(("- ", "#")):
            found[-1] += " " + text
        elif text:
            found.append(text)
        is_open = bool(text) and not text.startswith("#")
    return found


@functools.cache
def functions_of(crate):
    """The functions of a crate: name, the head of the impl or trait around it, and the clauses of each."""
    found = collections.defaultdict(list)
    for path in sorted((TOP / "crates" / crate / "src").rglob("*.rt")):
        around, clauses = "", set()
        for line in path.read_text(encoding="utf-8").splitlines():
            if block := BLOCK.match(line):
                around = block[2]
            elif line.startswith("}"):
                around = ""
            elif function := FUNCTION.match(line):
                clauses = set()
                found[function[1]].append((around, clauses))
            elif clause := CLAUSE.match(line):
                clauses.add(clause[1])
    return found


@functools.cache
def sources_of(crate):
    return "\n".join(it.read_text(encoding="utf-8") for it in sorted((TOP / "crates" / crate / "src").rglob("*.rt")))


@functools.cache
def lemmas_of(crate):
    """The names in the crate's public interface of lemmas."""
    path = TOP / "crates" / crate / "proofs/Proved.antt"
    return set(re.findall(r"\w+", path.read_text(encoding="utf-8"))) if path.exists() else set()


@functools.cache
def words_of_crates():
    """All words of sources and definitions, but for comments, and the names of crates and files."""
    files = [*TOP.glob("crates/*/src/**/*.rt"), *TOP.glob("crates/*/specs/**/*.antt")]
    lines = {line for it in files for line in it.read_text(encoding="utf-8").splitlines()}
    words = {word for it in lines if not it.lstrip().startswith(("//", "--")) for word in re.findall(r"[\w-]+", it)}
    return words | {part for it in files for part in it.relative_to(TOP / "crates").with_suffix("").parts}


def is_there(crate, name, of_type, clauses):
    """Whether the crate has this item with these clauses."""
    if of_type:
        return re.search(rf"^impl\b.*\b{name}\b.* for {of_type}\b", sources_of(crate), re.MULTILINE) is not None
    *path, last = name.split("::")
    functions = functions_of(crate)[last]
    if path:
        functions = [it for it in functions if re.search(rf"\b{path[0]}\b", it[0])]
    if functions:
        return any(clauses <= it[1] for it in functions)
    return not clauses and not path and (name in TYPE.findall(sources_of(crate)) or name in lemmas_of(crate))


def faults_of(crate):
    """What is wrong with a crate's section."""
    if crate not in PROGRAMS and crate not in WITHOUT and not guarantees_of(crate):
        yield f"{crate}: src/lib.rt has no section {TITLE}"
    for line in guarantees_of(crate):
        names, colon, words = line.removeprefix("- ").partition(": ")
        if not line.startswith("- `") or not colon:
            names, words = "", line
        rest = names
        for item in ITEM.finditer(names):
            rest = rest.replace(item[0], "", 1)
            if not is_there(crate, item[1], item[2], set(re.findall(r"\w+", item[3] or ""))):
                yield f"{crate}: {item[0].removesuffix(', ')} is not in its sources"
        if rest:
            yield f"{crate}: not a list of items: {names}"
        for name in re.findall(r"`([^`]+)`", words):
            if not all(it in words_of_crates() for it in re.findall(r"[\w-]+", name)):
                yield f"{crate}: `{name}` is in no crate"
        for sentence in re.split(r"(?<=[.;:?]) ", words):
            if len(sentence.split()) > MOST_WORDS:
                yield f"{crate}: more than {MOST_WORDS} words: {sentence}"


def section_of(crate):
    """The part of the document about a crate."""
    parts = [f"### {crate}", first_sentence(crate)]
    lines = guarantees_of(crate)
    if not lines:
        parts.append("No contract says more than that its functions are total and safe.")
    for before, line in zip(["", *lines], lines):
        line = "##" + line if line.startswith("#") else line
        if line.startswith("- ") and before.startswith("- "):
            parts[-1] += "\n" + line
        else:
            parts.append(line)
    return "\n\n".join(parts)


def document():
    """The text of the document."""
    parts = [HEAD]
    for title, crates in read_groups():
        parts.append(f"## {title}")
        parts += map(section_of, crates)
    return "\n\n".join(parts) + "\n"


def main():
    crates = [crate for _, crates in read_groups() for crate in crates]
    found = [fault for crate in crates for fault in faults_of(crate)]
    result(not found, "each guarantee names items and clauses that its crate has", *found[:20])
    text = document()
    if sys.argv[1:] == ["--write"]:
        DOCUMENT.write_text(text, encoding="utf-8")
    old = DOCUMENT.read_text(encoding="utf-8")
    changes = list(difflib.unified_diff(old.splitlines(), text.splitlines(), "docs/contracts.md", "crates/", n=0,
                                        lineterm=""))
    result(not changes, "docs/contracts.md has the guarantees of the crates",
           "python3 tests/gate/contracts.py --write makes it anew", *changes[2:22])
    return exit_status()


if __name__ == "__main__":
    sys.exit(main())
