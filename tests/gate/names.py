#!/usr/bin/env python3
"""Checks the public names of the crates: names of functions, of types, and renaming imports.

    python3 tests/gate/names.py [--all]

1. No public function is named by a bare participle (`told`, `written`) or a bare preposition (`behind`, `within`).
2. No name of a public type (struct, enum, trait, type alias) is defined twice in the repository.
3. No `use .. as ..` in src/*.rt renames an item of one of our crates.

A function is public if it is `pub` or a method of a public trait. The exceptions are below, each with its reason. With
`--all` the same rules apply to items that are `pub(crate)`, and exceptions are reported too.
"""
import collections
import pathlib
import re
import sys

sys.path[0] = str(pathlib.Path(__file__).resolve().parents[1])
from lib.report import exit_status, result

TOP = pathlib.Path(__file__).resolve().parents[2]

# Functions and types whose name is fixed by an interface that is not ours to change, and the reason.
FIXED = "the published interface of the crate has this name"
AS_SHAKMATY = "shakmaty's Bitboard has this name"
FUNCTION_EXCEPTIONS = {
    "attacked": FIXED,
    "mated": FIXED,
    "with": AS_SHAKMATY,
    "without": AS_SHAKMATY,
}
TYPE_EXCEPTIONS = {
    "GameWriter": FIXED,  # pdn_games and csa: one interface for two formats
    "Illegal": FIXED,  # draughts_moves and shogi_moves: one interface for two games
    "Tail": FIXED,  # draughts_draws and shogi_repetition: likewise
}
ALIAS_EXCEPTIONS = {}  # "crate/src/file.rt: alias" -> reason

IRREGULAR = set("""
    become beaten been begun bent bet bid bitten bled blown born borne bought bound bred broken brought built burnt burst
    bought cast caught chosen clung come cost crept cut dealt done drawn driven drunk dug eaten fallen fed felt fled flown
    forgotten fought found frozen given gone got gotten ground grown had heard held hidden hit hung hurt kept known laid
    lain learnt led left lent let lit lost made meant met paid put quit read rent rid ridden risen run rung said sat seen
    sent set shaken shed shone shot shown shrunk shut slain slept slid slit sold sought spelt spent split spoken spread
    sprung spun stolen stood struck stuck stung sung sunk sworn swept swollen swum swung taken taught thought thrown thrust
    told torn trodden understood woken won worn wound woven written
""".split())
# Participles that are also the verb's base form: `read`, `run` and `split` name an action.
VERBS = set("become bet bid burst cast come cost cut hit hurt let put quit read rid run set shed shut slit split spread "
            "thrust wound".split())
# Words that end like a participle and are none.
NOT_PARTICIPLES = set("""
    bed bleed breed embed exceed feed greed heed need proceed red seed shed speed succeed weed
    alien burden children citizen den dozen eleven even fasten flatten garden glisten golden happen harden hen hyphen
    kitchen lengthen lighten linen listen loosen men omen open oxygen pen screen seven shorten siren specimen strengthen
    sudden sweeten ten then thicken tighten token warden when widen women wooden
""".split())
PREPOSITIONS = set("""
    aboard about above across after against along amid among apart around as at aside atop away before behind below beneath
    beside besides between beyond by despite down during except for from in inside into near of off on onto opposite out
    outside over past per since than through throughout till to together toward towards under underneath until up upon via
    with within without
""".split())


def is_participle(word):
    """Whether the name is one word, which is a past participle and nothing else."""
    if word in VERBS | NOT_PARTICIPLES:
        return False
    return word in IRREGULAR or re.fullmatch(r"[a-z]{2,}(ed|en)", word) is not None


def crates():
    """The names of our crates, in the order of crates.txt."""
    lines = (TOP / "crates.txt").read_text(encoding="utf-8").splitlines()
    return [line.split(":")[0].strip() for line in lines if ":" in line and not line.startswith("#")]


def blanked(text):
    """The source with the content of strings and comments replaced by blanks, so that line numbers stay."""
    pattern = re.compile(r'//[^\n]*|/\*.*?\*/|b?"(?:[^"\\]|\\.)*"', re.S)
    return pattern.sub(lambda it: re.sub(r"[^\n]", " ", it[0]), text)


def sources():
    """Each source file of our crates: its crate, its path below crates/, and its text without strings and comments."""
    for crate in crates():
        for path in sorted((TOP / "crates" / crate / "src").rglob("*.rt")):
            yield crate, str(path.relative_to(TOP / "crates")), blanked(path.read_text(encoding="utf-8"))


def line_of(text, at):
    return text.count("\n", 0, at) + 1


def bodies_of_public_traits(text, visibility):
    """The place and text of each public trait's body."""
    for trait in re.finditer(rf"\b{visibility} trait \w+[^{{;]*\{{", text):
        depth, at = 1, trait.end()
        while depth and at < len(text):
            depth += {"{": 1, "}": -1}.get(text[at], 0)
            at += 1
        yield trait.end(), text[trait.end():at]


def functions(text, visibility):
    """The place and name of each public function, and of each method of a public trait."""
    for found in re.finditer(rf"\b{visibility} (?:const |unsafe |ghost )*fn (\w+)", text):
        yield found.start(1), found[1]
    for start, body in bodies_of_public_traits(text, visibility):
        for found in re.finditer(r"^    (?:ghost )?fn (\w+)", body, re.M):
            yield start + found.start(1), found[1]


def wrong_functions(visibility, exceptions):
    for _, path, text in sources():
        for at, name in functions(text, visibility):
            kind = "participle" if is_participle(name) else "preposition" if name in PREPOSITIONS else None
            if kind and name not in exceptions:
                yield f"crates/{path}:{line_of(text, at)}: fn {name} is a bare {kind}"


def repeated_types(visibility, exceptions):
    found = collections.defaultdict(list)
    for _, path, text in sources():
        for it in re.finditer(rf"\b{visibility} (struct|enum|trait|type) (\w+)", text):
            # A member of an `impl` or of a trait is named by its owner: only items of a module count.
            if not text[text.rfind("\n", 0, it.start()) + 1:it.start()].strip(" "):
                found[it[2]].append(f"crates/{path}:{line_of(text, it.start())} ({it[1]})")
    for name, places in sorted(found.items()):
        if len(places) > 1 and name not in exceptions:
            yield f"{name}: {', '.join(places)}"


def aliases(exceptions):
    ours = set(crates()) | {"crate", "self", "super"}
    for _, path, text in sources():
        for use in re.finditer(r"^[ ]*(?:pub(?:\([^)]*\))? )?use (\w+)\b([^;]*);", text, re.M):
            for alias in re.finditer(r"(\w+) as (\w+)", use[0]):
                name = f"{path}: {alias[1]} as {alias[2]}"
                if use[1] in ours and alias[2] != "_" and name not in exceptions:
                    yield f"crates/{path}:{line_of(text, use.start() + alias.start())}: {use[1]}: {alias[0]}"


def main():
    shows_all = "--all" in sys.argv[1:]
    visibility = r"pub(?:\([^)]*\))?" if shows_all else r"pub"
    kept = (lambda it: {}) if shows_all else (lambda it: it)
    checks = (
        ("no public function is named by a bare participle or preposition",
         wrong_functions(visibility, kept(FUNCTION_EXCEPTIONS))),
        ("no name of a public type is defined twice", repeated_types(visibility, kept(TYPE_EXCEPTIONS))),
        ("no import renames an item of our own crates", aliases(kept(ALIAS_EXCEPTIONS))),
    )
    for name, found in checks:
        found = list(found)
        result(not found, name + (f" ({len(found)} places)" if found else ""), *found)
    return exit_status()


if __name__ == "__main__":
    sys.exit(main())
