#!/usr/bin/env python3
"""Lists the definitions that the program's promises rest on, and compares the list with docs/trusted.md.

    python3 tests/gate/trusted.py [--write] [--figures] [--uncommented]

A promise is a contract of a call that `main` makes, or a law; PROMISES names their functions and clauses. From a clause
every name is followed to its definition (definitions.py says how), and what is reached is what a reader has to believe.
With `--write` the document is made anew; without it the script fails where document and sources differ.
`--figures` prints the counts of the document, `--uncommented` the definitions that have no comment.
"""
import collections
import dataclasses
import difflib
import pathlib
import re
import sys

sys.path[0] = str(pathlib.Path(__file__).resolve().parents[1])
from gate.definitions import INTERNAL, Tree, clauses_in, read_uses, rust_generics
from lib.report import exit_status, result

TOP = pathlib.Path(__file__).resolve().parents[2]
DOCUMENT = "docs/trusted.md"
LONGEST_LIST = 1500  # rows of definitions; a promise whose rows go beyond it is listed by file
SUBTREES = 20  # rows
PART = 0.9  # a definition with so much of the subtree above it has no row of its own
LONGEST_SENTENCE = 30  # words of a cell
NO_COMMENT = "no comment"
# Lemmas that definitions name, as a field of a record may be a proof, and as a value may be the only one that has a
# property. Each has been read: its type is a proposition, or `TheOnly` of the property that the definition names too.
LEMMAS = {
    ("club_games/specs/internal/CsaOnly.antt", "csa-part"),
    ("club_games/specs/internal/PdnOnly.antt", "pdn-part"),
    ("club_session/specs/ServedStates.antt", "left_wider"),
    ("club_session/specs/ServedStates.antt", "served_settled"),
    ("club_session/specs/ServedStates.antt", "served_stays"),
    ("masks/specs/internal/Words.antt", "word_back"),
}
# That there is exactly one value with a property: what a definition by description rests on.
DESCRIPTION = "squares", "squares/specs/TheOnly.antt", "TheOnly"
GAMES = "both_games"  # a parameter of the headline: the rules and texts of both games
LAWS = ("club_rules/src/game.rt", "Rules"), ("club_rules/src/records.rt", "Records")  # traits: what a game must satisfy

# The order in which a reader meets the subjects, and the crates of each.
GROUPS = (
    ("Squares and moves", "memory masks squares draughts_moves shogi_moves"),
    ("Ends", "game_history draughts_draws shogi_repetition"),
    ("Texts of positions and moves", "sfen pdn diagrams"),
    ("Records", "record_writer pdn_games csa"),
    ("Clock", "clocks"),
    ("The machine", "club_rules club_games club_requests club_core club_laws club_imports pairings"),
    ("Tables", "store_tables store_sql schema_match club_rows club_changes club_audit club_check club_reads"),
    ("Queries", "cross_tables club_analysis club_lists club_exports club_answers"),
    ("Histories and crashes", "store store_files club_orders club_session"),
    ("HTTP and the control socket", "club_page http_head http_bodies http_desk control_socket server"),
    ("Command line", "cli club_batches club_program club"),
)


ALL = "every public function"


@dataclasses.dataclass(frozen=True)
class Root:
    """A function, a trait, or `TRAIT for TYPE`, and which of its clauses a promise has (all, if none is named)."""

    file: str  # below crates/
    item: str
    clauses: str = ""


@dataclasses.dataclass(frozen=True)
class Promise:
    title: str
    says: str
    roots: tuple


PROMISES = (
    Promise(
        "The headline: histories and answers",
        "Whatever a crash leaves is a state that the accepted commands lead to, and each answer is the machine's.",
        (Root("club_session/src/order.rt", "execute_order", "history answer"),
         Root("club_session/src/serving_session.rt", "serve_files", "history"))),
    Promise(
        "Every clause of an order over a file",
        "Creation, batches, queries, `verify`, `upgrade`, and why a file is rejected.",
        (Root("club_session/src/order.rt", "execute_order"),)),
    Promise(
        "Every clause of a serving session",
        "What the server does to the file between opening and closing, and which faults it reports.",
        (Root("club_session/src/serving_session.rt", "serve_files"),
         Root("server/src/connections.rt", "Connections"))),
    Promise(
        "Backups",
        "A copy has exactly the club's tables, or there is no club in it.",
        (Root("club_session/src/copying.rt", "back_up"),)),
    Promise(
        "The store",
        "Commands, queries, creation, opening and upgrade over a connection, with other programs' tables beside them.",
        (Root("store/src/club.rt", "create"), Root("store/src/club.rt", "adopt"), Root("store/src/club.rt", "apply"),
         Root("store/src/club/asking.rt", "ask"), Root("store/src/club/keys.rt", "member_by_key"),
         Root("store/src/upgrades.rt", "upgrade"))),
    Promise(
        "HTTP",
        "The reply to a request is the one that the club's state and the request determine.",
        (Root("server/src/serve.rt", "serve_one"), Root("http_desk/src/desk.rt", "answer"),
         Root("http_desk/src/served.rt", "ClubService"),
         Root("club_session/src/desk_club.rt", "ClubService for DeskClub"))),
    Promise(
        "The control socket",
        "An order to the server takes effect once or not at all, and its answer is printed as without a server.",
        (Root("control_socket/src/orders.rt", "serve_order"), Root("control_socket/src/client.rt", "print_answered"),
         Root("club_program/src/on_server.rt", "is_printed_alike"))),
    Promise(
        "What is printed",
        "Reports, batches and explanations as text, and the exit status.",
        (Root("club_orders/src/explained.rt", "print_explained"), Root("club_orders/src/batched.rt", "print_batch"),
         Root("club_orders/src/explained_batch.rt", "print_batch_explained"),
         Root("club_program/src/lib.rt", "run"))),
    Promise(
        "The command line and pairings",
        "Which words are which order, and the games of a round robin.",
        (Root("cli/src/words.rt", "read_words"), Root("club_batches/src/seats.rt", "seats_of"),
         Root("club_batches/src/seats.rt", "seat_lines"))),
    Promise(
        "Laws",
        "Idempotent commands, and other properties of the machine, of histories and of routes, which no call states.",
        (Root("club_laws/src/laws.rt", ALL), Root("store/src/laws.rt", ALL), Root("club_session/src/laws.rt", ALL),
         Root("http_desk/src/laws.rt", ALL))),
)


# ---- what promises reach

def closure(tree, roots, opaque=()):
    """All keys that are reached from some keys; what is opaque is reached and not followed."""
    found, waiting = set(), list(roots)
    while waiting:
        key = waiting.pop()
        if key not in found:
            found.add(key)
            if key not in opaque:
                waiting += tree.uses(key)
    return found


def roots_of(tree, root):
    """The keys that the clauses of a root name, and the types of its signature."""
    file = tree.rust.get(root.file)
    if file is None:
        raise LookupError(f"there is no file {root.file}")
    if " for " in root.item:
        trait, _, name = root.item.partition(" for ")
        found = re.search(rf"^impl\b[^{{\n]*\b{trait}\b[^{{\n]* for {name}\b", file.plain, re.M)
        if found:
            crate, own = file.types.get(trait, (file.crate, trait))
            return {tree.type_key(file.crate, name), tree.type_key(crate, own),
                    *tree.uses_of_block(file, found.start(), file.block(found.start()))}
    else:
        found = re.search(rf"^(?:pub(?:\([^)]*\))? )?trait {root.item}\b", file.plain, re.M)
        if found:
            return {tree.type_key(file.crate, root.item),
                    *tree.uses_of_block(file, found.start(), file.block(found.start()))}
        name = r"\w+" if root.item == ALL else re.escape(root.item)
        found = list(re.finditer(rf"^([ ]*)pub(?:\([^)]*\))? fn {name}\b", file.plain, re.M))
        if found:
            return {key for it in found for key in roots_of_function(tree, file, it, set(root.clauses.split()))}
    raise LookupError(f"{root.file} has no {root.item}")


def roots_of_function(tree, file, found, wanted):
    """The same for a function: its clauses stand between its head and its body."""
    body = re.compile(rf"^{found[1]}\{{|;$|\{{$", re.M).search(file.plain, found.end())
    names = {name for name, _, _ in clauses_in(file.text[found.start():body.start()])}
    if wanted - names:
        raise LookupError(f"{file.path}: fn {found[0].split()[-1]} has no clause {' '.join(sorted(wanted - names))}")
    scope = file.scope
    around = [it for it in re.finditer(r"^(?:impl|(?:pub )?trait)\b", file.plain, re.M) if it.start() < found.start()]
    generics = {}
    if around and file.block(around[-1].start()) > found.start():
        generics = rust_generics(file.plain[around[-1].start():around[-1].start() + 200].split("{")[0] + " ")
        inner = read_uses(file.text[around[-1].start():file.block(around[-1].start())], scope.copy())
        scope = inner
    return tree.uses_of_block(file, found.start(), body.start(), wanted | {"requires"} if wanted else None, scope,
                              generics)


def subtrees(tree, roots):
    """For each key the keys that are reached through it alone, and the key above it: the dominator tree."""
    order, seen, stack = [], set(), [(None, iter(sorted(roots)))]
    while stack:
        key, rest = stack[-1]
        following = next((it for it in rest if it not in seen), None)
        if following is None:
            order.append(key)
            stack.pop()
        else:
            seen.add(following)
            stack.append((following, iter(sorted(tree.uses(following)))))
    order.reverse()
    place = {key: at for at, key in enumerate(order)}
    users = collections.defaultdict(list)
    for key in order:
        for it in roots if key is None else tree.uses(key):
            users[it].append(key)
    above, is_changed = {None: None}, True
    while is_changed:
        is_changed = False
        for key in order[1:]:
            known = [it for it in users[key] if it in above]
            best = known[0]
            for other in known[1:]:
                while best != other:
                    if place[best] > place[other]:
                        best = above[best]
                    else:
                        other = above[other]
            if key not in above or above[key] != best:
                above[key], is_changed = best, True
    under = collections.defaultdict(set)
    for key in order[1:]:
        it = key
        while it is not None:
            under[it].add(key)
            it = above[it]
    return under, above


# ---- the document

class Count:
    """Keys by their kinds, and how many lines they have."""

    def __init__(self, tree, keys):
        own = [it for it in keys if it[0] != "kit"]
        self.tree = tree
        self.types = [it for it in own if it in tree.types]
        rest = [it for it in own if it not in tree.types and tree.definition(it).kind != "lemma"]
        self.heads = [it for it in rest if tree.definition(it).kind == "parameters"]
        self.definitions = [it for it in rest if tree.definition(it).kind != "parameters"]
        self.files = {it[1] for it in self.definitions}
        self.lines = sum(tree.definition(it).lines for it in rest)
        self.lines_of_types = sum(tree.definition(it).lines for it in self.types)
        self.uncommented = [it for it in self.definitions if not tree.definition(it).comment]

    def of_crates(self, crates):
        return Count(self.tree, [it for it in self.definitions + self.heads + self.types if it[0] in crates])

    def cells(self):
        return (f"{len(self.definitions):,}", f"{self.lines:,}", f"{len(self.files):,}", f"{len(self.types):,}",
                f"{self.lines_of_types:,}")


COUNT_HEADS = "Definitions", "Lines", "Files", "Types of Rust", "Their lines"


def table(heads, rows, numbers=()):
    rule = ["---:" if it in numbers else "---" for it in heads]
    return "\n".join("| " + " | ".join(it) + " |" for it in (heads, rule, *rows))


def sentence(comment):
    """The first sentence of a comment, fit for a cell."""
    text = " ".join(comment.split())
    if not text:
        return NO_COMMENT
    end = re.search(r"[.:](?= [A-Z`])|\.$", text)
    text = text[:end.start()] if end else text
    words = text.split()
    if len(words) > LONGEST_SENTENCE:
        text = " ".join(words[:LONGEST_SENTENCE - 1]) + " ..."
    return text.replace("|", "\\|")


def counted(number, one, many=None):
    return f"{number:,} {one if number == 1 else many or one + 's'}"


def quoted(name):
    return f"`{name}`".replace("|", "\\|")


def files_in_order(tree, keys):
    """The files of some keys, each behind those that it names."""
    files = sorted({it[1] for it in keys})
    below = collections.defaultdict(set)
    for key in keys:
        below[key[1]] |= {it[1] for it in tree.uses(key) if it[0] != "kit"} & set(files) - {key[1]}
    order = []

    def visit(file, path):
        if file not in order and file not in path:
            for it in sorted(below[file]):
                visit(it, path | {file})
            order.append(file)

    for file in files:
        visit(file, frozenset())
    return order


def ranges(definitions):
    """Lines of a file, as `3-9, 12`; definitions with nothing but comments between them are one range."""
    found = []
    for it in sorted(definitions, key=lambda it: it.first):
        if found and it.first <= found[-1][1] + 4:
            found[-1][1] = max(found[-1][1], it.last)
        else:
            found.append([it.first, it.last])
    return ", ".join(f"{first}-{last}" if last > first else str(first) for first, last in found)


def list_of_definitions(tree, keys):
    """A table of the definitions of a crate, one in each row, and one of its types."""
    rows = []
    for file in files_in_order(tree, keys):
        for it in sorted((tree.definition(it) for it in keys if it[1] == file), key=lambda it: it.first):
            rows.append((quoted(it.key[2]), quoted(file.split("/", 1)[1]), str(it.lines), sentence(it.comment)))
    return table(("Definition", "File", "Lines", "What it says"), rows, ("Lines",))


def list_of_files(tree, keys):
    rows = []
    for file in files_in_order(tree, keys):
        found = [tree.definition(it) for it in keys if it[1] == file]
        rows.append((quoted(file), str(len(found)), str(sum(it.lines for it in found)), ranges(found)))
    heads = "File", "Definitions and types", "Lines", "Where"
    return table(heads, rows, heads[1:3])


def groups_in(count):
    for title, crates in GROUPS:
        crates = crates.split()
        part = count.of_crates(crates)
        if part.definitions or part.types:
            yield title, crates, part
    known = {crate for _, crates in GROUPS for crate in crates.split()}
    rest = count.of_crates({it[0] for it in count.definitions + count.types} - known)
    if rest.definitions or rest.types:
        yield "Other crates", sorted({it[0] for it in rest.definitions + rest.types}), rest


def summary(count):
    return ", ".join((counted(len(count.definitions), "definition"), counted(count.lines, "line"),
                      counted(len(count.types), "type of Rust", "types of Rust")))


def write_list(tree, count, is_by_file):
    """The definitions by group and crate: what a reader reads, in this order."""
    for title, crates, part in groups_in(count):
        yield f"### {title}"
        if is_by_file:
            yield list_of_files(tree, part.definitions + part.types)
            continue
        for crate in crates:
            it = part.of_crates({crate})
            if it.definitions or it.types:
                yield f"**{crate}**: {summary(it)}"
            if it.definitions:
                yield list_of_definitions(tree, it.definitions)
            if it.types:
                yield list_of_definitions(tree, it.types)


def largest_subtrees(tree, roots):
    """The definitions through which alone the most lines are reached."""
    under, above = subtrees(tree, roots)
    counts = {key: Count(tree, keys) for key, keys in under.items() if key[0] != "kit"}
    rows = []
    for key, count in sorted(counts.items(), key=lambda it: (-it[1].lines, it[0])):
        over = above[key]
        if over is not None and counts[over].lines * PART <= count.lines:
            continue
        rows.append((quoted(key[2]), quoted(key[1]), f"{len(count.definitions):,}", f"{count.lines:,}"))
    return table(("Definition", "File", "Definitions", "Lines"), rows[:SUBTREES], ("Definitions", "Lines"))


def kit_rows(keys):
    found = collections.defaultdict(set)
    for key in keys:
        if key[0] == "kit":
            found[key[1]].add(key[2])
    return [(quoted(module), str(len(names)), " ".join(quoted(it) for it in sorted(names)))
            for module, names in sorted(found.items())]


def list_of_roots(promise):
    """The clauses of a promise."""
    rows = []
    for root in promise.roots:
        which = " ".join(quoted(it) for it in root.clauses.split()) or "all"
        rows.append((root.item if root.item == ALL else quoted(root.item), quoted(f"crates/{root.file}"), which))
    return table(("Item", "File", "Clauses"), rows)


HEAD = """# What has to be believed

`python3 tests/gate/trusted.py --write` makes this page from the sources. The gate fails where the two differ.

The prover checks that the program keeps its contracts. It cannot check that a contract says what its reader takes it to
say. A contract is made of definitions, and these definitions have to be read. This page lists them.

## How to read it

- The folder specs/ of a crate has the definitions of this page, and no others. Those on which no promise rests are in
  specs/internal/: what crates promise to each other, laws, and the functions that the code computes.
- Begin with the clauses of a promise, in the functions that its first table names. Every name in them is in a table
  below: of the same promise, of one before it, or of the kit.
- The headline comes first. Its tables go from the rules of the games up to histories and crashes. In a crate, a file
  comes after the files that it uses. To read from the top down, begin with the last group.
- Ask of each definition: is this the rule, the format or the state that I know? docs/rules.md and docs/formats.md name
  the public standards. docs/crosschecks.md says with what each group was compared.
- A row has a definition's name, its file in the crate, its lines without comments, and the first sentence of its
  comment. `no comment` marks a definition that has none.
- A type of Rust means its fields, or its model if it has one. The types of a crate follow its definitions.
- A later promise lists only what it adds. A long list has a row for each file, with the lines where definitions are.
- Lemmas are left out, because the prover checks them. Names of the kit are listed by module, and not followed.
- A row of a file of proofs/ is a description: the lemma that there is exactly one value with a property (`TheOnly`). A
  definition that takes this value says the property, whatever computes it. So the row is its statement alone.
- The heads `module _ (..)` count as lines and not as definitions.

## What else is trusted

The toolchain, the kit's libraries, the C library, and that the file system keeps what was synced. The program runs the
headline with `Wary` for `S`: `S.Start` is what the kit's `sqlite_disk` says of it. docs/unproved.md says what is only
tested, and what is neither proved nor tested."""


def document(tree, promises):
    """The text of the document."""
    parts, done, counts = [HEAD], set(), []
    reached = []
    for promise in promises:
        roots = {it for root in promise.roots for it in roots_of(tree, root)}
        keys = closure(tree, roots)
        reached.append((promise, roots, keys, keys - done))
        done |= keys
    everything = Count(tree, done)
    rows = [(str(at), promise.title, *Count(tree, keys).cells(), f"{len(Count(tree, new).definitions):,}",
             f"{Count(tree, new).lines:,}") for at, (promise, _, keys, new) in enumerate(reached, 1)]
    rows.append(("", "All promises", *everything.cells(), f"{len(everything.definitions):,}", f"{everything.lines:,}"))
    heads = "", "Promise", *COUNT_HEADS, "New definitions", "New lines"
    parts += ["## Totals", table(heads, rows, heads[2:]),
              '"New" is what a promise adds to those above it. '
              f"{counted(len(everything.uncommented), 'definition')} of all promises have no comment."]
    _, roots, keys, _ = reached[0]
    headline = Count(tree, keys)
    rows = [(title, *part.cells()) for title, _, part in groups_in(headline)] + [("All", *headline.cells())]
    parts += ["## The headline by group", table(("Group", *COUNT_HEADS), rows, COUNT_HEADS)]
    games = {it for it in keys if it[2] == GAMES}
    if games:
        laws = {it for file, trait in LAWS for it in roots_of(tree, Root(file, trait))}
        part = Count(tree, closure(tree, roots | laws, games))
        rows = [(title, *it.cells()) for title, _, it in groups_in(part)] + [("All", *part.cells())]
        parts += [f"With `{GAMES}` (the rules and texts of both games) taken as a parameter, and not followed, together "
                  "with the laws that any game must satisfy (the traits `Rules` and `Records` of `club_rules`):",
                  table(("Group", *COUNT_HEADS), rows, COUNT_HEADS)]
    parts += ["## The largest subtrees",
              "A row counts a definition and all that is reached through it alone: they would leave the list together. "
              "A definition with nine tenths of the subtree above it has no row of its own.",
              "Of the headline:", largest_subtrees(tree, roots)]
    if len(reached) > 1:
        parts += ["Of all promises:", largest_subtrees(tree, {it for _, roots, _, _ in reached for it in roots})]
    listed = 0
    for at, (promise, _, _, new) in enumerate(reached, 1):
        count = Count(tree, new)
        listed += len(count.definitions) + len(count.types)
        parts += [f"## {at}. {promise.title}", promise.says, list_of_roots(promise),
                  f"{'New here: ' if at > 1 else ''}{summary(count)}."]
        parts += write_list(tree, count, listed > LONGEST_LIST)
    of_headline, others = kit_rows(keys), kit_rows(done - keys)
    parts += ["## Trusted of the kit"]
    for title, rows in ("Of the headline", of_headline), ("Further, of the other promises", others):
        if rows:
            names = counted(sum(int(it[1]) for it in rows), "name")
            parts += [f"{title}: {names} of {counted(len(rows), 'module')}.",
                      table(("Module", "Names", "Which"), rows, ("Names",))]
    return "\n\n".join(parts) + "\n"


def print_uncommented(tree, promises):
    keys = closure(tree, {it for promise in promises for root in promise.roots for it in roots_of(tree, root)})
    found = [tree.definition(it) for it in Count(tree, keys).uncommented]
    for it in sorted(found, key=lambda it: (it.key[1], it.first)):
        print(f"crates/{it.key[1]}:{it.first}: {it.key[2]}")


def faults(tree):
    """What the script cannot read: lines of specs/ that are no part of a definition, names that resolve to nothing."""
    yield from (it for file in tree.specs.values() for it in file.odd)
    yield from (f"crates/{file}: {token} is not found" for token, file in sorted(tree.unresolved))


def misplaced(tree, promises):
    """Trusted definitions in specs/internal/, and others in specs/ itself. A lemma may stand in either."""
    trusted = closure(tree, {it for promise in promises for root in promise.roots for it in roots_of(tree, root)})
    for (_, module), file in sorted(tree.specs.items()):
        is_inside = module.startswith(f"{INTERNAL}.")
        for it in file.definitions.values():
            if it.kind not in ("parameters", "lemma") and (it.key in trusted) == is_inside:
                yield f"crates/{file.path}:{it.first}: {it.key[2]} is{'' if is_inside else ' not'} trusted"


def differences(old, new):
    """The lines in which two documents differ, at most twenty."""
    return [it for it in difflib.unified_diff(old.split("\n"), new.split("\n"), "docs/trusted.md", "the sources",
                                              n=0, lineterm="")][2:22]


def main():
    tree = Tree(TOP, LEMMAS, DESCRIPTION)
    try:
        text = document(tree, PROMISES)
    except LookupError as missing:
        result(False, "each promise has its clauses", str(missing))
        return exit_status()
    found = list(faults(tree))
    result(not found, "each name in a trusted definition is found", *found[:20])
    found = list(misplaced(tree, PROMISES))
    result(not found, "specs/ has the trusted definitions, and specs/internal/ the others", *found[:20])
    if "--figures" in sys.argv[1:]:
        print(text[text.index("## Totals"):text.index("## 1.")])
    if "--uncommented" in sys.argv[1:]:
        print_uncommented(tree, PROMISES)
    path = TOP / DOCUMENT
    if "--write" in sys.argv[1:]:
        path.write_text(text, encoding="utf-8")
    old = path.read_text(encoding="utf-8") if path.exists() else ""
    result(old == text, "docs/trusted.md lists the definitions that the promises rest on",
           "python3 tests/gate/trusted.py --write makes it anew", *differences(old, text))
    return exit_status()


if __name__ == "__main__":
    sys.exit(main())
