#!/usr/bin/env python3
"""Tries the must-fail edits of crates many at a time: `edits.py CRATE ..`, over what `rt check` proved there.

Each file of crates/NAME/must-fail/ is an edit that the prover must refuse. A proof rests on the contracts of what a
function calls and never on their bodies, so edits of the bodies of different functions say nothing of one another: all
of them go into one copy of the crate, which is checked once. An edit is refused where a goal of the very function that
it changes is refused. That a function calls another which is not proved says nothing yet: such an edit waits for the
next round, without those that were refused. What no round tells is tried alone, as the kit's `rt must-fail` does: edits
of specs/ or of a table that is no function, and edits that no goal of their own function refuses. Such an edit may name
the function whose proof it breaks by a line `# seen by: MODULE::NAME`, or the file of lemmas by
`# seen by: proofs/NAME.antt`, which spares it the rest of the crate.
"""
import collections
import os
import pathlib
import re
import shutil
import subprocess
import sys
import tempfile
import threading
import time

sys.path[0] = os.path.dirname(os.path.dirname(os.path.abspath(__file__)))
from lib import kit

# The result of an edit, in the words of the kit's newer script.
REFUSED, MISSED, BAD = "refused", "missed", "bad"

LONG = 300  # seconds of a check, after which it is told of
# How many edits of a crate go into one check. A check holds all that it searched for until it ends: fifteen edits of
# club_session took 10 GB.
AT_A_TIME = {"store": 5, "club_orders": 8, "club_session": 5}

HEAD = re.compile(r"^(\s*)(?:pub(?:\([^)]*\))? )?(?:const )?(?:unsafe )?fn (\w+)")
IMPL = re.compile(r"^impl\b")
CYCLE = re.compile(r"^\s*#\[cycle\((\w+)\)\]")
PROOF = re.compile(r"^(?:\./)?proofs/(\S+)/(?:Answers|Invariants|Proof)\.antt:\d+:\d+: error: (.*)")
GOAL = re.compile(r"^(?:note: )?(?:\./)?(src/\S+?):(\d+):\d+: it is not proved ")
OF_PROOFS = re.compile(r"^(?:\./)?proofs/\S+:\d+:\d+: error: ")
# what an answer says of a name that is gone, or of a lemma or a callee that was refused before it
OF_ANOTHER = re.compile(r"which was (not admitted|rejected)|has no field|is not in scope|has no `")


class Place:
    """The function whose body an edit changes: its file, its lines there with what stands over its head, and the folder
    of its proof."""

    def __init__(self, file, first, last, folder):
        self.file, self.first, self.last, self.folder = file, first, last, folder

    def path(self):
        """The name that a check prints, without the crate's."""
        return self.folder.replace("/", "::")

    def method(self):
        """The names of a method's type and its own, or nothing for another function. The module before them is that of
        the type, which may be another than that of the `impl`."""
        names = self.folder.split("/")[-2:]
        return "/".join(names) if names[0][:1].isupper() else None

    def has_proof_in(self, folders, methods):
        """Whether its proof is in one of these folders. Each of the methods is the only one of its type and name."""
        method = self.method()
        return self.folder in folders or method in methods and any(f"/{it}".endswith(f"/{method}") for it in folders)


class Edit:
    """A file of must-fail/: its lines `file`, `old`, `new`, and where they stand in the crate's files."""

    def __init__(self, file, sources):
        self.file, self.pairs, self.seen_by, path, old = file, [], None, "", None
        with open(file, encoding="utf-8", errors="replace") as it:
            lines = it.read().split("\n")
        for line in lines:
            if line.startswith("file: "):
                path = line[len("file: "):].strip()
            elif line.startswith("old: "):
                old = line[len("old: "):]
            elif line.startswith("new:"):
                self.pairs.append((path, old, line[len("new:"):].removeprefix(" ")))
            elif line.startswith("# seen by: "):
                self.seen_by = line[len("# seen by: "):].strip()
        self.places = [place_of(path, old, sources.text(path)) for path, old, _ in self.pairs]

    def stands_in_bodies(self):
        return bool(self.places) and None not in self.places

    def functions(self):
        return {place.folder for place in self.places}

    def put_into(self, texts, sources):
        """The texts with this edit in them, or None where an old text does not stand there once."""
        made = dict(texts)
        for path, old, new in self.pairs:
            text = made.get(path, sources.text(path))
            if not old or text is None or text.count(old) != 1:
                return None
            made[path] = text.replace(old, new)
        return made


class Sources:
    """The files of a crate, read once."""

    def __init__(self, folder):
        self.folder, self.read = folder, {}

    def text(self, path):
        if path not in self.read:
            file = f"{self.folder}/{path}"
            self.read[path] = None
            if os.path.isfile(file):
                with open(file, encoding="utf-8") as it:
                    self.read[path] = it.read()
        return self.read[path]


def place_of(path, old, text):
    """Where an old text stands, or None where that is in no function's body."""
    if not path.startswith("src/") or not old or text is None or text.count(old) != 1:
        return None
    lines, at = text.split("\n"), text[: text.index(old)].count("\n")
    head = next((it for it in range(at, -1, -1) if HEAD.match(lines[it])), None)
    if head is None:
        return None
    indent, name = HEAD.match(lines[head]).groups()
    body = next((it for it in range(head, len(lines)) if opens_body(lines[it], indent)), len(lines))
    last = next((it for it in range(body, len(lines)) if lines[it] == indent + "}"), len(lines))
    if not body <= at <= last < len(lines):
        return None
    first = head
    while first and re.match(r"\s*(#\[|///)", lines[first - 1]):
        first -= 1
    return Place(path, first + 1, last + 1, folder_of(path, lines, head, indent, name))


def opens_body(line, indent):
    """Whether the body of a function with that indent begins at the end of this line."""
    own = line.startswith(indent) and not line.startswith(indent + " ")
    return own and line.endswith("{") and not re.match(r"\s*(requires|ensures|ghost)\b", line)


def folder_of(path, lines, head, indent, name):
    """The folder of a function's proof below proofs/: `board/SBoard/put` for `put` of `impl SBoard` in src/board.rt."""
    parts = path[len("src/"): -len(".rt")].removesuffix("/mod").split("/")
    parts = [] if parts in (["lib"], ["main"]) else parts
    owner = next((owner_of(lines[it]) for it in range(head, -1, -1) if IMPL.match(lines[it])), "") if indent else ""
    cycle = next((CYCLE.match(it)[1] for it in lines[max(head - 4, 0): head] if CYCLE.match(it)), None)
    return "/".join([*parts, *([owner] if owner else []), f"+{cycle}" if cycle else name])


def owner_of(line):
    """The name under which a check prints the methods of an `impl`: the type, then the trait with its arguments."""
    text = re.sub(r"^impl\s*", "", line.rstrip(" {"))
    if text.startswith("<"):
        text = text[closing(text) + 1:].strip()
    trait, _, owner = text.rpartition(" for ")
    return "".join(words_of(owner or text)[:1] + (words_of(trait) if owner and trait else []))


def closing(text):
    """Where the bracket closes that a text begins with."""
    depth = 0
    for at, letter in enumerate(text):
        depth += (letter == "<") - (letter == ">")
        if not depth:
            return at
    return len(text)


def words_of(path):
    """The last name of a path, and those of its arguments: `From`, `AllocFailed` of `From<AllocFailed<T>>`."""
    head, _, rest = path.partition("<")
    names = [head.split("::")[-1].strip()]
    argument = rest.partition("<")[0].rstrip(">").split(",")[0].split("::")[-1].strip()
    return names + ([argument] if len(argument) > 1 else [])


def goals_refused(said):
    """The folders of functions whose answers were refused, and the lines of sources whose goals were not proved."""
    folders, lines = set(), set()
    for line in said.split("\n"):
        answer, goal = PROOF.match(line), GOAL.match(line)
        if answer and not OF_ANOTHER.search(answer[2]):
            folders.add(answer[1])
        if goal:
            lines.add((goal[1], int(goal[2])))
    return folders, lines


def is_refused(edit, folders, lines, methods):
    """Whether a goal of a function that the edit changes is refused."""
    return any(
        place.has_proof_in(folders, methods)
        or any(file == place.file and place.first <= at <= place.last for file, at in lines)
        for place in edit.places
    )


def next_round(edits, sources, most=None):
    """The texts of a copy of the crate with as many of the edits as change different functions, or as the most that a
    check may take, and these edits."""
    texts, taken, functions = {}, [], set()
    for edit in edits:
        if len(taken) == most:
            break
        if not edit.stands_in_bodies() or edit.functions() & functions:
            continue
        made = edit.put_into(texts, sources)
        if made is not None:
            texts, functions = made, functions | edit.functions()
            taken.append(edit)
    return texts, taken


class Trial:
    """The tries of one crate's edits, each over what those before it proved. A check that ended is told to `say`."""

    def __init__(self, rt, crate, kept, files, say):
        self.rt, self.crate, self.kept, self.say = rt, crate, kept, say
        self.sources = Sources(crate.folder)
        self.shared = set()  # names of a type and a method that are those of two functions
        self.edits = [Edit(file, self.sources) for file in files]
        self.found = {}

    def only(self, edits):
        """The flags that have a check look at the functions of these edits alone."""
        paths = sorted({self.known_path(place) for edit in edits for place in edit.places})
        return [] if any("+" in it for it in paths) else [word for it in paths for word in ("--only", it)]

    def known_path(self, place):
        """The path by which a check knows a function: the whole one, or the end of a method's, if no other has it."""
        short = (place.method() or "").replace("/", "::")
        return short if short and short not in self.shared else place.path()

    def methods(self, edits):
        """The methods that the edits change and that a check knew by the names of their types and their own: so no two
        functions have both."""
        if not self.only(edits):
            return set()
        found = {place.method() for edit in edits for place in edit.places} - {None}
        return {it for it in found if it.replace("/", "::") not in self.shared}

    def timed(self, what, call, *words):
        """What the call returns, once its seconds are told. A check that goes on for long is told of meanwhile."""
        began, alarm = time.monotonic(), threading.Timer(LONG, self.say, (f"{LONG:6.0f} s  and going on: {what}",))
        alarm.daemon = True
        alarm.start()
        found = call(*words)
        alarm.cancel()
        self.say(f"{time.monotonic() - began:6.0f} s  {what}")
        return found

    def checked(self, texts, edits):
        names = ", ".join(sorted(os.path.basename(edit.file).removesuffix(".edit") for edit in edits))
        ran = self.timed(names, self.rt.checked, self.crate, texts, ["--jobs", "1", *self.only(edits)], self.kept)
        several = ran.returncode == 2 and re.search(r"several functions are named `([^`]+)`", ran.stdout)
        if several and several[1] not in self.shared:
            self.shared.add(several[1])
            return self.checked(texts, edits)
        if ran.returncode == 2 and re.search(r"has no function|several functions", ran.stdout):
            ran = self.timed("the whole crate", self.rt.checked, self.crate, texts, ["--jobs", "1"], self.kept)
        return ran

    def round(self, texts, taken):
        """Tries the edits in these texts at once, and returns those that are refused. Where the copy does not reach the
        prover, it tries each half of them."""
        ran = self.checked(texts, taken)
        lines = ran.stdout.split("\n")
        is_read = not any(self.rt.unread(it, texts) for it in lines)
        if ran.returncode == 1 and is_read and re.search(r"^(logic=not-proved|only=)", ran.stdout, re.M):
            found = goals_refused(ran.stdout)
            return [edit for edit in taken if is_refused(edit, *found, self.methods(taken))]
        if ran.returncode == 0 or len(taken) == 1:
            return []
        half = len(taken) // 2
        return [edit for part in (taken[:half], taken[half:]) for edit in self.round(*next_round(part, self.sources))]

    def label(self, edit):
        return f"must-fail {self.crate.name}/{os.path.basename(edit.file)}"

    def in_rounds(self):
        left, tries = list(self.edits), collections.Counter()
        while True:
            left.sort(key=lambda edit: tries[edit.file])
            texts, taken = next_round(left, self.sources, AT_A_TIME.get(self.crate.name))
            refused = self.round(texts, taken) if taken else []
            for edit in refused:
                text = f"{self.label(edit)}: refused, as it must be, by a goal of its function"
                self.found[edit.file] = REFUSED, text
            left = [edit for edit in left if edit not in refused]
            if not refused and all(tries[edit.file] for edit in taken):
                return left
            tries.update(edit.file for edit in taken)

    def alone(self, edit):
        name = f"{os.path.basename(edit.file).removesuffix('.edit')} alone"
        if edit.seen_by and self.timed(f"{name}, in {edit.seen_by}", self.is_seen, edit):
            return REFUSED, f"{self.label(edit)}: refused, as it must be, by a goal of {edit.seen_by}"
        tried = self.timed(name, self.by_the_kit, edit, self.kept)
        if tried[0] in getattr(self.rt, "SETTLED", [REFUSED]):
            return tried
        return self.timed(f"{name}, from nothing", self.by_the_kit, edit, None)

    def by_the_kit(self, edit, kept):
        """The result of one edit by the kit's own script, over what was proved so far or from nothing."""
        kind, text = self.rt.must_fail(self.crate, edit.file, ["--jobs", "1"], kept)
        if kit.is_older(self.rt):
            kind = REFUSED if kind else BAD if "BAD EDIT" in text else MISSED
        return kind, text

    def is_seen(self, edit):
        """Whether what the edit names is refused, over what was proved so far: a function, for a goal of its own, or a
        file of lemmas."""
        texts, why = self.rt.read_edit(edit.file, self.crate.folder)
        if why:
            return False
        if edit.seen_by.startswith("proofs/"):
            return self.is_seen_in_lemmas(edit, texts)
        ran = self.rt.checked(self.crate, texts, ["--jobs", "1", "--only", edit.seen_by], self.kept)
        lines = ran.stdout.split("\n")
        is_read = not any(self.rt.unread(it, texts) for it in lines)
        is_goal = any(GOAL.match(it) or OF_PROOFS.match(it) and not OF_ANOTHER.search(it) for it in lines)
        named = re.search(rf"^fn \w+::{re.escape(edit.seen_by)}: (not proved|no proof)", ran.stdout, re.M)
        return ran.returncode == 1 and is_read and is_goal and bool(named)

    def is_seen_in_lemmas(self, edit, texts):
        """The same for a file of lemmas. A check reads it where the proof of some function imports it."""
        module = edit.seen_by.removesuffix(".antt").replace("/", ".")
        answers = pathlib.Path(self.crate.folder, "proofs").glob("*/**/Answers.antt")
        least = min((it for it in answers if "+" not in str(it)), key=lambda it: (it.stat().st_size, it))
        host = least.relative_to(self.crate.folder)
        imported = f"use Rattle.{self.crate.name}.{module} as seen_by\n{self.sources.text(str(host))}"
        function = "::".join(host.parent.parts[1:])
        flags = ["--jobs", "1", "--only", function]
        ran = self.rt.checked(self.crate, {**texts, str(host): imported}, flags, self.kept)
        lines = ran.stdout.split("\n")
        is_read = not any(self.rt.unread(it, texts) for it in lines)
        errors = [it for it in lines if it.removeprefix("./").startswith(f"{edit.seen_by}:") and OF_PROOFS.match(it)]
        return is_read and any(not OF_ANOTHER.search(it) for it in errors)

    def results(self):
        """What each edit came to, in their order."""
        for edit in self.in_rounds():
            self.found[edit.file] = self.alone(edit)
        return [self.found[edit.file] for edit in self.edits]


def tried(rt, crate, files, start=None, say=lambda line: None):
    """What the edits in these files come to, over a copy of what a check kept in the folder start, if there is one."""
    with tempfile.TemporaryDirectory(prefix=f"rt-edits-{os.getpid()}-") as room:
        if start and os.path.isdir(start):
            shutil.copytree(start, f"{room}/kept")
        else:
            os.mkdir(f"{room}/kept")
        return Trial(rt, crate, f"{room}/kept", files, say).results()


def main(names):
    rt = kit.load()
    top = os.path.dirname(os.path.dirname(os.path.dirname(os.path.abspath(__file__))))
    os.chdir(top)
    rt.rtlib.guarded()
    if not kit.is_older(rt):
        rt.share_work(False)
    crates = {crate.name: crate for crate in rt.rtlib.crates_below(top)}
    worst = 0
    for name in names:
        crate = crates[name]
        if any(below.build_rlib(["--jobs", "1"], anew=False) for below in crate.below()):
            return 1
        files, bad = rt.edits_of(crate)
        start = f"{crate.folder}/out/incremental"
        for kind, text in tried(rt, crate, files, start, lambda line: print(line, flush=True)):
            print(text, flush=True)
            worst |= kind not in (REFUSED, getattr(rt, "AT_LIMIT", REFUSED))
        for file in bad:
            print(f"{file}: BAD EDIT: an edit stands right in must-fail/, and its name ends in .edit")
            worst = 1
    return worst


if __name__ == "__main__":
    sys.exit(main(sys.argv[1:]))
