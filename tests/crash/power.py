#!/usr/bin/env python3
"""Tests what a power failure leaves: each image that a disk may hold, at each write of a command, is opened.

    python3 tests/crash/power.py [--full] [--seed N] [--only NAME]

Each command runs once under strace over a real file; tests/lib/disks.py computes from its calls the images that a disk
may hold if the power fails at any of them. `verify` opens each image: it is sound (or of `init`: no club), and its rows
are those before the command or those after it, and those after it if it had been answered; sqlite3 reads the same in
the untouched image. Then the same command is accepted or repeated. Without --full a few images of each command are
drawn by the seed, which takes less than a minute.
"""
import argparse
import collections
import concurrent.futures
import dataclasses
import itertools
import os
import pathlib
import random
import shutil
import sys
import tempfile

sys.path[0] = str(pathlib.Path(__file__).resolve().parents[1])
from lib import disks
from lib.club import (
    Command, FAST, NO_CLUB, arguments, copy_files, execute, files_in, input_of, query, read_rows, verify,
)
from lib.report import exit_status, result, skip
from lib.server import FAILURES, Request, execute_all, post, post_all, server_command

WORKERS = 4
FEW = 16  # images of each command, without --full
PRINTED = 8  # faults of a command that are printed
MANY = 150  # images of a command after a first power failure, with --full
LATE = 100000
LONG = 330  # challenges: the log is then nearly so long that the server copies it into the file
WHITE = ",".join(str(it) for it in (28, 31, *range(33, 51)))
MOVED = f"B:W{WHITE}:B{','.join(str(it) for it in range(1, 21))}"
ORDERS = """init
member anna keyanna1
member bert keybert2
member cara keycara3
event cup draughts 8640000 0
event fuji shogi 8640000 0
event quick draughts 60 0
seat d1 cup anna bert
seat s1 fuji anna bert
seat d2 cup bert anna
seat q1 quick anna bert
seat q2 quick bert cara
seat q3 quick cara anna""".splitlines()
ROOKS = ["2h3h", "8b7b", "3h2h", "7b8b"]
GAME = 'SELECT plies, "end", result, offer_ply FROM games WHERE id = {}'
CHALLENGE = "SELECT state, game FROM challenges WHERE member = {} AND number = {}"
COUNT = "SELECT count(*), max(id) FROM {}"


@dataclasses.dataclass(frozen=True)
class Case:
    """Commands of one process, and what sqlite3 reads by a query before them and after them."""

    name: str
    steps: tuple
    sql: str
    before: object
    after: object
    files: str = "base"  # the files of the folder before them
    is_long: bool = False  # only with --full


def command(name, words, printed, sql, before, after, **more):
    again = more.pop("again", printed.replace("accepted", "repeated"))
    return Case(name, (Command(words, printed, again, **more),), sql, before, after)


def command_cases():
    init = Command("init", "ready", "store 70 Foreign")
    yield Case("init", (init,), "SELECT schema, last FROM meta", None, (2, 0), files="nothing")
    init = Command("init --arbiter", "ready", "store 70 Foreign")
    yield Case("init --arbiter", (init,), "SELECT schema, last FROM meta", None, (3, 0), files="nothing")
    upgrade = Command("upgrade --arbiter", "upgraded", "repeated upgrade")
    yield Case("upgrade --arbiter", (upgrade,), "SELECT schema FROM meta", (2,), (3,))
    key = Command("key anna 1 keyanna9", "accepted key 1", "repeated key 1")
    keys = "SELECT number, key FROM keys WHERE member = 1"
    yield Case("key", (key,), keys, None, (1, "keyanna9"), files="arbiter")
    close = Command("close cup", "accepted closed", "repeated closed")
    yield Case("close", (close,), "SELECT event, moment FROM closings", None, (1, 1000), files="arbiter")
    rule = Command("rule 1 1 award 1-1", "accepted ruling 1", "repeated ruling 1")
    ruled = "SELECT kind, rulings.result, games.result FROM rulings JOIN games ON id = game"
    yield Case("rule", (rule,), ruled, None, (2, "1-1", "1-1"), files="arbiter")
    yield command("member", "member dora keydora4", "accepted member 4", COUNT.format("members"), (3, 3), (4, 4))
    yield command("event", "event open draughts 3600 10", "accepted event 4", COUNT.format("events"), (3, 3), (4, 4))
    yield command("seat", "seat d3 cup cara bert", "accepted game 7", COUNT.format("games"), (6, 6), (7, 7))
    start, played = (0, None, None, None), (1, None, None, None)
    yield command("move", "move 1 1 32-28", "accepted ply 1 32-28", GAME.format(1), start, played)
    alone = (Command("move 1 1 32-28", "accepted ply 1 32-28", "repeated ply 1 32-28"),)
    yield Case("a move without a log", alone, GAME.format(1), start, played, files="alone")
    yield Case("a move over the log of a server", alone, GAME.format(1), start, played, files="served")
    fourfold, ended = "accepted ply 12 7b8b end Fourfold", (12, "Fourfold", "1-1", None)
    yield command("a move that ends its game", "move 2 12 7b8b", fourfold, GAME.format(2), (11, None, None, None), ended)
    pdn, csa = "import-pdn old cup anna bert -", "import-csa old fuji anna bert -"
    recorded, mated = (6, "Recorded", "2-0", None), (67, "NoMove", "2-0", None)
    yield command("import-pdn", pdn, "accepted game 7", GAME.format(7), None, recorded, record="evening.pdn")
    yield command("import-csa", csa, "accepted game 7", GAME.format(7), None, mated, record="checkmate.csa")
    times = 'SELECT count(*) FROM games WHERE "end" = \'Time\''
    yield command("sweep", "sweep", "accepted sweep 3", times, (0,), (3,), now=LATE, again="accepted sweep 0")
    sound = (Command("verify", "sound", "sound"),)
    yield Case("verify after a killed server", sound, GAME.format(1), played, played, files="killed")


PLAYED = Request("keyanna1", "/games/1/moves/1", {"move": "32-28"}, {
    "end": None, "game": 1, "left": 8640000, "move": "32-28", "ply": 1, "position": MOVED})
OFFERED = Request("keybert2", "/games/1/draw/2/offer", None, {"draw": "offered", "game": 1, "ply": 2})
AGREED = Request("keyanna1", "/games/1/draw/2/accept", None, {"end": "Agreed", "game": 1, "result": "1-1"})


def asked(name, key, path, body, reply, sql, before, after, **more):
    return Case(name, (Request(f"key{key}", path, body, reply, **more),), sql, before, after)


def request_cases():
    start = 0, None, None, None
    yield Case("a move over HTTP", (PLAYED,), GAME.format(1), start, (1, None, None, None))
    reply = {"draw": "offered", "game": 1, "ply": 1}
    yield asked("an offer", "anna1", "/games/1/draw/1/offer", None, reply, GAME.format(1), start, (0, None, None, 1))
    reply, before, after = {"end": "Agreed", "game": 3, "result": "1-1"}, (0, None, None, 1), (0, "Agreed", "1-1", 1)
    yield asked("an acceptance", "anna1", "/games/3/draw/1/accept", None, reply, GAME.format(3), before, after)
    reply, after = {"end": "Resigned", "game": 1, "result": "0-2"}, (0, "Resigned", "0-2", None)
    yield asked("a resignation", "anna1", "/games/1/resign", None, reply, GAME.format(1), start, after)
    reply, after = {"end": "Time", "game": 4, "result": "0-2"}, (0, "Time", "0-2", None)
    yield asked("a claim", "bert2", "/games/4/claim-time", None, reply, GAME.format(4), start, after, now=LATE)
    body, reply = {"event": "cup", "first": False, "other": "bert"}, {"challenge": 1, "state": "open"}
    yield asked("a challenge", "anna1", "/challenges/1", body, reply, CHALLENGE.format(1, 1), None, (0, None))
    body, reply = {"accept": True}, {"challenge": 1, "game": 7, "state": "accepted"}
    yield asked("its answer", "anna1", "/answers/bert/1", body, reply, CHALLENGE.format(2, 1), (0, None), (3, 7))
    path, reply = "/challenges/2/withdraw", {"challenge": 2, "state": "withdrawn"}
    yield asked("its withdrawal", "bert2", path, None, reply, CHALLENGE.format(2, 2), (0, None), (1, None))
    three = PLAYED, OFFERED, AGREED
    yield Case("three requests of a session", three, GAME.format(1), start, (1, "Agreed", "1-1", 2))
    start, end = (0, None, None, None), (1, "Agreed", "1-1", 2)
    yield Case("a server that copies its log", three, GAME.format(1), start, end, files="long", is_long=True)


def prepared(room, is_full):
    """The files of a folder before a case, by name: no club, one, that with an arbiter, and that with other logs."""
    held = {it: f"{room}/{it}" for it in ("nothing", "base", "arbiter", "alone", "served", "killed", "long")}
    for folder in held.values():
        os.mkdir(folder)
    turns = [f"move 2 {ply + 1} {ROOKS[ply % 4]}" for ply in range(11)]
    for words in [*ORDERS, *turns]:
        printed = execute(held["base"], Command(words))
        assert printed.split()[0] in ("ready", "accepted"), (words, printed)
    opened = [challenge("bert2", number, "anna") for number in (1, 2)]
    offered = Request("keybert2", "/games/3/draw/1/offer", None, None)
    assert all(isinstance(it, dict) for it in post_all(held["base"], [offered, *opened]))
    copy_files(held["base"], held["served"])
    assert verify(held["base"]) == "sound"
    copy_files(held["base"], held["arbiter"])
    assert execute(held["arbiter"], Command("upgrade --arbiter")) == "upgraded"
    shutil.copyfile(f"{held['base']}/c.db", f"{held['alone']}/c.db")
    copy_files(held["base"], held["killed"])
    post_all(held["killed"], [PLAYED], is_killed=True)
    copy_files(held["base"], held["long"])
    many = [challenge(("anna1", "cara3")[number % 2], 3 + number, "bert") for number in range(LONG if is_full else 0)]
    if many:
        assert all(isinstance(it, dict) for it in post_all(held["long"], many))
    return held


def query_one(folder, sql):
    """The first row of a query, or None."""
    found = query(f"{folder}/c.db", sql)
    return found[0] if found else None


def challenge(key, number, other):
    body = {"event": "cup", "first": True, "other": other}
    return Request(f"key{key}", f"/challenges/{number}", body, None)


class Trial:
    """The commands of a case: what they do undisturbed, and what each image of a power failure is."""

    def __init__(self, trace, case, start):
        self.trace, self.case, self.start = trace, case, start
        self.files = files_in(start)
        self.states, self.read = self.undisturbed()
        self.calls, self.faults = self.record()

    def undisturbed(self):
        """The rows before the commands and after each of them, and the result of the query there."""
        with tempfile.TemporaryDirectory(dir=FAST) as room:
            copy_files(self.start, room)
            is_new = self.case.files == "nothing"
            found, read = [NO_CLUB if is_new else read_rows(room)], [None if is_new else query_one(room, self.case.sql)]
            for step in self.case.steps:
                execute_all(room, [step])
                found.append(read_rows(room))
                read.append(query_one(room, self.case.sql))
        return found, read

    def record(self):
        """The calls of the program, and what differs from what is expected."""
        case, faults = self.case, []

        def expect(name, got, expected):
            if got != expected:
                faults.append(f"{name} {got}, expected {expected}")

        with tempfile.TemporaryDirectory(dir=FAST) as room:
            copy_files(self.start, room)
            if case.files != "nothing":
                expect("before it sqlite3 reads", query_one(room, case.sql), case.before)
            calls, printed = self.run_traced(room)
            expect("it prints", printed, [it.printed for it in case.steps])
            expect("after it sqlite3 reads", query_one(room, case.sql), case.after)
            expect("the answers among its calls are", sum(it.kind == "answer" for it in calls), len(case.steps))
            expect("its calls make its files:", disks.replayed(self.files, calls) == files_in(room), True)
            expect("its rows are those of another run:", read_rows(room) == self.states[-1], True)
            if case.is_long:
                expect("it copies its log:", any(it.kind == "write" and it.name == "c.db" for it in calls), True)
        return calls, faults

    def run_traced(self, room):
        """The calls of the program, and the answers to the commands."""
        steps = self.case.steps
        if isinstance(steps[0], Command):
            calls, printed = disks.recorded(self.trace, arguments(steps[0]), room, input_of(steps[0]))
            return calls, [printed]
        words, port = server_command("c.db", "--count", str(len(steps)), now=steps[0].now)
        replies = []

        def ask():
            replies.extend(post(port, it) for it in steps)

        calls, _ = disks.recorded(self.trace, words, room, ask=ask)
        return calls, replies

    def images(self, draw, calls=None):
        return disks.images(self.files, self.calls if calls is None else calls, draw)

    def judge(self, image):
        """How many of the commands an image has, or what is wrong with it."""
        with tempfile.TemporaryDirectory(dir=FAST) as room:
            image.write(room)
            raw, opened = read_rows(room), verify(room)
            if opened == "sound":
                found = read_rows(room)
            elif opened == "store 70 Foreign" and self.states[0] == NO_CLUB:
                found = raw = NO_CLUB
            else:
                return f"verify prints {opened}"
            if found not in self.states:
                return f"its rows are of no state: {str(found)[:200]}"
            if raw != found:
                return f"sqlite3 reads other rows: {str(raw)[:200]}"
            done = len(self.states) - 1 - self.states[::-1].index(found)
            if done < image.acknowledged:
                return f"{image.acknowledged} were acknowledged, and {done} are stored"
            return self.repeat(room, done) or done

    def repeat(self, room, done):
        """What is wrong if the commands are repeated, of which so many are stored."""
        steps = self.case.steps
        expected = [it.again if number < done else it.printed for number, it in enumerate(steps)]
        printed = execute_all(room, steps)
        if printed != expected:
            return f"repeated it prints {printed}, expected {expected}"
        if read_rows(room) != self.states[-1]:
            return "repeated it leaves other rows"
        return None

    def outcome(self, image):
        """What an image is; also if the program does not end, or a server does not reply."""
        try:
            return self.judge(image)
        except FAILURES as failure:
            return f"{type(failure).__name__}: {failure}"

    def judged(self, chosen):
        """Each image with what it is."""
        with concurrent.futures.ThreadPoolExecutor(WORKERS) as workers:
            return list(zip(chosen, workers.map(self.outcome, chosen)))

    def is_seen(self, calls, draw):
        """Whether some image shows that the program made these calls, and not its own."""
        acknowledged = (it for it in self.images(draw, calls) if it.acknowledged)
        return any(not isinstance(self.outcome(it), int) for it in acknowledged)


def report(name, faults):
    """Prints a result with the first faults."""
    more = [f"and {len(faults) - PRINTED} more"] if len(faults) > PRINTED else []
    result(not faults, name, *faults[:PRINTED], *more)


def drawn(found, most, draw):
    """So many of the images, or all: in turn one of each moment, those with an answer first."""
    if most is None:
        return found
    by_moment = collections.defaultdict(list)
    for image in found:
        by_moment[not image.acknowledged, image.moment].append(image)
    moments = draw.sample(sorted(by_moment), len(by_moment))
    moments.sort(key=lambda it: it[0])
    held = [draw.sample(by_moment[it], len(by_moment[it])) for it in moments]
    return [image for turn in itertools.zip_longest(*held) for image in turn if image][:most]


def tried(trial, draw, most):
    """Opens so many images of a case: how many it has, what those are, and whether some are wrong."""
    found = trial.images(draw)
    judged = trial.judged(drawn(found, most, draw))
    counts = collections.Counter(it for _, it in judged if isinstance(it, int))
    faults = trial.faults + [f"{image.moment}: {image.how}: {it}" for image, it in judged if not isinstance(it, int)]
    done = ", ".join(f"{counts[it]} with {it}" for it in range(len(trial.states)))
    report(f"{trial.case.name} is atomic at a power failure ({len(judged)} images of {len(found)}: {done})", faults)
    return len(found), judged, bool(faults)


def fail_twice(trial, judged, draw, room):
    """The case over some of its own images, with none of its commands and with some: the power fails again."""
    is_init = trial.case.files == "nothing"
    able = {done: [it for it in judged if it[1] == done] for done in range(1 if is_init else len(trial.states))}
    for image, done in [draw.choice(held) for held in able.values() if held]:
        start = tempfile.mkdtemp(dir=room)
        image.write(start)
        steps = [dataclasses.replace(it, printed=it.again) if at < done else it for at, it in enumerate(trial.case.steps)]
        before = trial.read[done]
        case = dataclasses.replace(trial.case, name=f"{trial.case.name} after a first power failure", steps=tuple(steps), before=before)
        yield Trial(trial.trace, case, start)


def careless(calls):
    """The calls of programs that are not careful, each by its name."""
    first = next(at for at, call in enumerate(calls) if call.kind == "answer")
    syncs = [at for at, call in enumerate(calls[:first]) if call.kind == "sync" and call.name]
    yield "no sync at all", [it for it in calls if it.kind != "sync"]
    yield "an answer before all", [calls[first], *calls[:first], *calls[first + 1 :]]
    yield "no last sync before the answer", calls[: syncs[-1]] + calls[syncs[-1] + 1 :]
    copies = [at for at in syncs if calls[at].name == "c.db" and calls[at - 1].kind == "cut"]
    if copies:
        yield "no sync of the file before its log is emptied", calls[: copies[-1]] + calls[copies[-1] + 1 :]


# A command answers after the log was emptied, and its last sync would only keep the header of an empty log.
UNDETECTED = {("move", "no last sync before the answer")}


def check_careless_programs(trial, draw):
    for how, calls in careless(trial.calls):
        if (trial.case.name, how) not in UNDETECTED:
            faults = [] if trial.is_seen(calls, draw) else ["no image shows it"]
            report(f"a power failure detects {trial.case.name} with {how}", faults)


class Trials:
    """All cases: how many images they have, and how many were opened."""

    def __init__(self, trace, seed, is_full):
        self.trace, self.seed, self.is_full = trace, seed, is_full
        self.total = self.opened = 0

    def run(self, case, held, room):
        draw = random.Random(f"{self.seed} {case.name}")
        try:
            trial = Trial(self.trace, case, held[case.files])
            judged, is_wrong = self.open(trial, draw, None if self.is_full else FEW)
            if not is_wrong and case.name in ("move", "a move over HTTP"):
                check_careless_programs(trial, draw)
            if self.is_full or case.name in ("init", "move", "a move over HTTP"):
                for twice in fail_twice(trial, judged, draw, room):
                    self.open(twice, draw, MANY if self.is_full else FEW)
        except (disks.Unknown, *FAILURES) as failure:
            report(f"{case.name} can be tested", [f"{type(failure).__name__}: {failure}"])

    def open(self, trial, draw, most):
        """What images of a case are, and whether some are wrong."""
        of_case, judged, is_wrong = tried(trial, draw, most)
        self.total, self.opened = self.total + of_case, self.opened + len(judged)
        return judged, is_wrong


def main():
    words = argparse.ArgumentParser()
    words.add_argument("--full", action="store_true")
    words.add_argument("--seed", type=int, default=1)
    words.add_argument("--only")
    options = words.parse_args()
    trace = disks.traces()
    if not trace:
        skip("power failures", "no strace, or it may not trace")
        return 0
    print(f"seed {options.seed}", flush=True)
    trials = Trials(trace, options.seed, options.full)
    with tempfile.TemporaryDirectory(dir=FAST) as room:
        held = prepared(room, options.full)
        for case in [*command_cases(), *request_cases()]:
            if options.only in (None, case.name) and (options.full or not case.is_long):
                trials.run(case, held, room)
    print(f"{trials.opened} images were opened of {trials.total}")
    return exit_status()


if __name__ == "__main__":
    sys.exit(main())
