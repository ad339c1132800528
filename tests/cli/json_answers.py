#!/usr/bin/env python3
"""Tests `--json` and `challenges` over the file and beside a running server, and compares them with a model.

    python3 tests/cli/json_answers.py

The model of tests/models executes the same commands. Each answer is the same beside the server, and the JSON of `games`
lists the games of its lines in their order. No answer has a member's key.
"""
import json
import pathlib
import sys
import tempfile

sys.path[0] = str(pathlib.Path(__file__).resolve().parents[1])
from lib.club import FAST, run
from lib.report import check, exit_status
from lib.server import serve
from models.officer import OfficersClub

NOW, ENDED = 1000, 3  # the timestamp, and the game that its last move ends
MEMBERS = {"anna": "keyanna1", "bert": "keybert2", "cara": "keycara3"}
EVENTS = [("autumn", "draughts", 60, 5), ("fuji", "shogi", 86400, 0), ("never", "draughts", 31536000, 2592000)]
SEATS = [("r1.1", "autumn", "anna", "bert"), ("g2", "never", "cara", "anna"), ("g3", "fuji", "bert", "anna")]
MOVES = [(1, 1, "32-28"), *((ENDED, ply, text) for ply, text in enumerate(["2h3h", "8b7b", "3h2h", "7b8b"] * 3, 1))]
CHALLENGES = [("anna", 10, "autumn", True, "cara"), ("bert", 2, "fuji", False, "anna"), ("anna", 9, "fuji", True, "bert"),
              ("cara", 9999, "never", True, "anna"), ("cara", 1, "never", False, "bert")]
FILTERS = [(), ("--event", "autumn"), ("--event", "never", "--running"), ("--member", "anna"), ("--overdue",),
           ("--member", "cara", "--event", "fuji"), ("--running",)]
QUERIES = [("members",), ("events",), ("challenges",), *(("games", *it) for it in FILTERS),
           *((word, number) for word in ("legal", "show") for number in (1, 2, ENDED, 4))]
REFUSED = [("games", "--event", "winter"), ("games", "--member", "dora"), ("legal", 5), ("show", 0)]
NO_JSON = [("init",), ("member", "dora", "keydora4"), ("event", "e", "shogi", 60, 5), ("seat", "g", "fuji", "anna", "bert"),
           ("move", 1, 2, "19-23"), ("sweep",), ("import-pdn", "k", "autumn", "anna", "bert", "-"),
           ("import-csa", "k", "fuji", "anna", "bert", "-"), ("export", 1), ("export-event", "fuji"),
           ("table", "fuji"), ("key", "anna", 1, "keyanna9"), ("close", "fuji"), ("verify",), ("upgrade",), ("backup", "d.db"), ("batch", "-"), ("serve", 8080),
           ("round-robin", "p", "fuji", "anna", "bert")]


def setup(folder, model):
    """Executes the same commands over the file and in the model."""
    orders = [("init",), *(("member", *it) for it in MEMBERS.items()), *(("event", *it) for it in EVENTS),
              *(("seat", *it) for it in SEATS), *(("move", *it) for it in MOVES)]
    acts = {"init": model.do_init, "member": model.add_member, "event": model.add_event, "seat": model.add_seat,
            "move": model.do_officers_move}
    expected = [(0, acts[word](*values), "") for word, *values in orders]
    check("a club is filled", expected, [run(["c.db", *it], now=NOW, folder=folder) for it in orders])


def challenge_all(server, model):
    """Members challenge each other, and accept, refuse and withdraw some of that."""
    given = [(member, f"/challenges/{number}", {"event": event, "first": is_first, "other": other},
              lambda it=it: model.do_challenge(it[0], it[1], it[2], it[3], it[4]))
             for it in CHALLENGES for member, number, event, is_first, other in [it]]
    given += [("bert", "/answers/anna/9", {"accept": True}, lambda: model.do_answer("bert", "anna", 9, True)),
              ("anna", "/answers/cara/9999", {"accept": False}, lambda: model.do_answer("anna", "cara", 9999, False)),
              ("bert", "/challenges/2/withdraw", None, lambda: model.do_withdraw("bert", 2))]
    for member, path, body, act in given:
        status, text = server.request("POST", path, body, MEMBERS[member])
        check(f"{member}: {path}", (200, act()), (status, json.loads(text)))


def asked(folder, words, now, *options):
    return run([*options, "c.db", *words], now=now, folder=folder)


def expected_of(model, words):
    """The answer with `--json` to a query that is not refused."""
    word, *rest = words
    if word != "games":
        return model.json_of(word, rest)
    named = dict(zip(rest, rest[1:]))
    flag = next((it for it in rest if it in ("--running", "--overdue")), None)
    return model.json_of("games", [named.get("--event"), named.get("--member"), flag])


def answers(folder, model, now, where):
    """The answers to all queries."""
    model.moment, found = now, {}
    for words in QUERIES:
        name = " ".join(map(str, words))
        got = found[words] = asked(folder, words, now, "--json")
        check(f"{where}: {name}", (0, expected_of(model, words), ""), got)
        check(f"{where}: {name} has no key", [], [it for it in MEMBERS.values() if it in got[1]])
    for options in FILTERS:
        lines = asked(folder, ("games", *options), now)[1].splitlines()
        listed = [it["game"] for it in json.loads(found["games", *options][1])["games"]]
        check(f"{where}: the JSON has the games of the lines of games {' '.join(options)}",
              [int(it.split()[1]) for it in lines], listed)
    check(f"{where}: the lines of the challenges", (0, model.do_challenges(), ""), asked(folder, ("challenges",), now))
    for words in REFUSED:
        plain, objects = asked(folder, words, now), asked(folder, words, now, "--json")
        check(f"{where}: {words} is refused as without --json", (1, "", plain[2]), objects)
    return found


def bad_words(folder, where):
    for words in NO_JSON:
        check(f"{where}: {words[0]} has no JSON", (2, "", f"error: '--json' is not for '{words[0]}'\n"),
              asked(folder, words, NOW, "--json"))


def main():
    model = OfficersClub(NOW)
    with tempfile.TemporaryDirectory(dir=FAST) as folder:
        setup(folder, model)
        bad_words(folder, "over the file")
        with serve(now=NOW, folder=folder) as server:
            challenge_all(server, model)
            served = {it: answers(folder, model, it, "beside a server") for it in (NOW, NOW + 61, NOW + 10 ** 10)}
            bad_words(folder, "beside a server")
            check("the server still runs", None, server.process.poll())
        for now, found in served.items():
            check(f"the answers over the file at {now} are the same", found,
                  answers(folder, model, now, "over the file"))
        check("the club is sound", (0, "sound\n", ""), run(["c.db", "verify"], folder=folder))
    return exit_status()


if __name__ == "__main__":
    sys.exit(main())
