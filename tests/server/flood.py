#!/usr/bin/env python3
"""Nobody is hidden or slowed down by members who challenge without end.

    python3 tests/server/flood.py

Ten members challenge anna 300 times each, and she challenges the last of them once. Her list has the first ten
challenges of each; it stays small, and is sent soon. A challenger's own list has his last hundred, and the last one's
has anna's too. A member who neither challenged nor was challenged has an empty list. That member, who comes first in
the club, challenges anna: then the last challenge of the last challenger gives way, and nobody is hidden. The expected
lists follow from the commands. With an index on the challenged member, which an officer may add, the list is the same.
"""
import contextlib
import http.client
import json
import pathlib
import sqlite3
import sys
import tempfile
import time

sys.path[0] = str(pathlib.Path(__file__).resolve().parents[1])
from lib.club import FAST, run
from lib.report import check, exit_status, result
from lib.server import WAIT, serve

FLOODERS = [f"flooder{number:02}" for number in range(10)]
EACH, LISTED, OWN, ALL = 300, 10, 100, 100
MOST_BYTES, MOST_SECONDS = 40_000, 1


def key(member):
    return f"key{member}12"


def long(member):
    """A name of 24 letters, the most that a name has."""
    return f"{member}{'-' * (24 - len(member))}"


ANNA, FIRST = long("anna"), long("first")


def shown(challenger, number, other):
    return {"event": "cup", "first": challenger, "from": challenger, "game": None, "number": number, "second": other,
            "state": "open", "to": other}


def challenge(server, challenger, numbers, other):
    """Opens challenges, and returns the statuses of the replies."""
    statuses = set()
    for number in numbers:
        connection = http.client.HTTPConnection("127.0.0.1", server.port, timeout=WAIT)
        body = json.dumps({"event": "cup", "first": True, "other": other})
        connection.request("POST", f"/challenges/{number}", body, {"Member-Key": key(challenger)})
        reply = connection.getresponse()
        reply.read()
        statuses.add(reply.status)
        connection.close()
    return statuses


def look(server, member):
    """The data of a member's list, its bytes and its seconds, the least of three requests."""
    times = []
    for _ in range(3):
        began = time.monotonic()
        status, text = server.request("GET", "/me", key=key(member))
        times.append(time.monotonic() - began)
    check(f"{member} is shown the list", 200, status)
    return json.loads(text), len(text), min(times)


def flooded(server):
    statuses = {status for it in FLOODERS for status in challenge(server, it, range(EACH, 0, -1), ANNA)}
    check(f"{len(FLOODERS)} members challenge anna {EACH} times each", {200}, statuses)
    check("anna challenges the last of them", {200}, challenge(server, "anna", [1], long(FLOODERS[-1])))
    found, size, seconds = look(server, "anna")
    others = [shown(long(it), number, ANNA) for it in FLOODERS for number in range(1, LISTED + 1)]
    own = shown(ANNA, 1, long(FLOODERS[-1]))
    check("her own challenge is listed, and the first ten of each challenger", [own, *others], found["challenges"])
    check("the number of the others is listed", {"from": 0, "to": len(FLOODERS) * (EACH - LISTED)}, found["more"])
    result(size < MOST_BYTES, f"her list is below {MOST_BYTES} bytes ({size})")
    result(seconds < MOST_SECONDS, f"her list is sent within {MOST_SECONDS} s ({seconds * 1000:.0f} ms)")
    found, size, _ = look(server, FLOODERS[0])
    mine = [shown(long(FLOODERS[0]), number, ANNA) for number in range(EACH - OWN + 1, EACH + 1)]
    check("a challenger's last hundred challenges are listed", mine, found["challenges"])
    check("the number of his others is listed", {"from": EACH - OWN, "to": 0}, found["more"])
    result(size < MOST_BYTES, f"his list is below {MOST_BYTES} bytes ({size})")
    found, _, _ = look(server, FLOODERS[-1])
    mine = [shown(long(FLOODERS[-1]), number, ANNA) for number in range(EACH - OWN + 1, EACH + 1)]
    check("the last challenger's list has his last hundred, then the one that he received",
          [*mine, shown(ANNA, 1, long(FLOODERS[-1]))], found["challenges"])
    found, _, _ = look(server, "first")
    check("a member who challenged nobody and was not challenged has an empty list", ([], {"from": 0, "to": 0}),
          (found["challenges"], found["more"]))
    check("one more member challenges anna", {200}, challenge(server, "first", [7], ANNA))
    found, _, _ = look(server, "anna")
    check("all challengers are listed, a hundred challenges in all",
          [own, shown(FIRST, 7, ANNA), *others[:ALL - 1]], found["challenges"])
    check("one challenge more is left out", len(FLOODERS) * (EACH - LISTED) + 1, found["more"]["to"])
    return found


def indexed(folder, wanted):
    """An index on the challenged member, as docs/operating.md has it, changes no list and no command."""
    with contextlib.closing(sqlite3.connect(f"{folder}/c.db")) as file, file:
        file.execute("CREATE INDEX by_other ON challenges (other)")
    with serve(now=2000, folder=folder) as server:
        found, _, _ = look(server, "anna")
        check("with an index the list is the same", wanted, found)
        check("a challenge is opened beside the index", {200}, challenge(server, "first", [8], ANNA))
        found, _, _ = look(server, "anna")
        check("it is counted", wanted["more"]["to"] + 1, found["more"]["to"])
    check("the file with the index is sound", (0, "sound\n", ""), run(["c.db", "verify"], folder=folder))


def main():
    members = ["first", "anna", *FLOODERS]
    lines = [*(f"member {long(it)} {key(it)}" for it in members), "event cup draughts 86400 0"]
    with tempfile.TemporaryDirectory(dir=FAST) as folder:
        check("a club is created", 0, run(["c.db", "init"], folder=folder)[0])
        status, _, err = run(["c.db", "batch", "-"], folder=folder, data="".join(f"{it}\n" for it in lines))
        check("a batch adds the members", (0, ""), (status, err))
        with serve(now=2000, folder=folder) as server:
            found = flooded(server)
        indexed(folder, found)
    return exit_status()


if __name__ == "__main__":
    sys.exit(main())
