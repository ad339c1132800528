#!/usr/bin/env python3
"""Tests the check of Host: for which names a server answers, and where the refusal comes among the others.

    python3 tests/server/hosts.py
"""
import contextlib
import pathlib
import sys
import tempfile

sys.path[0] = str(pathlib.Path(__file__).resolve().parents[1])
from lib.club import create, run
from lib.report import check, exit_status
from lib.server import serve

BAD_HOST = b'{"error":88,"name":"BadHost"}'
ACCEPTED = ("localhost", "LOCALHOST", "localhost:8080", "127.0.0.1", "127.0.0.1:1", "127.255.0.9:65535", "[::1]",
            "[::1]:80", "club.example", "Club.Example:443", "other.example")
REFUSED = ("evil.example", "evil.example:80", "localhost:0", "localhost:65536", "localhost:", "localhost:80x",
           "localhost.evil.example", "127.0.0.1.evil.example", "127.0.0.256", "127.0.0", "127.0.0.1.1", "128.0.0.1",
           "10.0.0.1", "[::2]", "[::1]x", "[::1", "::1", "club.example.", "user@localhost", "localhost/", "", "club")
NAMES = "club.example", "other.example"
BAD_NAMES = "", "club example", "club.example:80", "[::1]", "http://club.example", "club.example/", "é", "a" * 254
GAME = "/games/1"


def head(target=GAME, host="evil.example", method="GET", version="1.1", *lines):
    """A request without a body; `None` is no Host."""
    fields = [*([f"Host: {host}"] if host is not None else []), "Member-Key: keyanna1", *lines]
    return "\r\n".join((f"{method} {target} HTTP/{version}", *fields, "", "")).encode()


def answer(server, request):
    """The status and the body of a reply."""
    top, _, body = server.send(request).partition(b"\r\n\r\n")
    return int(top.split()[1]), body


def values(server):
    """Which values of Host are accepted."""
    check("a loopback name or address and a given name are accepted, with any port",
          [], [it for it in ACCEPTED if answer(server, head(host=it))[0] != 200])
    check("any other value of Host is refused", [],
          [it for it in REFUSED if answer(server, head(host=it)) != (400, BAD_HOST)])
    check("a request of HTTP/1.0 without Host is served", 200, answer(server, head(host=None, version="1.0"))[0])
    check("a request of HTTP/1.0 with another Host is refused", (400, BAD_HOST), answer(server, head(version="1.0")))


def targets(server):
    """The authority of a target in absolute form counts, and not Host."""
    mine, other = f"http://club.example:80{GAME}", f"http://evil.example{GAME}"
    check("a target with an accepted authority is served", 200, answer(server, head(mine))[0])
    check("a target with another authority is refused", (400, BAD_HOST), answer(server, head(other, "localhost")))
    check("a target with an empty authority is refused", (400, BAD_HOST), answer(server, head(f"http://{GAME}", "localhost")))
    check("a query with another authority is none", 200, answer(server, head(f"{GAME}?http://evil.example/", "localhost"))[0])


def order(server):
    """The refusal of Host among the others."""
    many = [f"A{it}: 1" for it in range(64)]
    cases = (("too many fields (86)", 431, head(GAME, "evil.example", "GET", "1.1", *many)),
             ("a bad Content-Length (80)", 400, head(GAME, "evil.example", "POST", "1.1", "Content-Length: x")))
    for name, status, request in cases:
        found = answer(server, request)
        check(f"{name} comes before another Host", (status, False), (found[0], found[1] == BAD_HOST))
    cases = (("Transfer-Encoding (87)", head(GAME, "evil.example", "GET", "1.1", "Transfer-Encoding: chunked")),
             ("no length (84)", head(GAME, "evil.example", "POST")),
             ("a long body (85)", head(GAME, "evil.example", "POST", "1.1", "Content-Length: 70000")),
             ("an unknown path (82)", head("/nowhere")),
             ("another method (83)", head(GAME, "evil.example", "DELETE")),
             ("the page", head("/play")))
    for name, request in cases:
        check(f"another Host comes before {name}", (400, BAD_HOST), answer(server, request))
    unfinished = head(GAME, "evil.example", "POST", "1.1", "Content-Length: 10")
    check("the refusal does not wait for the body", (400, BAD_HOST), answer(server, unfinished))
    check("the reply to HEAD has no body", (400, b""), answer(server, head(GAME, "evil.example", "HEAD")))
    exact = (b"HTTP/1.1 400 Bad Request\r\nContent-Type: application/json\r\nContent-Length: 29\r\n"
             b"Connection: close\r\n\r\n" + BAD_HOST)
    check("the reply has the bytes of a refused head", exact, server.send(head()))


def words():
    """The option on the command line."""
    printed = {it: run(["c.db", "serve", "--host", it, "8080"]) for it in BAD_NAMES}
    check("a bad name is status 2, and nothing is printed", [],
          [it for it, (status, out, error) in printed.items() if (status, out, bool(error)) != (2, "", True)])
    check("`--host` without a name is status 2", 2, run(["c.db", "serve", "--host"])[0])


def main():
    with tempfile.TemporaryDirectory() as folder, contextlib.chdir(folder):
        create()
        words()
        with serve("c.db", *(word for name in NAMES for word in ("--host", name))) as server:
            for part in (values, targets, order):
                part(server)
        with serve() as server:
            check("without `--host` any value of Host is accepted", {200},
                  {answer(server, head(host=it))[0] for it in (*ACCEPTED, *REFUSED)})
            check("without `--host` any authority is accepted", 200, answer(server, head(f"http://evil.example{GAME}"))[0])
    return exit_status()


if __name__ == "__main__":
    sys.exit(main())
