#!/usr/bin/env python3
"""Tests how a server and the command line share a file: the server executes commands and queries that it receives over
its control socket, and releases the file to a command that needs it itself.

    python3 tests/server/control_socket.py
"""
import contextlib
import os
import pathlib
import shutil
import signal
import socket
import stat
import subprocess
import sys
import tempfile
import threading
import time

sys.path[0] = str(pathlib.Path(__file__).resolve().parents[1])
import lib.club
from lib.club import PROGRAM, TWO_MEMBERS, is_within
from lib.report import check, exit_status, result, skip
from lib.server import SHOW_GAME, free_port, serve

SOCKET = "c.db-desk"
NOBODY = 65534  # the number of a user without rights, and of the group
CREATE = *TWO_MEMBERS, "event cup draughts 86400 0", "seat g cup anna bert"


def club(*words, now=None):
    """A command at a timestamp, or else by the machine's clock."""
    return lib.club.club(*words, now=now)


def shown(server):
    """The status of a reply that shows a game, or why there was none."""
    try:
        return int(server.send(SHOW_GAME).split()[1])
    except OSError as error:
        return str(error)


def shown_again(server):
    """The status of a reply that shows a game, after one that says when to try again."""
    reply = server.send(SHOW_GAME)
    if b"\r\nRetry-After: 2\r\n" in reply:
        time.sleep(2)
        reply = server.send(SHOW_GAME)
    return int(reply.split()[1])


@contextlib.contextmanager
def busy(server, statuses):
    """Three clients that send one request after another, and the statuses of the replies."""
    done = threading.Event()

    def send():
        while not done.is_set():
            statuses.append(shown(server))

    clients = [threading.Thread(target=send) for _ in range(3)]
    for it in clients:
        it.start()
    try:
        yield
    finally:
        done.set()
        for it in clients:
            it.join()


def commands_beside_requests():
    statuses = []
    with serve(now=None) as server, busy(server, statuses):
        time.sleep(0.5)
        began = time.monotonic()
        printed = [club("c.db", "member", f"m{it}", f"keymember{it}") for it in range(20)]
        is_quick = is_within(15, began)
        mode = stat.S_IMODE(os.stat(SOCKET).st_mode)
    expected = [(0, f"accepted member {it}") for it in range(3, 23)]
    check("a busy server executes twenty commands", expected, printed)
    check("commands do not wait for a busy server", True, is_quick)
    check("a busy server answers each request between the commands", {200}, set(statuses))
    check("a busy server goes on beside the commands", True, len(statuses) > 100)
    check("only the owner may use the control socket", 0o600, mode)


def commands_and_queries():
    """The server executes what the command line sends, at the timestamp of the command; the output is the same."""
    queries = ("members", "events", "games", "games --running", "table cup", "legal 1", "export 1", "legal 9",
               "table nothing")
    late = 2000000000
    without = [club("c.db", *it.split(), now=late) for it in queries]
    with open("log", "wb") as log, serve("c.db", "--log", now=None, stderr=log) as server:
        check("a server with a log shows a game", 200, shown(server))
        for it, expected in zip(queries, without):
            check(f"`{it}` prints the same beside a server", expected, club("c.db", *it.split(), now=late))
        check("the server executes a move", (0, "accepted ply 1 32-28"), club("c.db", "move", "1", "1", "32-28"))
        check("the server repeats a move", (0, "repeated ply 1 32-28"), club("c.db", "move", "1", "1", "32-28"))
        check("the server refuses another move of that ply",
              (1, "refused 58 Conflict"), club("c.db", "move", "1", "1", "31-27"))
        check("the server refuses a name that is taken",
              (1, "refused 64 NameTaken"), club("c.db", "member", "anna", "keyanother"))
        pathlib.Path("game.pdn").write_text('[Result "0-2"]\n1. 32-28 19-23\n0-2\n')
        imported = "import-pdn", "old1", "cup", "anna", "bert", "game.pdn"
        check("the server imports a record", (0, "accepted game 2"), club("c.db", *imported))
        check("the server repeats an import", (0, "repeated game 2"), club("c.db", *imported))
        check("the server executes a sweep", (0, "accepted sweep 0"), club("c.db", "sweep"))
        check("the server shows a game after the commands", 200, shown(server))
        time.sleep(0.1)
    lines = [line.split()[1:] for line in pathlib.Path("log").read_text().splitlines()]
    commands = [line[1:] for line in lines if line[0] == "officer"]
    requests = [line for line in lines if line[0] != "officer"]
    expected = [["question", "0"]] * 7 + [["question", "1"]] * 2
    expected += [["move", "0"], ["move", "0"], ["move", "1"], ["member", "1"]]
    expected += [["import-pdn", "0"], ["import-pdn", "0"], ["sweep", "0"]]
    check("each command is in the log", expected, commands)
    check("each request is in the log with its member", [["GET", "/games/{id}", "200", "anna"]] * 2, requests)
    check("no key is in the log", False, "key" in pathlib.Path("log").read_text())


def make_club():
    for words in CREATE:
        lib.club.club("c.db", *words.split())


@contextlib.contextmanager
def asking(server, statuses, waits):
    """A client that sends one request after another, and how long it waits for each reply."""
    done = threading.Event()

    def ask():
        while not done.is_set():
            began = time.monotonic()
            statuses.append(shown(server))
            waits.append(time.monotonic() - began)

    member = threading.Thread(target=ask)
    member.start()
    try:
        yield
    finally:
        done.set()
        member.join()


def batches():
    """The server executes the commands of a batch and of a round robin one by one, with requests between."""
    with tempfile.TemporaryDirectory() as folder, contextlib.chdir(folder):
        make_club()
        shutil.copy("c.db", "alone.db")
        orders = "".join(f"member b{it} keybatch{it}\n" for it in range(150))
        orders += "# a comment\n\nmember anna keyother1\nevent spring draughts 3600 0\n"
        orders += "import-pdn old9 spring anna bert game.pdn\nsweep\n"
        pathlib.Path("orders").write_text(orders)
        pathlib.Path("game.pdn").write_text("1. 32-28 19-23 2-0\n")
        steps = (("batch", "orders"), ("round-robin", "r", "spring", "anna", "bert", "b1", "b2"),
                 ("round-robin", "s", "spring", "anna", "nobody"))
        expected = [lib.club.run(["alone.db", *it]) for it in steps]
        waits, statuses = [], []
        with open("log", "wb") as log, serve("c.db", "--log", stderr=log) as server:
            check("a server shows a game before a batch", 200, shown(server))
            with asking(server, statuses, waits):
                printed = [lib.club.run(["c.db", *it]) for it in steps]
            time.sleep(0.1)
        check("a batch and round robins print the same beside a server", expected, printed)
        check("requests are served during a batch", {200}, set(statuses))
        result(len(waits) > 20 and max(waits) < 1, "no request waits for the batch", f"{max(waits):.2f} s")
        lines = [line.split()[1:] for line in pathlib.Path("log").read_text().splitlines()]
        names = [line[1] for line in lines if line[0] == "officer"]
        check("each command of a batch is in the log", [151, 1, 1, 1, 6],
              [names.count(it) for it in ("member", "event", "import-pdn", "sweep", "seat")])
        check("the club is the same as without a server", lib.club.read_tables("alone.db"),
              lib.club.read_tables("c.db"))


def killed_batches():
    """If the server is killed during a batch, the rest of it is executed over the file."""
    with tempfile.TemporaryDirectory() as folder, contextlib.chdir(folder), serve_new_club() as server:
        with subprocess.Popen(lib.club.command_line(["c.db", "batch", "-"]), stdin=subprocess.PIPE,
                              stdout=subprocess.PIPE, text=True) as command:
            command.stdin.write("".join(f"event e{it} shogi 3600 0\n" for it in range(40)))
            command.stdin.close()
            lines = [command.stdout.readline()]
            server.process.kill()
            lines += command.stdout
        check("a batch is executed whole although its server is killed",
              [(str(it), "event") for it in range(1, 41)], [(it.split()[0], it.split()[2]) for it in lines])
        check("each of its commands is accepted or repeated", set(),
              {it.split()[1] for it in lines} - {"accepted", "repeated"})


@contextlib.contextmanager
def serve_new_club():
    make_club()
    with serve("c.db") as server:
        yield server


def killed_servers():
    """A server that is killed while it executes a command: the command is lost or done, and can be repeated."""
    results = []
    for it in range(12):
        with serve(now=None) as server:
            check(f"server {it + 1} shows a game before it is killed", 200, shown(server))
            words = [PROGRAM, "c.db", "member", f"k{it}", f"keykilled{it}"]
            with subprocess.Popen(words, stdout=subprocess.PIPE, stderr=subprocess.STDOUT, text=True) as command:
                time.sleep(0.002 * it)
                server.process.kill()
                first = command.communicate()[0]
        again = club("c.db", "member", f"k{it}", f"keykilled{it}")
        number = again[1].split()[-1]
        is_done = (first.split() or ["none"])[0] in ("accepted", "repeated")
        results.append((is_done, again == (0, f"repeated member {number}")))
    check("a command succeeds although its server is killed", [(True, True)] * 12, results)
    check("the club is sound after servers were killed", (0, "sound"), club("c.db", "verify"))


def dead_sockets():
    """The socket of a server that was killed hinders nobody."""
    check("a killed server leaves its socket", True, os.path.exists(SOCKET))
    check("a command ignores the socket of a killed server", (0, "sound"), club("c.db", "verify"))
    with serve(now=None) as server:
        check("a new server replaces the socket of a killed one", 200, shown(server))
        check("the new server executes a query", (0, "sound"), club("c.db", "verify"))
        check("the new server shows a game", 200, shown(server))
        server.process.send_signal(signal.SIGSTOP)
        began = time.monotonic()
        status, _ = club("c.db", "verify")
        check("a command fails beside a stopped server", (3, True), (status, is_within(20, began)))
        server.process.send_signal(signal.SIGCONT)
        check("a command succeeds once the server continues", (0, "sound"), club("c.db", "verify"))
        check("a game is shown once the server continues", 200, shown(server))
    os.remove(SOCKET)
    pathlib.Path(SOCKET).write_text("a letter")
    with serve(now=None) as server:
        check("a server works with a file at the path of its socket", 200, shown(server))
        check("a command works with a file at the path of the socket", (0, "sound"), club("c.db", "verify"))
    check("the file at the path of the socket is unchanged", "a letter", pathlib.Path(SOCKET).read_text())
    os.remove(SOCKET)


def two_servers():
    with serve(now=None) as first, serve(now=None) as second:
        statuses = [shown_again(server) for _ in range(5) for server in (first, second)]
        check("two servers share a file", [200] * 10, statuses)
        check("a command works beside two servers", (0, "sound"), club("c.db", "verify"))
        first.process.kill()
        first.process.wait()
        check("the second server goes on when the first is killed", [200] * 3, [shown(second) for _ in range(3)])
        check("a command works beside the second server", (0, "sound"), club("c.db", "verify"))


def long_paths():
    """A path that is too long for a socket's address is replaced by one through the folder's descriptor."""
    folder = pathlib.Path("a" * 60, "b" * 60)
    folder.mkdir(parents=True)
    file = str(folder / "c.db")
    pathlib.Path(file).write_bytes(pathlib.Path("c.db").read_bytes())
    statuses = []
    with serve(file, now=None) as server, busy(server, statuses):
        time.sleep(0.5)
        check("a command works beside a server with a long path", (0, "sound"), club(file, "verify"))
        check("a server with a long path has a control socket", True, os.path.exists(folder / SOCKET))
    check("a server with a long path answers requests", True, statuses.count(200) > 10)


def foreign_sockets():
    """A command sends nothing to a program of another user, which could print that it was done."""
    if os.geteuid():
        skip("a socket of another user", "only root can make one")
        return
    pathlib.Path(SOCKET).unlink(missing_ok=True)  # of a server that was killed
    with socket.socket(socket.AF_UNIX) as listener:
        listener.bind(SOCKET)
        os.chown(SOCKET, NOBODY, NOBODY)
        os.chmod(SOCKET, 0o666)
        listener.listen()
        listener.setblocking(False)
        status, printed = club("c.db", "member", "foreign", "keyforeign1")
        check("a command beside another user's socket runs over the file", (0, True),
              (status, printed.startswith("accepted member ")))
        check("`verify` asks another user's socket for nothing", (0, "sound"), club("c.db", "verify"))
        check("another user's program receives no connection", False, has_connection(listener))
    os.remove(SOCKET)


def has_connection(listener):
    try:
        listener.accept()[0].close()
    except BlockingIOError:
        return False
    return True


def send_slowly(listener):
    """Sends a byte of an endless answer each second to whoever connects, until the listener is closed."""
    def send_to(peer):
        with contextlib.suppress(OSError), peer:
            while True:
                peer.send(b"0")
                time.sleep(1)

    with contextlib.suppress(OSError):
        while True:
            threading.Thread(target=send_to, args=(listener.accept()[0],), daemon=True).start()


def slow_servers():
    """A command waits ten seconds for a whole answer, however slowly that comes, and five for the file."""
    pathlib.Path(SOCKET).unlink(missing_ok=True)
    listener = socket.socket(socket.AF_UNIX)
    listener.bind(SOCKET)
    listener.listen()
    threading.Thread(target=send_slowly, args=(listener,), daemon=True).start()
    began = time.monotonic()
    done = club("c.db", "member", "patient", "keypatient1")
    took, is_in_time = time.monotonic() - began, is_within(17, began)
    check("a command beside a server that never ends its answer runs over the file", (0, True),
          (done[0], done[1].startswith("accepted member ")))
    check("it waits for the answer for ten seconds in all", (True, True), (took >= 10, is_in_time))
    listener.shutdown(socket.SHUT_RDWR)
    listener.close()
    os.remove(SOCKET)


def end_of_server():
    words = [PROGRAM, "c.db", "serve", "--count", "0", str(free_port())]
    with subprocess.Popen(words, stdout=subprocess.PIPE) as process:
        process.communicate()
    check("a server that ends removes its control socket", False, os.path.exists(SOCKET))


PARTS = (commands_and_queries, commands_beside_requests, batches, killed_batches, killed_servers, dead_sockets,
         two_servers, long_paths, foreign_sockets, slow_servers, end_of_server)


def main():
    with tempfile.TemporaryDirectory(dir="/tmp") as folder, contextlib.chdir(folder):
        for words in CREATE:
            check(f"`{words}` succeeds without a server", 0, club("c.db", *words.split())[0])
        for part in PARTS:
            part()
    return exit_status()


if __name__ == "__main__":
    sys.exit(main())
