#!/usr/bin/env python3
"""Tests where a server listens, and that nobody but its user can connect to the control socket at any time.

    python3 tests/server/listening.py
"""
import os
import pathlib
import shutil
import socket
import stat
import subprocess
import sys
import tempfile
import time

sys.path[0] = str(pathlib.Path(__file__).resolve().parents[1])
from lib.club import PROGRAM, WAIT, build_preload, club, create, is_within, run
from lib.report import check, exit_status, result, skip
from lib.server import SHOW_GAME, Server, free_port, receive, serve

SOCKET, FOLDER = "c.db-desk", "c.db-sk"
OWNER, OTHER, GROUP = 61001, 61002, 61003  # the numbers of two users, and of a group


def shown(server):
    """The status of a reply that shows a game."""
    return int(server.send(SHOW_GAME).split()[1])


def is_refused(address, port):
    """Whether nobody listens there."""
    try:
        socket.create_connection((address, port), 5).close()
    except OSError:
        return True
    return False


def has_ipv6():
    """Whether this machine has the address ::1."""
    try:
        socket.create_server(("::1", 0), family=socket.AF_INET6).close()
    except OSError:
        return False
    return True


def ipv6():
    """The other address of `localhost` is the server's, too, and is nobody else's."""
    if not has_ipv6():
        skip("the server at ::1", "this machine has no IPv6")
        return
    with serve() as server:
        with socket.create_connection(("::1", server.port), WAIT) as connection:
            connection.sendall(SHOW_GAME)
            check("a game is shown at ::1", 200, int(receive(connection).split()[1]))
        check("a game is shown at 127.0.0.1", 200, shown(server))
        result(not can_listen("::1", server.port), "nobody else can listen there")
    with socket.create_server(("::1", 0), family=socket.AF_INET6) as other:
        port = other.getsockname()[1]
        status, out, error = run(["c.db", "serve", "--count", "0", port])
        check("a port that is taken at ::1 is fault 76", (3, "", "store 76 Input\n"), (status, out, error))
    check("the port is free at 127.0.0.1 then", True, can_listen("127.0.0.1", port))


def can_listen(address, port):
    """Whether a program can listen there."""
    try:
        socket.create_server((address, port), family=socket.AF_INET6 if ":" in address else socket.AF_INET).close()
    except OSError:
        return False
    return True


def without_ipv6():
    """A server that may not use IPv6 goes on without."""
    library = build_preload(".", "no_ipv6")
    for number in 97, 99:  # EAFNOSUPPORT, EADDRNOTAVAIL
        with serve(env={**os.environ, "LD_PRELOAD": library, "NO_IPV6": str(number)}) as server:
            check(f"a server serves on a machine without IPv6 (error {number})", 200, shown(server))
            check(f"nobody listens at ::1 then (error {number})", True, is_refused("::1", server.port))


def addresses():
    """What the server does with each socket before others can connect to it."""
    library = build_preload(".", "log_listen")
    with serve(env={**os.environ, "LD_PRELOAD": library, "LISTENING": os.path.abspath("listening")}) as server:
        check("the server replies while its sockets are logged", 200, shown(server))
        lines = [line.split() for line in pathlib.Path("listening").read_text().splitlines()]
        check("another address of the machine is refused", True, is_refused("127.0.0.2", server.port))
        check("the control socket has mode 600", 0o600, stat.S_IMODE(os.stat(SOCKET).st_mode))
        check("the folder in which the socket was made is gone", False, os.path.exists(FOLDER))
    tcp = [line[1:] for line in lines if line[0] == "tcp"]
    modes = [[int(it, 8) for it in line[1:]] for line in lines if line[0] == "unix"]
    check("the server listens on 127.0.0.1 and on ::1 alone", [["127.0.0.1"], *[["::1"]] * has_ipv6()], tcp)
    check("the control socket is one socket", 1, len(modes))
    check("nobody but the owner can connect when the control socket begins to listen", [],
          [it for it in modes if it[0] & 0o077 and it[1] & 0o077])


def folders():
    """The folder of a server that was killed while it made its socket, and a folder of somebody else."""
    os.mkdir(FOLDER, 0o700)
    with socket.socket(socket.AF_UNIX) as left:
        left.bind(f"{FOLDER}/s")
    with serve() as server:
        check("a server starts beside the folder of a killed one", 200, shown(server))
        check("it makes its control socket", True, stat.S_ISSOCK(os.stat(SOCKET).st_mode))
        check("it removes the folder of the killed one", False, os.path.exists(FOLDER))
    os.remove(SOCKET)
    os.mkdir(FOLDER)
    pathlib.Path(FOLDER, "kept").write_text("kept")
    with serve() as server:
        check("a server serves beside a folder of somebody else", 200, shown(server))
        check("it has no control socket then", False, os.path.exists(SOCKET))
        check("a command goes on without it", (0, "sound"), club("c.db", "verify"))
    check("a folder of somebody else stays", "kept", pathlib.Path(FOLDER, "kept").read_text())


def is_served(server, log, file):
    """Whether the server executes a command that names the file by this path."""
    before = log.stat().st_size
    printed = club(file, "members")
    return printed == (0, "member 1 anna\nmember 2 bert") and server.wait_until(lambda: log.stat().st_size > before)


def paths():
    """Every path to the file leads to the same control socket."""
    shutil.rmtree(FOLDER)
    os.symlink("c.db", "link.db")
    deep = pathlib.Path(*["deep" * 10] * 4).resolve()
    deep.mkdir(parents=True)
    os.symlink(deep, "short")
    log = pathlib.Path("log")
    for name, file, others in (
            ("a link", "link.db", ["c.db", os.path.abspath("c.db"), "./../" + os.path.basename(os.getcwd()) + "/link.db"]),
            ("a path of more than 107 bytes", f"{deep}/c.db", ["short/c.db", os.path.relpath(f"{deep}/c.db")])):
        if not os.path.exists(file):
            shutil.copy("c.db", file)
        socket_path = pathlib.Path(f"{os.path.realpath(file)}-desk")
        socket_path.unlink(missing_ok=True)
        with open(log, "wb") as stream, serve(file, "--log", stderr=stream) as server:
            check(f"a server over {name} makes its socket beside the file", True,
                  server.wait_until(socket_path.is_socket))
            check(f"a server over {name} executes the commands of every path to the file",
                  [True] * (len(others) + 1), [is_served(server, log, it) for it in (file, *others)])
    check("there is no other socket", [], sorted(str(it) for it in pathlib.Path(".").glob("link*-desk")))


def groups():
    """An officer of the group that may write the file commands the server of the file's owner."""
    name = "an officer of the file's group commands the owner's server"
    if os.geteuid():
        skip(name, "only root can become another user")
        return
    os.mkdir("group", 0o2770)
    os.chown("group", OWNER, GROUP)
    os.chmod("group", 0o2770)
    shutil.copy("c.db", "group/c.db")
    os.chown("group/c.db", OWNER, GROUP)
    os.chmod("group/c.db", 0o660)
    shutil.copy(PROGRAM, "program")
    os.chmod("program", 0o755)
    user = {"user": OWNER, "group": OWNER, "extra_groups": [GROUP]}
    port = free_port()
    with subprocess.Popen(["./program", "group/c.db", "serve", str(port)], stdout=subprocess.PIPE, **user) as server:
        try:
            server.stdout.readline()
            Server(server, port).wait_until(lambda: os.path.exists(f"group/{SOCKET}"))
            found = os.stat(f"group/{SOCKET}")
            check("the socket has the file's group and mode 660", (GROUP, 0o660), (found.st_gid, stat.S_IMODE(found.st_mode)))
            began = time.monotonic()
            ran = subprocess.run(["./program", "group/c.db", "members"], capture_output=True, text=True, timeout=WAIT,
                                 check=False, user=OTHER, group=OTHER, extra_groups=[GROUP])
            check(name, (0, "member 1 anna\nmember 2 bert\n", ""), (ran.returncode, ran.stdout, ran.stderr))
            result(is_within(3, began), "that takes less than the wait for a locked file")
            ran = subprocess.run(["./program", "group/c.db", "members"], capture_output=True, text=True, timeout=WAIT,
                                 check=False, user=OTHER, group=OTHER, extra_groups=[])
            check("nobody else does", 3, ran.returncode)
        finally:
            server.kill()


def main():
    with tempfile.TemporaryDirectory() as folder:
        os.chmod(folder, 0o755)
        os.chdir(folder)
        create()
        addresses()
        ipv6()
        without_ipv6()
        folders()
        paths()
        groups()
    return exit_status()


if __name__ == "__main__":
    sys.exit(main())
