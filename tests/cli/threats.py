#!/usr/bin/env python3
"""Tries what docs/operating.md says that other users of the machine can do, and what they cannot.

    python3 tests/cli/threats.py

Where root runs it, a second user tries. What the document calls not protected is tried too, so that it stays true.
"""
import contextlib
import errno
import http.client
import json
import os
import pathlib
import re
import shutil
import socket
import sqlite3
import subprocess
import sys
import tempfile

sys.path[0] = str(pathlib.Path(__file__).resolve().parents[1])
from lib.club import FAST, PROGRAM, TOP, WAIT, club, create, run
from lib.report import check, exit_status, result, skip
from lib.server import free_port, serve
from models.routes import MEMBERS_ROUTES

OWNER, OTHER = 61001, 65534  # the numbers of users, and of their groups
SOCKET, KEY = "c.db-desk", "keyanna1"
IS_ROOT = os.geteuid() == 0
LONG_NAME = "the name of FILE is too long for a log beside it: take a shorter one"
NOT_PRIVATE = ("FILE is empty and another user's, so that its mode cannot be set to 600: run 'init' as its owner, or "
               "remove it")
EXPLAINED = {
    "second.db": "FILE or its log (FILE-wal) has a second name, or is no regular file: remove the other name",
    "text.db": "FILE is not a database: check its path",
    "folder.db": "FILE is not a database: check its path",
    "journal.db": "another program left a rollback journal (FILE-journal): open FILE once with sqlite3",
    "nowhere/c.db": "the folder of FILE does not exist: check its path",
}


def as_user(number, call):
    """What a call returns in a process of a user, or the name of its error."""
    read, write = os.pipe()
    child = os.fork()
    if not child:
        found = "no result"
        try:
            os.setgroups([])
            os.setgid(number)
            os.setuid(number)
            found = call()
        except OSError as error:
            found = errno.errorcode[error.errno]
        finally:
            os.write(write, json.dumps(found).encode())
            os._exit(0)
    os.close(write)
    with open(read, "rb") as pipe:
        found = json.loads(pipe.read())
    os.waitpid(child, 0)
    return found


def mode(path):
    return f"{os.stat(path).st_mode & 0o777:o}"


def bind(port, host="127.0.0.1", reuse=None):
    """Listens at a port, and returns whether that was permitted."""
    family = socket.AF_INET6 if ":" in host else socket.AF_INET
    with socket.socket(family) as listener:
        if reuse:
            listener.setsockopt(socket.SOL_SOCKET, reuse, 1)
        if family == socket.AF_INET6:
            listener.setsockopt(socket.IPPROTO_IPV6, socket.IPV6_V6ONLY, 1)
        listener.bind((host, port))
        listener.listen()
    return True


def modes_of_files():
    """Whatever the umask, files are for their owner alone, and have the keys as they are."""
    os.chmod(".", 0o755)
    before = os.umask(0)
    try:
        create("c.db")
        club("c.db", "backup", "backup.db")
        with serve("c.db") as server:
            server.show()
            modes = {it: mode(it) for it in ("c.db", "c.db-wal", "backup.db", SOCKET)}
            tried = [as_user(OTHER, call) for call in (
                lambda: open("c.db", "rb").read(1).hex(), lambda: open("backup.db", "rb").read(1).hex(),
                lambda: socket.socket(socket.AF_UNIX).connect(SOCKET))] if IS_ROOT else []
    finally:
        os.umask(before)
    check("with umask 000 the file, its log, its backup and the socket have mode 600", {"600"}, set(modes.values()))
    if IS_ROOT:
        check("another user opens neither the file, the backup nor the socket", ["EACCES"] * 3, tried)
    else:
        skip("another user opens neither the file, the backup nor the socket", "only root can become another user")
    os.umask(0o022)
    with contextlib.closing(sqlite3.connect("c.db")) as source:
        with contextlib.closing(sqlite3.connect("by_sqlite.db")) as copy:
            source.backup(copy)
    shutil.copy("backup.db", "by_cp.db")
    check("with umask 022 a copy by sqlite3 is readable by others, and one by cp is not", ["644", "600"],
          [mode("by_sqlite.db"), mode("by_cp.db")])
    os.umask(before)
    check("a copy of the file has the keys as they are", True, KEY.encode() in pathlib.Path("backup.db").read_bytes())


def planted_logs():
    """A log that another user may have put beside the file is not read: it would replace the club."""
    create("c.db")
    club("other.db", "init")
    club("other.db", "member", "mallory", "keymallory")
    before = pathlib.Path("c.db").read_bytes()
    with contextlib.closing(sqlite3.connect("other.db", isolation_level=None)) as database:
        database.execute("PRAGMA journal_mode = wal")
        database.execute("PRAGMA wal_autocheckpoint = 0")
        database.execute("VACUUM")
        shutil.copyfile("other.db-wal", "c.db-wal")
    refused = 3, "store 73 Store"
    os.chmod("c.db-wal", 0o644)
    check("a log that more users may read than the file is refused", [refused] * 3,
          [club("c.db", *words) for words in (["members"], ["verify"], ["init"])])
    check("an explanation names the log", True, "FILE-wal" in run(["--explain", "c.db", "members"])[2])
    if IS_ROOT:
        os.chmod("c.db-wal", 0o600)
        os.chown("c.db", OWNER, OWNER)
        os.chown("c.db-wal", OTHER, OTHER)
        check("a log of another user than the file's is refused", refused, club("c.db", "members"))
        os.chown("c.db", os.getuid(), os.getgid())
    else:
        skip("a log of another user than the file's is refused", "only root can become another user")
    os.symlink("other.db", "link")
    os.replace("link", "c.db-wal")
    check("a link in the place of a log is refused", refused, club("c.db", "members"))
    os.remove("c.db-wal")
    check("the refused logs changed nothing", (before, (0, "member 1 anna\nmember 2 bert")),
          (pathlib.Path("c.db").read_bytes(), club("c.db", "members")))
    os.chmod(".", 0o700)
    if IS_ROOT:
        check("in a folder of mode 700 another user plants none", "EACCES",
              as_user(OTHER, lambda: pathlib.Path(os.getcwd(), "c.db-wal").write_bytes(b"") and None))


def unopened_files():
    """--explain says why a file was not opened."""
    create("c.db")
    os.link("c.db", "second.db")
    pathlib.Path("text.db").write_text("no database")
    shutil.copy("c.db", "journal.db")
    pathlib.Path("journal.db-journal").write_bytes(b"x")
    os.mkdir("folder.db")
    check("each file that is not opened has an explanation of its own",
          {it: (3, "", f"store 73 Store\n{why}\n") for it, why in EXPLAINED.items()},
          {it: run(["--explain", it, "members"]) for it in EXPLAINED})


def long_names():
    """`init` makes nothing where the names of the logs would be too long."""
    for length in 247, 248, 251, 252:
        name = "n" * length
        refused = 3, "", f"store 73 Store\n{LONG_NAME}\n", []
        expected = (0, "ready\n", "", [name]) if length == 247 else refused
        found = run(["--explain", name, "init"])
        check(f"`init` of a name of {length} bytes", expected, (*found, sorted(os.listdir("."))))
        for it in os.listdir("."):
            os.remove(it)


def empty_files():
    """`init` gives an empty file mode 600 before it writes a club to it, or refuses it."""
    for before in 0o644, 0o666, 0o600, 0o400:
        pathlib.Path("empty.db").touch()
        os.chmod("empty.db", before)
        check(f"`init` of an empty file of mode {before:o} makes it private",
              ((0, "ready"), "600"), (club("empty.db", "init"), mode("empty.db")))
        os.remove("empty.db")
    if not IS_ROOT:
        skip("`init` of another user's empty file is refused", "only root can become another user")
        return
    os.chmod(".", 0o777)
    pathlib.Path("empty.db").touch()
    os.chmod("empty.db", 0o666)
    shutil.copy(PROGRAM, "program")
    words = [f"{os.getcwd()}/program", "--explain", "empty.db", "init"]

    def made():
        ran = subprocess.run(words, capture_output=True, text=True, timeout=WAIT, check=False)
        return ran.returncode, ran.stdout, ran.stderr

    check("`init` of another user's empty file is refused, and says why",
          ([3, "", f"store 73 Store\n{NOT_PRIVATE}\n"], 0, "666", ["empty.db"]),
          (as_user(OTHER, made), os.path.getsize("empty.db"), mode("empty.db"),
           sorted(str(it) for it in pathlib.Path(".").glob("empty*"))))


def sticky_folders():
    """A dead socket of another user in a folder like /tmp cannot be replaced: the server runs without one."""
    if not IS_ROOT:
        skip("a server runs beside a socket of another user in a sticky folder", "only root can become another user")
        return
    os.chmod(".", 0o1777)
    create("c.db")
    for it in pathlib.Path(".").iterdir():
        os.chown(it, OWNER, OWNER)
    as_user(OTHER, lambda: socket.socket(socket.AF_UNIX).bind(SOCKET))
    shutil.copy(PROGRAM, "program")
    port = free_port()
    words = ["./program", "--now", "1000", "c.db", "serve", str(port)]
    with subprocess.Popen(words, stdout=subprocess.PIPE, user=OWNER, group=OWNER, extra_groups=[]) as process:
        try:
            process.stdout.readline()
            check("a server runs beside a socket of another user in a sticky folder", (200, OTHER),
                  (get(port, "/games/1")[0], os.stat(SOCKET).st_uid))
        finally:
            process.kill()


def ports():
    create("c.db")
    with socket.create_server(("127.0.0.1", 0)) as taken:
        words = [PROGRAM, "c.db", "serve", str(taken.getsockname()[1])]
        ran = subprocess.run(words, capture_output=True, text=True, timeout=WAIT, check=False)
        check("beside another program at its port the server ends", (3, "store 76 Input\n"),
              (ran.returncode, ran.stderr or ran.stdout))
    attempt = (lambda call: as_user(OTHER, call)) if IS_ROOT else (lambda call: error_of(call))
    with serve("c.db") as server:
        check("the port of a running server is refused to other programs", ["EADDRINUSE"] * 4,
              [attempt(lambda it=it: bind(server.port, *it)) for it in (
                  [], ["127.0.0.1", socket.SO_REUSEADDR], ["127.0.0.1", socket.SO_REUSEPORT],
                  ["0.0.0.0", socket.SO_REUSEADDR])])
        if attempt(lambda: bind(0, "::1")) is True:
            check("on [::1] the port is the server's", "EADDRINUSE", attempt(lambda: bind(server.port, "::1")))
        else:
            skip("on [::1] the port is the server's", "there is no IPv6")
    lowest = int(pathlib.Path("/proc/sys/net/ipv4/ip_unprivileged_port_start").read_text(encoding="ascii"))
    if IS_ROOT and lowest >= 1024:
        check("a port below 1024 is refused to other users", "EACCES", as_user(OTHER, lambda: bind(880)))
    else:
        skip("a port below 1024 is refused to other users", "only root can become another user, or ports are free")


def error_of(call):
    try:
        return call()
    except OSError as error:
        return errno.errorcode[error.errno]


def get(port, path, key=KEY, host="a"):
    """The status and the text of a reply, under any name of the server."""
    with contextlib.closing(http.client.HTTPConnection("127.0.0.1", port, timeout=WAIT)) as connection:
        connection.request("GET", path, headers={"Host": host, **({"Member-Key": key} if key else {})})
        reply = connection.getresponse()
        return reply.status, reply.read().decode()


def requests():
    """What a client without a key receives, under any name, and what the log keeps."""
    create("c.db")
    with open("log", "wb") as log, serve("c.db", "--log", stderr=log) as server:
        paths = [it.with_values(NAME="cup") for it in MEMBERS_ROUTES if it.method == "GET"]
        check("without a key there is the page", 200, get(server.port, "/play", "")[0])
        check("without a key there is nothing but refusals", {401}, {get(server.port, it, "")[0] for it in paths})
        wrong = {get(server.port, "/me", f"wrongkey{it}")[0] for it in range(100)}
        check("a hundred wrong keys get nothing but refusals, and keep nobody out", ({401}, 200),
              (wrong, get(server.port, "/me")[0]))
        check("without `--host` the server answers under any name", 200, get(server.port, "/me", host="evil.example")[0])
        get(server.port, f"/games/1?key={KEY}")
        get(server.port, f"/{KEY}")
        get(server.port, f"/games/1/{KEY}")
    text = pathlib.Path("log").read_text(encoding="utf-8")
    check("the log has no key and nothing that follows ?", [False, False], [it in text for it in (KEY, "?")])
    check("the log says that there were many wrong keys", 1, text.count(" - - many wrong keys\n"))


def keys_of_members():
    """No command changes a key, a list of processes shows the one of `member`, and the document makes good ones."""
    create("c.db")
    check("no command changes a key", (1, "refused 64 NameTaken"), club("c.db", "member", "anna", "keyother1"))
    with contextlib.closing(sqlite3.connect("c.db", isolation_level=None)) as database:
        database.execute("PRAGMA locking_mode = exclusive")
        database.execute("BEGIN EXCLUSIVE")
        with subprocess.Popen([PROGRAM, "c.db", "member", "cara", "keycara3"], stdout=subprocess.DEVNULL,
                              stderr=subprocess.DEVNULL) as process:
            path = pathlib.Path(f"/proc/{process.pid}/cmdline")
            shown = as_user(OTHER, lambda: path.read_bytes().decode()) if IS_ROOT else path.read_bytes().decode()
            process.kill()
    result("keycara3" in shown, "the list of processes shows the key of `member`", shown)
    text = (TOP / "docs/operating.md").read_text(encoding="utf-8")
    command = re.search(r"^head -c 18 /dev/urandom .*$", text, re.MULTILINE)[0]
    ran = subprocess.run(["sh", "-c", command], capture_output=True, text=True, timeout=WAIT, check=True)
    made = ran.stdout.strip()
    result(re.fullmatch("[A-Za-z0-9]{24}", made), "the documented command makes a key of 24 letters and digits", made)
    check("the program takes such a key", (0, "accepted member 3"), club("c.db", "member", "dora", made))


PARTS = (modes_of_files, planted_logs, unopened_files, long_names, empty_files, sticky_folders, ports, requests,
         keys_of_members)

if __name__ == "__main__":
    for part in PARTS:
        with tempfile.TemporaryDirectory(dir=FAST) as folder, contextlib.chdir(folder):
            part()
    sys.exit(exit_status())
