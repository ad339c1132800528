"""A server over a club's file, for tests: it is started, asked over HTTP, and killed at the end."""
import contextlib
import dataclasses
import http.client
import json
import os
import pathlib
import socket
import subprocess
import time

from lib.club import DRAUGHTS_MOVES, FAULTS, WAIT, command_line, execute

TRIES = 5  # ports at most, because another process may take a free port first
KEYS = {"anna": "keyanna1", "bert": "keybert2", "cara": "keycara3", "dora": "keydora4"}
SHOW_GAME = b"GET /games/1 HTTP/1.1\r\nHost: a\r\nMember-Key: keyanna1\r\n\r\n"
# What is raised if a program does not end in time, or a server does not listen or reply.
FAILURES = OSError, RuntimeError, http.client.HTTPException, subprocess.SubprocessError


@dataclasses.dataclass(frozen=True)
class Request:
    """A POST request of a member, and the data of its reply, which is the same when it is repeated."""

    key: str
    path: str
    body: object
    printed: object
    now: int = 1000

    @property
    def again(self):
        return self.printed


def free_port():
    with socket.create_server(("127.0.0.1", 0)) as listener:
        return listener.getsockname()[1]


def unavailable(fault):
    """The status and the body of a reply while the club is unavailable."""
    return 503, json.dumps({"error": fault, "name": FAULTS[fault]}, separators=(",", ":"))


def receive(connection):
    """All bytes up to the end of a connection."""
    return b"".join(iter(lambda: connection.recv(65536), b""))


def request(port, method, path, body=None, key="keyanna1"):
    """The status and the text of a reply."""
    with contextlib.closing(http.client.HTTPConnection("127.0.0.1", port, timeout=WAIT)) as connection:
        data = b"" if method == "POST" and body is None else body and json.dumps(body).encode()
        connection.request(method, path, data, {"Member-Key": key})
        reply = connection.getresponse()
        return reply.status, reply.read().decode()


def post(port, given):
    """The data of a reply to a `Request`, or its status with its text if that is not 200."""
    status, text = request(port, "POST", given.path, given.body, given.key)
    return json.loads(text) if status == 200 else (status, text)


class Server:
    """A server that listens."""

    def __init__(self, process, port):
        self.process, self.port = process, port

    def connect(self, timeout=WAIT):
        return socket.create_connection(("127.0.0.1", self.port), timeout)

    def send(self, data, timeout=WAIT):
        """All bytes of the reply to these bytes."""
        with self.connect(timeout) as connection:
            connection.sendall(data)
            return receive(connection)

    def request(self, method, path, body=None, key="keyanna1"):
        return request(self.port, method, path, body, key)

    def release(self, file):
        """Removes the control socket, without which an idle server closes the file, and waits until it has."""
        pathlib.Path(f"{file}-desk").unlink(missing_ok=True)
        return self.wait_until(lambda: not self.has_open(file))

    def has_open(self, file):
        return os.path.realpath(file) in self.open_files()

    def wait_until(self, is_so):
        """Waits until something is so, and returns whether it is."""
        end = time.monotonic() + WAIT
        while not is_so() and time.monotonic() < end:
            time.sleep(0.05)
        return is_so()

    def open_files(self):
        folder, paths = f"/proc/{self.process.pid}/fd", set()
        for name in os.listdir(folder):
            with contextlib.suppress(OSError):
                paths.add(os.readlink(f"{folder}/{name}"))
        return paths

    def show(self, game=1):
        return self.request("GET", f"/games/{game}")

    def move(self, ply, game=1):
        key = ("keybert2", "keyanna1")[ply % 2]
        return self.request("POST", f"/games/{game}/moves/{ply}", {"move": DRAUGHTS_MOVES[ply - 1]}, key)


def server_command(file, *options, now=1000):
    """The arguments of the process of a server, and its port."""
    port = free_port()
    return command_line([file, "serve", *options, port], now), port


@contextlib.contextmanager
def serve(file="c.db", *options, now=1000, folder=None, stderr=subprocess.DEVNULL, tries=TRIES, **how):
    """Starts a server over a file, with options of `serve`; it is killed at the end, unless it has ended by itself."""
    for _ in range(tries):
        words, port = server_command(file, *options, now=now)
        with subprocess.Popen(words, cwd=folder, stdin=subprocess.DEVNULL, stdout=subprocess.PIPE, stderr=stderr,
                              **how) as process:
            try:
                if process.stdout.readline():
                    yield Server(process, port)
                    return
            finally:
                process.kill()
    raise RuntimeError("the server does not listen")


def post_all(folder, requests, is_killed=False):
    """The data of the replies to requests, one after another; the server then ends by itself, or is killed."""
    count = str(len(requests) + is_killed)
    with serve("c.db", "--count", count, now=requests[0].now, folder=folder) as server:
        replies = [post(server.port, it) for it in requests]
        if not is_killed:
            server.process.wait(WAIT)
    return replies


def execute_all(folder, steps):
    """What each of the commands prints, or the data of the replies to requests."""
    if isinstance(steps[0], Request):
        return post_all(folder, steps)
    return [execute(folder, it) for it in steps]
