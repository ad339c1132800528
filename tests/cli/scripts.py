#!/usr/bin/env python3
r"""Runs the program as scripts say, each in a new folder, and compares what it prints and replies.

    python3 tests/cli/scripts.py [SCRIPT ..]

Without arguments it runs all scripts of tests/cli/scripts. For each line it prints `ok SCRIPT:LINE WORDS`, or
`not ok ..` with what was expected and what was got. The lines of a script:

    # A comment. A line that ends with \ is continued on the next one, without the blanks that begin that one.
    1000 c.db member anna keyanna1 = 0 accepted member 1
        `club --now 1000 c.db member anna keyanna1` ends with the status 0 and prints the text, in which `|` is a line
        break: on standard output if the status is 0 or the lines are those of a batch, which begin with a number; else
        on standard error. Nothing is printed on the other. The status 2, a usage error, has no text: something is
        printed on standard error.
    1000 c.db show 2 = 0 > board
        The same, with the text of that name as output, which may have `|` and leading blanks.
    club --json c.db members = 0 {"members":["anna","bert"]}
        A text that begins with `{` is JSON, which ends without a line break.
    club c.db verify = 0 sound
        The same with the arguments as they are.
    text lost = "[Result \"0-2\"]\n" + "1. 32-28 19-23 0-2" + "\n" * 2
        A text with a name, wherever the line is. It consists of JSON strings and names of texts above it, joined by
        `+`, each as often as `* NUMBER` says.
    1000 c.db import-pdn old1 autumn anna bert - < lost = 0 accepted game 2
        The text of that name is standard input; without a name standard input is empty.
    full 1000 c.db export 1 = V2.2|N+anna|N-bert|..
        Standard output has room for SIZE bytes only, for each SIZE below the length of the text: the first SIZE bytes
        are written, the status is 3, and standard error is `store 77 Output`.
    rows c.db SELECT id, name FROM members = 1|anna;2|bert
        sqlite3 reads these rows, from a copy of the file.
    read draw records/draw.pdn
        The text of a file by a name. The folder `records` is tests/data/records.
    copy c.db later.db
        Copies the file of a club with its log.
    change c.db UPDATE meta SET last = 5
        sqlite3 changes the file.
    serve 1000 c.db
        `club --now 1000 c.db serve --log --count N PORT` runs for the lines up to `end`. Each of them has a connection
        of its own, one after another:
    keyanna1 POST /games/1/moves/1 {"move":"32-28"} -> 200 OK {"end":null,..}
        The request with this key, and with this body or none, has a reply of this status with this JSON body and the
        fields that it must have, those about caching too. After the status comes its phrase; without it any phrase will do. The body of a
        request may be written as a text: "[" * 200.
    raw "GET / HTTP/2.0\r\n\r\n" -> 400 Bad Request {"error":80,"name":"BadHead"}
        The bytes of a request.
    raw "GET / HTTP/1.1\r\n" -> ""
        The reply may be a text, too, which it is byte for byte (that of a table, and of 405, which has `Allow`). If it
        is empty the input ends after the bytes.
    slowly "GET / HTTP/2.0\r\n\r\n" -> 400 Bad Request {"error":80,"name":"BadHead"}
        The bytes of a request, one at a time.
    truncated "GET / HTTP/2.0\r\n\r\n"
        If the input ends after the first SIZE bytes there is no reply, for each SIZE below the length of the text.
    end
        The server ends with the status 0, and has logged one line for each connection. `end = 1000 GET /games/1 200 anna`
        gives these lines, with `|` as a line break.
"""
import json
import pathlib
import re
import resource
import signal
import socket
import sqlite3
import subprocess
import sys
import tempfile
import time

sys.path[0] = str(pathlib.Path(__file__).resolve().parents[1])
from lib.caching import caching_lines, error_of, target_of
from lib.club import PROGRAM, RECORDS, TESTS, change, copy_club, query
from lib.report import exit_status, result
from lib.server import TRIES, free_port, receive

SCRIPTS = TESTS / "cli/scripts"
OF_BATCH = re.compile(r"\d+ (accepted|repeated|refused) ")
TERM = re.compile(r'\s*(?:("(?:[^"\\]|\\.)*")|([a-z_]\w*))(?:\s*\*\s*(\d+))?\s*(?:(\+)|$)')
REPLY = re.compile(r"(\d\d\d) (?:([A-Z][A-Za-z ]*) )?(\{.*\})")
ASKED = re.compile(r"(\w+) ([A-Z]+) (\S+)(?: (.+))?")
FILE_LIMIT = 1 << 26  # bytes; above what any file of a script has
WAIT = 60  # seconds after which a program or a reply counts as hanging
FURTHER_FIELDS = {"401": "WWW-Authenticate: Member-Key\r\n"}


class Unreadable(Exception):
    """A line that has none of the forms, or cannot be executed."""


class Differs(Exception):
    """What was expected, and what was got."""


def compare(expected, got):
    if expected != got:
        raise Differs(expected, got)


def parted(line, mark):
    """The text before the first mark and the text after it."""
    before, found, behind = line.partition(mark)
    if not found:
        raise Unreadable(f"there is no '{mark.strip()}'")
    return before.strip(), behind.strip()


def words_of(text, count):
    words = text.split()
    if len(words) != count:
        raise Unreadable(f"there are not {count} words")
    return words


def shortened(words):
    return words if len(words) <= 100 else words[:100] + ".."


def lines_of(text):
    """The bytes of JSON, or of lines, which `|` separates; none if there is no text."""
    if text.startswith("{"):
        return text.encode()
    return (text.replace("|", "\n") + "\n").encode() if text else b""


def whole_lines(text):
    """Each line of a script with its number; those that go on are joined."""
    begun, first = "", 0
    for number, line in enumerate(text.splitlines(), 1):
        if not begun:
            first = number
        begun += line.lstrip() if begun else line
        if begun.endswith("\\"):
            begun = begun[:-1]
            continue
        if begun.strip() and not begun.startswith("#"):
            yield first, begun.strip()
        begun = ""
    if begun:
        raise Unreadable("the last line does not go on")


def ended(process, held=None):
    """What a program wrote until it ended. One that does not end in time is killed."""
    try:
        return process.communicate(held, WAIT)
    finally:
        process.kill()


class Script:
    """A script over the files of one folder."""

    def __init__(self, path, folder):
        self.path, self.folder = path, pathlib.Path(folder)
        self.texts = {}
        self.tests = 0

    def run(self):
        """Executes the script."""
        lines = []
        self.attempt("", lambda: lines.extend(self.without_texts()))
        while lines:
            number, line = lines.pop(0)
            first, _, rest = line.partition(" ")
            if first == "serve":
                self.serve(number, line, lines)
            elif first == "copy":
                self.attempt(f":{number} {shortened(line)}", lambda: self.copy(*words_of(rest, 2)))
            elif first == "change":
                self.attempt(f":{number} {shortened(line)}", lambda: self.change(*parted(rest, " ")))
            else:
                self.test(number, line.rsplit(" =", 1)[0], lambda: self.check(line))
        if not self.tests:
            self.fail("", "there is no test")

    def fail(self, name, *details):
        result(False, f"{self.path.name}{name}", *details)

    def attempt(self, name, act):
        """Whether it could be executed, and was as expected; if not, that is printed."""
        try:
            act()
        except Differs as differing:
            expected, got = differing.args
            self.fail(name, f"expected: {expected!r}", f"got:      {got!r}")
        except (Unreadable, OSError, ValueError, sqlite3.Error, subprocess.SubprocessError) as error:
            self.fail(name, f"{type(error).__name__}: {error}")
        else:
            return True
        return False

    def test(self, number, words, check):
        """Executes a line that tests something, and prints its result."""
        self.tests += 1
        name = f":{number} {shortened(words)}"
        if self.attempt(name, check):
            result(True, f"{self.path.name}{name}")

    def without_texts(self):
        """The lines without those that define texts."""
        for number, line in whole_lines(self.path.read_text()):
            first, _, rest = line.partition(" ")
            if first == "text":
                self.attempt(f":{number} {shortened(line)}", lambda: self.name_text(*parted(rest, " = ")))
            elif first == "read":
                self.attempt(f":{number} {shortened(line)}", lambda: self.read_text(*words_of(rest, 2)))
            else:
                yield number, line

    def name_text(self, name, written):
        self.texts[name] = self.text(written)

    def read_text(self, name, file):
        self.texts[name] = (self.folder / file).read_bytes()

    def change(self, file, sql):
        change(self.folder / file, sql)

    def copy(self, old, new):
        copy_club(self.folder / old, self.folder / new)

    def check(self, line):
        """Executes a line that tests something, but for those of a server."""
        first, _, rest = line.partition(" ")
        if first == "rows":
            self.check_rows(rest)
        elif first == "full":
            self.check_full(rest)
        elif first == "club":
            self.check_words(rest)
        elif first.isdigit():
            self.check_words(f"--now {line}")
        else:
            raise Unreadable(f"'{first}' begins no line here")

    def text(self, written):
        """The bytes of strings of JSON and names of texts."""
        found, at, goes_on = b"", 0, True
        while goes_on:
            term = TERM.match(written, at)
            if not term or term[2] and term[2] not in self.texts:
                raise Unreadable(f"no text: {written[at:at + 40]}")
            part = self.texts[term[2]] if term[2] else json.loads(term[1]).encode()
            found += part * int(term[3] or 1)
            at, goes_on = term.end(), term[4]
        return found

    def printed(self, written):
        """The bytes of a text by its name, or of lines."""
        return self.text(written[2:]) if written.startswith("> ") else lines_of(written)

    def start(self, words, **how):
        return subprocess.Popen([PROGRAM, *words], cwd=self.folder, stderr=subprocess.PIPE, **how)

    def check_words(self, line):
        asked, expected = parted(f" {line} ", " = ")
        asked, _, name = asked.partition(" < ")
        status, _, text = expected.partition(" ")
        if status not in ("0", "1", "2", "3") or status == "2" and text or status in ("1", "3") and not text:
            raise Unreadable("there is no status with its text")
        process = self.start(asked.split(), stdin=subprocess.PIPE, stdout=subprocess.PIPE)
        out, err = ended(process, self.text(name) if name else b"")
        if status == "2":
            compare((2, b"", "something"), (process.returncode, out, "something" if err else "nothing"))
        else:
            shown, silent = (out, err) if status == "0" or OF_BATCH.match(text) else (err, out)
            compare((int(status), self.printed(text), b""), (process.returncode, shown, silent))

    def check_full(self, line):
        asked, text = parted(line, " = ")
        whole = self.printed(text)
        if not whole:
            raise Unreadable("there is no text")
        for size in range(len(whole)):
            compare((3, whole[:size], b"store 77 Output\n"), self.written(["--now", *asked.split()], size))

    def written(self, words, size):
        """The status, what is written to an output that has room for so many bytes, and what standard error says."""
        def limit():
            signal.signal(signal.SIGXFSZ, signal.SIG_IGN)
            resource.setrlimit(resource.RLIMIT_FSIZE, (FILE_LIMIT, FILE_LIMIT))

        with tempfile.TemporaryFile() as out:
            out.seek(FILE_LIMIT - size)
            process = self.start(words, stdin=subprocess.DEVNULL, stdout=out, preexec_fn=limit)
            _, err = ended(process)
            out.seek(FILE_LIMIT - size)
            return process.returncode, out.read(), err

    def check_rows(self, line):
        asked, _, expected = line.rpartition(" =")
        file, sql = parted(asked, " ")
        rows = ["|".join("" if cell is None else str(cell) for cell in row)
                for row in query(self.folder / file, sql)]
        compare(expected.strip(), ";".join(rows))

    def serve(self, number, line, lines):
        """Executes the lines of a server, up to its end, and removes them."""
        requests = []
        while lines and lines[0][1].split()[0] not in ("end", "serve"):
            requests.append(lines.pop(0))
        server = ServerLines(self)
        self.test(number, line, lambda: server.open(*words_of(line, 3)[1:], [it for _, it in requests]))
        for at, request in requests:
            self.test(at, request.partition(" -> ")[0], lambda: server.execute(request))
        at, end = lines.pop(0) if lines and lines[0][1].split()[0] == "end" else (number, "no end")
        self.test(at, end, lambda: server.close(end))


class ServerLines:
    """A server over a file, and the requests that it receives."""

    def __init__(self, script):
        self.script = script
        self.process, self.port, self.now, self.count = None, 0, "", 0

    def open(self, now, file, requests):
        self.now, self.count = now, sum(self.connections(it) for it in requests)
        for _ in range(TRIES):
            self.port = free_port()
            words = ["--now", now, file, "serve", "--log", "--count", str(self.count), str(self.port)]
            self.process = self.script.start(words, stdin=subprocess.DEVNULL, stdout=subprocess.PIPE)
            line = self.process.stdout.readline()
            if line:
                break
        compare(f"listening 127.0.0.1:{self.port}\n".encode(), line)

    def connections(self, line):
        """How many connections a line has; one that cannot be read has none."""
        first, _, rest = line.partition(" ")
        try:
            if first == "truncated":
                return len(self.script.text(rest))
            self.read(line)
            return 1
        except (Unreadable, ValueError):
            return 0

    def close(self, end):
        if self.process is None:
            raise Unreadable("there is no server")
        out, err = ended(self.process)
        status, lines = self.process.returncode, err.decode().splitlines()
        if end == "end":
            others = [line for line in lines if not line.startswith(f"{self.now} ")]
            compare((0, b"", self.count, []), (status, out, len(lines), others))
        else:
            compare((0, b"", lines_of(parted(end, "end =")[1])), (status, out, err))

    def execute(self, line):
        """Executes one line."""
        if self.process is None:
            raise Unreadable("there is no server")
        first, _, rest = line.partition(" ")
        if first == "truncated":
            whole = self.script.text(rest)
            if not whole:
                raise Unreadable("the text is empty")
            for size in range(len(whole)):
                compare((size, b""), (size, self.reply([whole[:size]], True)))
        else:
            pieces, expected = self.read(line)
            target = target_of(b"".join(pieces))
            got = self.reply(pieces, not self.expected(expected, b"", target))
            compare(self.expected(expected, got, target), got)

    def read(self, line):
        """The bytes that a line sends, in pieces, and how it says what is replied."""
        asked, expected = parted(line, " -> ")
        self.expected(expected, b"", "")
        first, _, rest = asked.partition(" ")
        if first in ("raw", "slowly"):
            whole = self.script.text(rest)
            return [whole] if first == "raw" else [whole[at:at + 1] for at in range(len(whole))], expected
        found = ASKED.fullmatch(asked)
        if not found:
            raise Unreadable("no request")
        key, method, path, body = found.groups()
        body = self.script.text(body) if body and body[0] == '"' else (body or "").encode()
        head = f"{method} {path} HTTP/1.1\r\nHost: localhost\r\nMember-Key: {key}\r\nContent-Length: {len(body)}"
        return [f"{head}\r\n\r\n".encode() + body], expected

    def expected(self, written, got, target):
        """The bytes of a reply to a request for a target. Where no phrase is written it is that of the one got."""
        if not written[:1].isdigit():
            return self.script.text(written)
        found = REPLY.fullmatch(written)
        if not found:
            raise Unreadable("no reply")
        status, phrase, body = found.groups()
        if phrase is None:
            phrase = got.partition(b"\r\n")[0].decode(errors="replace")[len("HTTP/1.1 200 "):]
        return (f"HTTP/1.1 {status} {phrase}\r\nContent-Type: application/json\r\n"
                f"Content-Length: {len(body.encode())}\r\nConnection: close\r\n"
                f"{FURTHER_FIELDS.get(status, '')}{caching_lines(target, error_of(body))}\r\n{body}").encode()

    def reply(self, pieces, ends):
        """The reply to the bytes, after which the input ends or not."""
        with socket.create_connection(("127.0.0.1", self.port), WAIT) as connection:
            connection.setsockopt(socket.IPPROTO_TCP, socket.TCP_NODELAY, 1)
            for piece in pieces:
                connection.sendall(piece)
                if len(pieces) > 1:
                    time.sleep(0.002)
            if ends:
                connection.shutdown(socket.SHUT_WR)
            return receive(connection)


def main(words):
    paths = [pathlib.Path(word) for word in words] or sorted(SCRIPTS.glob("*.txt"))
    result(paths, f"there are scripts to run ({len(paths)})")
    for path in paths:
        with tempfile.TemporaryDirectory() as folder:
            (pathlib.Path(folder) / "records").symlink_to(RECORDS)
            Script(path, folder).run()
    return exit_status()


if __name__ == "__main__":
    sys.exit(main(sys.argv[1:]))
