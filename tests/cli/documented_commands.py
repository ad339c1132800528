#!/usr/bin/env python3
"""Runs the commands that README.md and docs/operating.md show, and compares the output that they show.

    python3 tests/cli/documented_commands.py [FOLDER]

FOLDER has the documents; it is the repository if it is not given. The blocks of README.md are one course, from an
empty folder. Each block of docs/operating.md runs in a folder of its own, in which the club of the example exists, and
a backup of it before its last command where the block reads one that it does not make; it has an arbiter where a command of
the block needs one. A command begins with `$ ` and
has its output below it, or it is a line of a block of `sh`. A server is started before the first command that connects
to one, unless a command has started it.
"""
import contextlib
import dataclasses
import os
import pathlib
import re
import shutil
import signal
import subprocess
import sys
import tempfile
import time

sys.path[0] = str(pathlib.Path(__file__).resolve().parents[1])
from lib.club import FAST, PROGRAM, TOP, WAIT, club
from lib.report import check, exit_status, result, skip
from lib.server import free_port

FENCE = re.compile(r"^ {0,3}```(\S*)\n(.*?)^ {0,3}```$", re.MULTILINE | re.DOTALL)
INLINE = re.compile(r"`((?:\./)?club (?:--\S+ )*[\w.]+\.db [a-z-]+)[^`]*`|ExecStart=\S*/club (\S+ [a-z-]+)")
SHELLS = {"sh", "bash", "shell"}
CONSOLES = {"", "console", "text"}
PORT = "8080"
CLUB = ["init", "member anna keyanna1", "member bert keybert2", "event autumn draughts 86400 3600",
        "seat g1 autumn anna bert", "move 1 1 32-28"]  # the example of README.md
BACKUP = "backup.db"
BY_ARBITER = re.compile(r"ourclub\.db (?:key|close|rule|retire|extend)\b")
NGINX = re.compile(r"^```nginx\n(.*?)^```$", re.MULTILINE | re.DOTALL)
CERTIFICATE = re.compile(r"(ssl_certificate(?:_key)? +)\S*/(\S+);")
# Commands that are not run, by a pattern of their beginning, and the reason.
LEFT_OUT = {
    r"\./test\b": "runs this test itself",
    r"\./install\b": "tests/cli/install.py tests it",
    r"tools/notify\b": "needs the files of the task; tests/cli/notify.py tests it",
    r"tools/records --all\b": "needs an archive; tests/cli/records_batch.py tests it",
    r"(sudo|systemctl|journalctl|runuser|useradd|chown|apt-get|apt)\b": "needs root or systemd",
    r"(nginx|certbot)\b": "needs nginx, and the right to its ports",
    r"timedatectl\b": "needs systemd; it shows a setting of the machine",
    r"gpg\b": "asks for a passphrase",
    r"git clone\b": "needs the network",
    r"rt\b": "needs the kit",
    r"\.?/?\S*club FILE\b": "is a placeholder",
}
# What differs from run to run.
VARIABLE = [
    (re.compile(r"\d{4}-\d\d-\d\d[ T]\d\d:\d\d(:\d\d)?"), "DATE TIME"),
    (re.compile(r"\d{4}-\d\d-\d\d"), "DATE"),
    (re.compile(r"\b\d{10}\b"), "TIMESTAMP"),
    (re.compile(r'"left":\d+'), '"left":SECONDS'),
    (re.compile(r"\b(?:8639\d|86400|8999\d|90000)\b"), "SECONDS"),  # left of a day, and of a day and an hour
    (re.compile(r"127\.0\.0\.1:\d+"), "127.0.0.1:PORT"),
]
STOP = 5  # seconds for a server to end


@dataclasses.dataclass(frozen=True)
class Command:
    text: str
    shown: str | None = None  # the output that the document shows
    at: str = ""  # the document and the line

    @property
    def name(self):
        first = self.text.splitlines()[0]
        return f"{self.at}: {first if len(self.text.splitlines()) == 1 else first + ' ..'}"

    @property
    def is_server(self):
        return re.match(r"\S*club \S+ serve\b", self.text) and "--count" not in self.text

    @property
    def may_fail(self):
        """Whether the output that is shown is a refusal or a fault."""
        return bool(self.shown and re.search(r"^(\d+ )?(refused|store) \d", self.shown, re.MULTILINE))

    @property
    def reason(self):
        """Why the command is not run, or nothing."""
        return next((why for it, why in LEFT_OUT.items() if re.match(it, self.text)), "")


def is_complete(text):
    """Whether bash reads these lines as whole commands."""
    ran = subprocess.run(["bash", "-n"], input=text, capture_output=True, text=True, check=False)
    return ran.returncode == 0 and not ran.stderr and not text.endswith("\\\n")


def commands_of(language, text, at, line):
    """The commands of a block; nothing if it is none of a shell."""
    lines = text.splitlines()
    is_console = any(it.startswith("$ ") for it in lines)
    if language not in SHELLS and not (language in CONSOLES and is_console):
        return []
    found, pending, shown, started = [], "", None, line

    def end():
        if pending.strip():
            found.append(Command(pending.rstrip("\n"), None if shown is None else "\n".join(shown), f"{at}:{started}"))

    for number, it in enumerate(lines, line):
        is_first = it.startswith("$ ") or not is_console and (not pending or is_complete(pending))
        if is_first:
            end()
            pending, started, shown = it.removeprefix("$ ") + "\n", number, [] if is_console else None
            if not is_console and (not it.strip() or it.lstrip().startswith("#")):
                pending = ""
        elif is_console and (is_complete(pending) or not it.startswith("> ")):
            if shown is not None:
                shown.append(it)
        else:
            pending += it.removeprefix("> ") + "\n"
    end()
    return found


def blocks_of(path, name):
    """The commands of each block of a document."""
    text = path.read_text(encoding="utf-8")
    for found in FENCE.finditer(text):
        commands = commands_of(found[1], found[2], name, text.count("\n", 0, found.start(2)) + 1)
        if commands:
            yield commands


class Shell:
    """A bash that runs commands one after another, so that variables, umask and folder stay."""

    def __init__(self, folder):
        self.folder, self.count, self.port, self.is_serving = folder, 0, str(free_port()), False
        os.symlink(PROGRAM, f"{folder}/club")
        shutil.copytree(TOP / "tools", f"{folder}/tools", ignore=shutil.ignore_patterns("__pycache__"))
        environment = {**os.environ, "PATH": f"{folder}:{os.environ['PATH']}", "LC_ALL": "C.UTF-8"}
        self.outputs = tempfile.mkdtemp()
        self.bash = subprocess.Popen(["bash"], cwd=folder, env=environment, stdin=subprocess.PIPE, text=True,
                                     stdout=subprocess.DEVNULL, stderr=subprocess.DEVNULL, start_new_session=True)

    def run(self, text, is_server=False):
        """The status of a command and its output. A server's status is 0 once it has printed a line."""
        self.count += 1
        out, status = f"{self.outputs}/{self.count}.out", f"{self.outputs}/{self.count}.status"
        text = re.sub(rf"\b{PORT}\b", self.port, text)
        end = " &" if is_server else f"\necho $? > {status}.new; mv {status}.new {status}"
        self.bash.stdin.write(f"{{\n{text}\n}} > {out} 2>&1 < /dev/null{end}\n")
        self.bash.stdin.flush()
        deadline = time.monotonic() + WAIT
        while time.monotonic() < deadline and self.bash.poll() is None:
            if os.path.exists(status) or is_server and os.path.exists(out) and os.path.getsize(out):
                break
            time.sleep(0.01)
        printed = pathlib.Path(out).read_text(encoding="utf-8", errors="replace") if os.path.exists(out) else ""
        if is_server:
            self.is_serving = "listening" in printed
            return int(not self.is_serving), printed
        is_done = os.path.exists(status)
        return int(pathlib.Path(status).read_text(encoding="utf-8")) if is_done else None, printed

    def close(self):
        with contextlib.suppress(ProcessLookupError):
            os.killpg(self.bash.pid, signal.SIGKILL)
        self.bash.stdin.close()
        self.bash.wait(STOP)
        shutil.rmtree(self.outputs)


def comparable(text):
    """A text without what differs from run to run."""
    for pattern, name in VARIABLE:
        text = pattern.sub(name, text)
    return "\n".join(it.rstrip() for it in text.strip().splitlines())


def is_shown(shown, printed):
    """Whether the output is the one that is shown, in which `..` or `...` stands for any text."""
    parts = [re.escape(it) for it in re.split(r"\.{2,3}(?!\d)|…", comparable(shown))]
    return re.fullmatch(".*".join(parts), comparable(printed), re.DOTALL)


def run_command(shell, command):
    """Runs a command and prints whether it does what the document shows."""
    if command.reason:
        skip(command.name, command.reason)
        return
    if not is_complete(command.text + "\n"):
        result(False, command.name, "bash does not read it as a command")
        return
    if PORT in command.text and not command.is_server and not shell.is_serving:
        shell.run(f"./club ourclub.db serve {PORT}", is_server=True)
    status, printed = shell.run(command.text, bool(command.is_server))
    if status is None:
        result(False, command.name, f"it does not end within {WAIT} seconds", printed)
    elif status and not command.may_fail:
        result(False, command.name, f"status {status}", printed)
    elif command.shown and not is_shown(command.shown, printed):
        check(command.name, comparable(command.shown), comparable(printed))
    else:
        result(True, command.name)


def needs_backup(commands):
    """Whether these commands read a backup that none of them makes."""
    texts = [it.text for it in commands if not it.reason]
    return any(BACKUP in it for it in texts) and not any(re.search(rf"backup '?{BACKUP}", it) for it in texts)


def run_commands(commands, is_prepared):
    with tempfile.TemporaryDirectory(dir=FAST) as folder:
        for words in CLUB if is_prepared else ():
            if words == CLUB[-1] and needs_backup(commands):
                assert club(f"{folder}/ourclub.db", "backup", f"{folder}/{BACKUP}", now=None)[0] == 0
            assert club(f"{folder}/ourclub.db", *words.split(), now=None)[0] == 0, words
        if any(BY_ARBITER.search(it.text) for it in commands):
            assert club(f"{folder}/ourclub.db", "upgrade", "--arbiter", now=None)[0] == 0
        shell = Shell(folder)
        try:
            for command in commands:
                run_command(shell, command)
        finally:
            shell.close()


def check_names(text, name):
    """Each command of the program that a sentence or a unit names must exist."""
    for command in sorted({it[1] or it[2] for it in INLINE.finditer(text)}):
        word = command.split()[-1]
        status, printed = club(word, "--help", now=None)
        result(re.search(rf"^Usage: club .*\b{word}\b", printed, re.MULTILINE),
               f"{name}: a command like `{command}` exists", f"status {status}", printed)


def check_nginx(text, name):
    """Lets nginx read each complete configuration, with a certificate and ports of its own."""
    texts = [it[1] for it in NGINX.finditer(text) if "events {" in it[1]]
    title = f"nginx accepts the configuration in {name}"
    if not shutil.which("nginx") or not shutil.which("openssl"):
        skip(title, "there is no nginx, or no openssl")
        return
    result(texts, f"{name} shows a configuration of nginx")
    with tempfile.TemporaryDirectory() as folder:
        subprocess.run(["openssl", "req", "-x509", "-newkey", "rsa:2048", "-nodes", "-subj", "/CN=club.example.org",
                        "-keyout", f"{folder}/privkey.pem", "-out", f"{folder}/fullchain.pem"],
                       capture_output=True, check=True, timeout=WAIT)
        for it in texts:
            it = CERTIFICATE.sub(rf"\1{folder}/\2;", re.sub(r"^user .*;$", "", it, flags=re.MULTILINE))
            for port in ("80", "443"):
                it = re.sub(rf"(listen (?:\[::\]:)?){port}\b", rf"\g<1>{free_port()}", it)
            path = pathlib.Path(folder, "nginx.conf")
            path.write_text(f"pid {folder}/pid;\nerror_log {folder}/log;\n{it}", encoding="utf-8")
            ran = subprocess.run(["nginx", "-t", "-q", "-c", str(path)], capture_output=True, text=True, check=False,
                                 timeout=WAIT)
            result(ran.returncode == 0, title, ran.stderr)


def main():
    folder = pathlib.Path(sys.argv[1]) if sys.argv[1:] else TOP
    for name, is_prepared in (("README.md", False), ("docs/operating.md", True)):
        blocks = list(blocks_of(folder / name, name))
        result(blocks, f"{name} shows commands")
        for commands in blocks if is_prepared else [sum(blocks, [])]:
            run_commands(commands, is_prepared)
        check_names((folder / name).read_text(encoding="utf-8"), name)
    check_nginx((folder / "docs/operating.md").read_text(encoding="utf-8"), "docs/operating.md")
    return exit_status()


if __name__ == "__main__":
    sys.exit(main())
