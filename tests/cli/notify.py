#!/usr/bin/env python3
"""Tests tools/notify: mails to a mail server on loopback, each event once, and the calendar of a member.

    python3 tests/cli/notify.py
"""
import base64
import contextlib
import email
import email.policy
import fcntl
import json
import os
import pathlib
import re
import shutil
import socketserver
import ssl
import string
import subprocess
import sys
import tempfile
import threading

sys.path[0] = str(pathlib.Path(__file__).resolve().parents[1])
from lib.club import FAST, PROGRAM, TOP, WAIT, club
from lib.report import check, exit_status, result, skip
from lib.server import free_port, serve
from lib.tool import Tool

START, DAY = 1796000000, 86400  # 2026-11-30
SENDER = "club@example.org"
ADDRESSES = "# The members.\n\nanna anna@example.org\nbert bert@example.org de\ncara cara@example.org\n"
TLS_HOST = "localhost"


class Session(socketserver.StreamRequestHandler):
    """One connection to the mail server, by RFC 5321."""

    timeout = WAIT

    def reply(self, text):
        self.wfile.write(f"{text}\r\n".encode())

    def handle(self):
        self.receivers, self.is_encrypted = [], False
        self.reply("220 sink")
        for line in iter(lambda: self.rfile.readline(), b""):  # STARTTLS replaces the file
            words = line.decode().strip()
            name = words.split(" ")[0].upper()
            if name == "QUIT":
                self.reply("221 bye")
                return
            getattr(self, f"do_{name}", lambda _: self.reply("502 unknown"))(words)

    def do_EHLO(self, _):
        more = [] if self.is_encrypted or not self.server.context else ["250-STARTTLS"]
        self.wfile.write("\r\n".join(["250-sink", *more, "250 AUTH PLAIN", ""]).encode())

    def do_STARTTLS(self, _):
        self.reply("220 go ahead")
        self.connection = self.server.context.wrap_socket(self.connection, server_side=True)
        self.rfile, self.wfile = self.connection.makefile("rb"), self.connection.makefile("wb", 0)
        self.is_encrypted = True

    def do_AUTH(self, words):
        self.server.logins.append((base64.b64decode(words.split(" ")[2]).decode(), self.is_encrypted))
        self.reply("235 welcome")

    def do_MAIL(self, _):
        self.receivers = []
        self.reply("250 ok")

    def do_RCPT(self, words):
        address = words.partition("<")[2].partition(">")[0]
        if address in self.server.refused:
            self.reply("550 no such mailbox")
        else:
            self.receivers.append(address)
            self.reply("250 ok")

    def do_RSET(self, _):
        self.reply("250 ok")

    def do_DATA(self, _):
        self.reply("354 go ahead")
        lines = []
        for line in iter(self.rfile.readline, b".\r\n"):
            lines.append(line.removeprefix(b".") if line.startswith(b"..") else line)
        mail = email.message_from_bytes(b"".join(lines), policy=email.policy.default)
        self.server.mails.append((list(self.receivers), mail))
        self.reply("250 ok")


class Sink(socketserver.ThreadingTCPServer):
    """A mail server that keeps all mails."""

    allow_reuse_address = daemon_threads = True

    def __init__(self, port=0):
        super().__init__(("127.0.0.1", port), Session)
        self.mails, self.logins, self.refused, self.context = [], [], set(), None
        threading.Thread(target=self.serve_forever, args=(0.01,), daemon=True).start()

    def handle_error(self, request, client_address):
        """A client that refuses the certificate is no error of a test."""

    def take(self):
        """The receiver and the subject of each mail since the last call, in order of the receivers."""
        mails, self.mails = self.mails, []
        return sorted((",".join(receivers), str(mail["Subject"])) for receivers, mail in mails)


@contextlib.contextmanager
def sink(port=0):
    with Sink(port) as server:
        yield server
        server.shutdown()


NOTIFY = Tool("notify")


def tool(*words, now=START, program=PROGRAM):
    """The status of the tool, its output and its messages."""
    return NOTIFY.run("--club", program, *([] if now is None else ["--now", now]), *words)


def notify(server, *words, state="state", addresses="addresses", **how):
    """A run over c.db that sends to a mail server."""
    port = server if isinstance(server, int) else server.server_address[1]
    return tool("--addresses", addresses, "--state", state, "--from", SENDER, "--smtp", f"127.0.0.1:{port}", *words,
                "c.db", **how)


def write_private(name, text):
    path = pathlib.Path(name)
    path.write_text(text)
    path.chmod(0o600)


def orders(*lines, now=START):
    for line in lines:
        status, printed = club("c.db", *line.split(), now=now)
        assert status == 0, (line, printed)


def new_club():
    orders("init", "member anna keyanna1", "member bert keybert2", "member cara keycara3", "member dora keydora4",
           f"event autumn draughts {7 * DAY} 0", f"event fuji shogi {7 * DAY} {DAY}", "seat g1 autumn anna bert",
           "seat g2 fuji cara anna", "seat g3 autumn dora cara")
    pathlib.Path("old.pdn").write_text("1. 32-28 19-23 2. 28x19 14x23 1-1\n")
    orders("import-pdn old1 autumn anna bert old.pdn")
    write_private("addresses", ADDRESSES)


def each_event_once(server):
    status, _, messages = notify(server)
    expected = [("anna@example.org", "Your turn against bert (autumn, game 1)"),
                ("cara@example.org", "Your turn against anna (fuji, game 2)")]
    mails = list(server.mails)
    check("the first run mails each member whose turn it is, and no imported game",
          (0, expected, ""), (status, server.take(), messages))
    mail = mails[0][1]
    check("a mail has a sender, a receiver and a date",
          (SENDER, "anna@example.org", "Mon, 30 Nov 2026 00:53:20 -0000", "auto-generated"),
          tuple(str(mail[it]) for it in ("From", "To", "Date", "Auto-Submitted")))
    result("Your move is due by 2026-12-07 00:53 UTC." in mail.get_content(), "a mail has the date of the deadline",
           mail.get_content())
    check("the state file has mode 600", 0o600, os.stat("state").st_mode & 0o777)
    before = pathlib.Path("state").read_bytes()
    check("a second run mails nothing", (0, "", "", []), (*notify(server), server.take()))
    check("a second run leaves the state file as it is", before, pathlib.Path("state").read_bytes())
    orders("move 1 1 32-28")
    check("a move is mailed to the opponent, in the opponent's language",
          (0, [("bert@example.org", "Sie sind am Zug gegen anna (autumn, Partie 1)")]),
          (notify(server)[0], server.take()))


def near_the_end(server):
    near = START + 5 * DAY
    check("nothing is mailed two days and a second before a deadline", (0, []),
          (notify(server, now=near - 1)[0], server.take()))
    expected = [("bert@example.org", "Weniger als zwei Tage übrig gegen anna (autumn, Partie 1)"),
                ("cara@example.org", "Less than two days left against anna (fuji, game 2)")]
    check("two days before the deadline a mail says so", (0, expected), (notify(server, now=near)[0], server.take()))
    check("this is mailed once", (0, []), (notify(server, now=near + 60)[0], server.take()))
    orders("move 2 1 7g7f", now=near)
    orders("move 1 2 19-23", now=near)
    orders("move 1 3 28x19", now=near)
    check("a turn that begins less than two days before its deadline is mailed once, with the deadline",
          (0, [("anna@example.org", "Your turn against cara (fuji, game 2)"),
               ("bert@example.org", "Sie sind am Zug gegen anna (autumn, Partie 1)")]),
          (notify(server, now=near)[0], server.take()))
    check("such a turn has no second mail", (0, []), (notify(server, now=near + 1)[0], server.take()))
    orders("sweep", now=START + 8 * DAY)
    expected = [("anna@example.org", "Game ended: anna - bert 2-0 (autumn, game 1)"),
                ("bert@example.org", "Partie beendet: anna - bert 2-0 (autumn, Partie 1)"),
                ("cara@example.org", "Game ended: dora - cara 0-2 (autumn, game 3)")]
    reasons = notify(server, now=START + 8 * DAY)[0], [mail.get_content() for _, mail in server.mails]
    check("the end of a game is mailed to both players", (0, expected), (reasons[0], server.take()))
    result(any("Reason: on time." in it for it in reasons[1]), "a mail says how a game ended", reasons[1])
    check("an end is mailed once", (0, []), (notify(server, now=START + 8 * DAY)[0], server.take()))


def accepted_challenges(server):
    now = START + 8 * DAY
    with serve("c.db", now=now) as desk:
        challenge = {"event": "fuji", "first": True, "other": "bert"}
        assert desk.request("POST", "/challenges/1", challenge, "keyanna1")[0] == 200
        open_one = notify(server, now=now)[0], server.take()
        assert desk.request("POST", "/answers/anna/1", {"accept": True}, "keybert2")[0] == 200
        status, mails = notify(server, now=now)[0], server.take()
    check("an open challenge is mailed to the member who is challenged, beside a server",
          (0, [("bert@example.org", "anna fordert Sie heraus (fuji)")]), open_one)
    expected = [("anna@example.org", "Your turn against bert (fuji, game 5)"),
                ("anna@example.org", "bert accepts your challenge (fuji, game 5)")]
    check("an accepted challenge is mailed to the challenger, beside a server", (0, expected), (status, mails))
    check("an accepted challenge is mailed once", (0, []), (notify(server, now=now)[0], server.take()))


def failures(server):
    now = START + 8 * DAY
    orders("seat g6 autumn anna bert", "seat g7 autumn cara anna", now=now)
    status, _, messages = notify(free_port(), now=now)
    check("without a mail server the status is 1, and one line says why",
          (1, 1, True), (status, messages.count("\n"), messages.startswith("notify: no mail can be sent: 127.0.0.1:")))
    check("without a mail server no mail is kept as sent", [],
          [it for it in json.loads(pathlib.Path("state").read_text())["sent"] if it in ("turn 6 0", "turn 7 0")])
    server.refused = {"anna@example.org"}
    status, _, messages = notify(server, now=now)
    check("a mail that the server refuses keeps no other back",
          (1, [("cara@example.org", "Your turn against anna (autumn, game 7)")], True),
          (status, server.take(), messages.startswith("notify: not sent to anna (turn 6 0): ")))
    server.refused = set()
    check("the next run sends the mail that failed",
          (0, [("anna@example.org", "Your turn against bert (autumn, game 6)")]),
          (notify(server, now=now)[0], server.take()))


def imported_games(server):
    orders("import-pdn old2 autumn cara dora old.pdn", now=START + 8 * DAY)
    check("the import of an ended game is not mailed", (0, []),
          (notify(server, now=START + 8 * DAY)[0], server.take()))


def one_at_a_time(server):
    """A second run beside the first one sends nothing."""
    with open("state.lock", "wb") as lock:
        fcntl.flock(lock, fcntl.LOCK_EX)
        status, _, messages = notify(server, now=START + 8 * DAY)
    check("two runs at the same time do not send the same mail", (2, True, []),
          (status, "another run holds" in messages, server.take()))


def without_sending(server):
    now = START + 8 * DAY
    words = "--addresses", "addresses", "--state", "none", "--from", SENDER, "--dry-run", "--language", "fr"
    status, printed, _ = tool(*words, "c.db", now=now)
    check("`--dry-run` prints the mails in the chosen language", (0, True),
          (status, "To: anna@example.org\nSubject: À vous de jouer contre bert (autumn, partie 6)\n" in printed))
    check("`--dry-run` sends nothing and writes no file", ([], False), (server.take(), os.path.exists("none")))
    check("`--begin` sends nothing", (0, "", ""),
          tool("--addresses", "addresses", "--state", "begun", "--begin", "c.db", now=now))
    check("after `--begin` nothing is due", (0, []), (notify(server, state="begun", now=now)[0], server.take()))


def sendmail():
    now = START + 8 * DAY
    pathlib.Path("sendmail").write_text('#!/bin/sh\necho "$*" >> arguments\ncat >> mails\n')
    os.chmod("sendmail", 0o700)
    words = "--addresses", "addresses", "--state", "by-sendmail", "--from", SENDER, "--sendmail", "./sendmail"
    status = tool(*words, "c.db", now=now)[0]
    text = pathlib.Path("mails").read_text()
    check("`--sendmail` gives each mail to the program", (0, True, [f"-i -f {SENDER} anna@example.org"]),
          (status, "Subject: Your turn against bert (autumn, game 6)\n" in text,
           sorted(set(pathlib.Path("arguments").read_text().splitlines()))[:1]))
    result("\r" not in text, "`--sendmail` ends lines with LF", text)
    pathlib.Path("sendmail").write_text("#!/bin/sh\necho full >&2\nexit 75\n")
    words = *words[:3], "by-another", *words[4:]
    status, _, messages = tool(*words, "c.db", now=now)
    check("a failure of `--sendmail` is status 1", (1, True), (status, "./sendmail: status 75 full" in messages))


def login(server):
    write_private("login", "club\nsecret\n")
    now = START + 8 * DAY
    status, _, messages = notify(server, "--login", "login", state="by-login", now=now)
    check("`--login` shows the user and the password to the mail server",
          (0, "", ("\0club\0secret", False)), (status, messages, server.logins[-1]))
    words = "--addresses", "addresses", "--state", "s", "--from", SENDER, "--smtp", "mail.example.org"
    check("`--login` is refused without `--starttls` to another machine", 2,
          tool(*words, "--login", "login", "c.db")[0])
    openssl = shutil.which("openssl")
    if not openssl:
        skip("`--starttls` encrypts the connection", "there is no openssl")
        return
    subprocess.run([openssl, "req", "-x509", "-newkey", "ec", "-pkeyopt", "ec_paramgen_curve:prime256v1", "-nodes",
                    "-keyout", "tls.key", "-out", "tls.crt", "-subj", f"/CN={TLS_HOST}", "-addext",
                    f"subjectAltName=DNS:{TLS_HOST}"], check=True, capture_output=True)
    server.context = ssl.SSLContext(ssl.PROTOCOL_TLS_SERVER)
    server.context.load_cert_chain("tls.crt", "tls.key")
    server.take()
    words = ("--addresses", "addresses", "--state", "by-tls", "--from", SENDER, "--smtp",
             f"{TLS_HOST}:{server.server_address[1]}", "--starttls", "--login", "login", "c.db")
    status = tool(*words, now=now)[0]
    check("`--starttls` refuses a server with an unknown certificate", (1, []), (status, server.take()))
    os.environ["SSL_CERT_FILE"] = "tls.crt"
    status = tool(*words, now=now)[0]
    del os.environ["SSL_CERT_FILE"]
    check("`--starttls` encrypts the connection", (0, True, ("\0club\0secret", True)),
          (status, bool(server.take()), server.logins[-1]))
    server.context = None


def refused_files(server):
    write_private("open", ADDRESSES)
    os.chmod("open", 0o640)
    status, _, messages = notify(server, addresses="open", state="s")
    check("addresses that others may read are refused", (2, True), (status, "mode 600" in messages))
    os.chmod("login", 0o644)
    check("a password that others may read is refused", 2, notify(server, "--login", "login", state="s")[0])
    for name, line in (("a header in it", "anna a@example.org%0d%0aBcc:x@example.org"),
                       ("an option", "anna -oQ/tmp@x.org"), ("an unknown language", "anna a@example.org xx"),
                       ("no address", "anna"),
                       ("a name that is none", "an:na a@example.org"), ("angle brackets", "anna <a@example.org>"),
                       ("a vertical tab", "anna a@example.org\vb@example.org"),
                       ("a name twice", "anna a@example.org\nanna b@example.org")):
        write_private("bad", f"{line}\n")
        check(f"addresses with {name} are refused", 2, notify(server, addresses="bad", state="s")[0])
    write_private("bad", "zoe zoe@example.org\n")
    check("an address of no member is reported", (0, "notify: bad: zoe is no member\n"),
          notify(server, addresses="bad", state="s")[::2])
    write_private("state-bad", "{}")
    check("a state file of another form is refused", 2, notify(server, state="state-bad")[0])
    check("a club that cannot be read is status 3", 3,
          tool("--addresses", "addresses", "--state", "s", "--from", SENDER, "--dry-run", "none.db")[0])
    for words in ([], ["--smtp", "x:y"], ["--smtp", "x", "--from", "a@b\nBcc: c@d"], ["--smtp", "x", "--now", "-1"]):
        check(f"the arguments {words} are a usage error",
              2, tool("--addresses", "addresses", "--state", "s", *words, "c.db", now=None)[0])
    check("nothing of this was mailed", [], server.take())


def stand_in(name, answers):
    """A program that answers some commands by texts, and gives all others to the real one."""
    pathlib.Path(name).write_text(f"#!{sys.executable}\nimport os, sys\nanswers = {answers!r}\nwords = sys.argv[1:]\n"
                                  "if words[-1] in answers and ('--json' in words) == (words[-1] == 'challenges'):\n"
                                  "    sys.stdout.write(answers[words[-1]])\nelse:\n"
                                  f"    os.execv({PROGRAM!r}, [{PROGRAM!r}, *words])\n")
    os.chmod(name, 0o700)
    return os.path.abspath(name)


def challenge(number, state, challenger="anna", opponent="bert", game=None):
    return {"event": "fuji", "first": challenger, "from": challenger, "game": game, "number": number,
            "second": opponent, "state": state, "to": opponent}


def listed_challenges(server):
    """A program that lists challenges: they are mailed without another change."""
    def run(*rows, now=START + 8 * DAY):
        program = stand_in("listing", {"challenges": json.dumps({"challenges": rows})})
        return notify(server, program=program, now=now)[0], server.take()

    check("answers that are older than the first list of challenges are not mailed", (0, []),
          run(challenge(1, "accepted", game=5), challenge(2, "withdrawn")))
    check("a challenge is mailed to the member who is challenged",
          (0, [("bert@example.org", "anna fordert Sie heraus (fuji)")]),
          run(challenge(3, "open"), challenge(4, "withdrawn")))
    check("a challenge is mailed once", (0, []), run(challenge(3, "open")))
    check("answers are mailed to the challenger",
          (0, [("anna@example.org", "bert accepts your challenge (fuji, game 9)"),
               ("cara@example.org", "bert declines your challenge (fuji)")]),
          run(challenge(3, "accepted", game=9), challenge(1, "refused", "cara")))
    check("an answer is mailed once", (0, []), run(challenge(3, "accepted", game=9), challenge(1, "refused", "cara")))
    bad = challenge(5, "open") | {"from": "x\r\nBcc: y@example.org"}
    check("a challenge with a malformed name is status 3", (3, []), run(bad))
    for line in ("game 1 autumn anna\r\n bert g ply 0 turn anna until never\n",
                 "game 1 autumn <x> bert g ply 0 turn <x> until never\n", "game one\n"):
        program = stand_in("hostile", {"games": line})
        check(f"a list of games with the line {line!r} is status 3",
              (3, []), (notify(server, program=program)[0], server.take()))


def content_lines(data):
    """The content lines of an iCalendar, unfolded."""
    return re.sub(rb"\r\n[ \t]", b"", data).decode().split("\r\n")[:-1]


def challenges_of_a_backup(server):
    """With --challenges they are mailed today, although the program does not list them."""
    now, copies = START + 9 * DAY, pathlib.Path("copies")
    copies.mkdir()
    tempfile.tempdir = str(copies.resolve())
    words = "--challenges", "--state", "by_backup"

    def mails(*more):
        status = notify(server, *(more or words[:1]), state="by_backup", now=now)[0]
        return status, [it for it in server.take() if "turn" not in it[1] and "Zug" not in it[1]]

    tool("--addresses", "addresses", *words, "--begin", "c.db", now=now)
    with serve("c.db", now=now) as desk:
        def post(path, body, key):
            assert desk.request("POST", path, body, key)[0] == 200, path

        for key, number, first in ("keycara3", 7, True), ("keyanna1", 8, False), ("keyanna1", 9, True):
            post(f"/challenges/{number}", {"event": "fuji", "first": first, "other": "bert"}, key)
        post("/challenges/9/withdraw", None, "keyanna1")
        check("open challenges of a backup are mailed to the member who is challenged, beside a server",
              (0, [("bert@example.org", "anna fordert Sie heraus (fuji)"),
                   ("bert@example.org", "cara fordert Sie heraus (fuji)")]), mails())
        check("challenges of a backup are mailed once", (0, []), mails())
        post("/answers/cara/7", {"accept": False}, "keybert2")
        post("/answers/anna/8", {"accept": True}, "keybert2")
        game = json.loads(desk.request("GET", "/me", None, "keyanna1")[1])["games"][-1]["game"]
        check("answers of a backup are mailed to the challenger",
              (0, [("anna@example.org", f"bert accepts your challenge (fuji, game {game})"),
                   ("cara@example.org", "bert declines your challenge (fuji)")]), mails())
        check("answers of a backup are mailed once", (0, []), mails())
        check("without --challenges they are not mailed again", (0, []), mails("--language", "en"))
    check("no copy of the club is left", [], list(copies.iterdir()))
    tempfile.tempdir = None


def calendars():
    def write(member, *words, now=START + 8 * DAY):
        status, text, _ = tool("--ics", member, *words, "c.db", now=now)
        return status, text.encode()

    status, data = write("anna", "--language", "ja")
    lines = content_lines(data)
    check("`--ics` ends each line with CRLF, and folds it at 75 octets between characters", (0, [], []),
          (status, re.findall(rb"[^\r]\n", data), [it for it in data.split(b"\r\n") if len(it) > 75]))
    check("each folded line is UTF-8", [],
          [it for it in data.split(b"\r\n") if "\ufffd" in it.decode(errors="replace")])
    result(b"\r\n " in data, "a long line is folded")
    check("`--ics` writes one calendar", ("BEGIN:VCALENDAR", "VERSION:2.0", "END:VCALENDAR"),
          (lines[0], lines[1], lines[-1]))
    check("the calendar has the games in which the member is to move",
          ["UID:game-2-fuji-anna@gathlwyro", "UID:game-5-fuji-anna@gathlwyro", "UID:game-6-autumn-anna@gathlwyro"],
          [it for it in lines if it.startswith("UID:")])
    check("an event has the deadline", "DTSTART:20261215T005320Z",
          [it for it in lines if it.startswith("DTSTART:")][1])
    result(all("\\," in it for it in content_lines(write("anna")[1]) if it.startswith("SUMMARY:")),
           "a comma of a text is escaped")
    check("each event begins and ends", (3, 3), (lines.count("BEGIN:VEVENT"), lines.count("END:VEVENT")))
    check("the same moment gives the same bytes", data, write("anna", "--language", "ja")[1])
    check("an unknown member is status 2", 2, write("zoe")[0])
    check("a member with no deadline has a calendar without events",
          (0, 0), ((it := write("dora"))[0], it[1].count(b"VEVENT")))
    orders("move 6 1 32-28", "move 6 2 19-23", now=START + 8 * DAY)
    uids = [[it for it in content_lines(write("anna", now=moment)[1]) if it.startswith(("UID:game-6", "SEQUENCE:2"))]
            for moment in (START + 8 * DAY, START + 9 * DAY)]
    check("a game keeps its UID at its next move, and its sequence grows",
          [["UID:game-6-autumn-anna@gathlwyro", "SEQUENCE:2"]] * 2, uids)


def texts():
    """All texts have each language, with the same values to fill in."""
    ran = subprocess.run([NOTIFY.path, "--help"], capture_output=True, timeout=WAIT)
    check("`tools/notify` runs as a program, and `--help` names each option", (0, []),
          (ran.returncode, [it for it in ("--addresses", "--state", "--from", "--smtp", "--sendmail", "--starttls",
                                          "--login", "--dry-run", "--begin", "--language", "--ics") if
                            it not in ran.stdout.decode()]))
    from notify_of.texts import LANGUAGES, TEXTS
    check("the languages of mails are those of the page", ("en", "de", "nl", "ja", "fr"), LANGUAGES)
    fields = {name: [{it[1] for it in string.Formatter().parse(text) if it[1]} for text in row]
              for name, row in TEXTS.items()}
    check("each text is in each language, with the same values", [],
          [name for name, row in fields.items() if len(row) != len(LANGUAGES) or any(it != row[0] for it in row)])
    ends = page_texts("NoMove", "Recorded")
    check("a mail names each end as the page does", ends, {name: TEXTS.get(name) for name in ends})


def page_texts(first, last):
    """The texts of the page from one name to another, except for those of checkmate, which no mail tells apart."""
    source = (TOP / "page/texts.js").read_text(encoding="utf-8")
    part = source[source.index(f"  {first}: ["):]
    part = part[:part.index("],", part.index(f"  {last}: [")) + 1]
    rows = re.findall(r"^  (\w+): \[(.*?)\]", part, re.MULTILINE | re.DOTALL)
    texts = {name: tuple(json.loads(f'"{it}"') for it in re.findall(r"'([^']*)'", row)) for name, row in rows}
    return {name: row for name, row in texts.items() if name != "Mate"}


def main():
    with tempfile.TemporaryDirectory(dir=FAST) as folder, contextlib.chdir(folder), sink() as server:
        new_club()
        each_event_once(server)
        near_the_end(server)
        accepted_challenges(server)
        failures(server)
        imported_games(server)
        one_at_a_time(server)
        without_sending(server)
        sendmail()
        login(server)
        refused_files(server)
        listed_challenges(server)
        challenges_of_a_backup(server)
        calendars()
    texts()
    return exit_status()


if __name__ == "__main__":
    sys.exit(main())
