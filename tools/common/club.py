"""Events and games of a club, as the program's commands print them (docs/formats.md)."""
import calendar
import pathlib
import re
import shutil
import subprocess
import time
from dataclasses import dataclass

NAME = r"[A-Za-z0-9._-]{1,24}"
GAME = re.compile(rf"game (?P<id>[0-9]{{1,9}}) (?P<event>{NAME}) (?P<first>{NAME}) (?P<second>{NAME}) "
                  rf"(?P<key>{NAME}|=) ply (?P<ply>[0-9]{{1,3}}) (?:turn (?P<turn>{NAME}) until (?P<until>never|[0-9TZ:-]{{20}})"
                  rf"|end (?P<end>[A-Za-z]+)(?: (?P<result>2-0|1-1|0-2))?)")
EVENT = re.compile(rf"event [0-9]+ (?P<name>{NAME}) (?P<kind>draughts|shogi) (?P<budget>[0-9]+) (?P<increment>[0-9]+)"
                   r" [0-9]+ [0-9]+(?: closed)?")
WAIT = 120  # seconds in which the program must end
LAST_MOMENT = 253402300799  # the last second of the year 9999


class ClubError(Exception):
    """Why the club cannot be read."""


@dataclass(frozen=True)
class Event:
    """An event: its game, and the seconds that each player starts with and gains at each move."""

    name: str
    kind: str
    budget: int
    increment: int


class Game:
    """A game: its players, and either whose turn it is until when, or how it ended. A void game has a dash as its result."""

    def __init__(self, event, first, second, **more):
        self.event, self.first, self.second = event, first, second
        self.id, self.ply, self.key = int(more["id"]), int(more["ply"]), more["key"]
        self.turn, self.end = more["turn"], more["end"]
        self.result = more["result"] or ("–" if self.end else None)
        self.deadline = seconds_of(more["until"])

    @property
    def counts(self):
        """Whether the game has a result."""
        return self.end not in (None, "Void")

    @property
    def players(self):
        return self.first, self.second

    def opponent(self, name):
        return self.second if name == self.first else self.first


def seconds_of(text):
    """The Unix seconds of a date, or None for `never` and for a game that has ended."""
    if text in (None, "never"):
        return None
    return calendar.timegm(time.strptime(text, "%Y-%m-%dT%H:%M:%SZ"))


def run(words):
    """The status of a command, its standard output and its standard error."""
    try:
        ran = subprocess.run(words, stdin=subprocess.DEVNULL, stdout=subprocess.PIPE, stderr=subprocess.PIPE,
                             timeout=WAIT)
    except (OSError, subprocess.TimeoutExpired) as error:
        raise ClubError(f"{words[0]} does not run: {error}") from None
    return ran.returncode, ran.stdout.decode(errors="replace"), ran.stderr.decode(errors="replace").strip()


def read_text(words):
    """What a command prints."""
    status, out, err = run(words)
    if status:
        raise ClubError(f"{' '.join(words)}: {err or f'status {status}'}")
    return out


def read_lines(words, form):
    """The lines of a list, each in its form."""
    lines = [(line, form.fullmatch(line)) for line in read_text(words).split("\n")[:-1]]
    unknown = [line for line, found in lines if not found]
    if unknown:
        raise ClubError(f"{' '.join(words)}: a line of another form: {unknown[0]!r}")
    return [found for _, found in lines]


def read_games(words):
    """All games, by the words of a command without its name."""
    return [Game(**it.groupdict()) for it in read_lines([*words, "games"], GAME)]


def read_events(words):
    """All events, by the words of a command without its name."""
    return [Event(it["name"], it["kind"], int(it["budget"]), int(it["increment"]))
            for it in read_lines([*words, "events"], EVENT)]


def moment(text):
    """A timestamp of the command line."""
    value = int(text)
    if not 0 <= value <= LAST_MOMENT:
        raise ValueError(text)
    return value


def default_program():
    """The program that is on the path, the launcher of this repository, or the program that was installed with us."""
    folder = pathlib.Path(__file__).resolve().parents[2]  # the repository, or PREFIX/lib/club
    launcher = folder / "club"
    return shutil.which("club") or str(launcher if launcher.exists() else folder.parents[1] / "bin/club")
