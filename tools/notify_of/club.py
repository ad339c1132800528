"""What mails need of a club: its games, the kinds of its events, its members and its challenges."""
import contextlib
import json
import os
import re
import sqlite3
import tempfile

from common.club import NAME, ClubError, read_events, read_games, read_lines, read_text, run

MEMBER = re.compile(rf"member [0-9]+ (?P<name>{NAME})(?: key [0-9]{{1,2}})?")
USAGE_ERROR = 2
# The rows of challenges in a club's file (docs/formats.md), in the form of `--json FILE challenges`.
ROWS = """
    SELECT number, challenger.name AS "from", opponent.name AS "to", events.name AS event,
        iif(first = 1, challenger.name, opponent.name) AS first, challenges.game AS game,
        CASE state WHEN 0 THEN 'open' WHEN 1 THEN 'withdrawn' WHEN 2 THEN 'refused' WHEN 3 THEN 'accepted' END AS state
    FROM challenges JOIN events ON events.id = event
    JOIN members AS challenger ON challenger.id = member JOIN members AS opponent ON opponent.id = other
    ORDER BY member, number"""


class Challenge:
    """A challenge: who challenged whom, under which number, and whether it is open, accepted, refused or withdrawn."""

    def __init__(self, row):
        self.number, self.state, self.game = row["number"], row["state"], row.get("game")
        self.challenger, self.opponent, self.event, self.first = row["from"], row["to"], row["event"], row["first"]
        names = self.challenger, self.opponent, self.event, self.first
        if not (isinstance(self.number, int) and all(isinstance(it, str) and re.fullmatch(NAME, it) for it in names)):
            raise ValueError(row)


class Club:
    """The games, the events' games by name, the members, and the challenges if the program lists them."""

    def __init__(self, games, kinds, members, challenges):
        self.games, self.kinds, self.members, self.challenges = games, kinds, members, challenges


def read_challenges(program, options, file):
    """All challenges, by `--json FILE challenges`; None if the program does not have this command."""
    status, out, err = run([program, *options, "--json", file, "challenges"])
    if status == USAGE_ERROR:
        return None
    if status:
        raise ClubError(f"challenges: {err or f'status {status}'}")
    try:
        return [Challenge(row) for row in json.loads(out)["challenges"]]
    except (ValueError, KeyError, TypeError, AttributeError) as error:
        raise ClubError(f"challenges: a document of another form: {error!r}") from None


def backed_up_challenges(program, options, file):
    """All challenges, by a backup of the club, which has all keys and is removed at once."""
    with tempfile.TemporaryDirectory(prefix="notify-") as folder:
        path = os.path.join(folder, "backup.db")
        read_text([program, *options, file, "backup", path])
        try:
            with contextlib.closing(sqlite3.connect(path)) as database:
                database.row_factory = sqlite3.Row
                return [Challenge(dict(row)) for row in database.execute(ROWS)]
        except (sqlite3.Error, ValueError) as error:
            raise ClubError(f"challenges of a backup: {error!r}") from None


def read_club(program, file, now, has_backup=False):
    """The club of a file. Games are read first, so that every event and member of a game is in its list.

    Challenges are read from a backup, if that is wanted and the program does not list them.
    """
    options = [] if now is None else ["--now", str(now)]
    words = [program, *options, file]
    games = read_games(words)
    challenges = read_challenges(program, options, file)
    if challenges is None and has_backup:
        challenges = backed_up_challenges(program, options, file)
    kinds = {it.name: it.kind for it in read_events(words)}
    return Club(games, kinds, [it["name"] for it in read_lines([*words, "members"], MEMBER)], challenges)
