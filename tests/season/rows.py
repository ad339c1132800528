"""What each question must show, by SQL on the rows of a club's file: sqlite3 makes the lines and the JSON itself.

The queries are those of season.club.Club: commands by `printed`, paths by `body`; None if SQL cannot compute one.
"""
import contextlib
import shutil
import sqlite3
import tempfile

from lib.club import FAST, copy_files

GIVEN = """WITH given AS (SELECT max(:now, last) AS moment FROM meta),
named AS (
    SELECT games.*, events.name AS name, iif(events.game, 'shogi', 'draughts') AS kind, one.name AS white, two.name AS black,
        iif(plies % 2, two.name, one.name) AS mover, since + iif(plies % 2, left2, left1) AS deadline
    FROM games, events, members AS one, members AS two
    WHERE events.id = games.event AND one.id = games.first AND two.id = games.second),
dated AS (
    SELECT *, iif(deadline > 253402300799, NULL, deadline) AS until, "end" IS NULL AS runs,
        "end" IS NULL AND (SELECT moment FROM given) > deadline AS is_late
    FROM named) """
MEMBERS = """SELECT 'member ' || id || ' ' || name
    || ifnull(' key ' || (SELECT max(number) FROM keys WHERE member = members.id), '') || char(10) AS line
FROM members ORDER BY id"""
EVENTS = """SELECT 'event ' || id || ' ' || name || ' ' || iif(game, 'shogi', 'draughts') || ' ' || budget || ' '
    || increment || ' ' || (SELECT count(*) FROM games WHERE event = events.id) || ' '
    || (SELECT count(*) FROM games WHERE event = events.id AND "end" IS NULL)
    || iif(id IN (SELECT event FROM closings), ' closed', '') || char(10) AS line
FROM events ORDER BY id"""
GAMES = """SELECT 'game ' || id || ' ' || name || ' ' || white || ' ' || black || ' ' || ifnull("key", '=') || ' ply '
    || plies || iif(runs, ' turn ' || mover || ' until ' ||
        ifnull(strftime('%Y-%m-%dT%H:%M:%SZ', until, 'unixepoch'), 'never'), ' end ' || "end" || ifnull(' ' || result, ''))
    || char(10) AS line
FROM dated
WHERE (:event IS NULL OR name = :event) AND (:member IS NULL OR :member IN (white, black)) AND (NOT :running OR runs)
    AND (NOT :overdue OR is_late)
ORDER BY id"""
CHALLENGE = """SELECT json_object('event', events.name, 'first', iif(challenges.first, me.name, you.name),
            'from', me.name, 'game', challenges.game, 'number', number,
            'second', iif(challenges.first, you.name, me.name),
            'state', iif(state = 0, 'open', iif(state = 2, 'refused', 'accepted')), 'to', you.name) AS text,
            member, number
        FROM challenges, events, members AS me, members AS you
        WHERE events.id = event AND me.id = member AND you.id = other"""
MINE = f""", own AS (SELECT *, row_number() OVER (ORDER BY number DESC) AS place
    FROM ({CHALLENGE} AND me.name = :member AND state IN (0, 3))),
received AS (SELECT *, row_number() OVER (PARTITION BY member ORDER BY number) AS place
    FROM ({CHALLENGE} AND you.name = :member AND state = 0)),
listed AS (SELECT * FROM received WHERE place <= 10 ORDER BY member, number LIMIT 100)
SELECT json_object('challenges', json((SELECT json_group_array(json(text)) FROM (
        SELECT 0 AS part, text, member, number FROM own WHERE place <= 100
        UNION ALL SELECT 1, text, member, number FROM listed ORDER BY part, member, number))),
    'games', json((SELECT json_group_array(json(text)) FROM (
        SELECT json_object('deadline', until, 'event', name, 'first', white, 'game', id, 'kind', kind,
            'last', (SELECT text FROM moves WHERE game = dated.id ORDER BY ply DESC LIMIT 1),
            'offer', iif(offer_side, black, iif(offer_side IS NULL, NULL, white)), 'ply', plies,
            'position', position, 'second', black, 'turn', mover) AS text
        FROM dated WHERE runs AND :member IN (white, black) ORDER BY id))),
    'member', :member, 'moment', moment, 'more', json_object(
        'from', (SELECT count(*) FROM own WHERE place > 100),
        'to', (SELECT count(*) FROM received) - (SELECT count(*) FROM listed)),
    'refused', json((SELECT json_group_array(json(text)) FROM ({CHALLENGE}
            AND state = 2 AND me.name = :member ORDER BY number DESC LIMIT 20)))) FROM given"""
ENDED = """SELECT json_object('games', json((SELECT json_group_array(json(text)) FROM (
        SELECT json_object('end', "end",
            'ended', iif("end" IN ('Resigned', 'Agreed', 'Time', 'Declared', 'Recorded', 'Awarded', 'Void'), NULL, since), 'event', name,
            'first', white, 'game', id, 'kind', kind, 'ply', plies, 'result', result, 'second', black) AS text
        FROM dated WHERE NOT runs AND :member IN (white, black) ORDER BY id DESC LIMIT 200))),
    'member', :member, 'moment', moment, 'more', max(0, -200 + (
        SELECT count(*) FROM dated WHERE NOT runs AND :member IN (white, black)))) FROM given"""
INVITING = """SELECT json_object('events', json((SELECT json_group_array(json(text)) FROM (
        SELECT json_object('budget', budget, 'event', name, 'game', iif(game, 'shogi', 'draughts'), 'increment',
            increment, 'open', json(iif(id IN (SELECT event FROM closings), 'false', 'true'))) AS text
        FROM events ORDER BY id))),
    'members', json((SELECT json_group_array(name) FROM (
        SELECT name FROM members WHERE name <> :member ORDER BY id))))"""
EVENT_GAMES = """, numbers AS (
    SELECT tens.value * 10 + ones.value AS n
    FROM json_each('[0,1,2,3,4,5,6]') AS tens, json_each('[0,1,2,3,4,5,6,7,8,9]') AS ones),
endings AS (
    SELECT round.n AS round, round.n || '.' || board.n AS ending FROM numbers AS round, numbers AS board
    WHERE round.n BETWEEN 1 AND 62 AND board.n BETWEEN 1 AND 16)
SELECT json_object('games', json(json_group_array(json(text)))) FROM (
    SELECT json_object('deadline', iif(runs, until, NULL), 'end', "end", 'first', white, 'game', id, 'ply', plies,
        'result', result, 'round',
        (SELECT round FROM endings WHERE "key" = ending OR "key" GLOB '*[^0-9]' || ending),
        'second', black, 'turn', iif(runs, mover, NULL)) AS text
    FROM dated WHERE name = :event ORDER BY id)"""
STANDINGS = """, counted AS (SELECT * FROM dated WHERE name = :event AND "end" IS NOT 'Void'),
sides AS (
    SELECT white AS member, black AS other, substr(result, 1, 1) + 0 AS points, runs FROM counted
    UNION ALL SELECT black, white, substr(result, 3, 1) + 0, runs FROM counted),
totals AS (
    SELECT member, ifnull(sum(points), 0) AS points, count(points) AS games, count(*) - count(points) AS running,
        count(iif(points = 2, 1, NULL)) AS wins, count(iif(points = 1, 1, NULL)) AS draws,
        count(iif(points = 0, 1, NULL)) AS losses
    FROM sides GROUP BY member),
lines AS (
    SELECT totals.*, ifnull((SELECT sum(sides.points * against.points) FROM sides, totals AS against
        WHERE sides.member = totals.member AND against.member = sides.other), 0) AS sonneborn_berger
    FROM totals),
placed AS (
    SELECT lines.*, row_number() OVER (ORDER BY points DESC, wins DESC, sonneborn_berger DESC, members.id) AS place
    FROM lines, members WHERE members.name = lines.member)
SELECT json_object('event', name, 'kind', iif(game, 'shogi', 'draughts'), 'standings', json((
    SELECT json_group_array(json(text)) FROM (
        SELECT json_object('draws', draws, 'games', games, 'losses', losses, 'member', member, 'place', place,
            'points', points, 'running', running, 'sonneborn_berger', sonneborn_berger, 'wins', wins) AS text
        FROM placed ORDER BY place)))) FROM events WHERE name = :event"""
CLOCK = """SELECT json_object('deadline', iif(runs, until, NULL), 'game', id, 'left', json_array(left1, left2),
    'moment', moment, 'now', json_array(iif(runs AND NOT plies % 2, max(0, deadline - moment), left1),
        iif(runs AND plies % 2, max(0, deadline - moment), left2)),
    'since', since, 'turn', iif(runs, mover, NULL)) FROM dated, given WHERE id = :game"""
RULINGS = """SELECT json_object('rulings', json(json_group_array(json(text)))) FROM (
    SELECT CASE
        WHEN kind < 2 THEN json_object('kind', 'grant', 'moment', moment, 'number', number, 'ply', ply, 'seconds', seconds,
            'side', iif(kind, 'second', 'first'))
        WHEN kind = 2 THEN json_object('kind', 'award', 'moment', moment, 'number', number, 'ply', ply, 'result', result)
        ELSE json_object('kind', 'void', 'moment', moment, 'number', number, 'ply', ply) END AS text
    FROM rulings WHERE game = :game ORDER BY number)"""
RULING_LINES = """SELECT 'ruling ' || number || ' ' || strftime('%Y-%m-%dT%H:%M:%SZ', moment, 'unixepoch') || ' ply ' || ply
    || CASE WHEN kind < 2 THEN ' grant ' || iif(kind, 'second', 'first') || ' ' || seconds
        WHEN kind = 2 THEN ' award ' || result ELSE ' void' END || char(10) AS line
FROM rulings WHERE game = :game ORDER BY number"""
OPTIONS = {"event": None, "member": None, "running": 0, "overdue": 0}


def tables(found):
    """All rows of each table that there is."""
    names = [name for name, in found.execute("SELECT name FROM sqlite_master WHERE type = 'table' ORDER BY 1")]
    return {it: found.execute(f'SELECT * FROM "{it}" ORDER BY 1, 2').fetchall() for it in names}


class Rows:
    """The rows of a folder's club as they stand, read from a copy of the file and its log."""

    def __init__(self, folder):
        self.room = tempfile.mkdtemp(dir=FAST)
        copy_files(folder, self.room)
        self.found = sqlite3.connect(f"{self.room}/c.db")
        self.held = tables(self.found)
        for table in {"keys", "rulings", "closings"} - self.held.keys():  # a club of schema 2 has none
            columns = "member, number, event, game, moment, ply, kind, seconds, result"
            self.found.execute(f"CREATE TEMP TABLE {table} ({columns})")

    def close(self):
        self.found.close()
        shutil.rmtree(self.room)

    def one(self, query, **values):
        row = self.found.execute(GIVEN + query, values).fetchone()
        return row and row[0]

    def lines(self, query, **values):
        return "".join(line for line, in self.found.execute(GIVEN + query, values))

    def printed(self, words, now):
        """What a word lists, or None."""
        if words[0] in ("members", "events"):
            return self.lines(MEMBERS if words[0] == "members" else EVENTS, now=now)
        if words[0] == "rulings":
            return self.lines(RULING_LINES, game=int(words[1]), now=now)
        if words[0] != "games":
            return None
        asked, options = dict(OPTIONS), list(words[1:])
        while options:
            option = options.pop(0).removeprefix("--")
            asked[option] = options.pop(0) if option in ("event", "member") else 1
        return self.lines(GAMES, now=now, **asked)

    def body(self, member, path, now):
        """The JSON that a path shows a member, or None."""
        words = path.split("/")[1:]
        mine = {"/me": MINE, "/me/ended": ENDED, "/me/events": INVITING}
        if path in mine:
            return self.one(mine[path], member=member, now=now)
        if words[2] in ("games", "standings"):
            return self.one(EVENT_GAMES if words[2] == "games" else STANDINGS, event=words[1], now=now)
        queries = {"clock": CLOCK, "rulings": RULINGS}
        return self.one(queries[words[2]], game=int(words[1]), now=now) if words[2] in queries else None


@contextlib.contextmanager
def rows_of(folder):
    with contextlib.closing(Rows(folder)) as found:
        yield found
