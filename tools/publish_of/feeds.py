"""The feed of ended games (Atom, RFC 4287), and the calendar of an event's deadlines (iCalendar, RFC 5545)."""
import time
import uuid

from common.calendars import escaped, folded, utc
from publish_of.layout import FEED, end_of, escape, game_file
from publish_of.lists import title_of

NEWEST = 100  # entries of the feed
EMPTY = ("BEGIN:VTIMEZONE", "TZID:UTC", "BEGIN:STANDARD", "DTSTART:19700101T000000", "TZOFFSETFROM:+0000",
         "TZOFFSETTO:+0000", "END:STANDARD", "END:VTIMEZONE")  # because a calendar must have a component


def identity(site, game):
    """The identity of a game, the same in each run with the same base."""
    words = f"{site.base or ''} {game.id} {game.event} {game.first} {game.second} {game.key}"
    return uuid.uuid5(uuid.NAMESPACE_URL, words)


def instant(seconds):
    return time.strftime("%Y-%m-%dT%H:%M:%SZ", time.gmtime(seconds))


def entry(site, published, moment):
    game = published.game
    summary = (f"{game.first} – {game.second} {game.result}, {end_of(game)}, after {game.ply} plies. "
               f"{published.event.kind.capitalize()}, {game.event}.")
    return f"""<entry>
<id>{identity(site, game).urn}</id>
<title>{escape(f"{title_of(game)} {game.result} ({game.event})")}</title>
<updated>{instant(moment)}</updated>
<link rel="alternate" type="text/html" href="{escape(site.base + game_file(game, "html"))}"/>
<category term="{escape(game.event)}"/>
<summary>{escape(summary)}</summary>
</entry>
"""


def feed(site, events, seen):
    """The newest ended games; each counts as updated when it was first published as ended."""
    ended = seen.newest(it for event in events for it in event.ended)
    entries = [(it, seen.ended(it.game)) for it in ended[:NEWEST]]
    updated = max([moment for _, moment in entries], default=seen.begun)
    return f"""<?xml version="1.0" encoding="utf-8"?>
<feed xmlns="http://www.w3.org/2005/Atom">
<id>{escape(site.base)}</id>
<title>{escape(site.title)}</title>
<subtitle>Ended games</subtitle>
<updated>{instant(updated)}</updated>
<author><name>{escape(site.title)}</name></author>
<generator>Gathlwyro publish</generator>
<link rel="self" type="application/atom+xml" href="{escape(site.base + FEED)}"/>
<link rel="alternate" type="text/html" href="{escape(site.base)}"/>
{"".join(entry(site, *it) for it in entries)}</feed>
"""


def calendar(site, published, seen):
    """The deadlines of an event. A game keeps its UID for all its moves, so that its event moves in a calendar."""
    lines = ["BEGIN:VCALENDAR", "VERSION:2.0", "PRODID:-//Gathlwyro//publish//EN", "CALSCALE:GREGORIAN",
             f"X-WR-CALNAME:{escaped(f'{site.title}: {published.event.name}')}"]
    due = [it.game for it in published.running if it.game.deadline is not None]
    for game in due:
        summary = f"{game.turn} to move against {game.opponent(game.turn)} ({game.event}, game {game.id})"
        lines += ["BEGIN:VEVENT", f"UID:{identity(site, game)}", f"DTSTAMP:{utc(seen.turn(game))}",
                  f"DTSTART:{utc(game.deadline)}", f"SEQUENCE:{game.ply}", f"SUMMARY:{escaped(summary)}",
                  *([f"URL:{site.base}{game_file(game, 'html')}"] if site.base else []),
                  "TRANSP:TRANSPARENT", "END:VEVENT"]
    return "".join(map(folded, [*lines, *(() if due else EMPTY), "END:VCALENDAR"]))
