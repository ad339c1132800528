"""What all pages share: their frame, links, dates and texts. Whatever is not made here is escaped."""
import html
import time
from dataclasses import dataclass

from notify_of.texts import text

STYLE, SCRIPT, INDEX, FEED = "style.css", "steps.js", "index.html", "feed.xml"
POLICY = "default-src 'none'; style-src 'self'; script-src 'self'; base-uri 'none'; form-action 'none'"
UNITS = (86400, "day"), (3600, "hour"), (60, "minute"), (1, "second")
MARK = ('<svg viewBox="0 0 44 28" class="mark" aria-hidden="true"><circle cx="14" cy="14" r="13"/>'
        '<circle cx="14" cy="14" r="8.5"/><path d="M32 1 40 5 43 27H21L24 5Z"/></svg>')


@dataclass(frozen=True)
class Site:
    """What the arguments say of the pages."""

    title: str
    base: str | None
    delay: int


escape = html.escape


def event_file(event, ending):
    return f"event-{event.name}.{ending}"


def game_file(game, ending):
    return f"game-{game.id}.{ending}"


def link(address, words, more=""):
    """A link; the words are escaped here."""
    return f'<a href="{escape(address)}"{more}>{escape(words)}</a>'


def date(seconds):
    """A deadline for readers and for scripts."""
    if seconds is None:
        return "no deadline"
    exact, plain = (time.strftime(form, time.gmtime(seconds)) for form in ("%Y-%m-%dT%H:%M:%SZ", "%Y-%m-%d %H:%M UTC"))
    return f'<time datetime="{exact}">{plain}</time>'


def count(number, word):
    return f"{number} {word}{'' if number == 1 else 's'}"


def duration(seconds):
    """A time in its units: 90061 is 1 day 1 hour 1 minute 1 second."""
    parts, left = [], seconds
    for size, unit in UNITS:
        number, left = divmod(left, size)
        parts += [count(number, unit)] if number else []
    return " ".join(parts) or "0 seconds"


def end_of(game):
    """How an ended game ended, in words."""
    return text("en", game.end)


def kept_back(site):
    """What the pages say about plies that they do not show."""
    if not site.delay:
        return ""
    held = "ply of each running game is" if site.delay == 1 else f"{site.delay} plies of each running game are"
    return f'<p class="faint">The last {held} not shown.</p>\n'


def page(site, title, crumbs, body, has_script=False):
    """A page. The crumbs are the addresses and names of the pages above it."""
    path = "".join(f" <span aria-hidden=\"true\">/</span> {link(*it)}" for it in crumbs)
    head = title if title == site.title else f"{title} - {site.title}"
    script = f'<script src="{SCRIPT}" defer></script>\n' if has_script else ""
    feed = f'<link rel="alternate" type="application/atom+xml" title="Ended games" href="{FEED}">\n'
    return f"""<!doctype html>
<html lang="en">
<head>
<meta charset="utf-8">
<meta name="viewport" content="width=device-width">
<meta name="color-scheme" content="light dark">
<meta http-equiv="Content-Security-Policy" content="{POLICY}">
<title>{escape(head)}</title>
<link rel="stylesheet" href="{STYLE}">
{feed if site.base else ""}{script}</head>
<body>
<header><nav aria-label="Path"><a href="{INDEX}" class="brand">{MARK}{escape(site.title)}</a>{path}</nav></header>
<main>
<h1>{escape(title)}</h1>
{body}</main>
</body>
</html>
"""


def table(heads, rows, name):
    """A table in a frame that scrolls. Its cells are HTML, the first of each row its head."""
    if not rows:
        return ""
    head = "".join(f'<th scope="col">{it}</th>' for it in heads)
    lines = "".join(f'<tr><th scope="row">{first}</th>{"".join(f"<td>{it}</td>" for it in rest)}</tr>\n'
                    for first, *rest in rows)
    return (f'<div class="wide" role="region" aria-label="{escape(name)}" tabindex="0">\n<table>\n'
            f"<thead><tr>{head}</tr></thead>\n<tbody>\n{lines}</tbody>\n</table>\n</div>\n")
