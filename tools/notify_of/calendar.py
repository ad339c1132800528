"""A member's deadlines as an iCalendar (RFC 5545)."""
from common.calendars import escaped, folded, utc
from notify_of.texts import calendar_text


def calendar(club, member, language, now):
    """The calendar: an event for each running game in which the member must move before a deadline.

    A game keeps its UID for all its moves, so that a calendar that is loaded again moves the event.
    """
    lines = ["BEGIN:VCALENDAR", "VERSION:2.0", "PRODID:-//Gathlwyro//notify//EN", "CALSCALE:GREGORIAN"]
    for game in club.games:
        if game.turn != member or game.deadline is None:
            continue
        summary, description = calendar_text(language, game, game.opponent(member), club.kinds.get(game.event, ""))
        lines += ["BEGIN:VEVENT", f"UID:game-{game.id}-{game.event}-{member}@gathlwyro", f"DTSTAMP:{utc(now)}",
                  f"DTSTART:{utc(game.deadline)}", f"SEQUENCE:{game.ply}", f"SUMMARY:{escaped(summary)}",
                  f"DESCRIPTION:{escaped(description)}", "TRANSP:TRANSPARENT", "BEGIN:VALARM", "ACTION:DISPLAY",
                  f"DESCRIPTION:{escaped(summary)}", "TRIGGER:-P2D", "END:VALARM", "END:VEVENT"]
    return "".join(map(folded, [*lines, "END:VCALENDAR"])).encode()
