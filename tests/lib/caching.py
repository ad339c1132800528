"""The fields about caching: which replies have them, by the target of the request.

A reply has them if a route of the club's own is found, that is one of which the first description of the interface does
not speak, whatever the reply says. Before a route is looked for, a head can be refused.
"""
import re

from models.routes import ROUTES

OWN = re.compile(rf"(?:http://[^/?]+)?(?:{'|'.join(it.pattern() for it in ROUTES if it.forbids_storing)})(?:\?.*)?",
                 re.DOTALL)
LINES = "Cache-Control: no-store\r\nX-Content-Type-Options: nosniff\r\n"
HEAD_ERRORS = 80, 84, 85, 86, 87, 88  # of refused heads


def caching_lines(target, error=None):
    """The lines about caching of a reply to a request for a target, which has this error or none."""
    return LINES if OWN.fullmatch(target) and error not in HEAD_ERRORS else ""


def error_of(body):
    """The number of the error that is the text of a body, or None."""
    found = re.match(r'\{"error":([0-9]+),', body)
    return int(found[1]) if found else None


def target_of(data):
    """The target in the bytes of a request; empty if there is none."""
    words = data.lstrip(b"\r\n").partition(b"\n")[0].split(b" ")
    return words[1].decode("latin-1") if len(words) > 1 else ""
