"""The files of notify: addresses, login and state. Each must be readable and writable by its owner alone."""
import json
import os
import re
import stat

from common.club import NAME
from common.files import FileError, replace_file
from notify_of.mail import ADDRESS
from notify_of.notices import running_key
from notify_of.texts import LANGUAGES

VERSION = 1


def read_private(path):
    """The text of a file of mode 600 that belongs to the user."""
    try:
        with open(path, "rb") as file:
            found = os.fstat(file.fileno())
            if not stat.S_ISREG(found.st_mode) or found.st_uid != os.geteuid() or found.st_mode & 0o177:
                raise FileError(f"{path}: it must be a file of its owner with mode 600 (chmod 600 {path})")
            return file.read().decode()
    except UnicodeDecodeError:
        raise FileError(f"{path}: it is not UTF-8") from None


def read_addresses(path):
    """The address and the language, or None, of each member."""
    found = {}
    for number, line in enumerate(read_private(path).splitlines(), 1):
        words = line.split()
        if not words or words[0].startswith("#"):
            continue
        name, address, language = (words + [None])[:3] if len(words) in (2, 3) else ("", "", "")
        if not re.fullmatch(NAME, name) or not ADDRESS.fullmatch(address) or language not in (None, *LANGUAGES):
            raise FileError(f"{path}: line {number} is not NAME ADDRESS [{'|'.join(LANGUAGES)}]")
        if name in found:
            raise FileError(f"{path}: line {number}: {name} has an address already")
        found[name] = address, language
    return found


def read_login(path):
    """The user and the password."""
    lines = read_private(path).splitlines()
    if len(lines) != 2 or not all(lines):
        raise FileError(f"{path}: it must have two lines, the user and the password")
    return tuple(lines)


class State:
    """What was sent: the keys of notices, those of games that were seen running, and whether challenges were read."""

    def __init__(self, path):
        self.path, self.sent = os.path.realpath(path), set()
        self.is_new, self.has_challenges = not os.path.lexists(path), False
        if self.is_new:
            return
        try:
            kept = json.loads(read_private(self.path))
            if kept["version"] != VERSION:
                raise ValueError(kept["version"])
            self.sent, self.has_challenges = {str(it) for it in kept["sent"]}, bool(kept["challenges"])
        except (ValueError, KeyError, TypeError) as error:
            raise FileError(f"{path}: it is no state file: {error!r}") from None

    def keep(self, club, found):
        """Drops the keys of events that are over, and adds the games that run."""
        present = {key for notice in found for key in (notice.key, *notice.covers)}
        running = {running_key(game) for game in club.games if game.turn is not None}
        seen = {running_key(game) for game in club.games} & self.sent
        self.sent = self.sent & present | running | seen
        self.has_challenges = self.has_challenges or club.challenges is not None

    def write(self):
        """Replaces the file in one step, so that a crash leaves the old one or the new one."""
        document = {"version": VERSION, "challenges": self.has_challenges, "sent": sorted(self.sent)}
        replace_file(self.path, json.dumps(document, indent=0).encode(), ".notify-")
