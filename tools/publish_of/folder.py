"""The folder of the pages: what the tool wrote there, and when it first saw the state of each game."""
import json
import os
import re

from common.files import FileError, replace_file

MANIFEST, ASIDE = ".publish.json", ".publish-"
VERSION = 1
NAME = re.compile(r"index\.html|style\.css|steps\.js|feed\.xml"
                  r"|(?:event|game)-[A-Za-z0-9._-]{1,24}\.(?:html|pdn|csa|ics)")
LEFT = re.compile(rf"{re.escape(ASIDE)}[a-z0-9_]{{8}}")  # the names that replace_file gives


class Seen:
    """When the tool first ran in this folder, first saw each game as ended, and saw it at its present ply."""

    def __init__(self, kept, now):
        self.now, self.begun = now, kept.get("begun", now)
        self.old_ends, self.old_turns = kept.get("ended", {}), kept.get("turns", {})
        self.ends, self.turns = {}, {}

    @staticmethod
    def key(game):
        return f"{game.id} {game.event} {game.first} {game.second} {game.key}"

    def ended(self, game):
        return self.ends.setdefault(self.key(game), self.old_ends.get(self.key(game), self.now))

    def turn(self, game):
        ply, moment = self.old_turns.get(self.key(game), (game.ply, self.now))
        return self.turns.setdefault(self.key(game), [game.ply, moment if ply == game.ply else self.now])[1]

    def newest(self, published):
        """Ended games, those first that ended last."""
        return sorted(published, key=lambda it: (-self.ended(it.game), -it.game.id))

    def note(self, games):
        """Notes the state of all games, so that it is kept whatever is written of them."""
        for game in games:
            self.ended(game) if game.turn is None else self.turn(game)


def read_bytes(path):
    """The bytes of a file, or nothing if there is no such file."""
    if not os.path.isfile(path) or os.path.islink(path):
        return None
    with open(path, "rb") as file:
        return file.read()


class Folder:
    """The folder, with the names of the files that the tool made in it."""

    def __init__(self, path, now):
        self.path, self.counts = path, {"written": 0, "removed": 0, "unchanged": 0}
        kept = self.read_manifest()
        self.made = set(kept.get("files", ()))
        self.seen = Seen(kept, now)
        mask = os.umask(0)
        os.umask(mask)
        self.mode = 0o666 & ~mask

    def at(self, name):
        return os.path.join(self.path, name)

    def read_manifest(self):
        data = read_bytes(self.at(MANIFEST))
        if data is None:
            return {}
        try:
            kept = json.loads(data)
            turns = [it for ply, moment in kept["turns"].values() for it in (ply, moment)]
            is_sound = all(isinstance(it, int) for it in [kept["begun"], *kept["ended"].values(), *turns])
            if not is_sound or kept["version"] != VERSION or not all(map(NAME.fullmatch, kept["files"])):
                raise ValueError("its contents")
            return kept
        except (ValueError, KeyError, TypeError, AttributeError) as error:
            raise FileError(f"{self.at(MANIFEST)}: it is not of this tool: {error!r}") from None

    def write(self, name, data):
        """Writes a file, unless it has these bytes. Returns whether it was written."""
        if read_bytes(self.at(name)) == data:
            return False
        replace_file(self.at(name), data, ASIDE, self.mode)
        return True

    def write_manifest(self, names):
        document = {"version": VERSION, "begun": self.seen.begun, "files": sorted(names),
                    "ended": self.seen.ends, "turns": self.seen.turns}
        self.write(MANIFEST, json.dumps(document, indent=0, sort_keys=True).encode())

    def check(self, names):
        """Refuses to replace a file that the tool did not make."""
        others = [it for it in names if it not in self.made and os.path.lexists(self.at(it))]
        if others:
            raise FileError(f"{self.at(others[0])} was not made by this tool: remove it, or choose another folder")

    def publish(self, pages, progress):
        """Writes pages, each a name and a call that makes its text, and removes those of earlier runs that are none now.

        The manifest has each name before its file is there, so that after a crash the next run knows all files.
        """
        self.check(pages)
        for name in os.listdir(self.path):
            if LEFT.fullmatch(name):
                os.unlink(self.at(name))
        self.write_manifest(self.made | set(pages))
        for number, (name, make) in enumerate(pages.items(), 1):
            progress(f"writing {name} ({number} of {len(pages)})")
            self.counts["written" if self.write(name, make().encode()) else "unchanged"] += 1
        for name in sorted(self.made - set(pages)):
            if os.path.lexists(self.at(name)):
                os.unlink(self.at(name))
                self.counts["removed"] += 1
        self.write_manifest(set(pages))
