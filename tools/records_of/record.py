"""What every kind of record needs: why one is refused, what was changed in it, and one that is ready."""
LARGEST = 65536
WIDE_BLANKS = "\u00a0\u2002\u2003\u2009\u202f\u3000\ufeff\f\v"


class Refused(Exception):
    """Why a record, or a whole file, is not taken."""


class Notes:
    """What was changed, each kind of change once, with how often it was made."""

    def __init__(self):
        self.counts = {}

    def add(self, what):
        self.counts[what] = self.counts.get(what, 0) + 1

    def lines(self):
        return [what if count == 1 else f"{what} ({count} times)" for what, count in self.counts.items()]


class Record:
    """One game that is ready: its text, what was changed, or why it is refused."""

    def __init__(self, text, notes, refusal=None):
        self.text, self.notes, self.refusal = text, notes, refusal


def made(make, notes):
    """The record of a text that is made by a call, or that of its refusal."""
    try:
        text = make()
        size = len(text.encode())
        if size > LARGEST:
            raise Refused(f"the record has {size} bytes, and the club takes {LARGEST}")
        return Record(text, notes)
    except Refused as refusal:
        return Record("", notes, str(refusal))
