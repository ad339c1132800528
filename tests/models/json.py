"""JSON by RFC 8259, for tests, within the server's limits: UTF-8, 127 levels, no lone surrogate, finite numbers.
"""
import math
import re

BLANKS = re.compile(r"[ \t\n\r]*")
NUMBER = re.compile(r"-?(?:0|[1-9][0-9]*)(?:\.[0-9]+)?(?:[eE][-+]?[0-9]+)?")
PLAIN = re.compile(r'[^"\\\x00-\x1f]+')
HEX = re.compile(r"\\u([0-9a-fA-F]{4})")
ESCAPES = {"b": "\b", "f": "\f", "n": "\n", "r": "\r", "t": "\t", '"': '"', "\\": "\\", "/": "/"}
WORDS = {"true": True, "false": False, "null": None}
DEEPEST = 127
LARGEST = 2 ** 64 - 1  # of the integers; any other number is a float


class NoJson(Exception):
    pass


class Reader:
    def __init__(self, text):
        self.text, self.at = text, 0

    def blanks(self):
        self.at = BLANKS.match(self.text, self.at).end()

    def next_is(self, letter):
        self.blanks()
        if self.text[self.at:self.at + 1] != letter:
            return False
        self.at += 1
        return True

    def must(self, letter):
        if not self.next_is(letter):
            raise NoJson

    def value(self, depth=0):
        self.blanks()
        if self.next_is("{"):
            return self.members(depth + 1)
        if self.next_is("["):
            return self.items(depth + 1)
        if self.next_is('"'):
            return self.string()
        for word, value in WORDS.items():
            if self.text.startswith(word, self.at):
                self.at += len(word)
                return value
        return self.number()

    def number(self):
        found = NUMBER.match(self.text, self.at)
        if not found or math.isinf(float(found[0])):
            raise NoJson
        self.at = found.end()
        return int(found[0]) if found[0].isdigit() and int(found[0]) <= LARGEST else float(found[0])

    def items(self, depth):
        if depth > DEEPEST:
            raise NoJson
        found = []
        if self.next_is("]"):
            return found
        while True:
            found.append(self.value(depth))
            if self.next_is("]"):
                return found
            self.must(",")

    def members(self, depth):
        if depth > DEEPEST:
            raise NoJson
        found = {}
        if self.next_is("}"):
            return found
        while True:
            self.must('"')
            name = self.string()
            self.must(":")
            found[name] = self.value(depth)
            if self.next_is("}"):
                return found
            self.must(",")

    def string(self):
        """The text up to the closing quotation mark; of a repeated name the last value counts."""
        found = ""
        while True:
            plain = PLAIN.match(self.text, self.at)
            if plain:
                found, self.at = found + plain[0], plain.end()
            letter = self.text[self.at:self.at + 1]
            if letter == '"':
                self.at += 1
                return found
            if letter != "\\":
                raise NoJson
            found += self.escape()

    def escape(self):
        letter = self.text[self.at + 1:self.at + 2]
        if letter in ESCAPES:
            self.at += 2
            return ESCAPES[letter]
        code = self.hex()
        if 0xd800 <= code < 0xdc00:
            low = self.hex()
            if not 0xdc00 <= low < 0xe000:
                raise NoJson
            return chr(0x10000 + ((code - 0xd800) << 10) + low - 0xdc00)
        if 0xdc00 <= code < 0xe000:
            raise NoJson
        return chr(code)

    def hex(self):
        found = HEX.match(self.text, self.at)
        if not found:
            raise NoJson
        self.at = found.end()
        return int(found[1], 16)


def read(data):
    """The value of bytes of JSON; NoJson where they are none."""
    try:
        reader = Reader(data.decode())
    except UnicodeDecodeError:
        raise NoJson from None
    value = reader.value()
    reader.blanks()
    if reader.at != len(reader.text):
        raise NoJson
    return value
