"""The value that a JSON text holds, or that it holds none.

A text is bytes. Its grammar is that of JSON; what is said here besides is what its readers differ in: the text is
UTF-8, arrays and objects stand in each other 127 levels deep at most, of members of one name the last one counts, an
escape names a character, and a number is whole where it's written without point and exponent and fits 64 bits.
"""

import re

from defined.refusals import Refused

NESTING = 127

SPACES = re.compile(r"[ \t\n\r]*")
PLAIN = re.compile(r'[^"\\\x00-\x1f]*')
NUMBER = re.compile(r"(-?)(0|[1-9][0-9]*)(\.[0-9]+)?([eE][-+]?[0-9]+)?")
HEX = re.compile(r"[0-9a-fA-F]{4}")

LITERALS = {"null": None, "true": True, "false": False}
ESCAPES = {'"': '"', "\\": "\\", "/": "/", "b": "\b", "f": "\f", "n": "\n", "r": "\r", "t": "\t"}

HIGH_SURROGATES, LOW_SURROGATES = range(0xD800, 0xDC00), range(0xDC00, 0xE000)


def refuse():
    raise Refused("NotJson")


def number(match):
    """An int where it is a whole number, else a float. One too large for a float has no reading."""
    minus, digits, *more = match.groups()
    if not any(more) and (int(digits) < 2**64 if not minus else 0 < int(digits) <= 2**63):
        return int(match[0])
    value = float(match[0])
    if value in (float("inf"), float("-inf")):
        refuse()
    return value


class Text:
    """A text that is read from its start to its end."""

    def __init__(self, text):
        self.text, self.at = text, 0

    def take(self, pattern):
        match = pattern.match(self.text, self.at) or refuse()
        self.at = match.end()
        return match

    def takes(self, piece):
        """Whether this piece stands here. It's taken where it does."""
        found = self.text.startswith(piece, self.at)
        self.at += len(piece) * found
        return found

    def value(self, levels):
        self.take(SPACES)
        if self.takes("["):
            return self.inside(levels, "]", [], self.element)
        if self.takes("{"):
            return self.inside(levels, "}", {}, self.member)
        if self.takes('"'):
            return self.string()
        for name, value in LITERALS.items():
            if self.takes(name):
                return value
        return number(self.take(NUMBER))

    def inside(self, levels, end, found, take_one):
        """The elements of an array, or the members of an object, up to its end."""
        if not levels:
            refuse()
        self.take(SPACES)
        if self.takes(end):
            return found
        while True:
            take_one(found, levels - 1)
            self.take(SPACES)
            if self.takes(end):
                return found
            if not self.takes(","):
                refuse()

    def element(self, found, levels):
        found.append(self.value(levels))

    def member(self, found, levels):
        self.take(SPACES)
        name = self.string() if self.takes('"') else refuse()
        self.take(SPACES)
        if not self.takes(":"):
            refuse()
        found[name] = self.value(levels)

    def string(self):
        found = ""
        while True:
            found += self.take(PLAIN)[0]
            if self.takes('"'):
                return found
            found += self.escape() if self.takes("\\") else refuse()

    def escape(self):
        if self.takes("u"):
            return self.character()
        letter = self.text[self.at : self.at + 1]
        self.at += 1
        return ESCAPES.get(letter) or refuse()

    def character(self):
        code = int(self.take(HEX)[0], 16)
        if code in LOW_SURROGATES:
            refuse()
        if code in HIGH_SURROGATES:
            low = int(self.take(HEX)[0], 16) if self.takes("\\u") else refuse()
            if low not in LOW_SURROGATES:
                refuse()
            code = 0x10000 + (code - 0xD800) * 0x400 + (low - 0xDC00)
        return chr(code)


def value_of(data):
    try:
        text = Text(data.decode("utf-8"))
    except UnicodeDecodeError:
        refuse()
    value = text.value(NESTING)
    text.take(SPACES)
    if text.at != len(text.text):
        refuse()
    return value
