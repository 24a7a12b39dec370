"""The settings that the words of a command line give, or the place of their fault."""

import re
from fractions import Fraction

from defined.logs import EVENTS, TRACES
from defined.refusals import Refused
from defined.templates import EXISTENCE, TEMPLATES

LOG_OPTIONS = ["format", "case-column", "activity-column", "order-column", "order-as"]
REPORT_OPTIONS = ["support", "confidence", "interest", "max-states", "stage", "out"]
GEN_OPTIONS = ["seed", "traces", "length", "letters"]
LATER_OPTIONS = ["repertoire", "on-limit", "first"]

# Of each command its options, and what it takes by its place.
COMMANDS = {
    "mine": (LOG_OPTIONS + REPORT_OPTIONS + ["repertoire", "on-limit"], ["log"]),
    "kb": (LOG_OPTIONS, ["log"]),
    "check": (LOG_OPTIONS, ["model", "log"]),
    "gen": (GEN_OPTIONS, []),
    "sample": (["seed"], []),
    "verify": ([], ["model"]),
    "monitor": (["max-states"], ["model", "log"]),
    "compare": (["max-states"], ["model", "second"]),
    "analyse": (["max-states", "first"], ["model"]),
    "regex": ([], ["model", "word"]),
}

# Those that a command must have.
NEEDED = ["model", "second"]
# Commands that read two inputs.
TWO_INPUTS = ["check", "monitor", "compare"]

# The number that a usage line names. The values of options are tried before all else.
TWICE_STANDARD_INPUT, TOO_MANY_EVENTS = 17, 18
PLACES = {name: place for place, name in enumerate(LOG_OPTIONS + REPORT_OPTIONS + GEN_OPTIONS, 2)}
PLACES |= {name: place for place, name in enumerate(LATER_OPTIONS, 19)}
NO_TEMPLATE, NO_WORD, NO_CERTIFICATE = 22, 23, 24

WORD_CHARACTERS = 64


def one_of(*texts):
    return lambda text: text if text in texts else None


def any_text(text):
    return text


def threshold(text):
    if not re.fullmatch(r"[01](\.[0-9]{1,6})?", text, re.ASCII) or Fraction(text) > 1:
        return None
    return Fraction(text)


def whole(least, most):
    def number(text):
        if not re.fullmatch(r"[0-9]{1,10}", text, re.ASCII) or not least <= int(text) <= most:
            return None
        return int(text)

    return number


# What the text of each option means, or None where it isn't in the grammar.
MEANINGS = {
    "format": one_of("string", "csv"),
    "case-column": any_text,
    "activity-column": any_text,
    "order-column": any_text,
    "order-as": one_of("text", "number"),
    "support": threshold,
    "confidence": threshold,
    "interest": threshold,
    "max-states": whole(1, 65_536),
    "stage": one_of("model", "consistent", "scores"),
    "out": one_of("json", "table", "cert"),
    "seed": whole(0, 4_294_967_295),
    "traces": whole(0, TRACES),
    "length": whole(1, 1_000),
    "letters": whole(1, 26),
    "repertoire": one_of("1", "2"),
    "on-limit": one_of("stop", "keep"),
    "first": whole(0, 20),
}

# What is taken where it isn't given.
DEFAULTS = {
    "format": "string",
    "case-column": "case",
    "activity-column": "activity",
    "order-column": None,
    "order-as": "text",
    "support": Fraction(95, 100),
    "confidence": Fraction(1, 4),
    "interest": Fraction(1, 8),
    "max-states": 16_384,
    "stage": "model",
    "out": "json",
    "seed": 0,
    "traces": 100,
    "length": 10,
    "letters": 4,
    "repertoire": "1",
    "on-limit": "stop",
    "first": 3,
    "model": "",
    "log": "-",
    "word": None,
}


def option_of(word):
    """The name and the value of `--name` or `--name=value`; no value is None."""
    name, equals, value = word[2:].partition("=")
    return name, value if equals else None


def is_option(word):
    return word.startswith("-") and word not in ("-", "--")


class Taken:
    """The words of a simple command, taken one by one: options that each set one text, and texts by their places."""

    def __init__(self, options, places):
        self.options, self.places, self.texts = options, list(places), {}
        self.waiting, self.only_places = None, False

    def give(self, name, text):
        if name in self.texts:
            raise Refused("Usage", 1)
        self.texts[name] = text

    def option(self, word):
        name, value = option_of(word)
        if self.waiting or not word.startswith("--") or name not in self.options:
            raise Refused("Usage", 1)
        if value is None:
            self.waiting = name
        else:
            self.give(name, value)

    def word(self, word):
        if not self.only_places and word == "--":
            self.only_places = True
        elif not self.only_places and is_option(word):
            self.option(word)
        elif not self.only_places and self.waiting:
            self.give(self.waiting, word)
            self.waiting = None
        elif self.places:
            self.give(self.places.pop(0), word)
        else:
            raise Refused("Usage", 1)

    def all(self, words):
        for word in words:
            self.word(word)
        if self.waiting or set(NEEDED) & set(self.places):
            raise Refused("Usage", 1)
        return self.texts


def settings(words):
    """The command, and the value of each option, of the model and of the log."""
    if not words or words[0] not in COMMANDS:
        raise Refused("Usage", 0)
    command, *rest = words
    texts = Taken(*COMMANDS[command]).all(rest)
    found = DEFAULTS | texts | {"command": command}
    found["log"] = texts.get("second", found["log"])
    for name in sorted(texts.keys() & PLACES.keys(), key=PLACES.get):
        found[name] = MEANINGS[name](texts[name])
        if found[name] is None:
            raise Refused("Usage", PLACES[name])
    if command in TWO_INPUTS and found["model"] == found["log"] == "-":
        raise Refused("Usage", TWICE_STANDARD_INPUT)
    if found["traces"] * found["length"] > EVENTS:
        raise Refused("Usage", TOO_MANY_EVENTS)
    if found["out"] == "cert" and (found["stage"] != "model" or found["on-limit"] == "keep"):
        raise Refused("Usage", NO_CERTIFICATE)
    if command == "regex":
        try_expression(found["model"], found["word"])
    return found


def try_expression(template, word):
    """The word has a letter for each event: a, b where the template has two activities, and x for any other."""
    if template not in TEMPLATES:
        raise Refused("Usage", NO_TEMPLATE)
    letters = "ax" if template in EXISTENCE else "abx"
    if word is not None and (len(word) > WORD_CHARACTERS or not set(word) <= set(letters)):
        raise Refused("Usage", NO_WORD)
