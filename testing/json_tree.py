"""JSON texts (RFC 8259) as trees, as long and as deep as cityed reads them, and back."""

import json
import re

LONGEST = 67_108_864
DEEPEST = 127


class Fault(Exception):
    """A text is refused: the fault's number, its name and its fields."""


class Fraction:
    """A number that isn't a whole number of 64 bits."""


class Parser:
    """Reads one JSON text. A member that comes twice is worth what it is worth last."""

    SPACE = re.compile(r"[ \t\n\r]*")
    NUMBER = re.compile(r"-?(0|[1-9][0-9]*)(\.[0-9]+)?([eE][+-]?[0-9]+)?", re.ASCII)
    PLAIN = re.compile(r'[^"\\\x00-\x1f]*')
    ESCAPES = {'"': '"', "\\": "\\", "/": "/", "b": "\b", "f": "\f", "n": "\n", "r": "\r", "t": "\t"}
    WORDS = {"null": None, "true": True, "false": False}

    def __init__(self, text):
        try:
            self.text = text.decode("utf-8")
        except UnicodeDecodeError:
            raise Fault(2, "NotJson") from None
        self.at = 0

    def refuse(self):
        raise Fault(2, "NotJson")

    def space(self):
        self.at = self.SPACE.match(self.text, self.at).end()

    def skip(self, wanted):
        if not self.text.startswith(wanted, self.at):
            self.refuse()
        self.at += len(wanted)

    def whole_text(self):
        value = self.value(DEEPEST)
        self.space()
        if self.at != len(self.text):
            self.refuse()
        return value

    def value(self, depth):
        self.space()
        first = self.text[self.at : self.at + 1]
        if first == "{":
            return self.object(depth)
        if first == "[":
            return self.array(depth)
        if first == '"':
            return self.string()
        for word, value in self.WORDS.items():
            if self.text.startswith(word, self.at):
                self.at += len(word)
                return value
        return self.number()

    def number(self):
        match = self.NUMBER.match(self.text, self.at)
        if not match:
            self.refuse()
        self.at = match.end()
        digits = match.group()
        if match.group(2) or match.group(3) or digits == "-0":
            return self.fraction(digits)
        value = int(digits) if len(digits) < 400 else None
        if value is None or not -(2**63) <= value < 2**63:
            return self.fraction(digits)
        return value

    def fraction(self, digits):
        if float(digits) in (float("inf"), float("-inf")):
            self.refuse()
        return Fraction

    def string(self):
        self.skip('"')
        parts = []
        while True:
            match = self.PLAIN.match(self.text, self.at)
            parts.append(match.group())
            self.at = match.end()
            following = self.text[self.at : self.at + 1]
            if following == '"':
                self.at += 1
                return "".join(parts)
            if following != "\\":
                self.refuse()
            self.at += 1
            parts.append(self.escaped())

    def escaped(self):
        letter = self.text[self.at : self.at + 1]
        self.at += 1
        if letter in self.ESCAPES:
            return self.ESCAPES[letter]
        if letter != "u":
            self.refuse()
        unit = self.unit()
        if 0xD800 <= unit < 0xDC00:
            self.skip("\\u")
            low = self.unit()
            if not 0xDC00 <= low < 0xE000:
                self.refuse()
            unit = 0x10000 + ((unit - 0xD800) << 10) + (low - 0xDC00)
        elif 0xDC00 <= unit < 0xE000:
            self.refuse()
        return chr(unit)

    def unit(self):
        digits = self.text[self.at : self.at + 4]
        if not re.fullmatch("[0-9a-fA-F]{4}", digits):
            self.refuse()
        self.at += 4
        return int(digits, 16)

    def array(self, depth):
        items = []
        for _ in self.items("[", "]", depth):
            items.append(self.value(depth - 1))
        return items

    def object(self, depth):
        members = {}
        for _ in self.items("{", "}", depth):
            self.space()
            name = self.string()
            self.space()
            self.skip(":")
            members[name] = self.value(depth - 1)
        return members

    def items(self, opening, closing, depth):
        if depth == 0:
            self.refuse()
        self.skip(opening)
        self.space()
        if self.text.startswith(closing, self.at):
            self.at += 1
            return
        while True:
            yield
            self.space()
            if self.text.startswith(closing, self.at):
                self.at += 1
                return
            self.skip(",")


def tree_of(text):
    if len(text) > LONGEST:
        raise Fault(1, "TooLong")
    tree = Parser(text).whole_text()
    if has_fraction(tree):
        raise Fault(3, "NotWhole")
    return tree


def has_fraction(tree):
    if isinstance(tree, dict):
        return any(map(has_fraction, tree.values()))
    if isinstance(tree, list):
        return any(map(has_fraction, tree))
    return tree is Fraction


def is_number(value):
    return isinstance(value, int) and not isinstance(value, bool)


def are_triples(value):
    return isinstance(value, list) and all(map(is_triple, value))


def is_triple(value):
    return isinstance(value, list) and len(value) == 3 and all(map(is_number, value))


def are_texts(value):
    return isinstance(value, list) and all(isinstance(item, str) for item in value)


def print_tree(tree):
    return json.dumps(tree, ensure_ascii=False, separators=(",", ":"), sort_keys=True)
