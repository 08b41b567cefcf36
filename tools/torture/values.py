"""JSON texts: which text spells which value (RFC 8259, and what is asked beside it), and a value's compact text.

A value is None, a truth, a Number, a str, a list, or a dict of its members in their order.
"""

import enum
import re

# How many arrays and objects may stand within one another.
MAX_OPEN = 128


class Fault(enum.IntEnum):
    """What is refused, by its number; docs/FAULTS.md has the texts."""

    NO_HEADER = 1
    NOT_UTF8 = 2
    SYNTAX = 3
    TOO_DEEP = 4
    REPEATED_NAME = 5
    NOT_CITYJSON = 6
    VERSION = 7
    NO_TRANSFORM = 8
    DECIMAL = 9
    SCALE_NOT_POSITIVE = 10
    SCALE_DIFFERS = 12
    SYSTEM_DIFFERS = 13
    OFF_GRID = 14
    SHIFT_RANGE = 15
    EXTENSION_CLASH = 16
    TEMPLATES_DIFFER = 17
    NOT_A_FEATURE = 18
    VERTEX_SHAPE = 19
    VERTEX_NOT_WHOLE = 20
    VERTEX_RANGE = 21
    READ = 24
    WRITE = 25
    MEMORY = 26
    NO_THREAD = 27
    TOO_MANY_TILES = 29
    CHILD_MISSING = 30
    ORPHAN = 31
    BOUNDARY_INDEX = 32


class Refused(Exception):
    """A text or a value that is refused."""

    def __init__(self, fault):
        super().__init__(fault.name)
        self.fault = fault


class Number(str):
    """A number, as it is written."""

    __slots__ = ()


WHITE = re.compile(r"[ \t\n\r]*")
NUMBER = re.compile(r"-?(?:0|[1-9][0-9]*)(?:\.[0-9]+)?(?:[eE][+-]?[0-9]+)?")
PLAIN = re.compile(r'[^"\\\x00-\x1f]*')
ESCAPE = re.compile(
    r'\\(?:(?P<letter>["\\/bfnrt])'
    r"|u(?P<high>[dD][89abAB][0-9a-fA-F]{2})\\u(?P<low>[dD][c-fC-F][0-9a-fA-F]{2})"
    r"|u(?P<unit>(?![dD][89a-fA-F])[0-9a-fA-F]{4}))"
)
LETTERS = {"b": "\b", "f": "\f", "n": "\n", "r": "\r", "t": "\t"}
WORDS = {"null": None, "true": True, "false": False}

# A string of any text, JSON or not: it ends at its quotation mark, or with the text.
ANY_STRING = re.compile(rb'"(?:[^"\\]|\\.)*(?:"|\\?\Z)', re.DOTALL)
BRACKETS = re.compile(rb"[][{}]")


def is_deep(text):
    """Whether at some place more brackets are open than may be; those in strings do not count."""
    depth = 0
    for bracket in BRACKETS.findall(ANY_STRING.sub(b"", text)):
        depth += 1 if bracket in b"[{" else -1
        if depth > MAX_OPEN:
            return True
    return False


def read(text):
    """The value that some bytes spell."""
    try:
        characters = text.decode("utf-8")
    except UnicodeDecodeError:
        raise Refused(Fault.NOT_UTF8) from None
    if is_deep(text):
        raise Refused(Fault.TOO_DEEP)
    reader = Reader(characters)
    value = reader.whole()
    if reader.repeats:
        raise Refused(Fault.REPEATED_NAME)
    return value


class Reader:
    """Takes the values of a text from a place on, and remembers whether an object repeated a name."""

    def __init__(self, text):
        self.text = text
        self.at = 0
        self.repeats = False

    def whole(self):
        value = self.spaced()
        if self.at != len(self.text):
            raise Refused(Fault.SYNTAX)
        return value

    def skip_white(self):
        self.at = WHITE.match(self.text, self.at).end()

    def takes(self, mark):
        """Whether this mark stands here; then it is taken."""
        found = self.text.startswith(mark, self.at)
        self.at += len(mark) if found else 0
        return found

    def needs(self, mark):
        if not self.takes(mark):
            raise Refused(Fault.SYNTAX)

    def spaced(self):
        self.skip_white()
        value = self.value()
        self.skip_white()
        return value

    def value(self):
        if self.takes("["):
            return self.items()
        if self.takes("{"):
            return self.members()
        if self.takes('"'):
            return self.characters()
        for word, value in WORDS.items():
            if self.takes(word):
                return value
        number = NUMBER.match(self.text, self.at)
        if not number:
            raise Refused(Fault.SYNTAX)
        self.at = number.end()
        return Number(number.group())

    def items(self):
        self.skip_white()
        if self.takes("]"):
            return []
        items = [self.spaced()]
        while not self.takes("]"):
            self.needs(",")
            items.append(self.spaced())
        return items

    def members(self):
        members = {}
        self.skip_white()
        if self.takes("}"):
            return members
        self.member(members)
        while not self.takes("}"):
            self.needs(",")
            self.member(members)
        return members

    def member(self, members):
        self.skip_white()
        self.needs('"')
        name = self.characters()
        self.skip_white()
        self.needs(":")
        value = self.spaced()
        self.repeats = self.repeats or name in members
        members[name] = value

    def characters(self):
        """What a string spells, whose first quotation mark was taken."""
        parts = []
        while True:
            run = PLAIN.match(self.text, self.at)
            parts.append(run.group())
            self.at = run.end()
            if self.takes('"'):
                return "".join(parts)
            escape = ESCAPE.match(self.text, self.at)
            if not escape:
                raise Refused(Fault.SYNTAX)
            parts.append(character(escape))
            self.at = escape.end()


def character(escape):
    """The character that an escape stands for."""
    if escape["letter"]:
        return LETTERS.get(escape["letter"], escape["letter"])
    if escape["unit"]:
        return chr(int(escape["unit"], 16))
    high, low = int(escape["high"], 16), int(escape["low"], 16)
    return chr(0x10000 + (high - 0xD800) * 0x400 + (low - 0xDC00))


SHORT = {'"': '\\"', "\\": "\\\\", "\b": "\\b", "\f": "\\f", "\n": "\\n", "\r": "\\r", "\t": "\\t"}
ESCAPED = re.compile(r'["\\\x00-\x1f]')


def quoted(text):
    return '"%s"' % ESCAPED.sub(lambda found: SHORT.get(found.group()) or "\\u%04x" % ord(found.group()), text)


def compact(value):
    """The one text that is written for a value."""
    if isinstance(value, Number):
        return str(value)
    if isinstance(value, str):
        return quoted(value)
    if isinstance(value, list):
        return "[%s]" % ",".join(map(compact, value))
    if isinstance(value, dict):
        return "{%s}" % ",".join("%s:%s" % (quoted(name), compact(member)) for name, member in value.items())
    return {None: "null", True: "true", False: "false"}[value]
