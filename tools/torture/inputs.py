"""Random words, streams and documents, right ones and ones at fault, each case drawn from its own seed."""

import dataclasses
import os
import random
import sys

import model
from values import Number

sys.path.insert(0, os.path.join(model.ROOT, "bench"))
from streams import LETTERS, NUMBERS, spelled  # noqa: E402

UNIT = 10**model.PLACES
TYPES = ("Building", "Bridge", "Road", "BuildingPart", "+Straße", 'a"b', "CityObjectGroup")
NAMES = ("a", "b", "NL.IMBAG.Pand.0503100000012345", "", "größe", "say \"so\"", "back\\slash", "\U0001f3e0", "\x01\x7f", "id")
SCALES = (UNIT // 1000, UNIT // 100, UNIT, UNIT // 10**6, UNIT // 4000, 1, 123456 * UNIT // 1000)
DEPTHS = (1, 2, 5, 20, 120, 123, 124, 125, 126, 127, 128, 129)
# texts with escapes that a compact text has, too, so that a line with them may stay where it was read
ESCAPED = ("a\nb", "\t", 'say "so"', "back\\slash", "\b\f", "\n\r")
# parts of names of one print by all their bytes, whichever of each two is taken, where all have as many: found by a search
# for two words each after which FxHash has the same number
OF_ONE_PRINT = (
    ("Z BH uRJNCQtw5Jc", "jxa4L3ASW97rdD1l"), ("867p10ijATlF_ gy", "Unrck9Escg4dr3Bj"), ("k_jl7HvDrKbr_eyz", "NosZFcNMSXi3Ju4K"),
    ("llm157LuB7h3e95r", "t4vg3XrrXpQHvvzs"), ("t0nQX4iVoC4yBZEa", "dG8p87GJjuCldQ73"), ("eVhS3riDd8WH65P0", "EqII2gRzpLcxOXMm"),
    ("OzAXxv0A06y1S84u", "eYlZJmeCkr_v1gl8"), ("UGcakOmf6ZlqFT 1", "jPb4C3mrFp8YZ7xx"), ("wyq4e5IutJ2Teyc3", "wv3L0fKSejg G5LF"),
    ("nA8ARngaYEPLvN02", "CSA4aiHNtdDv64bt"), ("4wbXZaxZ78THktPK", "VObai_NQxWE1VI2W"), ("D9kIwCv ZLq7kv6f", "SPwvcc1M2iD0Q1se"),
)


@dataclasses.dataclass
class Case:
    """Words after the program's name, what standard input gives, and files by their names."""

    words: list
    given: model.Given
    files: dict


class Pairs(list):
    """The members of an object as pairs, so that names may repeat."""


class Spelling:
    """Writes values: in the compact spelling, with a blank after each comma and colon, or in any."""

    def __init__(self, rng):
        self.rng = rng
        self.way = rng.choice(("compact", "compact", "spaced", "loose"))

    def white(self):
        return self.rng.choice(("", "", "", " ", "\t ", "\r", "  ")) if self.way == "loose" else ""

    def mark(self, mark):
        return mark + " " if self.way == "spaced" else self.white() + mark + self.white()

    def text(self, text):
        return spelled(self.rng, text) if self.way == "loose" else model.compact(text)

    def value(self, value):
        if isinstance(value, (dict, Pairs)):
            members = list(value.items() if isinstance(value, dict) else value)
            if self.way == "loose":
                self.rng.shuffle(members)
            written = [self.text(name) + self.mark(":") + self.value(each) for name, each in members]
            return "{" + self.white() + self.mark(",").join(written) + self.white() + "}"
        if isinstance(value, list):
            return "[" + self.white() + self.mark(",").join(map(self.value, value)) + self.white() + "]"
        return self.text(value) if model.is_text(value) else model.compact(value)

    def line(self, value):
        return (self.white() + self.value(value) + self.white()).encode()


# Values of any kind.


def number(rng):
    return Number(rng.choice(NUMBERS + ("1e2", "-0.0", "9" * 20, str(rng.randrange(-9999, 9999)), "%.3f" % rng.random())))


def scalar(rng):
    return rng.choice((
        lambda: None, lambda: rng.random() < 0.5, lambda: number(rng), lambda: rng.choice(LETTERS + NAMES + ESCAPED),
    ))()


def of_one_print(each):
    return "".join(pair[each >> at & 1] for at, pair in enumerate(OF_ONE_PRINT)) + "oneprint"


def names(rng, count):
    """Different names: some alike at both ends, some of one print, some with escapes."""
    ways = ("%d", "attribute_of_a_building_%d_in_metres", "é%d", 'quoted"%d', "%d\n", None)
    way = rng.choice(ways)
    drawn = [way % each if way else of_one_print(each) for each in range(count)]
    rng.shuffle(drawn)
    return drawn


def anything(rng, levels=3):
    """A value of any kind; now and then a wide one or a deep one."""
    if levels == 0 or rng.random() < 0.4:
        return scalar(rng)
    count = rng.choice((0, 1, 2, 3, 17)) if rng.random() < 0.1 else rng.randrange(4)
    if rng.random() < 0.5:
        return [anything(rng, levels - 1) for _ in range(count)]
    return {name: anything(rng, levels - 1) for name in names(rng, count)}


def deep(rng):
    """Arrays and objects within one another."""
    value = scalar(rng)
    for _ in range(rng.choice(DEPTHS)):
        value = [value] if rng.random() < 0.7 else {"n": value}
    return value


def attributes(rng):
    count = rng.choice((0, 0, 1, 2)) if rng.random() < 0.95 else rng.choice((6, 7, 16, 17, 40, 64, 65))
    drawn = {name: anything(rng, 2) if count < 3 else scalar(rng) for name in names(rng, count)}
    if rng.random() < 0.01:
        drawn["deep"] = deep(rng)
    if rng.random() < 0.0003:
        drawn["long"] = rng.choice(("a", "é", "\n")) * rng.choice((2**16 - 300, 2**16, 70000))
    return drawn


def decimal(rng, units):
    """A number of so many units, in one of its spellings."""
    sign = "-" if units < 0 else ""
    digits = str(abs(units))
    way = rng.randrange(4)
    if way == 0:
        return Number("%s%s%s%d" % (sign, digits, rng.choice(("e-", "E-")), model.PLACES))
    padded = digits.rjust(model.PLACES + 1, "0")
    whole, fraction = padded[:-model.PLACES], padded[-model.PLACES:].rstrip("0")
    fraction += "0" * rng.choice((0, 0, 1, 30))
    written = sign + whole + ("." + fraction if fraction else "")
    return Number(written + rng.choice(("", "", "e0", "E+00", "e-0")) if way == 1 else written)


# Headers.


class World:
    """What the tiles of one case share."""

    def __init__(self, rng):
        self.rng = rng
        self.scale = [rng.choice(SCALES[:3] if rng.random() < 0.8 else SCALES) for _ in range(3)]
        self.base = [rng.choice((0, 0, 84710100 * (UNIT // 1000), -5 * UNIT)) for _ in range(3)]
        self.system = rng.choice((None, None, "https://www.opengis.net/def/crs/EPSG/0/7415"))
        self.templates = rng.choice((None, None, None, {"templates": [], "vertices-templates": [[Number("1.0")] * 3]}))
        self.appearance = rng.choice((
            None, None, {"materials": [{"name": "wand"}]}, {"textures": [{"image": name} for name in names(rng, 40)]},
        ))
        self.extensions = {name: anything(rng, 2) for name in ("Noise", "Énergie", "x")}
        self.is_strict = rng.random() < 0.8

    def odd(self, chance):
        """Whether something odd is done here, in a world that is not strict."""
        return not self.is_strict and self.rng.random() < chance

    def translation(self):
        rng = self.rng
        away = [rng.choice((0, 0, 1, -1, 1500, rng.randrange(-10**6, 10**6))) for _ in range(3)]
        if self.odd(0.1):
            away[rng.randrange(3)] = rng.choice((1, -1)) * (model.MAX_STEPS + rng.choice((-1, 0, 1)))
        drawn = [start + k * step for start, k, step in zip(self.base, away, self.scale)]
        if self.odd(0.1):
            drawn[rng.randrange(3)] += self.scale[0] // 2 or 1
        return [decimal(rng, units if abs(units) < 10**36 else 0) for units in drawn]

    def header(self):
        rng = self.rng
        scale = [each * 10 for each in self.scale] if self.odd(0.1) else self.scale
        drawn = {
            "type": "CityJSON",
            "version": "2.0",
            "transform": {"scale": [decimal(rng, each) for each in scale], "translate": self.translation()},
        }
        self.add_shared(drawn)
        if rng.random() < 0.7:
            drawn.update({"CityObjects": {}, "vertices": []})
        if rng.random() < 0.1:
            drawn[rng.choice(("other", *ESCAPED))] = anything(rng)
        return drawn

    def add_shared(self, drawn):
        rng = self.rng
        metadata = {} if self.system is None or self.odd(0.1) else {"referenceSystem": self.system}
        if rng.random() < 0.2:
            metadata.update({"geographicalExtent": [number(rng)] * 6, "title": rng.choice(LETTERS)})
        if metadata or rng.random() < 0.1:
            drawn["metadata"] = metadata
        if rng.random() < 0.3:
            some = rng.sample(sorted(self.extensions), rng.randrange(4))
            drawn["extensions"] = {name: anything(rng, 1) if self.odd(0.1) else self.extensions[name] for name in some}
        if self.templates is not None and not self.odd(0.1):
            drawn["geometry-templates"] = self.templates
        if self.appearance is not None and not self.odd(0.1):
            drawn["appearance"] = self.appearance


def number_elsewhere(rng):
    """A number that no transform may have, or that nearly is one."""
    return Number(rng.choice((
        "1e12", "-1e12", "999999999999.9", "1e-24", "1e-25", "0." + "0" * 24 + "1", "0e999", "1e999999999999999999999",
        "0." + "0" * 500 + "1", "1" + "0" * 40 + "e-40", "-0.0", "1e+11", "1e11",
    )))


def spoil_header(rng, drawn):
    """One thing about a header is another, which may or may not put it at fault."""
    transform = drawn["transform"]
    axis = rng.randrange(3)
    which = rng.choice(("scale", "translate"))
    rng.choice((
        lambda: drawn.update(type=rng.choice(("CityJSONFeature", "cityjson", 1, None))),
        lambda: drawn.pop(rng.choice(("type", "version", "transform"))),
        lambda: drawn.update(version=rng.choice(("1.1", "2.0.1", Number("2.0"), "", None))),
        lambda: drawn.update({rng.choice(("metadata", "extensions", "CityObjects", "vertices", "transform")): anything(rng, 1)}),
        lambda: transform.pop(which),
        lambda: transform.update({which: anything(rng, 1)}),
        lambda: transform[which].append(Number("1")),
        lambda: transform[which].pop(),
        lambda: transform[which].__setitem__(axis, scalar(rng)),
        lambda: transform[which].__setitem__(axis, number_elsewhere(rng)),
        lambda: transform[which].__setitem__(axis, number_elsewhere(rng)),
        lambda: transform["scale"].__setitem__(axis, Number(rng.choice(("0", "-0.001", "0.0e5", "-1e-24")))),
        lambda: drawn.update(metadata={"referenceSystem": anything(rng, 1)}),
    ))()
    return drawn


# Features.


def component(rng):
    if rng.random() < 0.9:
        return rng.randrange(-50, 3000)
    return rng.choice((0, 1, -1)) * (model.MAX_STEPS - rng.choice((0, 0, 1, 1500, 10**6)))


def vertices(rng):
    count = rng.choice((0, 1, 1, 2, 3, 8, 70) if rng.random() < 0.2 else (0, 1, 2))
    drawn = [[Number(component(rng)) for _ in range(3)] for _ in range(count)]
    if drawn and rng.random() < 0.1:
        rng.choice(drawn)[rng.randrange(3)] = Number("-0")
    return drawn


def city_object(rng):
    drawn = {"type": rng.choice(TYPES), "attributes": attributes(rng)}
    if rng.random() < 0.05:
        drawn["type"] = anything(rng, 1)
    if rng.random() < 0.05:
        drawn.pop("type")
    return drawn if rng.random() < 0.98 else anything(rng, 1)


def feature(rng):
    own = rng.choice(NAMES)
    own_and_others = [*dict.fromkeys((own, *rng.sample(NAMES, rng.choice((0, 0, 1, 3)))))]
    rng.shuffle(own_and_others)
    objects = {name: city_object(rng) for name in own_and_others}
    if rng.random() < 0.05:
        objects.pop(own)
    drawn = {"type": "CityJSONFeature", "id": own, "CityObjects": objects, "vertices": vertices(rng)}
    if rng.random() < 0.2:
        drawn[rng.choice(("other", "appearance", "vertice", "vertices "))] = anything(rng)
    if rng.random() < 0.3:
        members = list(drawn.items())
        rng.shuffle(members)
        drawn = dict(members)
    return drawn


def bad_component(rng):
    return rng.choice((Number("1.0"), Number("1e2"), Number("1E0"), Number("9007199254740992"), Number("-9007199254740992"),
                       Number("9" * 30), Number("0.5"), "1", None, [], Number("-0"), Number("-0.0"), True))


def spoil_vertex(rng, drawn):
    if not drawn:
        drawn.append([Number("1")] * 3)
    one = rng.choice(drawn)
    rng.choice((
        lambda: one.__setitem__(rng.randrange(len(one)), bad_component(rng)),
        lambda: one.__setitem__(rng.randrange(len(one)), bad_component(rng)),
        one.pop,
        lambda: one.append(Number("1")),
        lambda: drawn.insert(rng.randrange(len(drawn) + 1), anything(rng, 1)),
    ))()


def spoil_feature(rng, drawn):
    """One thing about a feature is another, which may or may not put it at fault."""
    rng.choice((
        lambda: drawn.update(type=rng.choice(("CityJSON", "", Number("1"), None))),
        lambda: drawn.pop(rng.choice(("type", "id", "CityObjects", "vertices"))),
        lambda: drawn.update({rng.choice(("id", "CityObjects", "vertices")): anything(rng, 1)}),
        lambda: spoil_vertex(rng, drawn["vertices"]),
        lambda: spoil_vertex(rng, drawn["vertices"]),
        lambda: spoil_vertex(rng, drawn["vertices"]),
        lambda: drawn.update(deep=deep(rng)),
    ))()
    return drawn


def with_repeated_name(rng, value):
    """The value with some object that has a name twice, where it has an object with members."""
    if isinstance(value, dict) and value and rng.random() < 0.5:
        members = Pairs(value.items())
        members.insert(rng.randrange(len(members) + 1), (rng.choice(list(value)), anything(rng, 1)))
        return members
    if isinstance(value, dict) and value:
        name = rng.choice(list(value))
        return {**value, name: with_repeated_name(rng, value[name])}
    if isinstance(value, list) and value:
        at = rng.randrange(len(value))
        return value[:at] + [with_repeated_name(rng, value[at])] + value[at + 1:]
    return value


# Documents.


def leaf(rng, count):
    return Number(rng.randrange(count))


def boundaries(rng, count, levels=3):
    if count == 0 or rng.random() < 0.05:
        return []
    items = rng.randrange(1, 4)
    if levels == 0 or rng.random() < 0.3:
        return [leaf(rng, count) for _ in range(items)]
    return [boundaries(rng, count, levels - 1) for _ in range(items)]


def geometry(rng, count):
    drawn = {"type": "MultiSurface", "lod": "1.2", "boundaries": boundaries(rng, count)}
    if rng.random() < 0.05:
        drawn.pop("boundaries")
    return drawn


def address(rng, count):
    if rng.random() < 0.1:
        return anything(rng, 2)
    located = [{"location": geometry(rng, count)} for _ in range(2)]
    return [rng.choice((*located, {"city": "Delft"}, None)) for _ in range(rng.randrange(3))]


def family(rng, count):
    """Some city objects of which one begins a feature."""
    own = [rng.choice(NAMES) + str(rng.randrange(1000)) for _ in range(rng.choice((1, 1, 2, 4)))]
    objects = {name: city_object(rng) for name in own}
    objects = {name: each if isinstance(each, dict) else {} for name, each in objects.items()}
    for at, name in enumerate(own[1:], 1):
        parent = objects[rng.choice(own[:at])]
        parent.setdefault("children", []).append(name)
        objects[name]["parents"] = [own[0]]
    for each in objects.values():
        if rng.random() < 0.3:
            each["address"] = address(rng, count)
        if rng.random() < 0.7:
            each["geometry"] = [geometry(rng, count) for _ in range(rng.randrange(3))]
    return objects


def shared(rng, count):
    """City objects of which several name the same children: a chain, or one long child of many, or any of all."""
    own = ["%s %d" % (rng.choice(NAMES), each) for each in range(rng.choice((2, 3, 8, 20)))]
    objects = {name: {"type": "Building"} for name in own}
    way = rng.randrange(3)
    for at, name in enumerate(own):
        after = own[at + 1:]
        if after and (way < 2 or rng.random() < 0.7):
            some = (after[:1], own[-1:], rng.sample(after, rng.randrange(1, len(after) + 1)))[way]
            objects[name]["children"] = rng.sample(some, len(some))
            if rng.random() < 0.5:
                objects[name]["geometry"] = [geometry(rng, count)]
    objects[own[-1]].update({"attributes": {"text": "a" * rng.choice((0, 40, 400))}, "geometry": [geometry(rng, count)]})
    for name in own[1:]:
        if rng.random() < 0.8:
            objects[name]["parents"] = own[:1]
    return objects


def small(rng):
    """Many city objects with little in them."""
    return {"%d" % each: rng.choice(({}, {"type": "Road"})) for each in range(rng.choice((20, 70, 300)))}


def document(rng, world):
    drawn = world.header()
    points = vertices(rng)
    objects = {}
    for _ in range(rng.choice((0, 1, 1, 2, 3))):
        objects.update(family(rng, len(points)))
    if rng.random() < 0.2:
        objects.update(shared(rng, len(points)))
    if rng.random() < 0.03:
        objects.update(small(rng))
    members = list(objects.items())
    rng.shuffle(members)
    drawn.update({"CityObjects": dict(members), "vertices": points})
    return drawn


def spoil_document(rng, drawn):
    """One thing about a document is another, which may or may not put it at fault."""
    objects = drawn["CityObjects"]
    one = rng.choice(list(objects.values())) if objects else {}
    wrong = [Number(text) for text in (str(len(drawn["vertices"])), "-0", "1.0", "0e0", "-1", "9" * 25)] + ["0", None, {}]
    rng.choice((
        lambda: spoil_header(rng, drawn),
        lambda: spoil_vertex(rng, drawn["vertices"]),
        lambda: one.update(children=[rng.choice(list(objects) + ["none"])]),
        lambda: one.update(children=[rng.choice(list(objects) + ["none"])]),
        lambda: one.pop("children", None),
        lambda: one.update(parents=rng.choice(([], ["none"], list(objects), None, [Number("1")]))),
        lambda: one.update(children=anything(rng, 1)),
        lambda: one.update(geometry=anything(rng, 2)),
        lambda: one.update(geometry=[{"boundaries": [[rng.choice(wrong)]]}]),
        lambda: one.update(geometry=[{"boundaries": rng.choice(wrong)}]),
        lambda: one.update(address=[{"location": {"boundaries": [rng.choice(wrong)]}}]),
        lambda: one.update(address=[{"location": anything(rng, 1)}, anything(rng, 1)]),
        lambda: objects.update({"other": anything(rng, 1)}),
    ))()
    return drawn


# Lines, tiles and words.

BYTES = [bytes([code]) for code in b'{}[],:"\\/ 0-9eE.+tfnu\x00\x1f\x7f\t\r']
WRONG_TEXTS = (
    b"\xff", b"\xc0\x80", b"\xed\xa0\x80", b"\xf4\x90\x80\x80", b"\xe2\x82", b"\xf0\x9f\x8f", b"\xef\xbb\xbf",
    b"[" * 129, b'"\\ud83d"', b"\\", b'"', b"01", b"1.", b",,", b"\\u12", b"nul", b"\n", b"\r", b"\xe2\x80\xa8",
)


def torn(rng, line):
    """The line with some bytes other than they were."""
    at = rng.randrange(len(line) + 1)
    end = rng.choice((at, at + 1, at + 1, rng.randrange(at, len(line) + 1)))
    put = rng.choice((b"", b"", rng.choice(BYTES), rng.choice(BYTES), rng.choice(WRONG_TEXTS)))
    return line[:at] if rng.random() < 0.1 else line[:at] + put + line[end:]


def spoilt(rng, drawn, spoil):
    """The line of a value, now and then at fault."""
    kind = rng.random()
    if kind < 0.3:
        drawn = spoil(rng, drawn)
    elif kind < 0.4:
        drawn = with_repeated_name(rng, drawn)
    line = Spelling(rng).line(drawn)
    return torn(rng, line) if kind > 0.7 else line


def ended(rng, line):
    """A line with its newline, and now and then blank ones before it."""
    blank = rng.choice((b"\n", b" \t\r\n", b"\r\n", b"\n" * 70, b" " * 200 + b"\n \n")) if rng.random() < 0.1 else b""
    return blank + line + (b"\r\n" if rng.random() < 0.1 else b"\n")


def tile(rng, world, faults):
    """A tile, of whose lines each is at fault with this chance."""
    is_cut = rng.random() < 0.25
    head = document(rng, world) if is_cut else world.header()
    spoil = spoil_document if is_cut else spoil_header
    lines = [spoilt(rng, head, spoil) if rng.random() < faults else Spelling(rng).line(head)]
    for _ in range(rng.choice((0, 1, 2, 3, 3, 4, 9))):
        drawn = feature(rng)
        lines.append(spoilt(rng, drawn, spoil_feature) if rng.random() < faults else Spelling(rng).line(drawn))
    if rng.random() < 0.05 and len(lines) > 1:
        lines.insert(rng.randrange(1, len(lines)), rng.choice(lines))
    whole = b"".join(ended(rng, line) for line in lines)
    return whole[:-1] if rng.random() < 0.2 else whole


def choosing(rng):
    """Options that choose features."""
    words = []
    if rng.random() < 0.3:
        some = rng.sample(TYPES, rng.choice((1, 2, 3)))
        words.append("--cotype=" + ",".join(some if rng.random() < 0.97 else some + [""]))
    if rng.random() < 0.4:
        corners = [rng.choice((rng.randrange(-60, 3100), component(rng))) for _ in range(4)]
        least = [min(corners[axis], corners[axis + 2]) for axis in (0, 1)]
        most = [max(corners[axis], corners[axis + 2]) for axis in (0, 1)]
        words.append("--bbox=" + ",".join(map(str, least + most)))
    if rng.random() < 0.03:
        words = ["--bbox=" + rng.choice((
            "", "1,2,3", "1,1,1,1,", "+1,0,1,1", "2,0,1,1", "-05,-0,10,0010", "1.0,1,1,1", "0,0,9007199254740992,1",
            "0,0,00000000009007199254740991,1", " 0,0,1,1", "0,1,1,0", "\u0661,0,1,1",
        ))]
    if rng.random() < 0.2:
        words.append("--exclude")
    return words


def filter_case(rng):
    world = World(rng)
    return Case(["filter", *choosing(rng)], model.Given(tile(rng, world, rng.choice((0, 0.1, 0.4)))), {})


def cat_case(rng):
    drawn = document(rng, World(rng))
    line = spoilt(rng, drawn, spoil_document) if rng.random() < 0.5 else Spelling(rng).line(drawn)
    if rng.random() < 0.3:
        line = line.replace(b",", b",\n")
    if rng.random() < 0.02:
        line = rng.choice((b"", b" \r\n\t", b"\n\n"))
    return Case(["cat"], model.Given(ended(rng, line)), {})


def merge_case(rng):
    world = World(rng)
    faults = rng.choice((0, 0, 0.05, 0.2))
    files = {"t%d" % at: model.Given(tile(rng, world, faults)) for at in range(rng.choice((1, 2, 2, 3, 4, 6)))}
    words = list(files)
    if rng.random() < 0.1:
        words.insert(rng.randrange(len(words) + 1), rng.choice(words))
    if rng.random() < 0.02:
        files[rng.choice(words)] = rng.choice((model.MISSING, model.FOLDER, model.Given(b"")))
    if rng.random() < 0.005:
        # in turn, since of so many equal tiles there are too many orders to follow
        words = [rng.choice(words) for _ in range(rng.choice((64, 65)))] + ["--in-turn"]
    flags = [option for option in ("--in-turn", "--least") if rng.random() < 0.4 and option not in words]
    for option in choosing(rng) + flags:
        words.insert(rng.randrange(len(words) + 1), option)
    return Case(["merge", *words], model.Given(b""), files)


def case(seed, number):
    """Case number so much of a seed."""
    rng = random.Random("%d %d" % (seed, number))
    return rng.choice((filter_case, filter_case, merge_case, merge_case, cat_case))(rng)
