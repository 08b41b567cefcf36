"""What `filter`, `merge` and `cat` answer, by docs/DEFINITIONS.md and docs/FAULTS.md, and by nothing of the program.

`answer` goes from the words, standard input and the files to the status, what is said on standard error, and what is
written: one stream, or with threads any in which each tile keeps its own order.
"""

import dataclasses
import os
import re
import typing

from outputs import Own, Stream
from values import Fault, Number, Refused, compact, read

ROOT = os.path.dirname(os.path.dirname(os.path.dirname(os.path.abspath(__file__))))
MAX_TILES = 64
MAX_STEPS = 2**53 - 1
# A unit is 10^-24, and a decimal has fewer than 10^36 of them.
PLACES, MAX_DIGITS = 24, 36


def texts_of_faults():
    """The text of each fault by its number, from the table of docs/FAULTS.md."""
    with open(os.path.join(ROOT, "docs", "FAULTS.md"), encoding="utf-8") as document:
        rows = re.findall(r"^\| (\d+) \| `([^`]*)`", document.read(), re.MULTILINE)
    return {int(number): text for number, text in rows}


TEXTS = texts_of_faults()


def fault_line(fault, tile=0, line=0):
    """What is said of a fault; a tile or a line that is 0 is left out."""
    place = (" tile %d" % tile if tile else "") + (" line %d" % line if line else "")
    return "citymerge:%s%s %s\n" % (place, ":" if place else "", TEXTS[fault])


@dataclasses.dataclass
class Answer:
    """A status, what is said, and the stream that is written, or None where nothing is."""

    status: int
    said: str
    stream: typing.Optional[Stream] = None


@dataclasses.dataclass
class Given:
    """What a reader gives: bytes, and then its end or a failure."""

    data: bytes
    fails: bool = False


# What stands in the place of the bytes of a file that is none: nothing there, or a folder.
MISSING = None
FOLDER = Given(b"", fails=True)


# Numbers, grids and vertices.

PARTS = re.compile(r"(-?)([0-9]+)(?:\.([0-9]+))?(?:[eE]([+-]?)0*([0-9]+))?")


def units(number):
    """A number in units, which is refused where they are not whole or too many."""
    sign, whole, fraction, exponent_sign, exponent = PARTS.fullmatch(number).groups(default="")
    digits = (whole + fraction).lstrip("0")
    kept = digits.rstrip("0")
    if not kept:
        return 0
    if len(exponent) > 20:
        raise Refused(Fault.DECIMAL)
    power = int(exponent_sign + (exponent or "0")) - len(fraction) + len(digits) - len(kept) + PLACES
    if power < 0 or len(kept) + power > MAX_DIGITS:
        raise Refused(Fault.DECIMAL)
    return int(sign + kept) * 10**power


def is_three_numbers(value):
    return isinstance(value, list) and len(value) == 3 and all(isinstance(item, Number) for item in value)


def steps(number):
    """The steps of a whole number, and more than there may be where it has more."""
    digits = number.lstrip("-0")
    size = int(digits or "0") if len(digits) <= 16 else MAX_STEPS + 1
    return -size if number.startswith("-") else size


def vertex(value):
    if not is_three_numbers(value):
        raise Refused(Fault.VERTEX_SHAPE)
    if any(re.search("[.eE]", number) for number in value):
        raise Refused(Fault.VERTEX_NOT_WHOLE)
    return in_range([steps(number) for number in value])


def in_range(triple):
    if any(abs(component) > MAX_STEPS for component in triple):
        raise Refused(Fault.VERTEX_RANGE)
    return triple


def moved(vertices, shift):
    return [in_range([component + by for component, by in zip(triple, shift)]) for triple in vertices]


# Headers.


@dataclasses.dataclass
class Header:
    """A header's value, and the units of its scale and its translation."""

    value: dict
    scale: list
    translation: list


def member(value, name):
    """The member of a name, and None where there is none or the value is no object."""
    return value.get(name) if isinstance(value, dict) else None


def is_there(value, name):
    return isinstance(value, dict) and name in value


def is_text(value, text=None):
    return isinstance(value, str) and not isinstance(value, Number) and text in (None, value)


def where_there(value, name, kind):
    """Whether the member of a name is of this kind, or is not there."""
    return not is_there(value, name) or isinstance(value[name], kind)


def need_city_json(value):
    kinds = (("metadata", dict), ("extensions", dict), ("CityObjects", dict), ("vertices", list))
    if not is_text(member(value, "type"), "CityJSON") or not all(where_there(value, *kind) for kind in kinds):
        raise Refused(Fault.NOT_CITYJSON)


def taken_header(value):
    """The header that a CityJSON object is, once its version and its transform are looked at."""
    if not is_text(member(value, "version"), "2.0"):
        raise Refused(Fault.VERSION)
    numbers = [member(member(value, "transform"), name) for name in ("scale", "translate")]
    if not all(map(is_three_numbers, numbers)):
        raise Refused(Fault.NO_TRANSFORM)
    scale, translation = [list(map(units, three)) for three in numbers]
    if any(component <= 0 for component in scale):
        raise Refused(Fault.SCALE_NOT_POSITIVE)
    return Header(value, scale, translation)


def header(value):
    need_city_json(value)
    return taken_header(value)


# Documents.


def is_document(value):
    objects, vertices = member(value, "CityObjects"), member(value, "vertices")
    return (isinstance(objects, dict) and bool(objects)) or (isinstance(vertices, list) and bool(vertices))


def are_texts(value):
    return isinstance(value, list) and all(map(is_text, value))


def need_city_objects(objects):
    for each in objects.values():
        names = [each[name] for name in ("parents", "children") if is_there(each, name)]
        if not isinstance(each, dict) or not all(map(are_texts, names)):
            raise Refused(Fault.NOT_CITYJSON)


def reached(objects, name):
    """The names of the objects that are reached from one through children, itself among them."""
    found, open_names = {name}, [name]
    while open_names:
        for child in objects[open_names.pop()].get("children", []):
            if child not in found:
                found.add(child)
                open_names.append(child)
    return found


def boundary_holders(each):
    """The parts of a city object that may have boundaries: its geometries, then the locations of its addresses."""
    address = each.get("address")
    places = [member(item, "location") for item in address] if isinstance(address, list) else []
    return each.get("geometry", []) + places


def need_boundaries(objects, count):
    for each in objects.values():
        geometry = each.get("geometry", [])
        if not isinstance(geometry, list) or not all(isinstance(item, dict) for item in geometry):
            raise Refused(Fault.BOUNDARY_INDEX)
        for holder in boundary_holders(each):
            if is_there(holder, "boundaries") and not is_boundary(holder["boundaries"], count):
                raise Refused(Fault.BOUNDARY_INDEX)


def is_boundary(value, count):
    return isinstance(value, list) and all(is_leaf(item, count) or is_boundary(item, count) for item in value)


def is_leaf(value, count):
    if not isinstance(value, Number) or not re.fullmatch("[0-9]+", value):
        return False
    return len(value) <= len(str(count)) and int(value) < count


class Numbering:
    """New numbers for the vertices of a document, each given at its first use."""

    def __init__(self):
        self.numbers = {}

    def boundary(self, value):
        if isinstance(value, list):
            return list(map(self.boundary, value))
        return Number(self.numbers.setdefault(int(value), len(self.numbers)))

    def holder(self, value):
        """A geometry or a location with its boundaries, if it has some, by the new numbers."""
        if not is_there(value, "boundaries"):
            return value
        return {**value, "boundaries": self.boundary(value["boundaries"])}

    def city_object(self, each):
        new = dict(each)
        if "geometry" in each:
            new["geometry"] = list(map(self.holder, each["geometry"]))
        if isinstance(each.get("address"), list):
            new["address"] = list(map(self.address, each["address"]))
        return new

    def address(self, value):
        if not is_there(value, "location"):
            return value
        return {**value, "location": self.holder(value["location"])}


@dataclasses.dataclass
class Feature:
    """A feature's value, and its vertices."""

    value: dict
    vertices: list


def feature_of(document, vertices, name):
    """The feature that an object without parents begins."""
    objects = document["CityObjects"]
    names = reached(objects, name)
    numbering = Numbering()
    own = {each: numbering.city_object(objects[each]) for each in objects if each in names}
    value = {"type": "CityJSONFeature", "id": name, "CityObjects": own, "vertices": []}
    if "appearance" in document:
        value["appearance"] = document["appearance"]
    return Feature(value, [vertices[number] for number in numbering.numbers])


def need_families(objects, roots):
    children = [child for each in objects.values() for child in each.get("children", [])]
    if any(child not in objects for child in children):
        raise Refused(Fault.CHILD_MISSING)
    if set().union(*(reached(objects, name) for name in roots)) != set(objects):
        raise Refused(Fault.ORPHAN)


def emptied(document):
    """What is left of a document once its features are taken out."""
    left = dict(document)
    for name, empty in (("CityObjects", {}), ("vertices", [])):
        if name in left:
            left[name] = empty
    if "geometry-templates" not in left:
        left.pop("appearance", None)
    return left


def cut(document):
    """The header and the features of a document."""
    need_city_json(document)
    objects = document.get("CityObjects", {})
    need_city_objects(objects)
    taken = taken_header(emptied(document))
    vertices = list(map(vertex, document.get("vertices", [])))
    roots = [name for name, each in objects.items() if not each.get("parents")]
    need_families(objects, roots)
    need_boundaries(objects, len(vertices))
    return taken, [feature_of(document, vertices, name) for name in roots]


# Features of lines, and which are chosen.


def feature(value):
    shape = is_text(member(value, "type"), "CityJSONFeature") and is_text(member(value, "id"))
    if not shape or not is_there(value, "vertices") or not isinstance(member(value, "CityObjects"), dict):
        raise Refused(Fault.NOT_A_FEATURE)
    if not isinstance(value["vertices"], list):
        raise Refused(Fault.NOT_A_FEATURE)
    return Feature(value, list(map(vertex, value["vertices"])))


def moved_feature(one, shift):
    vertices = moved(one.vertices, shift)
    written = [[Number(component) for component in triple] for triple in vertices]
    return Feature({**one.value, "vertices": written}, vertices)


@dataclasses.dataclass
class Choice:
    """The types and the area that are asked for, each None where it is not, and whether they exclude."""

    types: typing.Optional[list] = None
    area: typing.Optional[list] = None
    excludes: bool = False

    def chooses(self, one):
        return (self.has_type(one) and self.meets(one)) != self.excludes

    def has_type(self, one):
        named = member(one.value["CityObjects"], one.value["id"])
        return self.types is None or (is_text(member(named, "type")) and named["type"] in self.types)

    def meets(self, one):
        if self.area is None:
            return True
        if not one.vertices:
            return False
        for axis, (least, most) in enumerate(zip(self.area[:2], self.area[2:])):
            own = [triple[axis] for triple in one.vertices]
            if min(own) > most or max(own) < least:
                return False
        return True


# Tiles.


@dataclasses.dataclass
class Tile:
    """A tile whose header was taken: the header's line, the features that it holds, and what comes after it."""

    header: Header
    line: int
    held: list
    after: list
    broken: typing.Optional[tuple]


def lines_of(given):
    """The lines that are not blank, each with its number, and the line at which the reader failed, or None."""
    parts = list(enumerate(given.data.split(b"\n"), 1))
    broken = parts.pop()[0] if given.fails else None
    return [(number, part) for number, part in parts if part.strip(b" \t\r")], broken


class NoHead(Exception):
    """A tile that has no header: the fault and its line."""

    def __init__(self, fault, line):
        super().__init__(fault.name)
        self.fault = fault
        self.line = line


def tile(given):
    lines, broken = lines_of(given)
    if not lines:
        raise NoHead(Fault.READ, broken) if broken else NoHead(Fault.NO_HEADER, 0)
    line, text = lines[0]
    try:
        value = read(text)
        taken, held = cut(value) if is_document(value) else (header(value), [])
    except Refused as refused:
        raise NoHead(refused.fault, line) from None
    return Tile(taken, line, held, lines[1:], broken)


def texts(one, shift, choice):
    """What a tile gives once its features are moved and chosen."""
    given = []
    line = one.line
    try:
        held = [moved_feature(each, shift) for each in one.held]
        given += [(line, compact(each.value)) for each in held if choice.chooses(each)]
        for line, text in one.after:
            each = moved_feature(feature(read(text)), shift)
            if choice.chooses(each):
                given.append((line, compact(each.value)))
    except Refused as refused:
        return Own(one.line, given, (line, refused.fault))
    return Own(one.line, given, (one.broken, Fault.READ) if one.broken else None)


# Joined headers.


class Misfit(Exception):
    """A tile that does not fit: its place, from 0 on, and the fault."""

    def __init__(self, at, fault):
        super().__init__(fault.name)
        self.at = at
        self.fault = fault


def origin(headers, least):
    """On each axis the place of the header that gives the shared translation."""
    if not least:
        return [0, 0, 0]
    return [min(range(len(headers)), key=lambda at: headers[at].translation[axis]) for axis in range(3)]


def shift_from(base, one):
    """The shift of a tile from the shared translation."""
    differences = [own - other for own, other in zip(one.translation, base)]
    if any(difference % scale for difference, scale in zip(differences, one.scale)):
        raise Refused(Fault.OFF_GRID)
    shift = [difference // scale for difference, scale in zip(differences, one.scale)]
    if any(abs(component) > MAX_STEPS for component in shift):
        raise Refused(Fault.SHIFT_RANGE)
    return shift


def are_same(first, other, name):
    """Whether both have a member of one compact text, or both have none."""
    if is_there(first, name) != is_there(other, name):
        return False
    return not is_there(first, name) or compact(first[name]) == compact(other[name])


def need_fit(first, one, base, extensions):
    """The shift of a tile that fits the first one and the extensions so far."""
    if one.scale != first.scale:
        raise Refused(Fault.SCALE_DIFFERS)
    if not are_same(member(first.value, "metadata"), member(one.value, "metadata"), "referenceSystem"):
        raise Refused(Fault.SYSTEM_DIFFERS)
    shift = shift_from(base, one)
    own = one.value.get("extensions", {})
    if any(name in extensions and not are_same(extensions, own, name) for name in own):
        raise Refused(Fault.EXTENSION_CLASH)
    has_templates = "geometry-templates" in one.value
    if not are_same(first.value, one.value, "geometry-templates"):
        raise Refused(Fault.TEMPLATES_DIFFER)
    if has_templates and not are_same(first.value, one.value, "appearance"):
        raise Refused(Fault.TEMPLATES_DIFFER)
    return shift


def join(headers, least):
    """The joined header's value, and the shift of each tile."""
    places = origin(headers, least)
    base = [headers[at].translation[axis] for axis, at in enumerate(places)]
    extensions, shifts = {}, []
    for at, one in enumerate(headers):
        try:
            shifts.append(need_fit(headers[0], one, base, extensions))
        except Refused as refused:
            raise Misfit(at, refused.fault) from None
        for name, value in one.value.get("extensions", {}).items():
            extensions.setdefault(name, value)
    written = [headers[at].value["transform"]["translate"][axis] for axis, at in enumerate(places)]
    return joined_value(headers[0].value, extensions, written), shifts


def joined_value(first, extensions, translation):
    joined = dict(first)
    joined["transform"] = {**first["transform"], "translate": translation}
    if "metadata" in first:
        joined["metadata"] = {name: value for name, value in first["metadata"].items() if name != "geographicalExtent"}
    if extensions or "extensions" in first:
        joined["extensions"] = extensions
    return joined


# The commands.


def filtered(choice, given):
    try:
        one = tile(given)
    except NoHead as none:
        return Answer(1, fault_line(none.fault, 1, none.line))
    return told(Stream(compact(one.header.value), [texts(one, (0, 0, 0), choice)], in_turn=True))


def merged(asked, files):
    """The merge of the files that these words name; `files` has what each gives, by its name."""
    if len(asked.names) > MAX_TILES:
        return Answer(1, fault_line(Fault.TOO_MANY_TILES))
    given = [files.get(name, MISSING) for name in asked.names]
    if MISSING in given:
        return Answer(1, fault_line(Fault.READ, given.index(MISSING) + 1))
    tiles = []
    for number, each in enumerate(given, 1):
        try:
            tiles.append(tile(each))
        except NoHead as none:
            return Answer(1, fault_line(none.fault, number, none.line))
    try:
        joined, shifts = join([one.header for one in tiles], asked.least)
    except Misfit as misfit:
        return Answer(1, fault_line(misfit.fault, misfit.at + 1, tiles[misfit.at].line))
    owns = [texts(one, shift, asked.choice) for one, shift in zip(tiles, shifts)]
    return told(Stream(compact(joined), owns, asked.in_turn))


def told(stream):
    """A stream, and the fault of the first of its tiles that has any."""
    for number, own in enumerate(stream.tiles, 1):
        if own.fault:
            line, fault = own.fault
            return Answer(1, fault_line(fault, number, line), stream)
    return Answer(0, "", stream)


def document_stream(given):
    """The answer of `cat`."""
    try:
        if given.fails:
            raise Refused(Fault.READ)
        if not given.data.strip(b" \t\n\r"):
            raise Refused(Fault.NO_HEADER)
        taken, features = cut(read(given.data))
    except Refused as refused:
        return Answer(1, fault_line(refused.fault, 1))
    own = [(1, compact(moved_feature(each, (0, 0, 0)).value)) for each in features]
    return Answer(0, "", Stream(compact(taken.value), [Own(1, own, None)], in_turn=True))


# The words.


@dataclasses.dataclass
class Asked:
    """What the words of `filter` or `merge` ask for."""

    choice: Choice
    in_turn: bool
    least: bool
    names: list


class BadWords(Exception):
    """Words that are wrong: what is said of them."""


def types_of(text):
    names = text.split(",")
    if not all(names):
        raise BadWords("citymerge: bad --cotype\n")
    return names


def area_of(text):
    numbers = text.split(",")
    if len(numbers) != 4 or not all(re.fullmatch("-?[0-9]+", number) for number in numbers):
        raise BadWords("citymerge: bad --bbox\n")
    area = list(map(steps, numbers))
    if any(abs(number) > MAX_STEPS for number in area) or area[0] > area[2] or area[1] > area[3]:
        raise BadWords("citymerge: bad --bbox\n")
    return area


def asked_of(words):
    """What words after the command ask for, in which options have their values after `=`."""
    options = dict(word.partition("=")[::2] for word in words if word.startswith("--"))
    types = types_of(options["--cotype"]) if "--cotype" in options else None
    area = area_of(options["--bbox"]) if "--bbox" in options else None
    choice = Choice(types, area, "--exclude" in options)
    names = [word for word in words if not word.startswith("--")]
    return Asked(choice, "--in-turn" in options, "--least" in options, names)


def answer(words, given, files):
    """What the program answers these words, of which the first is a command, with what standard input gives."""
    if words[0] == "cat":
        return document_stream(given)
    try:
        asked = asked_of(words[1:])
    except BadWords as bad:
        return Answer(2, str(bad))
    return merged(asked, files) if words[0] == "merge" else filtered(asked.choice, given)
