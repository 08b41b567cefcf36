"""Each call of the program to the system refused in turn, on small inputs in which all that it can grow grows.

`refuse.c` is loaded before the program. A first run counts the calls of each kind; then there is one run for each call
and way, and one in which all later calls of the kind are refused, too; but a call that is interrupted is made again,
however often.
"""

import dataclasses
import os
import random
import re
import struct
import subprocess

import model
import runs
from inputs import Case
from model import Fault, Given
from values import compact

HERE = os.path.dirname(os.path.abspath(__file__))
KINDS = ("memory", "read", "write", "say", "open", "thread", "map")
SOURCES = 128
PAGE = struct.Struct("%dQ" % (len(KINDS) + 2 + 3 * SOURCES))

# The ways in which a call of each kind is tried.
WAYS = {
    "memory": ("fail",),
    "map": ("fail",),
    "thread": ("fail",),
    "open": ("fail", "interrupt"),
    "read": ("fail", "short", "none", "interrupt"),
    "write": ("fail", "short", "none", "interrupt"),
    "say": ("fail", "short", "none", "interrupt"),
}


@dataclasses.dataclass(frozen=True)
class Point:
    """A call that is refused: of which kind, in which way, its number, and whether all later ones are, too."""

    kind: str
    way: str
    number: int
    rest: bool

    def variables(self):
        named = {"REFUSE_KIND": self.kind, "REFUSE_WAY": self.way, "REFUSE_FROM": str(self.number)}
        return {**named, "REFUSE_REST": "1"} if self.rest else named


def built(folder):
    """The library made of refuse.c; None where this machine cannot make it, which is said."""
    os.makedirs(folder, exist_ok=True)
    made = os.path.join(folder, "refuse.so")
    need = [os.path.join(model.ROOT, "tools", "need.sh"), "cc"]
    make = ["cc", "-O1", "-Wall", "-Wextra", "-shared", "-fPIC", "-o", made, os.path.join(HERE, "refuse.c"), "-ldl"]
    if any(subprocess.run(words, check=False).returncode for words in (need, make)):
        print("WRONG: what refuses calls could not be made")
        return None
    return made


class Refusing:
    """Runs cases with calls refused, and reads what was counted."""

    def __init__(self, room, library):
        self.room = room
        self.library = library
        self.page = room.path("page")

    def run(self, case, point=None):
        runs.write(self.page, bytes(PAGE.size))
        more = self.variables(point)
        ended = self.room.run(case, more)
        return ended, Counts(runs.read(self.page))

    def variables(self, point):
        named = {"LD_PRELOAD": self.library, "REFUSE_PAGE": self.page}
        return {**named, **point.variables()} if point else named


class Counts:
    """How often each kind of call was made, how many were refused, how often a test said that there is no memory from here
    on, and of each file that was read how far it came.
    """

    def __init__(self, page):
        numbers = PAGE.unpack(page)
        self.calls = dict(zip(KINDS, numbers))
        self.refused, self.taken = numbers[len(KINDS):len(KINDS) + 2]
        rows = numbers[len(KINDS) + 2:]
        self.broken = {rows[at]: rows[at + 1] for at in range(0, len(rows), 3) if rows[at + 2]}


# What is tried.


def header(away="0", **more):
    return {
        "type": "CityJSON",
        "version": "2.0",
        "transform": {"scale": [model.Number("0.001")] * 3, "translate": [model.Number(away), *[model.Number("0")] * 2]},
        "CityObjects": {},
        "vertices": [],
        **more,
    }


def feature(name, vertices="[[1,2,3]]", more=""):
    objects = '{"%s":{"type":"Road"%s}}' % (name, more)
    return '{"type":"CityJSONFeature","id":"%s","CityObjects":%s,"vertices":%s}' % (name, objects, vertices)


TEMPLATES = {"geometry-templates": {"templates": [{"boundaries": [model.Number("0")]}], "vertices-templates": []}}
WIDE = ',"attributes":{%s}' % ",".join('"attribute_%02d_in_metres":%d.50e+3' % (each * 7 % 20, each) for each in range(20))
ESCAPES = ',"\\u0061ttributes":{"caf\\u00e9\\n":"\\ud83c\\udfe0 \\"x\\"","%s":%s}' % ("n" * 40, "1" * 60)
LONG = ',"attributes":{"note":"%s"}' % ("a" * 70000)
LINES = [
    feature("a"), feature("b", "[[-0,2,3]]", WIDE), feature("c", "[ [4, 5, 6] ]", ESCAPES), feature("d", "[[7,8,9]]", LONG),
    feature("e", "[%s]" % ",".join(["[100000,200000,-300]"] * 40), WIDE), feature("f", "[[-0,0,0]]", LONG), feature("g"),
]
DOCUMENT = header(
    CityObjects={
        "b": {"type": "Building", "children": ["p1", "p2"], "address": [{"location": {"boundaries": [model.Number("2")]}}]},
        "p1": {"type": "BuildingPart", "parents": ["b"], "geometry": [{"boundaries": [[model.Number("3"), model.Number("1")]]}]},
        "p2": {"type": "BuildingPart", "parents": ["b"], "geometry": [{"boundaries": [model.Number("1"), model.Number("0")]}]},
        "tree": {"type": "SolitaryVegetationObject"},
        **{"path %02d" % each: {"type": "Road", "note": "s" * each} for each in range(18)},
    },
    vertices=[[model.Number(each)] * 3 for each in range(4)],
    appearance={"materials": [{"name": "w" * 50}]},
    extensions={"Noise": {"version": "1"}},
    metadata={"geographicalExtent": [model.Number("0")] * 6, "title": "caf\u00e9"},
)


def stream(head, lines):
    return Given("".join(line + "\n" for line in (compact(head), *lines)).encode())


def cases():
    """The cases, each with its name."""
    wide = header(extensions={"Noise": {"version": "1"}, "X%s" % ("x" * 30): {}}, **TEMPLATES)
    moved = header("1.5", extensions={"Y": {"url": "https://example.org"}, "Noise": {"version": "1"}}, **TEMPLATES)
    chosen = ["--cotype=Road,Building,%s" % ("T" * 40), "--bbox=-5,0,900000,900000"]
    fault = LINES[:2] + ["{"]
    whole = {"t1": stream(wide, LINES), "t2": stream(moved, LINES), "t3": stream(header("-0.002", **TEMPLATES), LINES[3:5])}
    mixed = {"t1": stream(DOCUMENT, LINES[:3]), "t2": stream(header("1.5"), fault), "t3": stream(DOCUMENT, fault)}
    none = Given(b"")
    yield "filter", Case(["filter", *chosen], stream(wide, LINES), {})
    yield "filter, a document and a fault", Case(["filter"], stream(DOCUMENT, fault), {})
    yield "cat", Case(["cat"], stream(DOCUMENT, []), {})
    yield "cat, refused", Case(["cat"], stream({**DOCUMENT, "vertices": []}, []), {})
    yield "wrong words", Case(["filter", "--bbox=1,2,3"], none, {})
    yield "a misfit", Case(["merge", "t1", "t2"], none, {"t1": stream(header(), LINES), "t2": stream(header("0.0005"), LINES)})
    for name, words in (("merge", []), ("merge in turn", ["--in-turn"])):
        yield name, Case(["merge", *words, *chosen, "--least", *whole], none, whole)
        yield name + ", documents and faults", Case(["merge", *words, *mixed], none, mixed)


# What is right.

SAID = re.compile(r"citymerge:(?: tile (\d+)(?: line (\d+))?:)? (.*)\n")


def place_said(said):
    """The tile, the line and the text of a fault line, or None where it is none."""
    found = SAID.fullmatch(said.decode("utf-8", "replace"))
    return found and (int(found[1] or 0), int(found[2] or 0), found[3])


def is_front(answer, written):
    """Whether this was written of what is right, or of what is right where memory ended tiles."""
    return not written or (answer.stream is not None and answer.stream.with_open_ends().has_front(written))


def memory_wrong(case, answer, ended):
    """What is wrong with a run in which memory was refused."""
    if runs.wrong(answer, ended) is None:
        return None
    place = place_said(ended.said)
    if is_no_thread(answer, ended, place):
        return None
    if ended.status != 1 or not place or place[2] != model.TEXTS[Fault.MEMORY]:
        return runs.wrong(answer, ended)
    tile, line, _ = place
    if not ended.written:
        return None if is_place(case, tile, line) else "it said %r" % ended.said
    if answer.stream is None or case.words[0] == "cat":
        return "it wrote something and said %r" % ended.said
    if tile == 0:
        return "memory of no tile, after something was written"
    own = answer.stream.tiles[tile - 1]
    if own.may_stop(line) and answer.stream.stopped(tile, line).is_written(ended.written):
        return None
    return "it wrote something else and said %r" % ended.said


def is_no_thread(answer, ended, place):
    """Whether a thread could not be started, for which memory may be the reason."""
    if not place or place[2] != model.TEXTS[Fault.NO_THREAD] or answer.stream is None or answer.stream.in_turn:
        return False
    return ended.status == 1 and not ended.written and 1 <= place[0] <= len(answer.stream.tiles) and place[1] == 0


def is_place(case, tile, line):
    """Whether memory may be told of this tile and line where nothing was written: the header's, or one before it."""
    if tile == 0 or case.words[0] == "cat":
        return (tile, line) in ((0, 0), (1, 0))
    given = [case.given] if case.words[0] == "filter" else list(case.files.values())
    lines = model.lines_of(given[tile - 1])[0]
    return 0 < line <= (lines[0][0] if lines else line)


def output_wrong(answer, ended):
    """What is wrong with a run in which a write was refused."""
    if ended.status != 1 or ended.said.decode() != model.fault_line(Fault.WRITE):
        return "status %d, said %r" % (ended.status, ended.said)
    return None if is_front(answer, ended.written) else "what was written is no front"


def said_wrong(answer, ended):
    """What is wrong with a run that could not say what it had to."""
    if ended.status != answer.status or not answer.said.encode().startswith(ended.said):
        return "status %d, said %r" % (ended.status, ended.said)
    whole = dataclasses.replace(ended, said=answer.said.encode())
    return runs.wrong(answer, whole)


def thread_wrong(answer, point, ended):
    text = model.fault_line(Fault.NO_THREAD, point.number)
    if ended.status != 1 or ended.said.decode() != text or ended.written:
        return "status %d, said %r, wrote %d bytes" % (ended.status, ended.said, len(ended.written))
    return None


def with_broken(room, case, counts, way):
    """The case in which files end or fail where their reads were refused."""
    def given_of(given, path):
        length = counts.broken.get(os.stat(path).st_ino)
        return given if length is None else Given(given.data[:length], fails=way == "fail")

    files = {name: given_of(given, os.path.join(room.tiles, name)) for name, given in case.files.items()}
    return Case(case.words, given_of(case.given, room.path("in")), files)


def without_file(case, point):
    """The case in which files are missing where they were not opened."""
    names = list(case.files)
    gone = names[point.number - 1:] if point.rest else names[point.number - 1:point.number]
    return Case(case.words, case.given, {name: model.MISSING if name in gone else given for name, given in case.files.items()})


def answer_of(case):
    return model.answer(case.words, case.given, case.files)


def wrong(room, case, answer, point, ended, counts):
    """What is wrong with a run at a point, or None."""
    if runs.abnormal(ended):
        return runs.abnormal(ended)
    if not counts.refused or point.way in ("short", "interrupt"):
        return runs.wrong(answer, ended)
    if point.kind in ("memory", "map"):
        return memory_wrong(case, answer, ended)
    if point.kind == "read":
        return runs.wrong(answer_of(with_broken(room, case, counts, point.way)), ended)
    if point.kind == "open":
        return runs.wrong(answer_of(without_file(case, point)), ended)
    if point.kind == "thread":
        return thread_wrong(answer, point, ended)
    return output_wrong(answer, ended) if point.kind == "write" else said_wrong(answer, ended)


def points(counts):
    """The points of a case of which so many calls were made."""
    for kind in KINDS:
        for number in range(1, counts.calls[kind] + 1):
            for way in WAYS[kind]:
                yield Point(kind, way, number, False)
                if way != "interrupt":
                    yield Point(kind, way, number, True)


def some_points(counts, seed):
    """Some of the points, most of them of memory as the calls are, and one of each other kind."""
    rng = random.Random(seed)
    drawn = []
    for kind, often in counts.calls.items():
        for _ in range(3 if kind == "memory" and often else min(often, 1)):
            way = rng.choice(WAYS[kind])
            drawn.append(Point(kind, way, rng.randint(1, often), way != "interrupt" and rng.random() < 0.5))
    return drawn
