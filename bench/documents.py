"""How fast `citymerge cat` is, and how much memory it takes: on a document of building tiles, beside
`citymerge filter` of the stream that comes of it; and on worst-case documents, at two sizes."""

import os
import random

from growth import measure
from running import Run
from shapes import Shape
from streams import attributes

MEGA = 1_000_000
# What is aimed at, in times of the document: a higher peak is told, and nothing fails.
MAX_PEAK = 6
HEAD = (
    b'{"type":"CityJSON","version":"2.0","transform":{"scale":[0.001,0.001,0.001],'
    b'"translate":[84710.100,446846.000,-5.300]},"CityObjects":{'
)
FACES = ((0, 2, 3, 1), (4, 5, 7, 6), (0, 1, 5, 4), (1, 3, 7, 5), (3, 2, 6, 7), (2, 0, 4, 6))


def document(objects, vertices):
    """The document of these city objects and vertices, each with a comma before it but the first."""
    yield HEAD
    yield from objects
    yield b'},"vertices":['
    yield from vertices
    yield b"]}\n"


def listed(pieces):
    """The pieces with a comma between."""
    for at, piece in enumerate(pieces):
        yield (("," if at else "") + piece).encode("ascii")


def points(indices):
    return '"geometry":[{"type":"MultiPoint","lod":"1","boundaries":[%s]}]' % indices


def vertices(count):
    return listed("[%d,%d,%d]" % (at % 1_000_000, at // 7, at % 1000) for at in range(count))


def building(rng, number):
    """A building with a part, which is a box of eight vertices and a face under it of four of these."""
    name = "NL.IMBAG.Pand.0503100%09d" % number
    first = 8 * number
    faces = ["[[%s]]" % ",".join([str(first + corner) for corner in face]) for face in FACES]
    return (
        '"%s":{"type":"Building","attributes":%s,"children":["%s-0"],"geometry":[{"type":"MultiSurface","lod":"0",'
        '"boundaries":[%s]}]},"%s-0":{"type":"BuildingPart","parents":["%s"],"geometry":[{"type":"Solid","lod":"1.2",'
        '"boundaries":[[%s]]},{"type":"MultiSurface","lod":"1.3","boundaries":[%s]}]}'
        % (name, attributes(rng), name, faces[0], name, name, ",".join(faces), ",".join(faces))
    )


def buildings(seed, size):
    """A document of about `size` bytes."""
    rng = random.Random(seed)
    one = len(building(rng, 0)) + 8 * 18
    count = max(1, size // one)
    return document(listed(building(rng, number) for number in range(count)), vertices(8 * count))


def apart(count):
    """So many objects that begin a feature each."""
    return document(listed('"%d":{%s}' % (at, points(at)) for at in range(count)), vertices(count))


def long_fronts(count):
    """The same, with identifiers whose first 200 letters are the same."""
    front = "a" * 200
    return document(listed('"%s%d":{%s}' % (front, at, points(at)) for at in range(count)), vertices(count))


def one_family(count):
    """An object with so many children, in reverse."""
    children = ",".join(['"%d"' % at for at in range(count - 1, -1, -1)])
    objects = ['"all":{"children":[%s]}' % children]
    parts = ('"%d":{"parents":["all"],%s}' % (at, points(at)) for at in range(count))
    return document(listed(piece for group in (objects, parts) for piece in group), vertices(count))


def one_child(count):
    """A child that is named so many times."""
    children = ",".join(['"c"'] * count)
    return document(listed(('"p":{"children":[%s]}' % children, '"c":{"parents":["p"]}')), vertices(1))


def one_line_down(count):
    """So many objects, each the child of the one before."""
    objects = ('"%d":{%s"children":["%d"]}' % (at, '"parents":["a"],' if at else "", min(at + 1, count - 1)) for at in range(count))
    return document(listed(objects), vertices(1))


def wide_boundary(count):
    return document(listed(('"a":{%s}' % points(",".join([str(at) for at in range(count)])),)), vertices(count))


def deep_boundaries(count):
    """Boundaries that are nested 100 deep."""
    deep = points("%s0%s" % ("[" * 100, "]" * 100))
    return document(listed('"%d":{%s}' % (at, deep) for at in range(count)), vertices(1))


def one_vertex(count):
    """A vertex that is named so many times."""
    return document(listed(('"a":{%s}' % points(",".join(["0"] * count)),)), vertices(1))


def cat(name, most, lines):
    return Shape(name, most, lines, command="cat")


SHAPES = (
    cat("200,000 objects", 200_000, apart),
    cat("100,000 objects of long common fronts", 100_000, long_fronts),
    cat("one object of 200,000 children", 200_000, one_family),
    cat("a child that is named 200,000 times", 200_000, one_child),
    cat("200,000 objects, each the child of another", 200_000, one_line_down),
    cat("a boundary of 1,000,000 indices", 1_000_000, wide_boundary),
    cat("10,000 boundaries, 100 deep", 10_000, deep_boundaries),
    cat("a vertex that is named 1,000,000 times", 1_000_000, one_vertex),
)


def show(bench, words, size, runs):
    rates = [size / MEGA / run.processor for run in runs]
    peak = max(run.peak for run in runs)
    bench.say(
        "  %-18s %6.1f MB in, by processor time %6.1f MB/s, peak memory %7.1f MB, %5.2f times its input"
        % (words, size / MEGA, max(rates), peak / MEGA, peak / size)
    )
    return peak / size


def beside_filter(bench):
    """`cat` of a document, and `filter` of the stream that comes of it, which stays as it is."""
    given = bench.write("document", buildings(bench.options.seed, int(bench.options.size * MEGA)))
    made, again = bench.path("made"), bench.path("again")
    pairs = ((bench.cat, given, made), (bench.filter, made, again))
    for words, source, target in pairs:
        runs = [Run(words, source, target) for _ in range(bench.options.tries)]
        if any(run.status != 0 for run in runs):
            bench.fail("%s: %s" % (words[-1], runs[-1].trouble()))
            return
        multiple = show(bench, "citymerge " + words[-1], os.path.getsize(source), runs)
        if words is bench.cat and multiple > MAX_PEAK:
            bench.say("  above the %d times that are aimed at" % MAX_PEAK)
    with open(made, "rb") as one, open(again, "rb") as other:
        if one.read() != other.read():
            bench.fail("filter changes what cat writes")
    for path in (given, made, again):
        os.remove(path)


def documents(bench):
    bench.say("Documents (the best of %d runs)" % bench.options.tries)
    beside_filter(bench)
    for shape in SHAPES:
        measure(bench, shape)
