"""How much memory and time do the worst inputs take, and how do both grow?

Each shape is made in four sizes. Told are the peak memory, less what the program takes for a header alone, in times of
the input, the most of the four; how that grows from the smallest to the largest, where 1 is as the size; the processor
seconds of the largest, and how these grow from a half of it. Valid and refused ones stand apart: what is wrong with a text
is looked for once it was not taken.

Where features share city objects, the stream may grow as the square of its document, and the time with it, but not the
memory: such shapes are measured apart, in smaller sizes.
"""

import os
import shutil
import string
import typing

from documents import (
    apart, deep_boundaries, document, listed, one_child, one_line_down, one_vertex, points, vertices, wide_boundary,
)
from running import Run
from streams import HEADER

MEGA = 1_000_000
SIZES = tuple(int(size * MEGA) for size in (0.5, 1, 2, 4))
# Those whose stream grows as the square of the document.
SMALL_SIZES = tuple(int(size * MEGA) for size in (0.05, 0.1, 0.2))

# Peak memory in times of the input, as README.md states it: of a valid line and one at fault, of a valid document and one
# at fault, of one that is nearly all header, of the headers of a merge, and of a document whose features share objects.
LINE, REFUSED_LINE, DOCUMENT, REFUSED_DOCUMENT, OWN_HEADER, HEADERS, SHARED = 6, 7, 8.4, 10.3, 26.4, 26, 6.4

# The peak, in times of the input, grows at most so much from the smallest size to the largest: tables that double give
# up to 2, the square of the size would give 8.
MAX_GROWTH = 2.5
# Twice the size takes at most so many times as long, where it takes so many seconds.
MAX_SLOWER, LEAST_SECONDS = 3.0, 0.1
TURNS = 3
# A run gets so many kilobytes of memory, so that one which takes the square of its input is told and does not stop the
# machine.
MOST_KILOBYTES = 6_000_000


class Worst(typing.NamedTuple):
    name: str
    command: str
    # the bytes of an input of so many items
    make: typing.Callable
    # the peak memory is at most so many times the input
    most: float
    # a part of the fault that has to be told, if any
    fault: str = ""


def many(piece, count):
    """The piece so many times, with a comma between."""
    block = b",".join([piece] * 1000)
    for at in range(count // 1000):
        yield (b"," if at else b"") + block
    if count % 1000:
        yield (b"," if count >= 1000 else b"") + b",".join([piece] * (count % 1000))


def line(*pieces):
    """A stream of one feature; a number among the pieces is a piece and how often it comes."""
    yield HEADER
    for piece in pieces:
        if isinstance(piece, bytes):
            yield piece
        else:
            yield from many(*piece)
    yield b"\n"


DEEP = b"[" * 100 + b"0" + b"]" * 100
FEATURE = b'{"type":"CityJSONFeature","id":"a","CityObjects":{'
TYPED = FEATURE + b'"a":{"type":"Building"}},"vertices":[]'


def feature(before, piece, count, after=b"]}"):
    return line(before, (piece, count), after)


def holding(piece, count):
    """A valid feature with an array of so many pieces."""
    return feature(TYPED + b',"holds":[', piece, count)


def escaped(piece, count):
    """The same with a name in a spelling that is rare."""
    return feature(b'{"type":"CityJSONFeature","i\\u0064":"a","CityObjects":{},"vertices":[],"holds":[', piece, count)


def refused(piece, count):
    """The same whose last bracket is missing."""
    return feature(TYPED + b',"holds":[[', piece, count)


def no_feature(piece, count):
    """A line that would be one but for its type."""
    return feature(TYPED.replace(b"CityJSONFeature", b"CityJSON") + b',"holds":[', piece, count)


def faulty_vertex(piece, count):
    """A feature whose first vertex holds so many pieces."""
    return feature(FEATURE + b'},"vertices":[[', piece, count, b"]]}")


def typed(object_text, piece, count):
    """A feature of that city object beside so many pieces."""
    return feature(FEATURE + object_text + b'},"vertices":[],"holds":[', piece, count)


# two names of one print, of which one has an escape
OF_ONE_PRINT = b'"\\u0062BoIXfIOr4wAR7 ":1,"ruVVmC0Y8nJQfyy":1'
LETTERS = string.ascii_letters + string.digits


def shortest(at):
    """The name of this number, of as few letters as can be."""
    return (shortest(at // len(LETTERS) - 1) if at >= len(LETTERS) else "") + LETTERS[at % len(LETTERS)]


def names(front, count, last=OF_ONE_PRINT, after=b"}}"):
    """A feature with an object of so many short names that begin so, and a last member, or two of one print."""
    yield HEADER
    yield TYPED + b',"holds":{'
    yield b",".join([b'"%s%s":1' % (front, shortest(at).encode("ascii")) for at in range(count)])
    yield b"," + last + after + b"\n"


def whole(objects, table):
    return b"".join(document(listed(objects), table)).rstrip()


def with_member(objects, table, name, value, piece, count):
    """A document with a member that holds so many pieces."""
    yield whole(objects, table)[:-1]
    yield b',"%s":%s[' % (name, value)
    yield from many(piece, count)
    yield b"]}}\n"


def textured(piece, count):
    """A document of one building with an appearance of so many pieces."""
    return with_member(('"a":{%s}' % points(0),), vertices(1), b"appearance", b'{"vertices-texture":', piece, count)


def with_metadata(piece, count):
    """A document with so many pieces in its header."""
    return with_member(('"a":{}',), vertices(1), b"metadata", b'{"own":', piece, count)


def header_with(name, value, piece, count):
    """A tile of a header alone, with a member that holds so many pieces."""
    yield HEADER.rstrip()[:-1].replace(b'"metadata"', b'"was"')
    yield b',"%s":%s[' % (name, value)
    yield from many(piece, count)
    yield b"]}}}\n" if value.count(b"{") == 2 else b"]}}\n"


def with_appearance(buildings, count):
    """A document of these buildings, and an appearance of so many times 400 bytes, which each feature bears."""
    objects = ('"%d":{"type":"Building",%s}' % (at, points(at)) for at in range(buildings))
    yield whole(objects, vertices(buildings))[:-1]
    yield b',"appearance":{"textures":["' + b"a" * (400 * count) + b'"]}}\n'


def large_appearance(count):
    return with_appearance(50, count)


def nested_leaf(count):
    """A boundary of so many arrays of one leaf."""
    return document(listed(('"a":{%s}' % points(",".join(["[0]"] * count)),)), vertices(1))


def orphan(make):
    """The document with an object of no feature at its front."""

    def made(count):
        text = b"".join(make(count))
        return iter((text.replace(b'"CityObjects":{', b'"CityObjects":{"none":{"parents":["x"]},', 1),))

    return made


def refused_late(make):
    """The document with an object at its end whose boundary names no vertex."""

    def made(count):
        text = b"".join(make(count))
        last = b',"late":{"geometry":[{"boundaries":[999999999]}]}},"vertices":['
        return iter((text.replace(b'},"vertices":[', last, 1),))

    return made


def cut_short(make):
    """The document without its last brace."""

    def made(count):
        return iter((b"".join(make(count)).rstrip()[:-1],))

    return made


def of_another_version(make):
    """The document with another version."""

    def made(count):
        return iter((b"".join(make(count)).replace(b'"version":"2.0"', b'"version":"1.1"', 1),))

    return made


def one_faulty_vertex(piece, count):
    """A document with one vertex, which holds so many pieces."""
    return document(listed(('"a":{}',)), listed(("[%s]" % ",".join([piece.decode("ascii")] * count),)))


def no_object(count):
    """A document whose one city object is an array of arrays."""
    return document(listed(('"a":[%s]' % ",".join([DEEP.decode("ascii")] * count),)), vertices(1))


def children_of_numbers(count):
    """A document whose one city object has numbers as children."""
    return document(listed(('"a":{"children":["a",%s]}' % ",".join(["0"] * count),)), vertices(1))


def minus_zero_vertices(count):
    return document(listed(('"a":{}',)), listed("[-0,-0,-0]" for _ in range(count)))


def bare(count):
    """So many objects that are empty."""
    return document(listed('"%s":{}' % shortest(at) for at in range(count)), vertices(1))


def with_child(count):
    """So many objects that name one child."""
    objects = ('"%s":{"children":["a"]}' % shortest(at) for at in range(count))
    return document(listed(objects), vertices(1))


def chain(count):
    """So many objects, each with the next one as its child, none of which names a parent."""
    objects = ('"%s":{"children":["%s"]}' % (shortest(at), shortest(min(at + 1, count - 1))) for at in range(count))
    return document(listed(objects), vertices(1))


def heavy_child(count):
    """So many objects that name one child, which is as long as they are together."""
    objects = ('"%x":{"children":["c"]}' % (at + 0x10000) for at in range(count))
    heavy = ('"c":{"parents":["x"],"holds":"%s"}' % ("a" * (28 * count)),)
    return document(listed(piece for group in (objects, heavy) for piece in group), vertices(1))


def groups(count):
    """Buildings, each in two of a fiftieth as many groups."""
    wanted = max(2, count // 50)
    members = [[] for _ in range(wanted)]
    for at in range(count):
        members[at % wanted].append(at)
        members[(at * 7 + 1) % wanted].append(at)
    objects = ('"%d":{"type":"Building","parents":["g0"],"attributes":{"year":%d},%s}' % (at, at % 200, points(at)) for at in range(count))
    unions = (
        '"g%d":{"type":"CityObjectGroup","children":[%s]}' % (at, ",".join(['"%d"' % each for each in sorted(set(found))]))
        for at, found in enumerate(members)
    )
    return document(listed(piece for group in (objects, unions) for piece in group), vertices(count))


def long_vertices(count):
    """A hundred long vertices, all of which each of so many objects names."""
    names = points(",".join([str(at) for at in range(100)]))
    objects = ('"%s":{%s}' % (shortest(at), names) for at in range(count))
    return document(listed(objects), listed("[-%d,-%d,-%d]" % ((2**53 - 1 - at,) * 3) for at in range(100)))


ORPHAN = "a city object belongs to no feature"
BOUNDARY = "a boundary index is wrong"
NO_JSON = "not a JSON text"
TWICE = "a name is repeated"
NO_FEATURE = "not a CityJSONFeature"
NO_VERTEX = "not three numbers"
NO_DOCUMENT = "not a CityJSON object"
VERSION = "the version is not 2.0"
NOT_WHOLE = "not written as a whole"
BY_TYPE = "filter --cotype=Building"
NONE = "filter --cotype=Nothing"

LINES = (
    Worst("a line: vertices of -0", "filter", lambda n: feature(FEATURE + b'},"vertices":[', b"[-0,-0,-0]", n), 6),
    Worst("a line: arrays of one item", "filter", lambda n: holding(b"[1]", n), 6),
    Worst("a line: arrays 100 deep", "filter", lambda n: holding(DEEP, n), 6),
    Worst("a line in a rare spelling: arrays of one item", "filter", lambda n: escaped(b"[1]", n), 6),
    Worst("a line in a rare spelling: short texts", "filter", lambda n: escaped(b'"a"', n), 6),
    Worst("a line in a rare spelling: numbers", "filter", lambda n: escaped(b"1", n), 6),
    Worst("a line: objects with two names of one print, one escaped", "filter", lambda n: holding(b"{" + OF_ONE_PRINT + b"}", n), 6),
    Worst("a line: short names with an escape, two of one print", "filter", lambda n: names(b"\\n", n), LINE),
    Worst("a line: short names, two of one print", "filter", lambda n: names(b"", n), LINE),
    Worst("a line of a type: small arrays", BY_TYPE, lambda n: typed(b'"a":{"type":"Building"}', b"[1]", n), 6),
    Worst("a line whose id names no object", BY_TYPE, lambda n: typed(b'"b":{"type":"Building"}', b"[1]", n), 6),
    Worst("a line whose object has no type", BY_TYPE, lambda n: typed(b'"a":{}', b"[1]", n), 6),
    Worst("a line whose type is a number", BY_TYPE, lambda n: typed(b'"a":{"type":1}', b"[1]", n), 6),
    Worst("a line whose type is an array", BY_TYPE, lambda n: feature(FEATURE + b'"a":{"type":[', b"[1]", n, b']}},"vertices":[]}'), 6),
    Worst("a line whose object is an array", BY_TYPE, lambda n: feature(FEATURE + b'"a":[', b"[1]", n, b']},"vertices":[]}'), 6),
    Worst("a line: a type behind small arrays", BY_TYPE, lambda n: feature(FEATURE + b'"a":{"holds":[', b"[1]", n, b'],"type":"Road"}},"vertices":[]}'), 6),
    Worst("a line: a type behind objects of one member", BY_TYPE, lambda n: feature(FEATURE + b'"a":{"holds":[', b'{"a":1}', n, b'],"type":"Road"}},"vertices":[]}'), 6),
    Worst("a refused line: arrays of one item", "filter", lambda n: refused(b"[1]", n), REFUSED_LINE, NO_JSON),
    Worst("a refused line: arrays 100 deep", "filter", lambda n: refused(DEEP, n), REFUSED_LINE, NO_JSON),
    Worst("a refused line: empty objects", "filter", lambda n: refused(b"{}", n), REFUSED_LINE, NO_JSON),
    Worst("a refused line: short texts", "filter", lambda n: refused(b'"a"', n), REFUSED_LINE, NO_JSON),
    Worst("a refused line: numbers", "filter", lambda n: refused(b"1", n), REFUSED_LINE, NO_JSON),
    Worst("a refused line: short names of an object that does not close", "filter", lambda n: names(b"", n, b'"a1":1', b"}"), REFUSED_LINE, NO_JSON),
    Worst("a refused line: short names, one of them twice", "filter", lambda n: names(b"", n, b'"a":1'), REFUSED_LINE, TWICE),
    Worst("a refused line: short names with an escape, one of them twice", "filter", lambda n: names(b"\\n", n, b'"\\u000aa":1'), REFUSED_LINE, TWICE),
    Worst("a refused line: no object, arrays 100 deep", "filter", lambda n: line(b"[", (DEEP, n), b"]"), REFUSED_LINE, NO_FEATURE),
    Worst("a refused line: no feature, arrays 100 deep", "filter", lambda n: no_feature(DEEP, n), REFUSED_LINE, NO_FEATURE),
    Worst("a refused line: a vertex of arrays 100 deep", "filter", lambda n: faulty_vertex(DEEP, n), REFUSED_LINE, NO_VERTEX),
    Worst("a refused line: a vertex of numbers", "filter", lambda n: faulty_vertex(b"0", n), REFUSED_LINE, NO_VERTEX),
    Worst("a refused line: vertices", "filter", lambda n: feature(FEATURE + b'},"vertices":[', b"[12,-33,2100]", n, b",[0.5,0,0]]}"), REFUSED_LINE, NOT_WHOLE),
)

DOCUMENTS = (
    Worst("cat: small objects", "cat", apart, DOCUMENT),
    Worst("cat: boundaries 100 deep", "cat", deep_boundaries, DOCUMENT),
    Worst("cat: an index named often", "cat", one_vertex, DOCUMENT),
    Worst("cat: arrays of one index", "cat", nested_leaf, DOCUMENT),
    Worst("cat: a child named often", "cat", one_child, DOCUMENT),
    Worst("cat: objects, each the child of another", "cat", one_line_down, DOCUMENT),
    Worst("cat: indices and vertices", "cat", wide_boundary, DOCUMENT),
    Worst("cat: vertices that none names", "cat", lambda n: document(listed(('"a":{}',)), vertices(n)), DOCUMENT),
    Worst("cat: vertices of -0", "cat", minus_zero_vertices, DOCUMENT),
    Worst("cat: long vertices that each object names", "cat", long_vertices, DOCUMENT),
    Worst("cat: empty objects", "cat", bare, DOCUMENT),
    Worst("cat: objects that name one child", "cat", with_child, DOCUMENT),
    Worst("cat: buildings with a large appearance", "cat", large_appearance, 4),
    Worst("cat: an appearance of arrays 100 deep", "cat", lambda n: textured(DEEP, n), 4),
    Worst("cat: an appearance of arrays of one item", "cat", lambda n: textured(b"[0]", n), 4),
    Worst("cat: an appearance of pairs", "cat", lambda n: textured(b"[0.25,0.75]", n), 4),
    Worst("cat: an appearance of numbers", "cat", lambda n: textured(b"0", n), 4),
    Worst("cat: a header of arrays 100 deep", "cat", lambda n: with_metadata(DEEP, n), OWN_HEADER),
    Worst("cat: a header of arrays of one item", "cat", lambda n: with_metadata(b"[1]", n), OWN_HEADER),
    Worst("cat: a header of numbers", "cat", lambda n: with_metadata(b"1", n), OWN_HEADER),
    Worst("cat refused late: small objects", "cat", refused_late(apart), REFUSED_DOCUMENT, BOUNDARY),
    Worst("cat refused late: boundaries 100 deep", "cat", refused_late(deep_boundaries), REFUSED_DOCUMENT, BOUNDARY),
    Worst("cat refused late: arrays of one index", "cat", refused_late(nested_leaf), REFUSED_DOCUMENT, BOUNDARY),
    Worst("cat refused late: a child named often", "cat", refused_late(one_child), REFUSED_DOCUMENT, BOUNDARY),
    Worst("cat refused late: empty objects", "cat", refused_late(bare), REFUSED_DOCUMENT, BOUNDARY),
    Worst("cat refused late: a chain of objects", "cat", refused_late(chain), REFUSED_DOCUMENT, BOUNDARY),
    Worst("cat refused: arrays of one index", "cat", orphan(nested_leaf), REFUSED_DOCUMENT, ORPHAN),
    Worst("cat refused: small objects", "cat", orphan(apart), REFUSED_DOCUMENT, ORPHAN),
    Worst("cat refused: a chain of objects", "cat", orphan(chain), REFUSED_DOCUMENT, ORPHAN),
    Worst("cat refused: a header of arrays 100 deep, no JSON text", "cat", cut_short(lambda n: with_metadata(DEEP, n)), REFUSED_DOCUMENT, NO_JSON),
    Worst("cat refused: small objects, no JSON text", "cat", cut_short(apart), REFUSED_DOCUMENT, NO_JSON),
    Worst("cat refused: small objects of another version", "cat", of_another_version(apart), REFUSED_DOCUMENT, VERSION),
    Worst("cat refused: a vertex of arrays 100 deep", "cat", lambda n: one_faulty_vertex(DEEP, n), REFUSED_DOCUMENT, NO_VERTEX),
    Worst("cat refused: a vertex of numbers", "cat", lambda n: one_faulty_vertex(b"0", n), REFUSED_DOCUMENT, NO_VERTEX),
    Worst("cat refused: a city object of arrays 100 deep", "cat", no_object, REFUSED_DOCUMENT, NO_DOCUMENT),
    Worst("cat refused: children that are numbers", "cat", children_of_numbers, REFUSED_DOCUMENT, NO_DOCUMENT),
    Worst("a first line: small objects", "filter", apart, DOCUMENT),
    Worst("a first line: arrays of one index", "filter", nested_leaf, DOCUMENT),
    Worst("a first line: empty objects", "filter", bare, DOCUMENT),
    Worst("a first line: long vertices that each object names", "filter", long_vertices, DOCUMENT),
    Worst("a first line: buildings with a large appearance", "filter", large_appearance, 4),
    Worst("a first line: as many buildings, none of them chosen", NONE, lambda n: with_appearance(n, n), 4),
    Worst("a first line: an appearance of arrays 100 deep", "filter", lambda n: textured(DEEP, n), 4),
    Worst("a first line: an appearance of pairs", "filter", lambda n: textured(b"[0.25,0.75]", n), 4),
    Worst("a first line, refused late: arrays of one index", "filter", refused_late(nested_leaf), REFUSED_DOCUMENT, BOUNDARY),
    Worst("a first line, refused late: a chain of objects", "filter", refused_late(chain), REFUSED_DOCUMENT, BOUNDARY),
    Worst("a first line, refused: a vertex of arrays 100 deep", "filter", lambda n: one_faulty_vertex(DEEP, n), REFUSED_DOCUMENT, NO_VERTEX),
    Worst("a first line, refused: a header of arrays 100 deep, no JSON text", "filter", cut_short(lambda n: with_metadata(DEEP, n)), REFUSED_DOCUMENT, NO_JSON),
    Worst("a first line, refused: small objects", "filter", orphan(apart), REFUSED_DOCUMENT, ORPHAN),
    Worst("a first line of a merged tile: small objects", "merge", apart, DOCUMENT),
    Worst("a first line of a merged tile: empty objects", "merge", bare, DOCUMENT),
    Worst("a first line of a merged tile: objects that name one child", "merge", with_child, DOCUMENT),
    Worst("a first line of a merged tile: buildings with a large appearance", "merge", large_appearance, 4),
    Worst("a first line of a tile merged in turn: the same", "merge --in-turn", large_appearance, 4),
)

JOINED = (
    Worst("a merged header: metadata of arrays 100 deep", "merge", lambda n: header_with(b"metadata", b'{"own":', DEEP, n), HEADERS),
    Worst("a merged header: metadata of arrays of one item", "merge", lambda n: header_with(b"metadata", b'{"own":', b"[1]", n), HEADERS),
    Worst("a merged header: one extension of arrays 100 deep", "merge", lambda n: header_with(b"extensions", b'{"one":{"own":', DEEP, n), HEADERS),
    Worst("a merged header: one extension of arrays of one item", "merge", lambda n: header_with(b"extensions", b'{"one":{"own":', b"[1]", n), HEADERS),
)

OVERLAPPING = (
    Worst("cat: a chain of objects, each the child of the one before", "cat", chain, SHARED),
    Worst("cat: objects that name one long child", "cat", heavy_child, SHARED),
    Worst("cat: buildings in two groups each", "cat", groups, SHARED),
    Worst("a first line: a chain of objects", "filter", chain, SHARED),
    Worst("a first line: objects that name one long child", "filter", heavy_child, SHARED),
    Worst("a first line of a merged tile: the same", "merge", heavy_child, SHARED),
    Worst("a first line of a tile merged in turn: the same", "merge --in-turn", heavy_child, SHARED),
)


def count_of(worst, size):
    """How many items an input of about this size has."""
    small, large = (sum(map(len, worst.make(count))) for count in (1000, 2000))
    each = (large - small) / 1000
    return max(1, int((size - (small - 1000 * each)) / each))


class Measured(typing.NamedTuple):
    read: int
    peak: int
    seconds: float


def run_of(bench, words, given):
    """A run with a limit of memory, and its peak, which `time` tells: a child of this script begins with its pages."""
    told = bench.path("peak")
    limited = ("time", "-q", "-f", "%M", "-o", told, "sh", "-c", 'ulimit -v %d && exec "$0" "$@"' % MOST_KILOBYTES)
    run = Run([*limited, bench.program, *words], given, os.devnull)
    with open(told) as peak:
        return run, 1024 * int(peak.read())


def measured(bench, worst, size, idle):
    """A run on an input of this size, or None where it ended in another way than it should."""
    path = bench.write("worst", worst.make(count_of(worst, size)))
    words, given = ([path], os.devnull) if "merge" in worst.command else ([], path)
    run, peak = run_of(bench, [*worst.command.split(), *words], given)
    read = os.path.getsize(path)
    os.remove(path)
    if (run.status, worst.fault in run.errors) != (1 if worst.fault else 0, True):
        bench.fail("%s: %s" % (worst.name, run.trouble()))
        return None
    return Measured(read, max(0, peak - idle), run.processor)


def slower_by(runs):
    return runs[-1].seconds / max(runs[-2].seconds, 0.001)


def is_slower(runs):
    return slower_by(runs) > MAX_SLOWER and runs[-1].seconds > LEAST_SECONDS


def tell(bench, worst, runs, most_of=max):
    """Tells how much memory was taken, and how it and the time grew."""
    times = [run.peak / run.read for run in runs]
    most, growth, slower = most_of(times), times[-1] / max(times[0], 1), slower_by(runs)
    bench.say(
        "  %-72s %6.2f MB: %7.1f times (grows %4.1f), %6.2f s (grows %4.1f)"
        % (worst.name, runs[-1].read / MEGA, most, growth, runs[-1].seconds, slower)
    )
    if most > worst.most:
        bench.fail("%s: %.1f times, at most %g are wanted" % (worst.name, most, worst.most))


def measure(bench, worst, idle):
    """Neither memory nor time may grow faster than the size."""
    runs = [measured(bench, worst, size, idle) for size in SIZES]
    # a load on the machine makes single times longer: two that grow too much are taken again, one after the other
    for _ in range(TURNS):
        if None in runs or not is_slower(runs):
            break
        again = [measured(bench, worst, size, idle) for size in SIZES[-2:]]
        if None in again:
            return
        runs[-2:] = min(runs[-2:], again, key=slower_by)
    if None in runs:
        return
    tell(bench, worst, runs)
    first, last = (run.peak / run.read for run in (runs[0], runs[-1]))
    if last / max(first, 1) > MAX_GROWTH:
        bench.fail("%s: from %.1f to %.1f times, so memory grows faster than the size" % (worst.name, first, last))
    if is_slower(runs):
        bench.fail("%s: twice the size takes %.1f times as long" % (worst.name, slower_by(runs)))


def measure_overlapping(bench, worst, idle):
    """What is written, and with it the time, grows as the square; were the memory to, the largest would take thousands of
    times its size. It alone is held against what is wanted: threads and buffers take some hundred kilobytes, and these
    differ from run to run, so that a peak that is too large is taken again."""
    runs = [measured(bench, worst, size, idle) for size in SMALL_SIZES]
    for _ in range(TURNS):
        if None in runs or runs[-1].peak <= worst.most * runs[-1].read:
            break
        runs.append(measured(bench, worst, SMALL_SIZES[-1], idle))
        if None not in runs:
            runs[-2:] = [min(runs[-2:], key=lambda run: run.peak)]
    if None not in runs:
        tell(bench, worst, runs, lambda times: times[-1])


def worst_memory(bench):
    bench.say("How much memory do the worst inputs take, and how does it grow? (0.5, 1, 2 and 4 MB)")
    if not shutil.which("time"):
        bench.say("  time is not installed: left out")
        return
    idle = run_of(bench, ["filter"], bench.write("idle", (HEADER,)))[1]
    for worst in (*LINES, *DOCUMENTS, *JOINED):
        measure(bench, worst, idle)
    bench.say("Where features share objects (50, 100 and 200 kB)")
    for worst in OVERLAPPING:
        measure_overlapping(bench, worst, idle)
