"""How many instructions does `citymerge cat` execute for each byte of a document, and how much memory does it take?

Each document is measured twice: as it is, and with a -0 among its vertices, so that these are written anew. Both are cut
on their text.
"""

import os
import random
import shutil

from documents import FACES, HEAD, MEGA, buildings, listed, vertices
from running import Run, counted
from streams import attributes

# The most instructions for each byte of a document, some tenth more than was counted on 29 November 2026 of the dearest,
# and the peak memory at most, in times of the document: of one whose vertices are written as they stand, and of one whose
# vertices are written anew.
BOUNDS, BOUNDS_ANEW = (29.5, 2.35), (32.5, 2.5)
# The size of a document whose peak is measured.
LARGE = 20 * MEGA
SURFACES = '[{"type":"GroundSurface"},{"type":"RoofSurface","slope":%d},{"type":"WallSurface"}]'
PLAIN, TEXTURED, ADDRESSED = "buildings with semantics", "the same with textures", "the same with addresses"


def ring(first, face):
    return ",".join([str(first + corner) for corner in face])


def semantics(rng):
    values = ",".join([str(rng.randrange(3)) for _ in FACES])
    return '"semantics":{"surfaces":%s,"values":[[%s]]}' % (SURFACES % rng.randrange(90), values)


def textures(rng, number):
    """A material, and a texture with four points of its own at each face."""
    rings = ["[[%d,%s]]" % (rng.randrange(20), ring(4 * (6 * number + at), range(4))) for at in range(len(FACES))]
    values = ",".join(["0"] * len(FACES))
    return '"texture":{"rgb":{"values":[[%s]]}},"material":{"day":{"values":[[%s]]}},' % (",".join(rings), values)


def address(rng, first):
    return (
        '"address":[{"Street":"Kerkstraat","HouseNumber":"%d","location":{"type":"MultiPoint","lod":"1",'
        '"boundaries":[%d]}}],' % (rng.randrange(200), first)
    )


def house(rng, number, kind):
    """A building with a part whose faces have a meaning."""
    name, first = "NL.IMBAG.Pand.0503100%09d" % number, 8 * number
    solid = ",".join(["[[%s]]" % ring(first, face) for face in FACES])
    return (
        '"%s":{"type":"Building","attributes":%s,%s"children":["%s-0"],"geometry":[{"type":"MultiSurface","lod":"0",'
        '"boundaries":[[[%s]]]}]},"%s-0":{"type":"BuildingPart","parents":["%s"],"geometry":[{"type":"Solid",'
        '"lod":"2.2",%s"boundaries":[[%s]],%s}]}'
        % (
            name, attributes(rng), address(rng, first) if kind == ADDRESSED else "", name, ring(first, FACES[0]), name, name,
            textures(rng, number) if kind == TEXTURED else "", solid, semantics(rng),
        )
    )


def appearance(rng, count):
    """Twenty images, and the points in these."""
    images = ",".join(['{"type":"JPG","image":"appearances/%d.jpg"}' % at for at in range(20)])
    points = ",".join(["[%.4f,%.4f]" % (rng.random(), rng.random()) for _ in range(count)])
    return ',"appearance":{"materials":[{"name":"wall"}],"textures":[%s],"vertices-texture":[%s]}' % (images, points)


def document(kind, seed, size):
    """A document of about `size` bytes."""
    rng = random.Random(seed)
    count = max(1, int(size / (len(house(rng, 0, kind)) + 8 * 18)))
    yield HEAD
    yield from listed(house(rng, number, kind) for number in range(count))
    yield b'},"vertices":['
    yield from vertices(8 * count)
    yield b"]"
    if kind == TEXTURED:
        # Each feature has the whole of it.
        yield appearance(rng, 4).encode("ascii")
    yield b"}\n"


def respelled(lines):
    """The same document, in which the first number of a vertex is -0."""
    comes = False
    for line in lines:
        if comes:
            line = line.replace(b"[0", b"[-0", 1)
        comes = line.endswith(b'"vertices":[')
        yield line


def instructions_of(bench, name, path):
    """The instructions for each byte, or None where valgrind is missing or the run went wrong."""
    if not shutil.which("valgrind"):
        return None
    run, count = counted(bench.cat, path, bench.path("profile"))
    if run.status != 0 or count is None:
        bench.fail("%s under valgrind: %s" % (name, run.trouble()))
        return None
    return count / os.path.getsize(path)


def peak_of(bench, name, path):
    """The peak memory in times of the document."""
    run = Run(bench.cat, path)
    if run.status != 0:
        bench.fail("%s: %s" % (name, run.trouble()))
    return run.peak / os.path.getsize(path)


def measure(bench, name, small, large):
    """The instructions for each byte of the one document, and the peak memory in times of the other."""
    paths = [bench.write(file, lines) for file, lines in (("small", small), ("large", large))]
    found, peak = instructions_of(bench, name, paths[0]), peak_of(bench, name, paths[1])
    for path in paths:
        os.remove(path)
    return found, peak


def told(found):
    return "     -" if found is None else "%6.1f" % found


def hold(bench, name, found, peak, bounds):
    """Both are within their bounds."""
    most, most_peak = bounds
    if found is not None and found > most:
        bench.fail("cat of %s: %.1f instructions for each byte, wanted: at most %g" % (name, found, most))
    if peak > most_peak:
        bench.fail("cat of %s: %.2f times the document in memory, wanted: at most %.2f" % (name, peak, most_peak))


def compare(bench, name, lines):
    """A document, beside the same with a -0. `lines` gives one of a size."""
    small = int(bench.options.small * MEGA)
    found, peak = measure(bench, name, lines(small), lines(LARGE))
    longer, longer_peak = measure(bench, name, respelled(lines(small)), respelled(lines(LARGE)))
    bench.say(
        "  %-28s %s instructions a byte (with a -0 %s), peak memory %5.2f times the document (%5.2f)"
        % (name, told(found), told(longer), peak, longer_peak)
    )
    hold(bench, name, found, peak, BOUNDS)
    hold(bench, name + ", with a -0", longer, longer_peak, BOUNDS_ANEW)


def cuts(bench):
    bench.say("Documents cut on their text (%g MB of each, and %d MB for the memory)" % (bench.options.small, LARGE // MEGA))
    if not shutil.which("valgrind"):
        bench.say("  missing: valgrind (apt-get install valgrind); instructions are left out")
    seed = bench.options.seed
    compare(bench, "buildings with parts", lambda size: buildings(seed, size))
    for kind in (PLAIN, TEXTURED, ADDRESSED):
        compare(bench, kind, lambda size, kind=kind: document(kind, seed, size))
