"""Do headers join in about the same time, whatever names their extensions have?"""

import hashlib
import os

from running import Run
from shapes import EXTENSION_NAMES

# Names of the shape take at most this many times as long as as many names of the same lengths with nothing in common.
MAX_TIMES = 3.0
# A load on the machine makes single times longer: those that are too far apart are taken again, up to so many times.
TURNS = 3
# How many headers are joined, and the bytes of the names in each. Of those of a header half stand in the one before it.
SIZES = ((2, 4_000_000), (20, 400_000))


def apart(name):
    """A name of that length with letters of its own."""
    return hashlib.shake_128(name.encode("ascii")).hexdigest((len(name) + 1) // 2)[: len(name)]


def header(names):
    extensions = ",".join(['"%s":{"version":"1.0"}' % name for name in names])
    return (
        '{"type":"CityJSON","version":"2.0","transform":{"scale":[0.001,0.001,0.001],"translate":[0,0,0]},'
        '"CityObjects":{},"vertices":[],"extensions":{%s}}\n' % extensions
    ).encode("ascii")


def merge_time(bench, what, tiles, joined):
    """The least processor time of a few merges of these tiles, or None where one wrote another header."""
    target = bench.path("output")
    least = float("inf")
    for _ in range(bench.options.tries):
        run = Run([*bench.merge, *tiles], os.devnull, target)
        with open(target, "rb") as file:
            is_right = file.read() == joined
        if run.status != 0 or not is_right:
            bench.fail("%s: %s" % (what, run.trouble() if run.status != 0 else "another header than the joined one"))
            return None
        least = min(least, run.processor)
    return least


class Tiles:
    """Tiles of one header each, and their joined header."""

    def __init__(self, bench, kind, names, count):
        half = len(names) // (count + 1)
        self.paths = [
            bench.write("%s%d" % (kind, at), (header(names[at * half : (at + 2) * half]),)) for at in range(count)
        ]
        self.joined = header(names[: (count + 1) * half])

    def remove(self):
        for path in self.paths:
            os.remove(path)


def measure(bench, shape, name_of, count, size):
    each = max(1000, int(size * bench.options.share)) // len(name_of(0))
    names = [name_of(at) for at in range((count + 1) * each // 2)]
    kinds = (Tiles(bench, "alike", names, count), Tiles(bench, "apart", [apart(name) for name in names], count))
    what = "%d headers, each with %d names %s" % (count, each, shape)
    least = [float("inf")] * 2
    for _ in range(TURNS):
        times = [merge_time(bench, what, kind.paths, kind.joined) for kind in kinds]
        if None in times:
            break
        least = [min(pair) for pair in zip(least, times)]
        if least[0] <= MAX_TIMES * least[1]:
            break
    for kind in kinds:
        kind.remove()
    if None in times:
        return
    bench.say("  %-72s %6.3f s   names apart: %6.3f s" % (what, *least))
    if least[0] > MAX_TIMES * least[1]:
        bench.fail("%s: %.1f times as long as names apart" % (what, least[0] / max(least[1], 0.001)))


def joins(bench):
    bench.say("Do headers join as fast, whatever their extensions' names? (the best of %d)" % bench.options.tries)
    for count, size in SIZES:
        for shape, name_of in EXTENSION_NAMES:
            measure(bench, shape, name_of, count, size)
