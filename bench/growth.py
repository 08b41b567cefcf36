"""Does time grow about as size, whatever the shape of the text?"""

import os

from joins import joins
from running import Run
from shapes import HOSTILE

# Twice the size takes at most this many times as long, where time grows about as size.
MAX_GROWTH = 3.0
# Times below this many seconds say nothing about growth.
LEAST_SECONDS = 0.1
# A load on the machine makes single times longer: those that grow too much are taken again, up to so many times.
TURNS = 3


def ends_as_it_should(run, shape):
    if shape.fault:
        return run.status == 1 and run.errors == "citymerge: tile 1 line 2: %s\n" % shape.fault
    return run.status == 0


def least_time(bench, shape, path):
    """The least processor time of a few runs, or None where one ended in another way than it should."""
    target = bench.path("output")
    runs = [Run([bench.program, shape.command], path, target) for _ in range(bench.options.tries)]
    os.remove(target)
    for run in runs:
        if not ends_as_it_should(run, shape):
            bench.fail("%s: %s (wanted: %s)" % (shape.name, run.trouble(), shape.fault or "status 0"))
            return None
    return min(run.processor for run in runs)


def growth(small, large):
    return large / max(small, 0.001) if large >= LEAST_SECONDS else 0


def least_times(bench, shape, paths):
    """The least times for a small and a large stream, or None where a run went wrong."""
    least = [float("inf")] * 2
    for _ in range(TURNS):
        for at, path in enumerate(paths):
            found = least_time(bench, shape, path)
            if found is None:
                return None
            least[at] = min(least[at], found)
        if growth(*least) <= MAX_GROWTH:
            break
    return least


def measure(bench, shape):
    count = max(2000, int(shape.most * bench.options.share)) // 2000 * 2000
    paths = [bench.write(name, shape.lines(n)) for name, n in (("small", count // 2), ("large", count))]
    size = os.path.getsize(paths[1])
    least = least_times(bench, shape, paths)
    for path in paths:
        os.remove(path)
    if least is None:
        return
    rate = size / 1_000_000 / max(least[1], 0.001)
    bench.say(
        "  %-44s %9d: %6.3f s   %9d: %6.3f s   %6.1f MB/s"
        % (shape.name, count // 2, least[0], count, least[1], rate)
    )
    if growth(*least) > MAX_GROWTH:
        bench.fail("%s: twice the size takes %.1f times as long" % (shape.name, growth(*least)))


def hostile(bench):
    bench.say("Does time grow as size? (processor seconds, the best of %d)" % bench.options.tries)
    for shape in HOSTILE:
        measure(bench, shape)
    joins(bench)
