"""Is a merge in turn nearly as fast as one tile of the same lines, how many instructions does it take, and does its memory
stay the same?

The tiles are building tiles with one header, or with headers whose translations differ from that of a first tile without
features, so that each vertex is moved. Beside them stand a filter of the lines of tiles with one header in the order of the
merge, so that both have the same output, and a merge of one tile of these lines whose vertices are all moved, too.
"""

import itertools
import os
import shutil
import statistics

from instructions import each_byte
from running import Run
from speed import MEGA, show
from streams import HEADER, buildings

TILES = 4
# By so much may the peak for longer tiles be above that for shorter ones: the texts that are held of each
# may be longer.
MAX_MORE = 2 * MEGA
FILTER = "filter"
MERGE = "merge --in-turn"
ONE_MOVED = "one tile, moved"
MOVING = "tiles far apart"
# What a merge has at least of the speed of one tile, in the median of the turns, by processor time.
LEAST_SHARES = {MERGE: (FILTER, 0.7), MOVING: (ONE_MOVED, 0.7)}
# The most instructions for each byte: some tenth more than was counted on 30 November 2026.
MOST_INSTRUCTIONS = {MERGE: 8.5, MOVING: 17.2}


def features(bench, number, size):
    """The lines of a tile after its header."""
    return itertools.islice(buildings(bench.options.seed + number, size), 1, None)


def far(number):
    """A header whose translation is a whole number of grid units from that of the first."""
    return HEADER.replace(b"84710.100", b"%d.350" % (84710 + 1000 * number))


def tiles(bench, name, size, header):
    """The paths of tiles of `size` bytes together."""
    return [
        bench.write("%s%d" % (name, number), itertools.chain((header(number),), features(bench, number, size / TILES)))
        for number in range(TILES)
    ]


def in_turn(bench, size, header=HEADER):
    """The lines of the tiles with one header, as a merge writes them."""
    yield header
    rounds = itertools.zip_longest(*[features(bench, number, size / TILES) for number in range(TILES)])
    for lines in rounds:
        for line in lines:
            if line is not None:
                yield line


def race(bench, programs):
    """The runs of each program, the programs in turn."""
    runs = {name: [] for name in programs}
    for turn in range(bench.options.rounds):
        for name, (words, source) in programs.items():
            run = Run(words, source)
            if run.status != 0:
                bench.fail("%s: %s" % (name, run.trouble()))
            runs[name].append(run)
    return runs


def right(bench, near, stream):
    """Does the merge write what the filter writes for the lines in turn?"""
    targets = [bench.path("merged"), bench.path("filtered")]
    Run([*bench.merge, *near], os.devnull, targets[0])
    Run(bench.filter, stream, targets[1])
    with open(targets[0], "rb") as merged, open(targets[1], "rb") as filtered:
        if merged.read() != filtered.read():
            bench.fail("%d tiles merged differ from their lines in turn, filtered" % TILES)
    for target in targets:
        os.remove(target)


class Streams:
    """The tiles, and the streams that stand beside them, of so many bytes."""

    def __init__(self, bench, size):
        self.near = tiles(bench, "near", size, lambda number: HEADER)
        self.apart = tiles(bench, "apart", size, lambda number: far(number + 1))
        self.stream = bench.write("stream", in_turn(bench, size))
        self.moved = bench.write("moved", in_turn(bench, size, far(1)))
        self.first = bench.write("first", (HEADER,))
        self.size = os.path.getsize(self.stream)

    def programs(self, bench):
        return {
            FILTER: (bench.filter, self.stream),
            MERGE: ([*bench.merge, *self.near], os.devnull),
            ONE_MOVED: ([*bench.merge, self.first, self.moved], os.devnull),
            MOVING: ([*bench.merge, self.first, *self.apart], os.devnull),
        }

    def remove(self):
        for path in (*self.near, *self.apart, self.stream, self.moved, self.first):
            os.remove(path)


def share(runs, name, beside):
    """What one has of the speed of the other, in the median of the turns."""
    return statistics.median(other.processor / run.processor for run, other in zip(runs[name], runs[beside]))


def speed(bench, megabytes):
    streams = Streams(bench, megabytes * MEGA)
    right(bench, streams.near, streams.stream)
    bench.say("  %d building tiles, together %.0f MB" % (TILES, streams.size / MEGA))
    runs = race(bench, streams.programs(bench))
    for name, some in runs.items():
        show(bench, name, some, streams.size)
    for name, (beside, least) in LEAST_SHARES.items():
        found = share(runs, name, beside)
        bench.say("    by processor time %s at %.2f of the speed of %s" % (name, found, beside))
        if found < least:
            bench.fail("%s: %.2f of the speed of %s, wanted: at least %.2f" % (name, found, beside, least))
    streams.remove()


def instructions(bench, megabytes):
    if not shutil.which("valgrind"):
        bench.say("  missing: valgrind (apt-get install valgrind); left out")
        return
    streams = Streams(bench, megabytes * MEGA)
    programs = streams.programs(bench)
    for name, most in MOST_INSTRUCTIONS.items():
        found = each_byte(bench, programs[name][0], os.devnull, streams.size)
        if found is not None:
            bench.say("  %-38s %6.1f   wanted: at most %g" % (name, found, most))
            if found > most:
                bench.fail("%s: %.1f instructions for each byte, wanted: at most %g" % (name, found, most))
    streams.remove()


def peak(bench, megabytes):
    """The peak memory of a merge of a tile of so many MB with itself, or None where it went wrong."""
    path = bench.write("tile", buildings(bench.options.seed, megabytes * MEGA))
    run = Run([*bench.merge, *[path] * TILES], os.devnull)
    os.remove(path)
    if run.status != 0:
        bench.fail("tiles of %d MB: %s" % (megabytes, run.trouble()))
        return None
    bench.say("  %d building tiles, each %4d MB: peak memory %6.1f MB" % (TILES, megabytes, run.peak / MEGA))
    return run.peak


def memory(bench):
    peaks = [peak(bench, megabytes) for megabytes in (10, 100) + ((1000,) if bench.options.giga else ())]
    known = [each for each in peaks if each is not None]
    if known and max(known) > known[0] + MAX_MORE:
        shown = ", ".join(["%.1f" % (each / MEGA) for each in known])
        bench.fail("the peak memory grows with the tiles: %s MB" % shown)


def merges(bench):
    bench.say("How fast is a merge in turn? (%d runs of each in turn, the best)" % bench.options.rounds)
    speed(bench, bench.options.size)
    bench.say("How many instructions for each byte? (%g MB)" % bench.options.small)
    instructions(bench, bench.options.small)
    bench.say("How much memory does it take?")
    memory(bench)
