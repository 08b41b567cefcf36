"""How much faster is a merge with a thread for each tile than one in turn, and does its memory stay the same?

The tiles are building tiles whose headers' translations differ, so that each vertex is moved. What counts is
the time by the clock: MB/s of all tiles together.
"""

import os
import subprocess
import time

from merges import MAX_MORE, far, features, race
from running import Run, peak_of
from speed import MEGA

# The tiles are so many times as large as those of a merge in turn, since a start takes some milliseconds.
LARGER = 4
# The gain of threads is judged where as many filters at once as there are tiles are together so many times as fast as one
# after another, which says how many processors are free; and it is to be at least this share of that.
LEAST_FREE, LEAST_SHARE = 2, 0.5
TILES = 4
# The peak memory of a merge of 64 tiles with threads is at most so much: some tenth more than README.md says.
MOST_PEAK = 73 * MEGA
# What a slow reader of the output takes, in MB/s and at a time in bytes.
SLOW = 16
PIECE = 64 * 1024

TURNS, THREADS = "in turn", "with a thread for each tile"

# The shares of the whole that the tiles have.
JUDGED = "4 tiles"
SHAPES = {
    JUDGED: [1 / TILES] * TILES,
    "1 large tile and 3 small ones": [0.85, 0.05, 0.05, 0.05],
    "64 tiles": [1 / 64] * 64,
}


def tiles(bench, size, shares):
    """The paths of tiles that are so many bytes together."""
    return [
        bench.write("tile%d" % number, [far(number), *features(bench, number, size * share)])
        for number, share in enumerate(shares)
    ]


def lines_of(path):
    with open(path, "rb") as stream:
        return sorted(stream)


def right(bench, paths):
    """Has the merge with threads the lines of the one in turn?"""
    targets = [bench.path("threads"), bench.path("turns")]
    Run([*bench.merge_threads, *paths], os.devnull, targets[0])
    Run([*bench.merge, *paths], os.devnull, targets[1])
    if lines_of(targets[0]) != lines_of(targets[1]):
        bench.fail("%d tiles: a merge with threads has other lines than one in turn" % len(paths))
    for target in targets:
        os.remove(target)


def gain(bench, name, paths):
    """How many times as fast the merge with threads is, by the clock."""
    size = sum(os.path.getsize(path) for path in paths)
    runs = race(
        bench,
        {
            TURNS: ([*bench.merge, *paths], os.devnull),
            THREADS: ([*bench.merge_threads, *paths], os.devnull),
        },
    )
    best = {way: min(run.seconds for run in some) for way, some in runs.items()}
    peaks = {way: max(run.peak for run in some) for way, some in runs.items()}
    times = best[TURNS] / best[THREADS]
    for way in runs:
        shown = (name, way, size / MEGA / best[way], peaks[way] / MEGA)
        bench.tell(name, way, "%.0f" % (size / MEGA / best[way]))
        bench.say("  %-30s %-27s %6.0f MB/s by the clock, peak memory %5.1f MB" % shown)
    bench.say("  %-30s %.2f times as fast" % (name, times))
    if peaks[THREADS] > MOST_PEAK:
        bench.fail("%s: peak memory %.1f MB, wanted: at most %.1f" % (name, peaks[THREADS] / MEGA, MOST_PEAK / MEGA))
    return times


def opened(path):
    """The file for each of as many filters as there are tiles."""
    for _ in range(TILES):
        with open(path, "rb") as given:
            yield given


def at_once(bench, path):
    """How many times as fast as one after another as many filters at once as there are tiles get through this."""
    one, all_of_them = [], []
    for turn in range(bench.options.rounds):
        one.append(Run(bench.filter, path).seconds)
        began = time.monotonic()
        children = [subprocess.Popen(bench.filter, stdin=given, stdout=subprocess.DEVNULL) for given in opened(path)]
        for child in children:
            child.wait()
        all_of_them.append(time.monotonic() - began)
    return TILES * min(one) / min(all_of_them)


def slow_peak(bench, paths):
    """The peak memory while a slow reader takes the output, for some seconds."""
    child = subprocess.Popen([*bench.merge_threads, *paths], stdout=subprocess.PIPE, stderr=subprocess.DEVNULL)
    began, taken, peak = time.monotonic(), 0, 0
    while time.monotonic() - began < 5:
        piece = child.stdout.read(PIECE)
        if not piece:
            break
        taken += len(piece)
        peak = max(peak, peak_of(child.pid))
        time.sleep(max(0, began + taken / (SLOW * MEGA) - time.monotonic()))
    child.stdout.close()
    child.wait()
    return peak


def memory(bench):
    most = []
    for megabytes in (10, 100):
        paths = tiles(bench, megabytes * MEGA * TILES, SHAPES[JUDGED])
        peaks = {
            "": Run([*bench.merge_threads, *paths], os.devnull).peak,
            ", a slow reader": slow_peak(bench, paths),
        }
        for reader, peak in peaks.items():
            bench.say("  4 tiles, each %4d MB%s: peak memory %6.1f MB" % (megabytes, reader, peak / MEGA))
        most.append(max(peaks.values()))
        for path in paths:
            os.remove(path)
    if most[1] > most[0] + MAX_MORE:
        bench.fail("the peak memory of a merge with threads grows: %.1f and %.1f MB" % tuple(each / MEGA for each in most))


def judge(bench, name, times, free):
    """Threads are to gain something wherever there are processors for them."""
    if free < LEAST_FREE:
        bench.say("  %s: not judged, since %d filters at once are %.1f times as fast as one" % (name, TILES, free))
    elif times < LEAST_SHARE * free:
        wanted = (name, times, TILES, free, LEAST_SHARE * free)
        bench.fail("%s: threads are %.2f times as fast, %d filters at once %.2f times; wanted: at least %.2f times" % wanted)


def threads(bench):
    load, cores = os.getloadavg()[0], os.cpu_count()
    bench.say("How fast is a merge with a thread for each tile? (%d cores, a load of %.1f)" % (cores, load))
    for name, shares in SHAPES.items():
        paths = tiles(bench, LARGER * bench.options.size * MEGA, shares)
        right(bench, paths)
        if name == JUDGED:
            free = at_once(bench, paths[0])
            bench.say("  %d filters at once are %.2f times as fast as one after another" % (TILES, free))
            judge(bench, name, gain(bench, name, paths), free)
        else:
            gain(bench, name, paths)
        for path in paths:
            os.remove(path)
    bench.say("How much memory does it take?")
    memory(bench)
