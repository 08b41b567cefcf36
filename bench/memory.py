"""Does the peak memory stay the same, however long the stream is? And how much does one long line take?"""

import os

from measured import BY_BOX
from running import Run
from streams import buildings, one_line

MEGA = 1_000_000
# By so much may the peak for a longer stream be above that for a shorter one: its longest line may be longer.
MAX_MORE = 1 * MEGA
LONG_LINE = 64 * MEGA


def peak(bench, name, lines, options=()):
    """The peak memory of a run on these lines, or None where it went wrong."""
    path = bench.write("stream", lines)
    size = os.path.getsize(path)
    with open(path, "rb") as file:
        longest = max(len(line) for line in file)
    run = Run([*bench.filter, *options], path)
    os.remove(path)
    if run.status != 0:
        bench.fail("%s: %s" % (name, run.trouble()))
        return None
    bench.say(
        "  %-32s %7.1f MB, the longest line %8.3f MB: peak memory %6.1f MB"
        % (name, size / MEGA, longest / MEGA, run.peak / MEGA)
    )
    return run.peak


def memory(bench):
    bench.say("How much memory?")
    peaks = []
    for megabytes in (10, 100) + ((1000,) if bench.options.giga else ()):
        for options in ((), BY_BOX):
            lines = buildings(bench.options.seed, megabytes * MEGA)
            peaks.append(peak(bench, " ".join(("building tiles", *options)), lines, options))
    known = [each for each in peaks if each is not None]
    if known and max(known) > known[0] + MAX_MORE:
        bench.fail("the peak memory grows with the stream: %s MB" % ", ".join(["%.1f" % (each / MEGA) for each in known]))
    peak(bench, "one building of one long line", one_line(bench.options.seed, LONG_LINE))
