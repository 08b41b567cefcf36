"""How many instructions does the program execute for each input byte?"""

import os
import shutil

from measured import (
    BUILDINGS, BY_BOX, BY_TYPES, CHOSEN, ESCAPED, HOUSES, MEASURED, MINUS_ZERO, MOVED, ONE_LINE, REGISTER, SPACED, TINY, WIDE,
    YEARLY,
)
from running import counted, dominant
from streams import HEADER, elsewhere

# The most that is wanted for each input byte: some tenth more than was counted on 29 November 2026, so that a fast way that
# no longer answers shows, which no proof does.
MOST = {
    (BUILDINGS, ()): 7.3,
    (BUILDINGS, BY_TYPES): 7.4,
    (BUILDINGS, BY_BOX): 10.3,
    (HOUSES, ()): 10.4,
    (HOUSES, BY_TYPES): 10.5,
    (HOUSES, BY_BOX): 12.7,
    (TINY, ()): 17,
    (TINY, BY_TYPES): 19.3,
    (TINY, BY_BOX): 19.3,
    (WIDE, ()): 9.5,
    (REGISTER, ()): 11.3,
    (YEARLY, ()): 7.4,
    (SPACED, ()): 19,
    (ESCAPED, ()): 21.6,
    (MINUS_ZERO, ()): 19,
    (ONE_LINE, ()): 7.2,
    (MOVED, ()): 16.9,
}


def each_byte(bench, words, path, size):
    """The instructions for each of so many bytes, or None where the run went wrong."""
    run, count = counted(words, path, bench.path("profile"))
    if run.status != 0 or count is None:
        bench.fail("under valgrind: " + run.trouble())
        return None
    return count / size


def measure(bench, name, path, options, words=None):
    found = each_byte(bench, words or [*bench.filter, *options], path, os.path.getsize(path))
    if found is None:
        return
    most = MOST.get((name, options))
    wanted = "" if most is None else "wanted: at most %g" % most
    bench.say(("  %-38s %-32s %6.1f   %s" % (name, " ".join(options), found, wanted)).rstrip())
    bench.tell(name, "instructions", "%.1f" % found)
    if bench.options.functions:
        show_functions(bench, os.path.getsize(path))
    if most is not None and found > most:
        name = " ".join((name, *options))
        bench.fail("%s: %.1f instructions for each byte, wanted: at most %g" % (name, found, most))


def measure_merge(bench):
    """A merge of a tile without features, and of one all of whose vertices are moved onto its grid."""
    first = bench.write("first", (HEADER,))
    second = bench.write("second", elsewhere(bench.options.seed, bench.options.small * 1_000_000))
    measure(bench, MOVED, second, (), [bench.filter[0], "merge", "--in-turn", first, second])
    os.remove(first)
    os.remove(second)


def show_functions(bench, size):
    """The functions that executed the most instructions in the last run."""
    if not shutil.which("callgrind_annotate"):
        bench.say("    missing: callgrind_annotate (it comes with valgrind)")
        return
    for count, share, name in dominant(bench.path("profile"), bench.options.functions):
        bench.say("    %5.1f  %5s %%  %s" % (count / size, share, name[:110]))


def instructions(bench):
    if not shutil.which("valgrind"):
        bench.say("How many instructions? missing: valgrind (apt-get install valgrind); left out")
        return
    bench.say("How many instructions for each byte? (%g MB of each stream)" % bench.options.small)
    for name, lines in MEASURED.items():
        path = bench.write("small", lines(bench.options.seed, bench.options.small * 1_000_000))
        for options in ((), BY_TYPES, BY_BOX) if name in CHOSEN else ((),):
            measure(bench, name, path, options)
        os.remove(path)
    measure_merge(bench)
