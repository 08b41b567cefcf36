"""How many MB a second, the programs in turn."""

import os
import shutil

from measured import BUILDINGS, BY_BOX, BY_TYPES, CHOSEN, MEASURED, MOVED, ONE_LINE, TINY
from running import Run
from streams import HEADER, elsewhere

OURS = "all features"
JQ = "jq -c ."
MEGA = 1_000_000
# The streams beside these are this many times shorter.
SHORTER = 5
LONG = (BUILDINGS, ONE_LINE)


def programs_for(bench, name):
    programs = {OURS: bench.filter}
    if name in CHOSEN:
        programs["two types"] = [*bench.filter, *BY_TYPES]
        programs["a box"] = [*bench.filter, *BY_BOX]
    if name in (BUILDINGS, TINY, ONE_LINE) and shutil.which("jq"):
        programs[JQ] = ["jq", "-c", "."]
    return programs


def race(bench, programs, path):
    """The runs of each program on a file, the programs in turn."""
    runs = {name: [] for name in programs}
    for turn in range(bench.options.rounds):
        for name, words in programs.items():
            run = Run(words, path)
            if run.status != 0:
                bench.fail("%s: %s" % (name, run.trouble()))
            runs[name].append(run)
    return runs


def best_processor(runs):
    return min(run.processor for run in runs)


def show(bench, program, runs, size):
    rates = sorted(size / MEGA / run.seconds for run in runs)
    bench.say(
        "    %-17s %6.1f MB/s (median %.1f), by processor time %.1f MB/s, peak memory %.1f MB"
        % (
            program, rates[-1], rates[len(rates) // 2],
            size / MEGA / best_processor(runs), max(run.peak for run in runs) / MEGA,
        )
    )


def measure(bench, name, lines, megabytes):
    path = bench.write("stream", lines(bench.options.seed, megabytes * MEGA))
    size = os.path.getsize(path)
    bench.say("  %s, %.0f MB" % (name, size / MEGA))
    runs = race(bench, programs_for(bench, name), path)
    os.remove(path)
    for program, some in runs.items():
        show(bench, program, some, size)
        bench.tell(name, program, "%.0f" % (size / MEGA / best_processor(some)))
    if JQ in runs:
        gain = best_processor(runs[JQ]) / best_processor(runs[OURS])
        bench.say("    by processor time %.1f times as fast as %s" % (gain, JQ))


def measure_merge(bench, megabytes):
    """A merge of a tile without features, and of one all of whose vertices are moved onto its grid."""
    first = bench.write("first", (HEADER,))
    second = bench.write("second", elsewhere(bench.options.seed, megabytes * MEGA))
    size = os.path.getsize(second)
    bench.say("  %s, %.0f MB" % (MOVED, size / MEGA))
    words = [bench.filter[0], "merge", "--in-turn", first, second]
    for program, some in race(bench, {OURS: words}, second).items():
        show(bench, program, some, size)
        bench.tell(MOVED, program, "%.0f" % (size / MEGA / best_processor(some)))
    os.remove(first)
    os.remove(second)


def speed(bench):
    bench.say("How fast? (%d runs of each program in turn, the best)" % bench.options.rounds)
    if not shutil.which(JQ.split()[0]):
        bench.say("  missing: jq (apt-get install jq); going on without it")
    size = bench.options.size
    for name, lines in MEASURED.items():
        measure(bench, name, lines, size / (1 if name in LONG else SHORTER))
    measure_merge(bench, size)
