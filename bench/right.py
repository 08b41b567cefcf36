"""Is the output that of another compactor, of another selection, and of another sum?"""

import json
import os

from chooser import choose
from compactor import compact
from measured import BY_BOX, BY_TYPE, CHOSEN, MEASURED, MINUS_ZERO
from running import Run
from streams import HEADER, STEPS_AWAY, elsewhere, loose

# What is asked of the streams of which a part is chosen.
CHOICES = (
    BY_TYPE,
    BY_BOX,
    BY_TYPE + BY_BOX,
    BY_TYPE + BY_BOX + ("--exclude",),
    ("--cotype=Road,Bridge",),
    ("--bbox=-5,-5,-1,-1",),
    ("--exclude",),
)


def compare(bench, name, path, expected, options=(), words=None):
    target = bench.path("output")
    run = Run(words or [*bench.filter, *options], path, target)
    with open(target, "rb") as file:
        got = file.read()
    os.remove(target)
    name = " ".join((name, *options))
    if run.status != 0:
        bench.fail("%s: %s" % (name, run.trouble()))
    elif got != expected:
        at = next((i for i, (a, b) in enumerate(zip(got, expected)) if a != b), min(len(got), len(expected)))
        bench.fail("%s: output differs from byte %d on" % (name, at))
        bench.say("    wanted .. %r" % expected[max(0, at - 30):at + 30])
        bench.say("    got    .. %r" % got[max(0, at - 30):at + 30])
    else:
        bench.say("  right: %s, %d bytes in, %d bytes out" % (name, os.path.getsize(path), len(got)))


def moved(line):
    """The line of a building of a tile elsewhere, on the grid of the others."""
    front, vertices = line.rstrip(b"}\n").split(b'"vertices":')
    sums = [[a + b for a, b in zip(vertex, STEPS_AWAY)] for vertex in json.loads(vertices)]
    return front + b'"vertices":' + json.dumps(sums, separators=(",", ":")).encode("ascii") + b"}\n"


def compare_merge(bench, size):
    """A merge of a tile without features, and of one all of whose vertices are moved onto its grid."""
    lines = list(elsewhere(bench.options.seed, size))
    paths = [bench.write("first", (HEADER,)), bench.write("second", lines)]
    words = [bench.filter[0], "merge", "--in-turn", *paths]
    compare(bench, "merged, all moved", paths[1], HEADER + b"".join([moved(line) for line in lines[1:]]), (), words)
    for path in paths:
        os.remove(path)


def right(bench):
    bench.say("Is the output right?")
    size = bench.options.small * 1_000_000
    for name, lines in (*MEASURED.items(), ("white space, escapes, blank lines", loose)):
        stream = b"".join(lines(bench.options.seed, size))
        path = bench.write("small", (stream,))
        expected = compact(stream)
        if name == MINUS_ZERO:
            # The compactor knows of no vertices, and keeps a -0 among them.
            expected = expected.replace(b'"vertices":[[-0,', b'"vertices":[[0,')
        compare(bench, name, path, expected)
        if name in CHOSEN:
            for options in CHOICES:
                compare(bench, name, path, choose(stream, options), options)
        os.remove(path)
    compare_merge(bench, size)
    for name in bench.options.files:
        with open(name, "rb") as file:
            stream = file.read()
        compare(bench, name, name, compact(stream))
