"""The table of speeds in README.md, made of what was measured."""

import os

from speed import SHORTER
from threads import LARGER

README = os.path.join(os.path.dirname(os.path.dirname(os.path.abspath(__file__))), "README.md")
BEGIN, END = "<!-- tables -->\n", "<!-- /tables -->\n"
FILTERED = ("all features", "two types", "a box", "jq -c .", "instructions")
MERGED = ("in turn", "with a thread for each tile")


def rows(figures):
    """The lines of the table: a row for each stream, then one for each merge, in turn and with threads."""
    yield "| | %s |" % " | ".join(FILTERED)
    yield "|" + "---|" * (len(FILTERED) + 1)
    for row in dict.fromkeys(row for row, column in figures if column in FILTERED):
        cells = [", ".join(figures.get((row, column), [])) for column in FILTERED]
        yield "| %s | %s |" % (row, " | ".join(cells))
    for row in dict.fromkeys(row for row, column in figures if column in MERGED):
        both = "; ".join(", ".join(figures.get((row, column), [])) for column in MERGED)
        yield "| a merge of %s: in turn; with threads | %s |%s" % (row, both, " |" * (len(FILTERED) - 1))


def text(bench):
    options = bench.options
    yield (
        "MB/s of `filter` by processor time, the best of %d runs on %d processors at a load of %.1f, on %g MB of building "
        "tiles and of one long line, %g MB of the others; beside it instructions an input byte, on %g MB. Merges are of "
        "%g MB of building tiles, each vertex moved, by the clock."
        % (
            options.rounds, os.cpu_count(), bench.load, options.size, options.size / SHORTER, options.small,
            LARGER * options.size,
        )
    )
    yield ""
    yield from rows(bench.figures)


def write_table(bench):
    """Puts the table into README.md, in the place of the one that is there."""
    with open(README, encoding="utf-8") as file:
        before, rest = file.read().split(BEGIN)
    after = rest.split(END)[1]
    with open(README, "w", encoding="utf-8") as file:
        file.write(before + BEGIN + "\n".join(text(bench)) + "\n" + END + after)
    bench.say("README.md has these figures now")
