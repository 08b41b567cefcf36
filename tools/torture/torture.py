#!/usr/bin/env python3
"""Holds the built program against a model of its own on random inputs, on all fronts of some, and where it is refused.

Use: tools/torture/torture.py [--short] [--seed=N] [--count=N] [--jobs=N] [--keep=FOLDER] PROGRAM
"""

import argparse
import collections
import multiprocessing
import multiprocessing.util
import os
import sys
import time

sys.dont_write_bytecode = True

import inputs
import model
import refusals
import runs

# How many cases are drawn, of how many each front is tried, one of how many points, and cases with some points.
WHOLE, SHORT = (100000, 40, 1, 10000), (10000, 3, 11, 500)
# A case of which each front is tried has at most so many bytes.
MAX_FRONTS = 1500

room = None


def enter(program):
    """Gives this process its own room."""
    global room
    room = runs.Room(program)
    multiprocessing.util.Finalize(room, room.close, exitpriority=10)


def tried(case, keep):
    """What the model says of a case, and what is wrong with a run of it, or None."""
    answer = model.answer(case.words, case.given, case.files)
    room.furnish(case)
    what = runs.wrong(answer, room.run(case))
    return answer, what and "%s: %s" % (what, room.keep(keep, case, what, answer))


def drawn_cases(task):
    """Tries the cases of some numbers; what was found, and how often each text was right."""
    options, numbers = task
    found, said = [], collections.Counter()
    for number in numbers:
        answer, what = tried(inputs.case(options.seed, number), options.keep)
        said[answer.said.rpartition(": ")[2].strip() or "done"] += 1
        if what:
            found.append("case %d: %s" % (number, what))
    return found, said


def fronts_of(seed, count):
    """Cases that are small enough for each of their fronts to be tried."""
    number, found = 0, []
    while len(found) < count:
        case = inputs.case(seed, -1 - number)
        number += 1
        if case.words[0] != "merge" and 300 < len(case.given.data) <= MAX_FRONTS:
            found.append(case)
    return found


def fronts(task):
    """Tries each front of what standard input gives."""
    options, case = task
    found = []
    for length in range(len(case.given.data)):
        front = inputs.Case(case.words, model.Given(case.given.data[:length]), {})
        what = tried(front, options.keep)[1]
        if what:
            found.append("a front of %d bytes: %s" % (length, what))
    return found, collections.Counter(fronts=len(case.given.data))


def refused(task):
    """Tries some points of a case; what was found, and how often each known thing was met."""
    options, library, name, case, points = task
    room.furnish(case)
    return at_points(options, refusals.Refusing(room, library), name, case, points)


def at_points(options, refusing, name, case, points):
    answer = refusals.answer_of(case)
    found, counts = [], collections.Counter(points=len(points))
    for point in points:
        ended, made = refusing.run(case, point)
        what = refusals.wrong(room, case, answer, point, ended, made)
        if what:
            kept = room.keep(options.keep, case, what, answer, refusing.variables(point))
            found.append("%s, %r: %s: %s" % (name, point, what, kept))
    return found, counts


def refused_drawn(task):
    """Tries some points of each of the cases of some numbers, in which no file stands twice."""
    options, library, numbers = task
    refusing = refusals.Refusing(room, library)
    found, counts = [], collections.Counter()
    for number in numbers:
        case = inputs.case(options.seed, number)
        if len(set(case.words)) == len(case.words):
            room.furnish(case)
            points = refusals.some_points(refusing.run(case)[1], number)
            more, some = at_points(options, refusing, "case %d" % number, case, points)
            found += more
            counts.update(some)
    return found, counts


# What the model must say of the examples, whose streams stand beside them.
EXAMPLES = (
    (["filter"], "west.city.jsonl", "west.expected.city.jsonl"),
    (["filter"], "east.city.jsonl", "east.expected.city.jsonl"),
    (["cat"], "town.city.json", "town.expected.city.jsonl"),
    (["merge", "west.city.jsonl", "east.city.jsonl", "--in-turn"], None, "west_and_east.expected.city.jsonl"),
)


def model_part():
    """Whether the model is right where that is known."""
    folder = os.path.join(model.ROOT, "examples")
    given = {name: model.Given(runs.read(os.path.join(folder, name))) for name in os.listdir(folder) if ".city." in name}
    wrong = []
    for words, name, expected in EXAMPLES:
        answer = model.answer(words, given.get(name), given)
        if answer.stream is None or not answer.stream.is_written(given[expected].data):
            wrong.append("the model of %s is not %s" % (" ".join(words), expected))
    return told(wrong)


def in_parts(all_of_them, size=50):
    return [all_of_them[start:start + size] for start in range(0, len(all_of_them), size)]


def told(found):
    for what in found:
        print("WRONG: " + what, flush=True)
    return len(found)


def gathered(pool, function, tasks):
    """Runs the tasks side by side; how many were wrong, and all counts together."""
    wrong, counts = 0, collections.Counter()
    for found, some in pool.imap_unordered(function, tasks):
        wrong += told(found)
        counts.update(some)
    return wrong, counts


def random_part(pool, options, count):
    began = time.monotonic()
    wrong, said = gathered(pool, drawn_cases, [(options, part) for part in in_parts(range(count))])
    print("Random inputs: %d of seed %d in %.0f s, %d wrong" % (count, options.seed, time.monotonic() - began, wrong), flush=True)
    for text, often in said.most_common():
        print("    %6d %s" % (often, text))
    return wrong


def fronts_part(pool, options, count):
    began = time.monotonic()
    wrong, counts = gathered(pool, fronts, [(options, case) for case in fronts_of(options.seed, count)])
    print("Fronts: %d of %d inputs in %.0f s, %d wrong" % (counts["fronts"], count, time.monotonic() - began, wrong), flush=True)
    return wrong


def refusals_of(options, library, every):
    """The tasks of the refusals: each point of each case, or one of so many."""
    own = runs.Room(options.program)
    tasks = []
    for name, case in refusals.cases():
        own.furnish(case)
        counts = refusals.Refusing(own, library).run(case)[1]
        print("    %s: %s" % (name, ", ".join("%d %s" % (often, kind) for kind, often in counts.calls.items() if often)))
        points = list(refusals.points(counts))
        tasks += [(options, library, name, case, part) for part in in_parts(points[::every])]
    own.close()
    return tasks


def refusals_part(pool, options, every, count):
    library = refusals.built(options.keep)
    if library is None:
        return 1
    print("Calls of each case:")
    wrong = points_part(pool, "Refusals", refused, refusals_of(options, library, every))
    tasks = [(options, library, part) for part in in_parts(range(count))]
    return wrong + points_part(pool, "Refusals on random inputs", refused_drawn, tasks)


def points_part(pool, name, function, tasks):
    began = time.monotonic()
    wrong, counts = gathered(pool, function, tasks)
    print("%s: %d points in %.0f s, %d wrong" % (name, counts["points"], time.monotonic() - began, wrong), flush=True)
    return wrong


def options_of(words):
    parser = argparse.ArgumentParser(description=__doc__.partition("\n")[0])
    parser.add_argument("program", type=os.path.abspath)
    parser.add_argument("--short", action="store_true", help="what the gate tries, in two minutes on four cores")
    parser.add_argument("--seed", type=int, default=1, help="what the random inputs are drawn from")
    parser.add_argument("--count", type=int, help="how many random inputs")
    parser.add_argument("--jobs", type=int, default=os.cpu_count(), help="how many processes at once")
    parser.add_argument("--keep", default=os.path.join(model.ROOT, "build", "torture"), help="where wrong runs are kept")
    return parser.parse_args(words)


def main():
    options = options_of(sys.argv[1:])
    count, some, every, few = SHORT if options.short else WHOLE
    with multiprocessing.Pool(options.jobs, enter, (options.program,)) as pool:
        wrong = model_part()
        wrong += random_part(pool, options, options.count if options.count is not None else count)
        wrong += fronts_part(pool, options, some)
        wrong += refusals_part(pool, options, every, few)
        pool.close()
        pool.join()
    return 1 if wrong else 0


if __name__ == "__main__":
    sys.exit(main())
