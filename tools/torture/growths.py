#!/usr/bin/env python3
"""Runs tests with each growth of memory that they make refused in turn, and each of them must end well.

Use: tools/torture/growths.py [--jobs=N] [--keep=FOLDER] [CRATE..]

A test is run with its first growth refused, then with its second, until a run meets none; and so, too, with all growths
from there on refused, until the test asks for memory again, as it does once a call has answered want of it; there the
test itself may end in want of memory. It must say in some of these runs that a call answered want
of memory, and so must each call that the crate's sources name as `Call("..")` be said to have. A test that takes the
memory away by itself is run once: of what it calls then, nothing may ask for memory. The programs of the tests stand in
the crates' folders `out`, where `rt test` and `rt ci` leave them.
"""

import argparse
import collections
import dataclasses
import glob
import itertools
import multiprocessing
import os
import re
import subprocess
import sys
import time

sys.dont_write_bytecode = True

import model
import refusals
import runs

# No run of a test takes this long, in seconds, unless it hangs.
LONG = 60

# The crates with such tests, whose names begin with `GROWTHS`.
CRATES = ("city_cut_tests", "tile_merge_tests", "command_runs_tests")
GROWTHS = "growths::"

# How a test says that a call answered want of memory, and where the sources name such calls.
SAID = re.compile(rb"^wanted memory: (.*)$", re.MULTILINE)
NAMED = re.compile(r'\bCall\("([^"]+)"\)')

# What a test says that ends in want of memory: as an error of its own kind, or of any.
OWN = re.compile(rb"^(Error: Memory|error: (Memory|AllocError))$", re.MULTILINE)

# The status of a test whose result is an error.
FAILED = 101

# More growths than any test makes.
NEVER = 1 << 62


@dataclasses.dataclass(frozen=True)
class Test:
    program: str
    name: str


@dataclasses.dataclass
class Found:
    """Of a test: how many growths were refused, how often each call wanted memory, and what was wrong."""

    test: Test
    growths: int
    wanted: collections.Counter
    wrong: list


def prepare(folder, library):
    """Gives this process the page in which the calls are counted."""
    global page, shim
    page, shim = os.path.join(folder, "page-%d" % os.getpid()), library


def run(test, number, rest):
    """Runs a test with this growth refused, and all later ones, too, if they are to be: its status, words and counts."""
    runs.write(page, bytes(refusals.PAGE.size))
    named = refusals.Point("memory", "fail", number, rest).variables()
    more = {"LD_PRELOAD": shim, "REFUSE_PAGE": page, **named}
    try:
        ended = subprocess.run([test.program, test.name], stdin=subprocess.DEVNULL, stdout=subprocess.PIPE,
                               stderr=subprocess.STDOUT, timeout=LONG, env={**os.environ, **more}, check=False)
        return ended.returncode, ended.stdout, refusals.Counts(runs.read(page))
    except subprocess.TimeoutExpired as late:
        return "hung", late.stdout or b"", refusals.Counts(runs.read(page))


def try_test(test):
    """Tries each growth of a test."""
    found = Found(test, 0, collections.Counter(), [])
    status, said, counts = run(test, NEVER, False)
    if status != 0:
        found.wrong.append("status %s with all memory: %s" % (status, text_of(said)))
    elif counts.taken:
        # Each time one growth is asked for by the test itself, before it gives the memory back.
        if counts.refused != counts.taken:
            found.wrong.append("%d growths where there is no memory" % (counts.refused - counts.taken))
    else:
        try_in_turn(found, False)
        try_in_turn(found, True)
        if not found.wanted:
            found.wrong.append("it never answered want of memory")
    return found


def try_in_turn(found, rest):
    for number in itertools.count(1):
        status, said, counts = run(found.test, number, rest)
        calls = SAID.findall(said)
        if status != 0 and not (rest and status == FAILED and OWN.search(said)):
            which = "all growths from %d on" if rest else "growth %d"
            found.wrong.append("%s refused: status %s: %s" % (which % number, status, text_of(said)))
        if not counts.refused:
            return
        found.growths += 1
        found.wanted.update({name.decode() for name in calls})


def text_of(said):
    return said.decode(errors="replace").strip().replace("\n", "; ")[-400:]


def tests_of(crate):
    program = os.path.join(model.ROOT, "crates", crate, "out", crate + "_tests")
    listed = subprocess.run([program, "--list"], stdout=subprocess.PIPE, check=True).stdout.decode()
    names = re.findall(r"^(.*): test$", listed, re.MULTILINE)
    return [Test(program, name) for name in names if name.startswith(GROWTHS)]


def named_in(crate):
    """The calls that the crate's tests say may answer want of memory."""
    paths = glob.glob(os.path.join(model.ROOT, "crates", crate, "src", "**", "*.rt"), recursive=True)
    return {name for path in paths for name in NAMED.findall(runs.read(path).decode())}


def never_wanted(crates, wanted):
    """The calls that never answered want of memory."""
    return sorted({name for crate in crates for name in named_in(crate)} - set(wanted))


def options_of(words):
    parser = argparse.ArgumentParser(description=__doc__.partition("\n")[0])
    parser.add_argument("crates", nargs="*", default=CRATES, metavar="CRATE", help="by default all that have such tests")
    parser.add_argument("--jobs", type=int, default=os.cpu_count(), help="how many processes at once")
    parser.add_argument("--keep", default=os.path.join(model.ROOT, "build", "growths"), help="where the runs have their files")
    return parser.parse_args(words)


def main():
    options = options_of(sys.argv[1:])
    library = refusals.built(options.keep)
    if library is None:
        return 1
    began = time.monotonic()
    tests = [test for crate in options.crates for test in tests_of(crate)]
    with multiprocessing.Pool(options.jobs, prepare, (options.keep, library)) as pool:
        every = list(pool.imap_unordered(try_test, tests))
    wanted = sum((found.wanted for found in every), collections.Counter())
    wrong = ["%s: %s" % (found.test.name, what) for found in every for what in found.wrong]
    wrong += ["%s never answered want of memory" % name for name in never_wanted(options.crates, wanted)]
    for what in wrong:
        print("WRONG: " + what)
    growths, refused = sum(found.growths for found in every), sum(found.growths > 0 for found in every)
    print("Want of memory: %s" % ", ".join("%s %d" % each for each in sorted(wanted.items())))
    print("Growths: %d of %d tests refused, and %d tests with no memory, in %.0f s; %d wrong"
          % (growths, refused, len(every) - refused, time.monotonic() - began, len(wrong)), flush=True)
    return 1 if wrong or not 0 < refused < len(every) else 0


if __name__ == "__main__":
    sys.exit(main())
