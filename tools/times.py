#!/usr/bin/env python3
"""Runs a long command of the kit, and tells what it took.

times.py run TABLE LOG WORD..    runs the command of these words, passes on what it says, line by line, and into LOG,
                                 writes to TABLE what it took, and ends with its status
times.py tell TABLE STORED       prints that beside what was stored
times.py store TABLE STORED      stores it, of a run that began from nothing and ended well, and what build/first_build.tsv
                                 says of the first build, or else what was stored of that

Of the whole run: minutes by the clock, of the processor, and the memory of its largest process. Of `rt ci`, from what it
says, by crate, in minutes from the start: when the last of the crates was proved on which it stands, when it was proved
itself, when its tests were, and when its edits that must fail were begun with; and how many these are. A crate that an
earlier run on this machine had proved is kept, and the time of such a run tells nothing of one from nothing. What the
edits of a crate took the kit does not say; `rt check` prints a line as each function's proof ends.
"""

import os
import re
import resource
import subprocess
import sys
import time

PROVED = re.compile(r"rt: (\w+) proved")
TESTS = re.compile(r"rt: (\w+): its tests are proved")
EDITS = re.compile(r"rt: (\w+): trying its must-fail edits \((\d+)\)")
KEPT = re.compile(r"rt: (\w+) is kept: ")

WHOLE = ("status", "processors", "lanes", "kept", "clock minutes", "processor minutes", "GB of the largest process")
FIRST_BUILD = "first build minutes"
COLUMNS = ("crate", "from", "proved", "tests", "edits from", "edits")


def crates_below():
    """The crates of the repository on which each one stands."""
    below = {}
    with open("crates.txt", encoding="utf-8") as lines:
        for line in lines:
            name, colon, rest = line.partition(":")
            if colon and not line.startswith("#"):
                below[name] = rest.split()
    return {name: [other for other in others if other in below] for name, others in below.items()}


class Said:
    """The minutes at which each thing was said of a crate."""

    def __init__(self):
        self.proved, self.tests, self.edits, self.counts, self.kept = {}, {}, {}, {}, set()

    def hear(self, line, minutes):
        if found := PROVED.match(line):
            self.proved[found.group(1)] = minutes
        elif found := TESTS.match(line):
            self.tests[found.group(1)] = minutes
        elif found := EDITS.match(line):
            self.edits[found.group(1)] = minutes
            self.counts[found.group(1)] = found.group(2)
        elif found := KEPT.match(line):
            self.kept.add(found.group(1))

    def rows(self):
        """A row for each crate that was proved in this run, by when it was."""
        below = crates_below()
        for name, end in sorted(self.proved.items(), key=lambda item: item[1]):
            begin = max((self.proved.get(other, 0.0) for other in below.get(name, [])), default=0.0)
            times = (begin, end, self.tests.get(name), self.edits.get(name))
            yield (name, *("" if at is None else "%.1f" % at for at in times), self.counts.get(name, ""))


def run(table, log, words):
    """The status of the command, whose words are passed on and logged."""
    since, said = time.monotonic(), Said()
    with open(log, "wb") as logged, subprocess.Popen(words, stdout=subprocess.PIPE) as command:
        for line in command.stdout:
            for out in (sys.stdout.buffer, logged):
                out.write(line)
                out.flush()
            said.hear(line.decode(errors="replace"), (time.monotonic() - since) / 60)
    took = resource.getrusage(resource.RUSAGE_CHILDREN)
    values = (command.returncode, len(os.sched_getaffinity(0)), os.environ.get("RT_JOBS", ""), len(said.kept),
              "%.1f" % ((time.monotonic() - since) / 60), "%.1f" % ((took.ru_utime + took.ru_stime) / 60),
              "%.1f" % (took.ru_maxrss * 1024 / 1e9))
    with open(table, "w", encoding="utf-8") as out:
        for row in (*zip(WHOLE, values), (), COLUMNS, *said.rows()):
            print("\t".join(map(str, row)), file=out)
    return command.returncode


def read(path):
    """What a table says of the whole run, and its rows by crate; nothing of a table that is not there."""
    if not os.path.exists(path):
        return {}, {}
    with open(path, encoding="utf-8") as file:
        whole, _, crates = file.read().partition("\n\n")
    rows = [line.split("\t") for line in crates.splitlines()[1:]]
    return dict(line.split("\t") for line in whole.splitlines()), {row[0]: row[1:] for row in rows}


def tell(table, stored):
    """Prints what a run took, each number beside the stored one in brackets."""
    whole, crates = read(table)
    before, crates_before = read(stored)
    for name in WHOLE[1:]:
        print("%-28s%8s%10s" % (name, whole.get(name, ""), "[%s]" % before.get(name, "")))
    if whole.get("kept") != "0":
        print("Crates were kept from an earlier run on this machine: these times tell nothing of a run from nothing.")
    print("%-24s" % COLUMNS[0] + "".join("%18s" % name for name in COLUMNS[1:]))
    for name, row in crates.items():
        old = crates_before.get(name, [""] * len(row))
        print("%-24s" % name + "".join("%9s%9s" % (new, "[%s]" % was if was else "") for new, was in zip(row, old)))


def store(table, stored):
    """Stores the table of a run that began from nothing and ended well; answers whether it did."""
    whole, _ = read(table)
    if whole.get("status") != "0" or whole.get("kept") != "0":
        print("Not stored: %s is of no run that began from nothing and ended well" % table)
        return 1
    first_build = {**read(stored)[0], **read("build/first_build.tsv")[0]}.get(FIRST_BUILD, "")
    with open(table, encoding="utf-8") as given:
        text = given.read()
    with open(stored, "w", encoding="utf-8") as out:
        out.write("%s\t%s\n%s" % (FIRST_BUILD, first_build, text))
    return 0


def main():
    what, *words = sys.argv[1:] or [""]
    if what == "run" and len(words) > 2:
        return run(words[0], words[1], words[2:])
    if what in ("tell", "store") and len(words) == 2:
        return (tell if what == "tell" else store)(*words)
    print(__doc__)
    return 2


if __name__ == "__main__":
    sys.exit(main())
