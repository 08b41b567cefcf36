#!/usr/bin/env python3
"""How fast `citymerge` is, how much memory it takes, and whether its output is right.

Eleven parts, each of which can be left out:
  right         the output on small streams, compared with that of a compactor, a selection and sums of its own
  speed         MB/s and peak memory, in turn, of the streams that bench/measured.py lists: building tiles, houses
                with attributes of all kinds and tiny features, without options, with two types and with a box; many
                attributes, blanks, escapes, a -0 in each feature, one long line; some beside jq; and of a merge in
                turn that moves all vertices
  memory        the peak for 10 MB and for 100 MB of building tiles (1 GB with --giga), which must be the
                same, and for one line of 64 MB
  instructions  executed for each input byte of these streams; they do not depend on the machine's load (valgrind)
  merges        MB/s of `merge --in-turn` on four building tiles, beside `filter` on the same bytes, and where all
                vertices are moved beside one tile of them: it must have most of that speed; instructions for each
                byte (valgrind); and its peak memory for tiles of 10 MB and of 100 MB each (1 GB with --giga), which
                must be the same
  threads       MB/s by the clock of `merge` beside `merge --in-turn`, of four even tiles, of a large one beside
                three small ones and of 64; where processors are free, which is tried by four filters at once, threads
                must gain half of what these do; and its peak memory, also where a slow reader takes the output
  waiting       processor time while a tile gives nothing and while the output is read slowly; how soon a merge
                ends once its output is gone, and how soon a feature of a live tile arrives
  hostile       time against size for worst-case texts; time to join headers whose extensions
                have names that are hard on a map, beside names with nothing in common
  documents     MB/s and peak memory of `citymerge cat` on a document, beside `citymerge filter` of its stream;
                time against size for worst-case documents
  cuts          instructions for each byte and peak memory of `citymerge cat` on documents that are cut on their
                text, with textures, with addresses, beside the same documents with a -0 (valgrind)
  worst         the peak memory of the worst lines, documents and headers, in times of their size, valid and refused ones
                apart, and how memory and time grow from 0.5 to 4 MB; where features share objects, from 50 to 200 kB

Status 0: all is right. 1: an output is wrong, the peak memory grows with the stream or is above its bound for a
worst case, a stream, a merge or a document takes more instructions than is wanted, a merge is too slow beside one
tile, or gains too little from threads, one that waits takes processor time or ends late, the time for a hostile shape
does not grow about as its size, or headers join slower for the names of their extensions. 2: the program is not there. A tool that is not there is named, and its part is left out.
"""

import argparse
import os
import sys
import tempfile

sys.path.insert(0, os.path.dirname(os.path.abspath(__file__)))
sys.dont_write_bytecode = True

from cuts import cuts
from documents import documents
from growth import hostile
from instructions import instructions
from memory import memory
from merges import merges
from right import right
from speed import speed
from table import write_table
from threads import threads
from waiting import waiting
from worst import worst_memory

PARTS = {
    "right": right,
    "speed": speed,
    "memory": memory,
    "instructions": instructions,
    "merges": merges,
    "threads": threads,
    "waiting": waiting,
    "hostile": hostile,
    "documents": documents,
    "cuts": cuts,
    "worst": worst_memory,
}
# Those whose figures stand in the README.
TABLE_PARTS = ("speed", "instructions", "threads")


class Bench:
    """The program, a folder for streams, and what was found wrong."""

    def __init__(self, options, folder):
        self.options = options
        self.folder = folder
        self.program = os.path.abspath(options.program)
        self.filter = [self.program, "filter"]
        self.merge = [self.program, "merge", "--in-turn"]
        self.merge_threads = [self.program, "merge"]
        self.cat = [self.program, "cat"]
        self.wrong = []
        self.load = os.getloadavg()[0]
        # of each stream and program, what is to stand in the README's table
        self.figures = {}

    def say(self, text):
        print(text, flush=True)

    def fail(self, what):
        self.say("  WRONG: " + what)
        self.wrong.append(what)

    def tell(self, row, column, figure):
        """Keeps a figure for the README's table."""
        self.figures.setdefault((row, column), []).append(figure)

    def path(self, name):
        return os.path.join(self.folder, name)

    def write(self, name, lines):
        """The path of a new file with these lines."""
        path = self.path(name)
        with open(path, "wb") as file:
            for line in lines:
                file.write(line)
        return path


def read_options():
    here = os.path.dirname(os.path.dirname(os.path.abspath(__file__)))
    reader = argparse.ArgumentParser(description=__doc__, formatter_class=argparse.RawDescriptionHelpFormatter)
    reader.add_argument("files", nargs="*", help="further streams on which the output must be right")
    reader.add_argument("--program", default=os.path.join(here, "build", "citymerge"))
    reader.add_argument("--only", metavar="PARTS", help="some of %s, with commas between" % ", ".join(PARTS))
    reader.add_argument("--size", type=float, default=50, metavar="MB", help="of the tiles for speed (50); else a fifth")
    reader.add_argument("--rounds", type=int, default=5, help="runs of each program for speed (5)")
    reader.add_argument("--small", type=float, default=2, metavar="MB", help="of the streams for the other parts (2)")
    reader.add_argument("--giga", action="store_true", help="memory: 1 GB of building tiles, too, and 1 GB a tile; takes some minutes")
    reader.add_argument("--share", type=float, default=1, help="of the hostile shapes' sizes (1)")
    reader.add_argument("--tries", type=int, default=3, help="runs of each hostile shape (3)")
    reader.add_argument("--functions", type=int, default=0, metavar="N", help="show the N functions that execute most")
    reader.add_argument("--seed", type=int, default=1, help="of all streams (1)")
    reader.add_argument("--table", action="store_true", help="run %s and write the README's table" % ", ".join(TABLE_PARTS))
    options = reader.parse_args()
    if options.table and not options.only:
        options.only = ",".join(TABLE_PARTS)
    options.parts = options.only.split(",") if options.only else list(PARTS)
    for part in options.parts:
        if part not in PARTS:
            reader.error("no such part: " + part)
    return options


def main():
    options = read_options()
    if not os.access(options.program, os.X_OK):
        print("missing: %s (make build leaves it there)" % os.path.relpath(options.program))
        return 2
    with tempfile.TemporaryDirectory(prefix="citymerge-bench-") as folder:
        bench = Bench(options, folder)
        for part in options.parts:
            PARTS[part](bench)
        if options.table:
            write_table(bench)
    if bench.wrong:
        bench.say("%d wrong:" % len(bench.wrong))
        for what in bench.wrong:
            bench.say("  " + what)
        return 1
    return 0


if __name__ == "__main__":
    sys.exit(main())
