#!/usr/bin/env python3
"""What the documents say of the code must be so.

docs/DEFINITIONS.md tells each file of specs/ and each name in a public clause, and sets apart exactly the files that
no public promise needs. The clauses that docs/PROVED.md names are there, and the edits, which it counts, as it does tests
of growths. docs/FAULTS.md has the table of faults of the code, and limits are said as the code has them. Version and day of
the release are the same everywhere. Files and links that are named are there, and in the tables of rooms what is called
there. README.md is short. And the sizes by which tests and the shim of tools/growths.sh speak are the same on either side.
"""

import glob
import os
import re
import sys

sys.dont_write_bytecode = True
os.chdir(os.path.dirname(os.path.dirname(os.path.abspath(__file__))))

from sources import contracts, needed_names, public_names, read

FAULTS = "crates/byte_streams/specs/Faults.antt"
CONTRACTS = contracts()
DOCUMENTS = ["README.md", *sorted(glob.glob("docs/*.md"))]
MAX_README = 10_000
# a file's name, and several one after another, as a document writes them
NAME = r"[\w+/]+\.(?:antt|rt|py|sh|edit)"
FILE = "`(%s)`" % NAME
FILES = "`%s`(?:(?:, | and )`%s`)+" % (NAME, NAME)
ROOMS = "docs/CONTRIBUTING.md"
LIMITS = "crates/byte_streams/src/limits.rt"
# where a limit is said, and how
SAID_LIMITS = {
    "README.md": (
        "| a line, a document of `cat` | {MAX_LINE_BYTES} bytes |", "standard input or a file gives | {MAX_TILE_BYTES} bytes |",
        "| tiles of a merge | {MAX_TILES} |", "| arrays and objects within one another | {MAX_DEPTH} |",
        "| a number of a vertex, of the area | {MAX_STEPS} in size |", "More than {MAX_TILES} tiles:"),
    "docs/GUIDE.md": ("### More than {MAX_TILES} tiles", "One merge takes up to {MAX_TILES} tiles.", "more than {MAX_DEPTH} deep"),
    "docs/FAULTS.md": (
        "more than {MAX_DEPTH} are open at some place", "more than {MAX_STEPS} steps away from that of tile 1",
        "one is above {MAX_STEPS} in size", "a line, and a document, may have {MAX_LINE_BYTES} bytes",
        "a tile may have {MAX_TILE_BYTES} bytes", "`there are more than {MAX_TILES} tiles`"),
    "docs/DEFINITIONS.md": (
        "have at most {MAX_LINE_BYTES} bytes, a tile {MAX_TILE_BYTES}; arrays and objects nest at most {MAX_DEPTH} deep",
        "at most {MAX_STEPS} steps in size; at most {MAX_TILES} tiles are merged", "at most {MAX_CAPACITY} notes are kept",
        "`L` = {MAX_LINE_BYTES} and `T` = {MAX_TILE_BYTES}", "each component is at most {MAX_STEPS} in size",
        "an input of {MAX_LINE_BYTES} bytes is whole"),
    "docs/PROVED.md": (
        "nests at most {MAX_DEPTH} deep", "is at most {MAX_STEPS} in size", "an input of at most {MAX_LINE_BYTES} bytes",
        "a new row of 1 to {MAX_TILES} tiles and a capacity of 1 to {MAX_CAPACITY}", "`Ok` only up to {MAX_TILES} tiles",
        "an empty buffer of {MAX_PIECE_BYTES}"),
    "crates/command_line/src/commands.rt": ("may have up to {MAX_LINE_BYTES} bytes",),
    "examples/many_tiles.py": (
        "One call of `citymerge merge` takes {MAX_TILES} tiles", "`citymerge merge` takes {MAX_TILES}; the joined header",
        "MAX_IN_A_MERGE = {ONE_TILE_FEWER}  #", "LONGEST_LINE = {MAX_LINE_BYTES}  #"),
    "tools/torture/model.py": ("MAX_TILES = {MAX_TILES}", "MAX_STEPS = {MAX_STEPS}"),
    "tools/torture/values.py": ("MAX_OPEN = {MAX_DEPTH}",),
}
# other powers of two that these say: what a word of the machine holds
OTHER_POWERS = ("2^63", "2^64", "2^64 - 1")


def crate_of(path):
    return path.split("/")[1]


def specs():
    """The files of definitions. `Lib.antt`, and a file beside a folder of its name, only list others."""
    paths = sorted(glob.glob("crates/*/specs/**/*.antt", recursive=True))
    return [path for path in paths if os.path.basename(path) != "Lib.antt" and not os.path.isdir(path[:-5])]


def told_of(crate):
    """What docs/DEFINITIONS.md tells of a crate: its sections, and its rows of the table in the last one."""
    sections = re.split(r"^## ", read("docs/DEFINITIONS.md"), flags=re.MULTILINE)
    public = [section for section in sections if "`crates/%s/specs" % crate in section.split("\n")[0]]
    private = re.findall(r"^\| `%s` \|.*$" % crate, sections[-1], re.MULTILINE)
    return "\n".join(public), "\n".join(private)


def words_in_code(text):
    """The words that a document writes as code."""
    return set(re.findall(r"\w+", " ".join(re.findall(r"`([^`\n]*)`", text))))


def told_definitions():
    for path, name in sorted(public_names()):
        if name not in words_in_code(told_of(crate_of(path))[0]):
            yield "docs/DEFINITIONS.md does not tell %s of %s, which a public clause names" % (name, path)


def told_files():
    """Each file is told: in the last section where no public promise needs it, and only there then."""
    needed = {path for path, _ in needed_names()}
    for path in specs():
        name = "`%s`" % os.path.basename(path)
        public, private = told_of(crate_of(path))
        if path in needed and name not in public:
            yield "docs/DEFINITIONS.md does not tell %s, which a public promise needs" % path
        if path in needed and name in private:
            yield "docs/DEFINITIONS.md tells %s in its last section, and a public promise needs it" % path
        if path not in needed and (name in public or name not in private):
            yield "docs/DEFINITIONS.md should tell %s in its last section only: no public promise needs it" % path


def named_files():
    """A file that is named is there; and where it is named after one by its whole path, in the folder of that one."""
    folders = ("crates/*/src", "crates/*/specs", "crates/*/proofs", "tools", "bench", "examples")
    there = [path for folder in folders for path in glob.glob(folder + "/**/*", recursive=True)]
    for path in DOCUMENTS:
        text = read(path)
        for name in sorted(set(re.findall(FILE, text))):
            if not any(("/" + file).endswith("/" + name) for file in there):
                yield "%s tells of %s, which is not there" % (path, name)
        for names in re.findall(FILES, text):
            for name in places_of(names)[1]:
                yield "%s: as %s tells it, %s leads nowhere" % (path, names, name)


def places_of(names):
    """The files that are named one after another, as far as one begins with a whole path, and those that are not there."""
    found, lost = [], []
    for name in re.findall(FILE, names):
        whole = next((place for place in ("crates/" + name, name) if os.path.exists(place)), None)
        if not whole and found:
            whole = os.path.join(os.path.dirname(found[-1]), name)
        if whole and os.path.exists(whole):
            found.append(whole)
        elif whole:
            lost.append(name)
    return found, lost


def named_rooms():
    """In the tables of rooms and calls each call, or type, stands in one of the files that are named beside it."""
    for table in re.findall(r"^\| Room \| Call \|.*\n\|[-|]+\n((?:\|.*\n)+)", read(ROOMS), re.MULTILINE):
        for row in table.splitlines():
            rooms, calls = row.split("|")[1:3]
            texts = [read(path) for path in places_of(rooms)[0]]
            for call in re.findall(r"`([\w:]+)`", calls):
                name = call.split("::")[-1]
                if not any(re.search(r"\b(?:fn|struct|enum|trait) %s\b" % name, text) for text in texts):
                    yield "%s: %s stands in none of%s" % (ROOMS, call, rooms.rstrip())


def clauses_of(call):
    """The clauses of a call, or of all the calls of a type; None where there is no such call."""
    owner, _, name = call.rpartition("::")
    found = [c.clauses() for c in CONTRACTS if call == c.owner or (owner, name) == (c.owner, c.name)]
    return set().union(*found) if found else None


def named_clauses():
    """The rows of docs/PROVED.md, call | text | clauses, where an empty call is that of the row above; its promises."""
    calls = ""
    for row in re.findall(r"^\|(.*)\|$", read("docs/PROVED.md"), re.MULTILINE):
        cells = [cell.strip() for cell in row.split("|")]
        calls = cells[0] or calls
        yield from missing_clauses("docs/PROVED.md", calls, cells[-1])
    for call, clauses in re.findall(r"\((`[\w:]+`), clauses? (.*?)\)", read("docs/PROVED.md")):
        yield from missing_clauses("docs/PROVED.md", call, clauses)


def named_edits():
    """The edits that docs/PROVED.md counts, and those that it names, or tests in their place."""
    section = read("docs/PROVED.md").split("### How the contracts were tried")[1].split("\n## ")[0]
    edits = [os.path.basename(path)[:-5] for path in glob.glob("crates/*/must-fail/*.edit")]
    crates = {crate_of(path) for path in glob.glob("crates/*/must-fail/*.edit")}
    if "holds %d edits in %d crates" % (len(edits), len(crates)) not in section:
        yield "docs/PROVED.md does not say that there are %d edits in %d crates" % (len(edits), len(crates))
    tests = " ".join(read(path) for path in glob.glob("crates/*_tests/src/*.rt"))
    for row in re.findall(r"^- (.*)$", section, re.MULTILINE):
        for name in re.findall(r"`([a-z_]+)`", row):
            if name not in edits and "fn %s(" % name not in tests:
                yield "docs/PROVED.md names %s, which is no edit and no test" % name


def holding_tests():
    """The tests, and rows of tools/program_test.sh, that are named for what no clause says are there."""
    tests = "\n".join(read(path) for path in glob.glob("crates/*_tests/src/**/*.rt", recursive=True))
    table = read(ROOMS).split("| What | Held by |\n|---|---|\n")[1].split("\n\n")[0]
    for row in table.splitlines():
        held_by = row.split("|")[2]
        for name in re.findall(r"`(\w+)`", held_by):
            if not re.search(r"#\[test\]\nfn %s\b" % name, tests):
                yield "%s names %s, which is no test" % (ROOMS, name)
        for name in re.findall(r"\*([^*]+)\*", held_by):
            if not re.search(r"expect ['\"][^'\"]*%s" % re.escape(name), read("tools/program_test.sh")):
                yield "%s names the row %s, which tools/program_test.sh has not" % (ROOMS, name)


def growth_tests():
    """docs/PROVED.md counts the tests whose growths are refused, and those that take the memory away by themselves."""
    paths = [path for form in ("growths.rt", "growths/**/*.rt") for path in glob.glob("crates/*/src/" + form, recursive=True)]
    found = [(path, name) for path in paths for name in re.findall(r"#\[test\]\nfn (\w+)", read(path))]
    without = [name for path, name in found if "/without_memory/" in path or re.search("takes?_no_memory$", name)]
    for sentence in ("%d tests, `growths` in" % (len(found) - len(without)), "%d more tests take all memory away" % len(without)):
        if sentence not in read("docs/PROVED.md"):
            yield "docs/PROVED.md does not say: " + sentence


def missing_clauses(document, calls, clauses):
    there = set()
    for call in re.findall(r"`([\w:]+)`", calls):
        found = clauses_of(call)
        if found is None:
            yield "%s names the call %s, which is not there" % (document, call)
        there |= found or set()
    for clause in re.findall(r"`(\w+)`", clauses):
        if clause not in there:
            yield "%s names the clause %s of %s, which is not there" % (document, clause, calls)


def fault_table():
    code = read(FAULTS)
    numbers = dict(re.findall(r"^number_of (\w+) = (\d+)$", code, re.MULTILINE))
    texts = re.findall(r'^text_of (\w+) = codes "(.*?)"$', code, re.MULTILINE)
    table = re.findall(r"^\| (\d+) \| `(.*?)` \|", read("docs/FAULTS.md"), re.MULTILINE)
    if not texts or table != [(numbers.get(name), text) for name, text in texts]:
        yield "the table of docs/FAULTS.md is not that of " + FAULTS


def release():
    """The program, citymerge-many and the manual page are of the release that CHANGELOG.md begins with."""
    version, day = re.search(r"^## (\S+) \((.*)\)$", read("CHANGELOG.md"), re.MULTILINE).groups()
    for path, text in (("crates/command_line/src/commands.rt", 'VERSION: &str = "%s"' % version),
                       ("examples/many_tiles.py", 'VERSION = "%s"' % version),
                       ("crates/manual/stdout", '.TH CITYMERGE 1 "%s" "citymerge %s"' % (day, version)),
                       ("README.md", "citymerge_%s_" % version), ("README.md", "citymerge-%s-linux" % version)):
        if text not in read(path):
            yield "%s is not of the release %s of %s, with which CHANGELOG.md begins" % (path, version, day)


def limits():
    """The limits of the code, as a document writes them."""
    found = {}
    constant = r"^pub const (MAX_\w+): \w+ = ([\d_]+)(?: << (\d+)| \* 1024)?;$"
    for name, number, shift in re.findall(constant, read(LIMITS), re.MULTILINE):
        found[name] = "2^" + shift if shift else number.replace("_", "")
    found["MAX_PIECE_BYTES"] += " KiB"
    if int(found["MAX_STEPS"]) == 2**53 - 1:
        found["MAX_STEPS"] = "2^53 - 1"
    found["ONE_TILE_FEWER"] = str(int(found["MAX_TILES"]) - 1)
    return found


def said_limits():
    """A limit that is said is that of the code."""
    known = limits()
    for path, sentences in SAID_LIMITS.items():
        text = read(path).replace("2**", "2^")
        for sentence in sentences:
            if sentence.format(**known) not in text:
                yield "%s does not say as %s has it: %s" % (path, LIMITS, sentence.format(**known))
        if path.endswith(".md"):
            for power in re.findall(r"2\^\d+(?: - 1)?", text):
                if power not in known.values() and power not in OTHER_POWERS:
                    yield "%s says %s, which is no limit of %s" % (path, power, LIMITS)


def links():
    for path in DOCUMENTS:
        for target in re.findall(r"\]\(([^)#:]+)\)", read(path)):
            if not os.path.exists(os.path.join(os.path.dirname(path), target)):
                yield "%s: no such file: %s" % (path, target)


def short():
    length = os.path.getsize("README.md")
    if length > MAX_README:
        yield "README.md has %d bytes, more than %d" % (length, MAX_README)


def said_sizes(path):
    """The sizes of growths that say something, `TAKE` and `GIVE`, as they stand in C or in Rattle."""
    found = re.findall(r"^(?:#define (TAKE|GIVE) |const (TAKE|GIVE): usize = )([\d_]+);?$", read(path), re.MULTILINE)
    return sorted((in_c or other, int(size)) for in_c, other, size in found)


def shim():
    """These sizes stand in a C file, and in the library that crates of tests use."""
    shim = "tools/torture/refuse.c"
    wanted = said_sizes(shim)
    if [name for name, _ in wanted] != ["GIVE", "TAKE"]:
        yield shim + " does not say TAKE and GIVE once each"
    path = "crates/growth_support/src/lib.rt"
    if said_sizes(path) != wanted:
        yield "TAKE and GIVE of %s are not those of %s" % (path, shim)


def main():
    tests = (told_definitions, told_files, named_files, named_rooms, named_clauses, named_edits, holding_tests, growth_tests,
             fault_table, release, links, said_limits, short, shim)
    wrong = [line for test in tests for line in test()]
    for line in wrong:
        print("FAILED: " + line)
    print("The documents: %s" % ("%d wrong" % len(wrong) if wrong else "as the code is"))
    return 1 if wrong else 0


if __name__ == "__main__":
    sys.exit(main())
