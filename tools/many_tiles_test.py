#!/usr/bin/env python3
"""What examples/many_tiles.py makes of many tiles, of tiles that do not fit, and of what goes wrong on the way.

Use: tools/many_tiles_test.py PROGRAM
"""

import collections
import gzip
import json
import os
import pty
import re
import resource
import select
import signal
import subprocess
import sys
import tempfile
import time
import unittest

ROOT = os.path.dirname(os.path.dirname(os.path.abspath(__file__)))
MANY = [sys.executable, os.path.join(ROOT, "examples", "many_tiles.py")]
NAMES = ["tile %03d.city.jsonl" % number for number in range(300)]
SAID = "citymerge-many: "

Ended = collections.namedtuple("Ended", "status out errors")


def header(translate="[0,0,0]", scale="[0.001,0.001,0.001]", more=""):
    return ('{"type":"CityJSON","version":"2.0","transform":{"scale":%s,"translate":%s}%s,'
            '"CityObjects":{},"vertices":[]}\n' % (scale, translate, more))


def document(translate, vertex):
    """A tile that is one document, whose one object has a point."""
    point = '{"d":{"type":"Building","geometry":[{"type":"MultiPoint","lod":"1","boundaries":[0]}]}}'
    return header(translate).replace('"CityObjects":{}', '"CityObjects":' + point).replace("[]", "[%s]" % vertex)


def feature(name, x, y=0):
    return ('{"type":"CityJSONFeature","id":"%s","CityObjects":{"%s":{"type":"Building"}},"vertices":[[%d,%d,7]]}\n'
            % (name, name, x, y))


def translation(tile):
    """Tile T stands 0.25 * (T - 100) beside the origin, which are 250 steps of its grid."""
    return 250 * (tile - 100)


def sizes(tile):
    return range(2 + tile % 5)


def tile_text(tile):
    features = [feature("t%d-%d" % (tile, number), 1000 * tile + number, number) for number in sizes(tile)]
    return header("[%s,0,0]" % (translation(tile) / 1000)) + "".join(features)


def wanted(first=0):
    """The features of all 300 tiles on the grid of this one."""
    return sorted(feature("t%d-%d" % (tile, number), 1000 * tile + number + translation(tile) - translation(first), number)
                  for tile in range(300) for number in sizes(tile))


def many(*words, names=None, end="\n", **more):
    """Runs the program on these words, with these names on standard input."""
    given = None if names is None else os.fsencode(end.join(names))
    run = subprocess.run([*MANY, *words], input=given, capture_output=True, check=False,
                         **({"stdin": subprocess.DEVNULL} if names is None else {}), timeout=120, **more)
    return Ended(run.returncode, run.stdout.decode(), run.stderr.decode())


class InFolder(unittest.TestCase):
    """A new folder to be in, and no words for whoever reads the tests."""

    maxDiff = 2000

    def setUp(self):
        room = tempfile.TemporaryDirectory()
        self.addCleanup(room.cleanup)
        self.addCleanup(os.chdir, os.getcwd())
        os.chdir(room.name)

    def write(self, name, text):
        with open(name, "w", encoding="utf-8", newline="") as file:
            file.write(text)

    def read(self, name):
        with open(name, encoding="utf-8") as file:
            return file.read()

    def write_tiles(self):
        for number, name in enumerate(NAMES):
            self.write(name, tile_text(number))

    def expect_refusal(self, ended, *lines):
        self.assertEqual((1, "", "".join(SAID + line + "\n" for line in lines)), ended)


class Streams(InFolder):
    def expect_stream(self, text, first=0):
        head, *features = text.splitlines(keepends=True)
        self.assertEqual(header("[%s,0,0]" % (translation(first) / 1000)), head)
        self.assertEqual(wanted(first), sorted(features))
        seen = collections.Counter()
        for line in features:
            tile, number = json.loads(line)["id"].split("-")
            self.assertEqual(seen[tile], int(number), "the features of a tile stand in their order")
            seen[tile] += 1

    def expect_done(self, ended, first=0):
        self.assertEqual((0, ""), (ended.status, ended.errors))
        self.expect_stream(ended.out, first)

    def test_300_tiles(self):
        self.write_tiles()
        self.expect_done(many(names=NAMES))
        self.expect_done(many("--group=6", names=NAMES))
        self.expect_done(many(*NAMES))
        self.expect_done(many("--in-turn", "--", *NAMES))
        self.expect_done(many("--group=10", names=NAMES[::-1]), first=299)
        self.expect_done(many("--group=10", "--least", names=NAMES[::-1]))
        in_turn = [many("--group=7", "--in-turn", names=NAMES).out for _ in range(2)]
        self.assertEqual(*in_turn)

    def test_an_area_is_in_units_of_the_first_tile(self):
        self.write_tiles()
        ended = many("--group=6", "--bbox=0,0,10000,2", names=NAMES)
        met = [line for line in wanted() for x, y, _ in json.loads(line)["vertices"] if x <= 10000 and y <= 2]
        self.assertEqual((0, met), (ended.status, sorted(ended.out.splitlines(keepends=True)[1:])))
        ended = many("--group=6", "--bbox=0,0,10000,2", "--cotype=Bridge,Building", "--exclude", names=NAMES)
        self.assertEqual(sorted(set(wanted()) - set(met)), sorted(ended.out.splitlines(keepends=True)[1:]))

    def test_a_last_name_without_its_end(self):
        self.write("a", header() + feature("a", 1))
        self.write("b", header() + feature("b", 2))
        for text in (b"a\nb", b"a\nb\n", b"a\n\nb"):
            out = subprocess.run(MANY, input=text, capture_output=True, check=True).stdout.decode()
            self.assertEqual(sorted([feature("a", 1), feature("b", 2)]), sorted(out.splitlines(keepends=True)[1:]))

    def test_odd_names(self):
        names = [" ", "a b", "it's", 'a "b"', "-", "-b", "--least", "$(exit 3)", "LIST", "a:b", "a=b", "a#b", "%", "*", "~",
                 "\\", "é\t", "a\nb", "&;|<>", "a\\nb"]
        for number, name in enumerate(names):
            self.write(name, header("[%d,0,0]" % number) + feature("f%d" % number, 5))
        wanted_lines = sorted(feature("f%d" % number, 5 + 1000 * number) for number in range(len(names)))
        for words in ([], ["--group=3"]):
            ended = many("--null", *words, names=names, end="\0")
            self.assertEqual((0, ""), (ended.status, ended.errors))
            self.assertEqual(wanted_lines, sorted(ended.out.splitlines(keepends=True)[1:]))
        self.assertEqual(3, many("a b", "--in-turn", "it's", "--", "--least").out.count("CityJSONFeature"))
        self.assertEqual(3, many("--", "-b", "-", "--least").out.count("CityJSONFeature"))
        self.assertEqual(0, many("--null", "--plan=a plan's $(folder)", names=names, end="\0").status)
        subprocess.run(["make", "-s", "-j4"], cwd="a plan's $(folder)", check=True)
        merged = self.read("a plan's $(folder)/merged.city.jsonl")
        self.assertEqual(wanted_lines, sorted(merged.splitlines(keepends=True)[1:]))

    def test_standard_files_that_are_closed(self):
        self.write_tiles()
        for closed in ("<&-", "2>&-", "<&- 2>&-"):
            run = subprocess.run(["sh", "-c", 'exec "$@" %s' % closed, "sh", *MANY, "--group=10", *NAMES], capture_output=True,
                                 check=False, timeout=60)
            self.assertEqual((0, b""), (run.returncode, run.stderr))
            self.expect_stream(run.stdout.decode())
        words = ["--output=city", "--group=10", *NAMES]
        subprocess.run(["sh", "-c", 'exec "$@" <&- >&- 2>&-', "sh", *MANY, *words], check=True, timeout=60)
        self.expect_stream(self.read("city"))

    def test_a_document_and_blank_lines(self):
        self.write("a", "\n \t\r\n" + header().replace("\n", "\r\n") + feature("a", 1))
        self.write("d", document("[1,0,0]", "[1,2,3]"))
        ended = many("--in-turn", "a", "d")
        self.assertEqual((0, ""), (ended.status, ended.errors))
        self.assertEqual([[[1, 0, 7]], [[1001, 2, 3]]],
                         [json.loads(line)["vertices"] for line in ended.out.splitlines()[1:]])


# headers that do not go with header(), each by what it is written with
MISFITS = [
    "", "\n\n", "[1]\n", "{\n", '{"a":1,"\\u0061":2}\n', "[" * 129, header().replace("2.0", "1.1"),
    header().replace("transform", "transformed"), header(scale="[0,1,1]"), header("[1e-25,0,0]"), header("[1e12,0,0]"),
    header(scale="[0.001,0.001,0.01]"), header(scale="[0.001,0.001,0.0010000000000000000001]"),
    header(more=',"metadata":{"referenceSystem":"x"}'), header("[0.0005,0,0]"), header("[0,1e-24,-1e-3]"),
    header("[0,0,78309.99999999999]"), header("[0,0.0004,0]"), header(more=',"extensions":{"E":{"url":"two"}}'),
    header(more=',"geometry-templates":{"templates":[]}'), header(more=',"metadata":[]'),
    header().replace('"vertices":[]', '"vertices":[[0,0]]'),
    header().replace('"CityObjects":{}', '"CityObjects":{"a":{"type":"Building","children":["b"]}}'),
    document("[-0.001,0,0]", "[-9007199254740991,0,0]"), header(more=',"metadata":{"referenceSystem":""}'), "\ufeff" + header(),
]
# headers that do
FITS = [
    header(), header(scale="[1e-3,0.0010,0.1E-2]"), header("[-0.000,0e-99999999999,1E2]"), "\n\r\n" + header(),
    header(more=',"metadata":{"title":"t","geographicalExtent":[0,0,0,1,1,1]}'),
    header(more=',"extensions":{"F":{}}'), header(more=',"extensions" : { "E":{"url":"one"} }'),
    header(more=',"appearance":{"textures":[]}'), header("[1.0%s,0,0]" % ("0" * 3000)),
    document("[0.001,0,0]", "[-9007199254740991,0,0]"),
]


class Headers(InFolder):
    def told_of_merge(self, first, tile):
        """What the program says of two tiles, the second one by this name."""
        run = subprocess.run([os.environ["CITYMERGE"], "merge", "--", first, tile], capture_output=True, check=False)
        text = run.stderr.decode().replace("citymerge: tile 2", tile, 1)
        return text.rstrip("\n") or None

    def test_every_misfit_is_told_as_the_program_tells_it(self):
        self.write("first", header(more=',"extensions":{"E":{"url":"one"}}'))
        names = ["first"]
        for number, text in enumerate([*MISFITS, *FITS]):
            names.append("t%02d" % number)
            self.write(names[-1], text)
        names.insert(20, "missing")
        told = {name: self.told_of_merge("first", name) for name in names[1:]}
        self.assertEqual(len(MISFITS) + 1, len([text for text in told.values() if text]))
        ended = many(*names)
        self.assertEqual((1, ""), (ended.status, ended.out))
        *lines, summary = ended.errors.splitlines()
        for line, name in zip(lines, (name for name in names[1:] if told[name])):
            self.assertRegex(line, "^" + re.escape(SAID + told[name]) + "(, [xyz] by .* steps|: No such file or directory)?$")
        self.assertEqual(len(MISFITS) + 1, len(lines))
        self.assertEqual(SAID + "%d of %d tiles do not fit, and nothing was written; they were compared with first, as tile 1"
                         % (len(MISFITS) + 1, len(names)), summary)
        self.assertEqual(0, many("first", *(name for name in names[1:] if not told[name])).status)

    def test_by_how_many_steps(self):
        self.write("a", header("[0,0,-1]", "[0.001,0.003,1]"))
        self.write("b", header("[0.00025,-0.001,1]", "[0.001,0.003,1]"))
        self.write("c", header("[78309.99999999999,0,1]", "[0.001,0.003,1]"))
        self.expect_refusal(many("a", "b", "c"),
                            "b line 1: the translation is off the grid, x by 0.25 steps and y by -0.333 steps",
                            "c line 1: the translation is off the grid, x by -1e-08 steps",
                            "2 of 3 tiles do not fit, and nothing was written; they were compared with a, as tile 1")

    def test_four_misfits_of_300(self):
        self.write_tiles()
        for number in (63, 64, 130, 299):
            self.write(NAMES[number], header("[0.0005,0,0]"))
        for words in (["--group=6"], ["--least"], ["--plan=plan"]):
            self.expect_refusal(
                many(*words, names=NAMES),
                *("%s line 1: the translation is off the grid, x by 0.5 steps" % NAMES[number] for number in (63, 64, 130, 299)),
                "4 of 300 tiles do not fit, and nothing was written; they were compared with %s, as tile 1" % NAMES[0])

    def test_extensions_of_tiles_of_other_groups(self):
        for number in range(70):
            text = ',"extensions":{"E%d":{}}' % number if number != 69 else ',"extensions":{"E1":{"url":"u"}}'
            self.write("t%02d" % number, header(more=text))
        names = ["t%02d" % number for number in range(70)]
        self.expect_refusal(many(*names), "t69 line 1: an extension differs between tiles",
                            "1 of 70 tiles do not fit, and nothing was written")
        ended = many(*names[:69])
        self.assertEqual(list(json.loads(ended.out)["extensions"]), ["E%d" % number for number in range(69)])

    def test_too_far_from_the_least(self):
        step = "[0.000001,0.001,0.001]"
        for name, x in (("a", 0), ("b", 9007199254), ("c", -9007199254)):
            self.write(name, header("[%d,0,0]" % x, step))
        self.assertEqual(0, many("a", "b", "c").status)
        ended = many("--least", "a", "b", "c")
        self.assertEqual((1, ""), (ended.status, ended.out))
        self.assertIn(SAID + "b line 1: the shift is out of range\n", ended.errors)

    def test_names_that_are_no_files(self):
        self.write("a", header())
        os.mkdir("folder")
        os.mkfifo("pipe")
        odd = os.fsdecode(b"\xff")
        with open(b"\xff", "w", encoding="utf-8") as file:
            file.write(header())
        self.expect_refusal(many(names=["a", "missing\u0007", "folder", "pipe", odd]),
                            "missing\\x07: the tile could not be read: No such file or directory",
                            "folder: the tile could not be read: it is a folder",
                            "pipe: the tile could not be read: it is a pipe or a device; a file is needed, since its header is read twice",
                            "\\udcff: the tile could not be read: the name is not UTF-8",
                            "4 of 5 tiles do not fit, and nothing was written")


class Twice(InFolder):
    def test_a_tile_that_is_named_twice(self):
        self.write("a", header() + feature("a", 1))
        os.link("a", "linked")
        os.symlink("a", "link")
        for words in ([], ["--output=city"], ["--plan=plan"]):
            self.expect_refusal(many("a", *words, "./a", "linked", "a", "link"),
                                "./a: the tile is named twice, as a, too; its features would be written twice",
                                "linked: the tile is named twice, as a, too; its features would be written twice",
                                "a: the tile is named twice; its features would be written twice",
                                "link: the tile is named twice, as a, too; its features would be written twice")
        self.assertEqual(["a", "link", "linked"], sorted(os.listdir(".")))

    def test_tiles_that_are_alike(self):
        self.write("a", header() + feature("a", 1) + feature("b", 1))
        self.write("b", self.read("a"))
        self.write("c", header() + "\n" + feature("a", 2))
        self.write("d", header() + feature("b", 2))
        self.write("none", header())
        self.write("none2", header("[1,0,0]"))
        ended = many("--in-turn", "a", "b", "c", "d", "none", "none2")
        self.assertEqual((0, 6), (ended.status, ended.out.count("CityJSONFeature")))
        told = [SAID + "b: it has the same bytes as a; the features of both are written",
                SAID + "c: its first feature is a, as in a; both are written"]
        self.assertEqual(told, ended.errors.splitlines())
        self.assertEqual(told, many("--plan=plan", "a", "b", "c", "d").errors.splitlines()[:2])

    def test_an_output_of_before_among_the_tiles(self):
        self.write("a", header() + feature("a", 1))
        self.write("b", header() + feature("b", 1))
        self.assertEqual((0, "", ""), many("a", "b", "--in-turn", "--output=all"))
        ended = many("a", "all", "b", "--output=all2")
        self.assertEqual((0, SAID + "all: its first feature is a, as in a; both are written\n"), (ended.status, ended.errors))


class Refusals(InFolder):
    def test_hints(self):
        self.write("a", header())
        for words, hint in ((["--outptu=x", "a"], "unrecognized arguments: --outptu=x (is --output meant?)"),
                            (["--in-trun", "a"], "unrecognized arguments: --in-trun (is --in-turn meant?)"),
                            (["--zzz", "a"], "unrecognized arguments: --zzz"),
                            (["a", "--plan"], "--plan wants a value: --plan=FOLDER"),
                            (["a", "--group"], "--group wants a value: --group=N")):
            self.assertEqual((2, "citymerge-many: error: " + hint), (many(*words).status, many(*words).errors.splitlines()[-1]))

    def test_packed_tiles_and_standard_input(self):
        self.write("a", header())
        with open("packed", "wb") as packed:
            packed.write(gzip.compress(header().encode()))
        with open("other", "wb") as packed:
            packed.write(b"\x28\xb5\x2f\xfd..")
        self.write("empty", "")
        self.write("b", header())
        with open("b", encoding="utf-8") as given:
            ended = subprocess.run([*MANY, "a", "packed", "other", "/dev/stdin", "empty"], stdin=given, check=False,
                                   capture_output=True, text=True)
        self.expect_refusal(Ended(ended.returncode, ended.stdout, ended.stderr),
                            "packed: the tile could not be read: it is packed with gzip; unpack it first",
                            "other: the tile could not be read: it is packed with zstd; unpack it first",
                            "/dev/stdin: the tile could not be read: it is a pipe or a device; a file is needed, since its header is read twice",
                            "empty: the stream has no header line",
                            "4 of 5 tiles do not fit, and nothing was written")

    def test_wrong_words(self):
        self.write("a", header())
        for words in (["--group=0", "a"], ["--group=1", "a"], ["--group=64", "a"], ["--group=", "a"], ["--grou=5", "a"], [],
                      ["--plan=p", "--output=o", "a"], ["--null", "a"], ["--output=", "a"], ["-x", "a"]):
            ended = many(*words)
            self.assertEqual((2, "", True), (ended.status, ended.out, "citymerge-many: error:" in ended.errors), words)
        self.assertEqual((2, "", "citymerge: bad --bbox\n"), many("--bbox=1", "a"))
        self.assertEqual((2, "", "citymerge: bad --cotype\n"), many("--cotype=", "--bbox=1", "a"))
        self.assertEqual((2, ""), many("--exclude", "--exclude", "a")[:2])
        self.assertEqual(2, many(names=[]).status)
        self.assertEqual((0, "citymerge-many 0.1.0\n", ""), many("--version"))

    def test_faults_after_the_headers(self):
        self.write_tiles()
        for number in (42, 142):
            with open(NAMES[number], "a", encoding="utf-8") as file:
                file.write('{"type"\n')
        ended = many("--group=6", names=NAMES)
        self.assertEqual((1, wanted()), (ended.status, sorted(ended.out.splitlines(keepends=True)[1:])))
        lines = ["%s line %d: the line is not a JSON text" % (NAMES[number], len(sizes(number)) + 2) for number in (42, 142)]
        self.assertEqual([SAID + line for line in lines], ended.errors.splitlines())
        self.write("city", "as it was")
        self.expect_refusal(many("--group=6", "--output=city", names=NAMES), *lines)
        self.assertEqual("as it was", self.read("city"))
        self.assertEqual(["city", *NAMES], sorted(os.listdir(".")))

    def test_an_output_is_put_in_place(self):
        self.write("a", header() + feature("a", 1))
        self.write("old", "longer than what comes of it" * 100)
        os.chmod("old", 0o640)
        for name in ("new", "old"):
            self.assertEqual((0, "", ""), many("a", "--output=" + name))
            self.assertEqual(header() + feature("a", 1), self.read(name))
        self.assertEqual(0o640, os.stat("old").st_mode & 0o777)
        os.symlink("old", "link")
        self.assertEqual(0, many("a", "--exclude", "--output=link").status)
        self.assertEqual((True, header()), (os.path.islink("link"), self.read("old")))
        for name, why in (("a", "it is one of the tiles"), ("/dev/null", "it is no file that can be put in place"),
                          ("none/city", "No such file or directory"), ("none/", "it is no file that can be put in place")):
            self.expect_refusal(many("a", "--output=" + name), "%s: the output could not be written: %s" % (name, why))
        self.assertEqual(["a", "link", "new", "old"], sorted(os.listdir(".")))

    def test_an_output_that_takes_nothing(self):
        for name in "abc":
            self.write(name, header() + feature(name, 1))
        with open("/dev/full", "w", encoding="utf-8") as full:
            run = subprocess.run([*MANY, "a", "b", "c", "--group=2"], stdout=full, stderr=subprocess.PIPE, check=False)
        self.assertEqual((1, b"citymerge-many: the output could not be written\n"), (run.returncode, run.stderr))

    def test_no_folder_for_temporary_files_is_wanted(self):
        self.write_tiles()
        for folder in ("/none", "/proc", "it's LIST"):
            ended = many("--group=6", names=NAMES, env={**os.environ, "TMPDIR": folder})
            self.assertEqual((0, wanted()), (ended.status, sorted(ended.out.splitlines(keepends=True)[1:])))
        self.assertEqual(NAMES, sorted(os.listdir(".")))

    def test_too_few_open_files(self):
        self.write_tiles()
        ended = many("--group=2", names=NAMES, preexec_fn=lambda: resource.setrlimit(resource.RLIMIT_NOFILE, (300, 300)))
        self.expect_refusal(ended, "303 merges at once need 732 open files, and 300 can be had (ulimit -n); raise that, or "
                            "give --plan=FOLDER, which takes them a few at a time")
        ended = many(names=NAMES, preexec_fn=lambda: resource.setrlimit(resource.RLIMIT_NOFILE, (64, 300)))
        self.assertEqual(0, ended.status)

    def test_no_program(self):
        ended = many("a", env={**os.environ, "CITYMERGE": "", "PATH": "/none"})
        self.expect_refusal(ended, "the program citymerge is not there: put it on PATH, or its path into CITYMERGE")
        self.write("a", header())
        beside = os.path.dirname(os.environ["CITYMERGE"])
        ended = many("a", env={**os.environ, "CITYMERGE": "/none/citymerge", "PATH": beside + ":" + os.environ["PATH"]})
        self.expect_refusal(ended, "/none/citymerge: CITYMERGE names no program")


def files_of_at_most(size):
    """Lets this process write no file of more bytes: an end of all disks."""
    resource.setrlimit(resource.RLIMIT_FSIZE, (size, size))
    signal.signal(signal.SIGXFSZ, signal.SIG_IGN)


def children_of(pid):
    try:
        with open("/proc/%d/task/%d/children" % (pid, pid), encoding="ascii") as file:
            return [int(child) for child in file.read().split()]
    except OSError:
        return []


def is_running(pid):
    try:
        with open("/proc/%d/stat" % pid, encoding="ascii") as file:
            return file.read().rpartition(")")[2].split()[0] != "Z"
    except OSError:
        return False


class Endings(InFolder):
    """What becomes of a merge in the middle of its work: its output is a pipe that is not read."""

    def setUp(self):
        super().setUp()
        for number in range(12):
            self.write("t%02d" % number, header() + "".join(feature("f%d-%d" % (number, line), line) for line in range(4000)))

    def begun(self, *words):
        names = ["t%02d" % number for number in range(12)]
        run = subprocess.Popen([*MANY, "--group=3", *words, *names], stdout=subprocess.PIPE, stderr=subprocess.PIPE)
        self.addCleanup(run.stderr.close)
        self.addCleanup(run.stdout.close)
        self.assertEqual(header(), run.stdout.readline().decode())
        return run

    def test_a_merge_is_killed(self):
        for chosen in range(7):
            run = self.begun(*(["--in-turn"] if chosen % 2 else []))
            children = children_of(run.pid)
            self.assertEqual(7, len(children))
            os.kill(children[chosen], signal.SIGKILL)
            out, errors = run.communicate(timeout=60)
            self.assertEqual(1, run.returncode)
            self.assertLess(out.count(b"\n"), 48000)
            self.assertRegex(errors.decode(), "^citymerge-many: the merge of the tiles t.. to t..: it was ended by the signal "
                             "SIGKILL\n$")

    def test_the_program_is_ended(self):
        for number in (signal.SIGTERM, signal.SIGINT):
            run = self.begun()
            children = children_of(run.pid)
            run.send_signal(number)
            _, errors = run.communicate(timeout=60)
            self.assertEqual((128 + number, b""), (run.returncode, errors))
            self.assertEqual([], [child for child in children if os.path.exists("/proc/%d" % child)])

    def test_all_of_it_is_ended_while_it_starts(self):
        names = ["u%03d" % number for number in range(120)]
        for name in names:
            self.write(name, header() + "".join(feature("%s-%d" % (name, line), line) for line in range(400)))
        for number in range(12):
            run = subprocess.Popen([*MANY, "--group=2", *names], stdout=subprocess.DEVNULL, stderr=subprocess.PIPE,
                                   start_new_session=True)
            for _ in range(1000):
                if len(children_of(run.pid)) > 8 * number:
                    break
                time.sleep(0.005)
            os.killpg(run.pid, signal.SIGINT)
            _, errors = run.communicate(timeout=60)
            self.assertEqual((130, b""), (run.returncode, errors))

    def test_the_program_is_killed(self):
        run = self.begun()
        children = children_of(run.pid)
        self.assertEqual(7, len(children))
        run.kill()
        self.assertEqual(-signal.SIGKILL, run.wait(60))
        for _ in range(100):
            if not any(map(is_running, children)):
                break
            time.sleep(0.05)
        self.assertEqual([], list(filter(is_running, children)))

    def test_the_reader_goes(self):
        run = self.begun()
        run.stdout.close()
        self.assertEqual((1, b"citymerge-many: the output could not be written\n"), (run.wait(60), run.stderr.read()))


class Progress(InFolder):
    def test_a_line_on_a_terminal_and_none_elsewhere(self):
        self.write_tiles()
        ours, theirs = pty.openpty()
        run = subprocess.Popen([*MANY, *NAMES], stdout=subprocess.DEVNULL, stderr=theirs)
        os.close(theirs)
        said = b""
        while select.select([ours], [], [], 60)[0]:
            try:
                said += os.read(ours, 65536)
            except OSError:
                break
        os.close(ours)
        self.assertEqual(0, run.wait(60))
        self.assertIn(b"headers: 252 of 300 compared", said)
        self.assertIn(b"merges: 6 of 6 done", said)
        self.assertTrue(said.endswith(b"\r\x1b[K"))
        self.assertNotIn(b"\n", said)


class Plans(InFolder):
    def make(self, *words, **more):
        return subprocess.run(["make", "-s", *words, "-C", "plan"], capture_output=True, check=False, timeout=120, **more)

    def test_a_plan_is_broken_off_and_taken_up(self):
        self.write_tiles()
        self.write("once", '#!/bin/sh\n[ ! -e stop ] || [ "$(ls level1/*.jsonl 2>/dev/null | wc -l)" -lt 7 ] || '
                   'kill -9 $PPID $$\nexec "%s" "$@"\n' % os.environ["CITYMERGE"])
        os.chmod("once", 0o755)
        ended = many("--plan=plan", "--group=6", names=NAMES, env={**os.environ, "CITYMERGE": os.path.abspath("once")})
        self.assertEqual((0, "", SAID + "plan: merges of 300 tiles, 62 in all; `make -C plan -j8` writes merged.city.jsonl there\n"),
                         ended)
        self.write("plan/stop", "")
        self.assertNotEqual(0, self.make("-j2").returncode)
        finished = {name: os.stat("plan/level1/" + name).st_mtime_ns for name in os.listdir("plan/level1") if name.endswith(".jsonl")}
        self.assertGreaterEqual(len(finished), 7)
        self.assertFalse(os.path.exists("plan/merged.city.jsonl"))
        os.unlink("plan/stop")
        self.assertEqual((0, b""), (self.make("-j4").returncode, self.make("-j4").stderr))
        for name, when in finished.items():
            self.assertEqual(when, os.stat("plan/level1/" + name).st_mtime_ns)
        self.expect_merged()
        self.assertEqual([], [name for level in os.listdir("plan") if level.startswith("level")
                              for name in os.listdir("plan/" + level) if not name.endswith(".city.jsonl")])
        os.utime(NAMES[150])
        self.assertEqual(0, self.make().returncode)
        again = [name for name, when in finished.items() if when != os.stat("plan/level1/" + name).st_mtime_ns]
        self.assertLessEqual(len(again), 1)

    def expect_merged(self):
        head, *features = self.read("plan/merged.city.jsonl").splitlines(keepends=True)
        self.assertEqual((header("[-25.0,0,0]"), wanted()), (head, sorted(features)))

    def program_instead(self, script):
        """A program for plans that first runs these lines of a shell, in the folder of the plan."""
        self.write("instead", '#!/bin/sh\n%s\nexec "%s" "$@"\n' % (script, os.environ["CITYMERGE"]))
        os.chmod("instead", 0o755)
        return {**os.environ, "CITYMERGE": os.path.abspath("instead")}

    def test_a_plan_is_taken_up_while_a_merge_of_before_still_runs(self):
        self.write_tiles()
        env = self.program_instead("if [ -e Makefile ] && mkdir held 2>/dev/null; then echo front; until [ -e go ]; do "
                                   "sleep 0.05; done; seq 9999; : >../ended; exit; fi")
        self.assertEqual(0, many("--plan=plan", names=NAMES, env=env).status)
        first = subprocess.Popen(["make", "-s", "-C", "plan"], stderr=subprocess.DEVNULL)
        self.wait_for("plan/held")
        first.kill()
        first.wait()
        again = self.make("-j4")
        self.assertEqual((0, b""), (again.returncode, again.stderr))
        self.write("plan/go", "")
        self.wait_for("ended")
        time.sleep(0.2)
        self.expect_merged()
        self.assertEqual(sum(len(sizes(tile)) for tile in range(60)) + 1, self.read("plan/level1/00001.city.jsonl").count("\n"))

    def wait_for(self, path):
        for _ in range(1000):
            if os.path.exists(path):
                return
            time.sleep(0.02)
        self.fail("there is no " + path)

    def test_files_that_may_not_grow(self):
        self.write_tiles()
        full = {"preexec_fn": lambda: files_of_at_most(512)}
        self.expect_refusal(many("--plan=plan", "--group=2", names=NAMES, **full),
                            "plan: the output could not be written: File too large")
        self.assertEqual([], os.listdir("plan"))
        self.assertEqual(0, many("--plan=plan", names=NAMES).status)
        ended = self.make(**full)
        self.assertEqual((2, []), (ended.returncode, os.listdir("plan/level1")))
        self.assertIn(b"level1/00001.city.jsonl: citymerge: the output could not be written\n", ended.stderr)
        self.assertEqual(0, self.make("-j4").returncode)
        self.expect_merged()

    def test_a_merge_of_a_plan_is_killed(self):
        self.write("a", header())
        self.assertEqual(0, many("--plan=plan", "a", env=self.program_instead("[ ! -e Makefile ] || kill -9 $$")).status)
        ended = self.make()
        self.assertEqual((2, ["Makefile", "header.city.jsonl", "tiles"]), (ended.returncode, sorted(os.listdir("plan"))))
        self.assertIn(b"merged.city.jsonl: ended with status 137\n", ended.stderr)

    def test_a_fault_in_a_plan_is_told_by_the_name(self):
        self.write_tiles()
        with open(NAMES[142], "a", encoding="utf-8") as file:
            file.write('{"type"\n')
        self.assertEqual(0, many("--plan=plan", "--least", "--in-turn", "--cotype=It's $(a) #b,Building", names=NAMES).status)
        ended = self.make("-j2", "-k")
        self.assertEqual(2, ended.returncode)
        self.assertIn(b"the line is not a JSON text\n", ended.stderr)
        self.assertIn(os.path.abspath(NAMES[142]).encode() + b"\n", ended.stderr)
        self.assertFalse(os.path.exists("plan/merged.city.jsonl"))
        self.write(NAMES[142], tile_text(142))
        self.assertEqual(0, self.make("-j2").returncode)
        self.expect_merged()

    def test_a_type_that_make_and_the_shell_would_read(self):
        odd = "a\\#b $(c) $$ \\\\# 'd' `e`"
        self.write("a", header() + feature("a", 1).replace('"Building"', json.dumps(odd)) + feature("b", 2))
        self.assertEqual(0, many("--plan=plan", "--cotype=" + odd, "a").status)
        self.assertEqual((0, b""), (self.make().returncode, self.make().stderr))
        self.assertEqual(["a"], [json.loads(line)["id"] for line in self.read("plan/merged.city.jsonl").splitlines()[1:]])

    def test_a_tile_of_a_plan_is_gone(self):
        self.write_tiles()
        self.assertEqual(0, many("--plan=plan", names=NAMES).status)
        os.rename(NAMES[142], "elsewhere")
        ended = self.make("-j2")
        self.assertEqual(2, ended.returncode)
        self.assertIn(b"tiles/000143 is %s: the tile could not be read\n" % os.path.abspath(NAMES[142]).encode(), ended.stderr)
        os.rename("elsewhere", NAMES[142])
        self.assertEqual(0, self.make("-j2").returncode)
        self.expect_merged()

    def test_a_plan_whose_recipes_go_to_a_scheduler(self):
        self.write_tiles()
        self.assertEqual(0, many("--plan=plan", "--group=20", names=NAMES).status)
        self.write("srun", '#!/bin/sh\n[ "$1 $2" = "--quiet --ntasks=1" ] || exit 9\nshift 2\necho "$1 $2" >>said\nexec "$@"\n')
        os.chmod("srun", 0o755)
        words = ["SHELL=" + os.path.abspath("srun"), ".SHELLFLAGS=--quiet --ntasks=1 sh -c"]
        ended = self.make("-j4", *words)
        self.assertEqual((0, b""), (ended.returncode, ended.stderr))
        self.assertEqual("sh -c\n" * 16, self.read("plan/said"))
        self.expect_merged()

    def test_a_folder_that_is_in_use(self):
        self.write("a", header())
        os.mkdir("plan")
        self.assertEqual(0, many("--plan=plan", "a").status)
        self.assertEqual((0, header()), (self.make().returncode, self.read("plan/merged.city.jsonl")))
        self.expect_refusal(many("--plan=plan", "a"), "plan: the folder is not empty; a plan that is there goes on with `make -C`")
        self.expect_refusal(many("--plan=a", "a"), "a: it is a file; --plan wants a folder, which it makes")
        self.expect_refusal(many("--plan=p", "--cotype=a\nb", "a"), "--plan: a Makefile cannot hold an option with a newline")


def main():
    os.environ["CITYMERGE"] = os.path.abspath(sys.argv.pop(1))
    ended = unittest.main(verbosity=0, exit=False).result
    wrong = len(ended.failures) + len(ended.errors)
    print("Many tiles: %d right, %d wrong" % (ended.testsRun - wrong, wrong))
    return 1 if wrong else 0


if __name__ == "__main__":
    sys.exit(main())
