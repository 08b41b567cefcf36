#!/usr/bin/env python3
"""Merges any number of tiles into one stream, with the program citymerge.

One call of `citymerge merge` takes 64 tiles. Its output is a tile again, so merges of merges give one stream. This
program first has `citymerge` join the headers of all tiles, without their features, and tells of every tile that does
not fit. The joined header is then the first tile of each merge of tiles: all write on its grid, so that a vertex is
moved once and the options choose in its units.

It needs Linux and Python's standard library. No file is written but those that --output and --plan name.
"""

from __future__ import annotations

import argparse
import collections
import contextlib
import ctypes
import decimal
import difflib
import hashlib
import json
import os
import re
import resource
import selectors
import shlex
import shutil
import signal
import stat
import subprocess
import sys
from collections.abc import Iterator, Sequence
from dataclasses import dataclass, field
from typing import NamedTuple, NoReturn, Optional

NAME = "citymerge-many"
VERSION = "0.1.0"
MAX_IN_A_MERGE = 63  # `citymerge merge` takes 64; the joined header is one of them
LONGEST_LINE = 2**28  # bytes, as `citymerge` takes them
OFF_THE_GRID = "the translation is off the grid"
NOT_WRITTEN = "the output could not be written"
PR_SET_PDEATHSIG = 1  # of prctl(2)
PACKED = {b"\x1f\x8b": "gzip", b"\x28\xb5\x2f\xfd": "zstd", b"\xfd7zXZ": "xz", b"PK\x03\x04": "zip"}  # by their first bytes
ENDING_SIGNALS = (signal.SIGINT, signal.SIGTERM, signal.SIGHUP)
FAULT_LINE = re.compile(r"citymerge: (?:tile (?P<tile>\d+)(?: line (?P<line>\d+))?: )?(?P<text>.*)")

ABOUT = "Merge any number of tiles into one CityJSONSeq stream."
DESCRIPTION = (
    """\
The tiles are files as `citymerge merge` takes them, any number of them. Their headers
are compared first: all tiles that do not fit the first one are named, and then nothing
is merged. A line at fault later ends its own tile, which is told, too; all other tiles
are written whole, and the status is 1.""",
    """\
All merges run at once, with pipes between them, so no file is written but the result.
Each is a process, with a thread and an open file for each of its tiles (with --in-turn
one thread). Where the limits of the machine are too low for that, nothing is started.""",
    """\
With --plan=FOLDER nothing is merged. FOLDER is made, with a Makefile of one rule for each
merge and links to the tiles; `make -C FOLDER -j8` then writes FOLDER/merged.city.jsonl.
If `make` is stopped, start it again: it goes on with what is missing. A line at fault
ends the plan at the merge of its tile: mend the tile, and start `make` again.""",
)
STATUSES = (
    "0  done: the stream or the plan is whole, or help was asked for",
    "1  refused, with a line on standard error for each thing that is wrong",
    "2  wrong use, told on standard error; no tile was read",
)
ENVIRONMENT = "CITYMERGE  the program to run; without it `citymerge` beside this one, or on PATH"
EXAMPLES = (
    "citymerge-many tiles/*.city.jsonl > city.city.jsonl",
    "ls tiles/*.city.jsonl | citymerge-many --output=city.city.jsonl",
    "find tiles -type f -print0 | sort -z | citymerge-many --null --plan=work",
)


class Refusal(Exception):
    """What ends a run with status 1: lines for standard error."""

    def __init__(self, *lines: str) -> None:
        super().__init__(*lines)
        self.lines = lines


class WrongUse(Exception):
    """What ends a run with status 2: a text of citymerge about its words."""


class Stopped(Exception):
    """A signal asks this program to end."""

    def __init__(self, number: int) -> None:
        super().__init__(number)
        self.status = 128 + number


def shown(name: str) -> str:
    """A name on one line of a message, with nothing in it that a terminal would obey."""
    return "".join(c if c.isprintable() else repr(c)[1:-1] for c in name)


class Terminal:
    """Standard error: lines for whoever calls, and between them a line of progress if it is a terminal."""

    def __init__(self) -> None:
        self.is_terminal = sys.stderr is not None and sys.stderr.isatty()

    def tell(self, line: str) -> None:
        self.write(f"{self._cleared()}{NAME}: {line}\n")

    def progress(self, text: str) -> None:
        if self.is_terminal:
            self.write(f"{self._cleared()}{text}")

    def clear(self) -> None:
        self.write(self._cleared())

    def _cleared(self) -> str:
        return "\r\033[K" if self.is_terminal else ""

    def write(self, text: str) -> None:
        with contextlib.suppress(OSError, AttributeError):  # a standard error that is closed takes nothing
            sys.stderr.write(text)
            sys.stderr.flush()


# Words


class Parser(argparse.ArgumentParser):
    """A parser that says more of some wrong words."""

    def error(self, message: str) -> NoReturn:
        needs = re.fullmatch(r"argument (--\w+): expected one argument", message)
        if needs:
            value = next(action.metavar for action in self._actions if needs[1] in action.option_strings)
            message = f"{needs[1]} wants a value: {needs[1]}={value}"
        unknown = re.match(r"unrecognized arguments: (-[^ =]*)", message)
        names = [name for action in self._actions for name in action.option_strings]
        for near in difflib.get_close_matches(unknown[1], names, 1) if unknown else ():
            message += f" (is {near} meant?)"
        super().error(message)


def argument_parser() -> argparse.ArgumentParser:
    end = ["Status:", *("  " + line for line in STATUSES), "", "Environment:", "  " + ENVIRONMENT, ""]
    end += ["Examples:", *("  " + line for line in EXAMPLES)]
    parser = Parser(
        prog=NAME, usage=f"{NAME} [OPTIONS] [--] [TILE]...", description="\n\n".join((ABOUT, *DESCRIPTION)),
        epilog="\n".join(end), add_help=False, allow_abbrev=False, formatter_class=help_formatter)
    own = parser.add_argument_group("Arguments and options")
    own.add_argument("tiles", metavar="TILE", nargs="*", help=(
        "A file, in the order of the stream; the grid is that of the first. Without any, standard input gives the "
        "names, one a line."))
    own.add_argument("--null", action="store_true", help=(
        "Names on standard input end in a zero byte, as `find -print0` writes them."))
    own.add_argument("--output", metavar="FILE", help=(
        "Write to this file. It is put in place only when all went well; until then it stays as it was."))
    own.add_argument("--plan", metavar="FOLDER", help="Write a Makefile into this new folder, and merge nothing.")
    own.add_argument("--group", metavar="N", type=group_size, default=MAX_IN_A_MERGE, help=(
        f"Merge at most N tiles at a time, from 2 to {MAX_IN_A_MERGE}. Without it {MAX_IN_A_MERGE}."))
    own.add_argument("-h", "--help", action="help", help="Print help")
    own.add_argument("-V", "--version", action="version", version=f"{NAME} {VERSION}", help="Print version")
    merging = parser.add_argument_group("Options of `citymerge merge`, of which `citymerge help merge` says more")
    merging.add_argument("--cotype", metavar="TYPE,TYPE", dest="choice", action="append", default=[],
                         type="--cotype={}".format, help="Only features of these types.")
    merging.add_argument("--bbox", metavar="MINX,MINY,MAXX,MAXY", dest="choice", action="append",
                         type="--bbox={}".format, help=(
                             "Only features that meet this area, in grid units of the output, not metres."))
    merging.add_argument("--exclude", dest="choice", action="append_const", const="--exclude", help=(
        "Only the features that the other options do not choose."))
    merging.add_argument("--in-turn", dest="order", action="append_const", const="--in-turn", default=[], help=(
        "The same tiles give the same stream. The merges take turns, and tiles in each of them."))
    merging.add_argument("--least", dest="base", action="append_const", const="--least", default=[], help=(
        "Move the origin of the grid to the least translation of all tiles."))
    return parser


def help_formatter(prog: str) -> argparse.HelpFormatter:
    return argparse.RawDescriptionHelpFormatter(prog, max_help_position=26, width=88)


def group_size(text: str) -> int:
    if not text.isdecimal() or not 2 <= int(text) <= MAX_IN_A_MERGE:
        raise argparse.ArgumentTypeError(f"it is a whole number from 2 to {MAX_IN_A_MERGE}")
    return int(text)


def parsed(words: Sequence[str]) -> argparse.Namespace:
    """What the words ask for; the program ends here where they ask for help or are wrong."""
    parser = argument_parser()
    end = words.index("--") if "--" in words else len(words)
    asked = parser.parse_intermixed_args(words[:end])
    asked.tiles += words[end + 1:]
    if asked.plan is not None and asked.output is not None:
        parser.error("--plan and --output exclude one another: a plan writes FOLDER/merged.city.jsonl")
    if asked.plan == "" or asked.output == "":
        parser.error("an empty name")
    if asked.tiles and asked.null:
        parser.error("--null is about names on standard input, and names are given as words")
    if not asked.tiles:
        asked.tiles = names_from_input(b"\0" if asked.null else b"\n")
    if not asked.tiles:
        parser.error("no TILE: neither words nor standard input name one")
    return asked


def names_from_input(end: bytes) -> list[str]:
    """The names on standard input. The last one may lack its end; empty ones are none."""
    if sys.stdin is None or sys.stdin.isatty():
        return []
    return [os.fsdecode(name) for name in sys.stdin.buffer.read().split(end) if name]


def find_program() -> str:
    """The path of citymerge."""
    chosen = os.environ.get("CITYMERGE")
    beside = os.path.join(os.path.dirname(os.path.abspath(__file__)), "citymerge")
    for name in (chosen,) if chosen else (beside, "citymerge"):
        found = shutil.which(name)
        if found:
            return os.path.abspath(found)
    if chosen:
        raise Refusal(f"{shown(chosen)}: CITYMERGE names no program")
    raise Refusal("the program citymerge is not there: put it on PATH, or its path into CITYMERGE")


def check_options(program: str, options: Sequence[str]) -> None:
    """Lets citymerge say what is wrong with its own options: with a tile that is empty, sound ones give status 1."""
    try:
        tried = subprocess.run([program, "merge", *options, "--", os.devnull], capture_output=True, check=False)
    except OSError as error:
        raise Refusal(f"{shown(program)}: {error.strerror}") from error
    if tried.returncode != 1:
        raise WrongUse(tried.stderr.decode(errors="replace"))


# Headers


class Head(NamedTuple):
    """The first line of a tile that is not blank, without its newline."""

    name: str
    line: int
    text: bytes


class Misfit(NamedTuple):
    """A tile that the merge would refuse, and why; its line is 0 where it has none to name."""

    name: str
    line: int
    text: str

    def __str__(self) -> str:
        place = f" line {self.line}" if self.line else ""
        return f"{shown(self.name)}{place}: {self.text}"


def read_head(name: str) -> Head:
    """Reads the header of a tile; raises OSError or ValueError with what is in the way."""
    if not is_utf8(name):
        raise ValueError("the name is not UTF-8")
    mode = os.stat(name).st_mode
    if stat.S_ISDIR(mode):
        raise ValueError("it is a folder")
    if not stat.S_ISREG(mode) or os.path.abspath(name).startswith(("/dev/stdin", "/dev/fd/", "/proc/")):
        raise ValueError("it is a pipe or a device; a file is needed, since its header is read twice")
    with open(name, "rb") as tile:
        for front, packer in PACKED.items():
            if tile.read(len(front)) == front:
                raise ValueError(f"it is packed with {packer}; unpack it first")
            tile.seek(0)
        number = 1
        text = tile.readline(LONGEST_LINE + 2)
        while text.endswith(b"\n") and not text.strip(b" \t\r\n"):
            number += 1
            text = tile.readline(LONGEST_LINE + 2)
    return Head(name, number, text.rstrip(b"\n"))


def is_utf8(name: str) -> bool:
    try:
        os.fsencode(name).decode("utf-8")
    except UnicodeDecodeError:
        return False
    return True


@contextlib.contextmanager
def files_in_memory(texts: Sequence[bytes]) -> Iterator[list[int]]:
    """Files that hold these texts, which are nowhere on a disk."""
    with contextlib.ExitStack() as stack:
        descriptors = []
        for text in texts:
            held = stack.enter_context(open(os.memfd_create("header"), "wb"))
            held.write(text)
            held.flush()
            descriptors.append(held.fileno())
        yield descriptors


def path_of(descriptor: int) -> str:
    return f"/dev/fd/{descriptor}"


class Comparison:
    """The headers of tiles, joined by citymerge in the order in which they are added."""

    def __init__(self, program: str, joined: bytes = b"", is_least: bool = False) -> None:
        self.program = program
        self.joined = joined
        self.is_least = is_least
        self.misfits: list[Misfit] = []

    def add_tiles(self, names: Sequence[str], terminal: Terminal) -> None:
        """Adds the headers of these tiles, some at a time, since one may be a whole document."""
        for start in range(0, len(names), MAX_IN_A_MERGE):
            terminal.progress(f"headers: {start} of {len(names)} compared")
            heads = []
            for name in names[start:start + MAX_IN_A_MERGE]:
                try:
                    heads.append(read_head(name))
                except OSError as error:
                    self.misfits.append(Misfit(name, 0, f"the tile could not be read: {error.strerror}"))
                except ValueError as error:
                    self.misfits.append(Misfit(name, 0, f"the tile could not be read: {error}"))
            self.add(heads)

    def add(self, heads: Sequence[Head]) -> None:
        """Adds these headers. Where some of them do not fit, each is tried by itself."""
        fault = self._try(heads) if heads else None
        if fault is None:
            return
        if len(heads) > 1:
            for head in heads:
                self.add([head])
        else:
            self.misfits.append(self._misfit(heads[0], fault))

    def _try(self, heads: Sequence[Head]) -> Optional[str]:
        """Joins the headers to those before them, or gives the text of the fault."""
        texts = [head.text for head in heads]
        if self.joined:
            texts.insert(0, self.joined)
        words = [self.program, "merge", "--in-turn", "--exclude", *(["--least"] if self.is_least else []), "--"]
        try:
            with files_in_memory(texts) as files:
                words += map(path_of, files)
                ended = subprocess.run(words, capture_output=True, pass_fds=files, check=False)
        except OSError as error:
            raise Refusal(f"the headers could not be compared: {error.strerror}") from error
        if ended.returncode == 0:
            self.joined = ended.stdout.rstrip(b"\n")
            return None
        fault = FAULT_LINE.fullmatch(ended.stderr.decode(errors="replace").rstrip("\n"))
        if ended.returncode != 1 or fault is None or fault["tile"] is None:
            raise Refusal(f"the headers could not be compared: {ending(ended.returncode, ended.stderr)}")
        return fault["text"]

    def _misfit(self, head: Head, fault: str) -> Misfit:
        if fault == OFF_THE_GRID:
            fault += distance_text(steps_off(self.joined, head.text))
        return Misfit(head.name, head.line if head.text.strip(b" \t\r") else 0, fault)


def steps_off(base: bytes, tile: bytes) -> list[decimal.Decimal]:
    """By how many steps a translation lies off the grid of another header, on each axis: above -0.5, at most 0.5."""
    transform, grid = (json.loads(text, parse_float=decimal.Decimal, parse_int=decimal.Decimal)["transform"]
                       for text in (tile, base))
    off = []
    with decimal.localcontext(decimal.Context(prec=100)):
        for to, start, scale in zip(transform["translate"], grid["translate"], grid["scale"]):
            steps = (to - start) / scale
            off.append(steps - (steps - decimal.Decimal("0.5")).to_integral_value(decimal.ROUND_CEILING))
    return off


def distance_text(off: Sequence[decimal.Decimal]) -> str:
    parts = [f"{axis} by {float(distance):.3g} steps" for axis, distance in zip("xyz", off) if distance]
    return ", " + " and ".join(parts)


def named_twice(names: Sequence[str]) -> Iterator[str]:
    """A line for each tile that the list names a second time, by whatever name."""
    first: dict[tuple[int, int], int] = {}
    for place, name in enumerate(names):
        with contextlib.suppress(OSError):  # told when its header is read
            about = os.stat(name)
            known = first.setdefault((about.st_dev, about.st_ino), place)
            if known != place:
                other = "" if names[known] == name else f", as {shown(names[known])}, too"
                yield f"{shown(name)}: the tile is named twice{other}; its features would be written twice"


def first_identifier(name: str) -> Optional[str]:
    """The identifier of the first feature that has a line of its own, where that can be told."""
    with contextlib.suppress(OSError, ValueError, TypeError, AttributeError, RecursionError, MemoryError):
        with open(name, "rb") as tile:
            lines = (line for line in iter(lambda: tile.readline(LONGEST_LINE + 2), b"") if line.strip(b" \t\r\n"))
            next(lines, None)
            found = json.loads(next(lines, b"null"))
            return found.get("id") if isinstance(found.get("id"), str) else None
    return None


def digest(name: str) -> Optional[bytes]:
    with contextlib.suppress(OSError):
        with open(name, "rb") as tile:
            hashed = hashlib.sha256()
            for piece in iter(lambda: tile.read(1 << 20), b""):
                hashed.update(piece)
            return hashed.digest()
    return None


def alike(names: Sequence[str]) -> Iterator[str]:
    """A line for each tile that has all bytes, or the identifier of its first feature, of one before it. Bytes are looked
    at only where sizes are the same."""
    same_size = collections.Counter(os.path.getsize(name) for name in names)
    contents: dict[Optional[bytes], str] = {}
    identifiers: dict[str, str] = {}
    for name in names:
        if same_size[os.path.getsize(name)] > 1:
            content = digest(name)
            known = contents.setdefault(content, name) if content is not None else name
            if known != name:
                yield f"{shown(name)}: it has the same bytes as {shown(known)}; the features of both are written"
                continue
        identifier = first_identifier(name)
        known = identifiers.setdefault(identifier, name) if identifier is not None else name
        if known != name:
            yield f"{shown(name)}: its first feature is {shown(identifier)}, as in {shown(known)}; both are written"


def compared(program: str, names: Sequence[str], is_least: bool, terminal: Terminal) -> bytes:
    """The joined header of all tiles, where all fit. Else every tile that does not is refused."""
    comparison = Comparison(program)
    comparison.add_tiles(names, terminal)
    for with_least in (True, False) if is_least else ():
        if comparison.misfits:
            break
        # to the least translation, and from there, which may be too far away from a tile that fits the first
        comparison = Comparison(program, comparison.joined, with_least)
        comparison.add_tiles(names, terminal)
    if not comparison.misfits:
        return comparison.joined
    places = {name: place for place, name in enumerate(names)}
    misfits = sorted(comparison.misfits, key=lambda misfit: places[misfit.name])
    raise Refusal(*map(str, misfits), summary(misfits, names))


def summary(misfits: Sequence[Misfit], names: Sequence[str]) -> str:
    text = f"{len(misfits)} of {len(names)} tiles do not fit, and nothing was written"
    refused = {misfit.name for misfit in misfits}
    first = next((name for name in names if name not in refused), None)
    if first is not None and any("tile 1" in misfit.text or OFF_THE_GRID in misfit.text for misfit in misfits):
        text += f"; they were compared with {shown(first)}, as tile 1"
    return text


# The tree of merges


@dataclass
class Merge:
    """A merge of tiles, or of the streams of other merges."""

    tiles: list[str] = field(default_factory=list)
    parts: list[Merge] = field(default_factory=list)

    def inputs(self) -> int:
        return len(self.tiles) or len(self.parts)

    def __str__(self) -> str:
        if self.first() == self.last():
            return f"the merge of {shown(self.first())}"
        return f"the merge of the tiles {shown(self.first())} to {shown(self.last())}"

    def first(self) -> str:
        return self.tiles[0] if self.tiles else self.parts[0].first()

    def last(self) -> str:
        return self.tiles[-1] if self.tiles else self.parts[-1].last()


def grouped(items: Sequence, most: int) -> list[list]:
    """The items in as few groups as can be, in order, of sizes that differ by one at most."""
    count = -(-len(items) // most)
    places = [len(items) * number // count for number in range(count + 1)]
    return [list(items[start:end]) for start, end in zip(places, places[1:])]


def tree(names: Sequence[str], most: int) -> list[list[Merge]]:
    """The merges by levels: those of tiles first, the last one alone on the last level."""
    levels = [[Merge(tiles=group) for group in grouped(names, most)]]
    while len(levels[-1]) > 1:
        levels.append([Merge(parts=group) for group in grouped(levels[-1], most)])
    return levels


# Limits


def check_limits(merges: Sequence[Merge], is_in_turn: bool) -> None:
    """Refuses what would need more open files or threads at once than there may be."""
    files = max(2 * len(merges) + 2 * MAX_IN_A_MERGE, 4 * MAX_IN_A_MERGE)
    threads = sum(1 if is_in_turn else 1 + merge.inputs() for merge in merges)
    for what, wanted, most, name in (("open files", files, raised(resource.RLIMIT_NOFILE), "ulimit -n"),
                                     ("threads", threads, free_threads(), "ulimit -u, pids.max")):
        if most is not None and wanted > most:
            raise Refusal(f"{len(merges)} merges at once need {wanted} {what}, and {most} can be had ({name}); "
                          "raise that, or give --plan=FOLDER, which takes them a few at a time")


def raised(limit: int) -> Optional[int]:
    """Raises a limit of this process as far as it may go; None where there is none."""
    _, hard = resource.getrlimit(limit)
    with contextlib.suppress(ValueError, OSError):
        resource.setrlimit(limit, (hard, hard))
    soft, _ = resource.getrlimit(limit)
    return None if soft == resource.RLIM_INFINITY else soft


def free_threads() -> Optional[int]:
    """How many more threads this user may start; None where nothing says so."""
    free = [most - used for most, used in control_groups()]
    most = raised(resource.RLIMIT_NPROC)
    if most is not None and os.geteuid() != 0:  # root is not held to it
        free.append(most - threads_of_user())
    return max(0, min(free)) if free else None


def control_groups() -> Iterator[tuple[int, int]]:
    """The greatest number of threads and the present one, of each control group that this process is in."""
    place = "/"
    with contextlib.suppress(OSError):
        with open("/proc/self/cgroup", encoding="utf-8", errors="replace") as groups:
            place = next((line[3:].strip() for line in groups if line.startswith("0::")), "/")
    while True:
        with contextlib.suppress(OSError, ValueError):
            yield tuple(number_in(f"/sys/fs/cgroup{place}/{name}") for name in ("pids.max", "pids.current"))
        if place in ("", "/"):
            return
        place = os.path.dirname(place)


def number_in(path: str) -> int:
    with open(path, encoding="ascii") as file:
        return int(file.read())


def threads_of_user() -> int:
    count = 0
    for process in filter(str.isdigit, os.listdir("/proc")):
        with contextlib.suppress(OSError):  # it may end meanwhile
            if os.stat(f"/proc/{process}").st_uid == os.getuid():
                count += len(os.listdir(f"/proc/{process}/task"))
    return count


# Merges at once


@dataclass
class Running:
    """A process of a merge, with what it said on standard error."""

    merge: Merge
    process: subprocess.Popen
    said: bytes = b""

    @property
    def status(self) -> Optional[int]:
        return self.process.returncode


@contextlib.contextmanager
def signals_held_back() -> Iterator[None]:
    """Lets the signals that end this program wait until a block has ended."""
    signal.pthread_sigmask(signal.SIG_BLOCK, ENDING_SIGNALS)
    try:
        yield
    finally:
        signal.pthread_sigmask(signal.SIG_UNBLOCK, ENDING_SIGNALS)


def begin_process() -> None:
    """Has a new process killed when this program is, so that none goes on writing to an output that is taken up anew."""
    for number in ENDING_SIGNALS:
        signal.signal(number, signal.SIG_DFL)
    ctypes.CDLL(None).prctl(PR_SET_PDEATHSIG, signal.SIGKILL)
    signal.pthread_sigmask(signal.SIG_UNBLOCK, ENDING_SIGNALS)


class Crew:
    """All merges as processes with pipes between them."""

    def __init__(self, program: str, asked: argparse.Namespace, header: int, output: int) -> None:
        self.program = program
        self.asked = asked
        self.header = header
        self.output = output
        self.running: list[Running] = []
        self.streams: dict[int, int] = {}  # the pipes of merges whose readers are not started yet
        self.killed: Optional[Running] = None  # the first merge that a signal ended

    def start(self, levels: Sequence[Sequence[Merge]]) -> None:
        """Starts the merges, those of tiles first."""
        for level in levels:
            for merge in level:
                if merge is levels[-1][0]:
                    self._start(merge, self.output)
                else:
                    self._start_to_pipe(merge)

    def _start_to_pipe(self, merge: Merge) -> None:
        reader, writer = os.pipe()
        self.streams[id(merge)] = reader
        try:
            self._start(merge, writer)
        finally:
            os.close(writer)

    def _start(self, merge: Merge, output: int) -> None:
        words = [self.program, "merge", *self.asked.order]
        if merge.tiles:
            files = [self.header]
            words += [*self.asked.choice, "--", path_of(self.header), *merge.tiles]
        else:
            files = [self.streams.pop(id(part)) for part in merge.parts]
            words += ["--", *map(path_of, files)]
        with signals_held_back():
            process = subprocess.Popen(
                words, stdin=subprocess.DEVNULL, stdout=output, stderr=subprocess.PIPE, pass_fds=files,
                preexec_fn=begin_process)
            self.running.append(Running(merge, process))
        if not merge.tiles:
            for stream in files:
                os.close(stream)

    def wait(self, terminal: Terminal) -> None:
        """Waits for all merges. Where one is ended by a signal, the others are ended, too."""
        with selectors.DefaultSelector() as selector:
            for run in self.running:
                selector.register(run.process.stderr, selectors.EVENT_READ, run)
            while selector.get_map():
                for key, _ in selector.select(0.5 if terminal.is_terminal else None):
                    self._hear(selector, key.data)
                left = len(selector.get_map())
                terminal.progress(f"merges: {len(self.running) - left} of {len(self.running)} done{self._written()}")

    def _hear(self, selector: selectors.BaseSelector, run: Running) -> None:
        said = os.read(run.process.stderr.fileno(), 65536)
        run.said += said
        if not said:
            selector.unregister(run.process.stderr)
            run.process.stderr.close()
            if run.process.wait() < 0 and self.killed is None:
                self.killed = run
                self.end()

    def _written(self) -> str:
        """How much the last merge has written so far, where that can be known."""
        with contextlib.suppress(OSError, StopIteration, ValueError):
            with open(f"/proc/{self.running[-1].process.pid}/io", encoding="ascii") as counts:
                written = next(int(line[7:]) for line in counts if line.startswith("wchar: "))
                return f", {written / 1e6:.0f} MB written"
        return ""

    def end(self) -> None:
        """Ends the merges that still run, and closes what was open for those that never did."""
        for stream in self.streams.values():
            os.close(stream)
        self.streams.clear()
        for run in self.running:
            if run.process.poll() is None:
                run.process.kill()
                run.process.wait()


def ending(status: int, said: bytes) -> str:
    """How a process ended, in words."""
    text = shown(said.decode(errors="replace").strip()).replace("citymerge: ", "", 1)
    if status >= 0:
        return text or f"it ended with status {status}"
    try:
        return f"it was ended by the signal {signal.Signals(-status).name}"
    except ValueError:
        return f"it was ended by the signal {-status}"


def faults_told(crew: Crew) -> list[str]:
    """What went wrong in the merges, by the names of tiles, without what only follows from another fault."""
    failed = {id(run.merge) for run in crew.running if run.status != 0}
    failed_readers = {id(part) for run in crew.running if run.status != 0 for part in run.merge.parts}
    lines = []
    for run in crew.running:
        if run.status == 0 or (run.status < 0 and run is not crew.killed):
            continue
        fault = FAULT_LINE.fullmatch(run.said.decode(errors="replace").rstrip("\n"))
        place = f" line {fault['line']}" if fault and fault["line"] else ""
        number = int(fault["tile"]) if fault and fault["tile"] else 0
        if run.merge.tiles and number > 1:  # the first one is the joined header
            lines.append(f"{shown(run.merge.tiles[number - 2])}{place}: {fault['text']}")
        elif run.merge.parts and number > 0:
            part = run.merge.parts[number - 1]
            if id(part) not in failed:
                lines.append(f"the stream of {part}{place}: {fault['text']}")
        elif fault and fault["text"] == NOT_WRITTEN and run is crew.running[-1]:
            lines.append(NOT_WRITTEN)
        elif not (fault and fault["text"] == NOT_WRITTEN and id(run.merge) in failed_readers):
            lines.append(f"{run.merge}: {ending(run.status, run.said)}")
    return lines


def merge_at_once(program: str, asked: argparse.Namespace, levels: Sequence[Sequence[Merge]], header: bytes,
                  output: int, terminal: Terminal) -> None:
    """Runs all merges, with the stream to this descriptor, and refuses where one of them did not end well."""
    with files_in_memory([header]) as (header_file,):
        crew = Crew(program, asked, header_file, output)
        try:
            crew.start(levels)
            crew.wait(terminal)
        except OSError as error:
            raise Refusal(f"not all merges could be started: {error.strerror}; --plan=FOLDER takes a few at a time") \
                from error
        finally:
            crew.end()
    lines = faults_told(crew)
    if lines or any(run.status != 0 for run in crew.running):
        raise Refusal(*(lines or ["a merge was refused, and did not say why"]))


@contextlib.contextmanager
def output_to(path: Optional[str], tiles: Sequence[str]) -> Iterator[int]:
    """Standard output; or a file under another name, which is put in place at the end of a block that ends well."""
    if path is None:
        if sys.stdout is None:
            raise Refusal(NOT_WRITTEN)
        yield sys.stdout.fileno()
        return
    target = os.path.realpath(path)
    if path.endswith("/") or (os.path.exists(target) and not os.path.isfile(target)):
        raise Refusal(f"{shown(path)}: {NOT_WRITTEN}: it is no file that can be put in place")
    if os.path.exists(target) and any(os.path.exists(tile) and os.path.samefile(tile, target) for tile in tiles):
        raise Refusal(f"{shown(path)}: {NOT_WRITTEN}: it is one of the tiles")
    written = os.path.join(os.path.dirname(target), f".{NAME}.{os.getpid()}.part")
    try:
        descriptor = os.open(written, os.O_WRONLY | os.O_CREAT | os.O_EXCL, 0o666)
    except OSError as error:
        raise Refusal(f"{shown(path)}: {NOT_WRITTEN}: {error.strerror}") from error
    try:
        yield descriptor
        os.fsync(descriptor)  # some file systems tell only now that there was no room
        if os.path.exists(target):
            shutil.copymode(target, written)
        os.replace(written, target)
    except OSError as error:
        raise Refusal(f"{shown(path)}: {NOT_WRITTEN}: {error.strerror}") from error
    finally:
        os.close(descriptor)
        with contextlib.suppress(FileNotFoundError):
            os.unlink(written)


# Plans

MAKEFILE = r"""# Written by {name} {version}: {tiles} tiles, {merges} merges. `make -jN` here merges N groups at a time
# and writes {last}. A file is written under another name and put in place once it is whole, so
# that `make`, where it was broken off, goes on with what is missing. What is told of a tile is told by its name.
# Where all nodes of a cluster see this folder and the tiles, Slurm runs each merge as a job step of its own:
#     make -j200 SHELL=srun .SHELLFLAGS='--quiet --ntasks=1 sh -c'

CITYMERGE = {program}
# the options that choose features, for merges of tiles, and those of all merges
CHOICE = {choice}
ORDER = {order}

.DELETE_ON_ERROR:
.SUFFIXES:
.PHONY: all
all: {last}

# a tile that is gone
tiles/%:
	@printf '%s\n' "$@ is $$(readlink $@): the tile could not be read" >&2; exit 1

# merges the files that a target depends on, with these options; one that an earlier `make` left running writes to
# a file of its own, which is taken from it
define merge
@rm -f $@.*.part; part=$@.$$(uname -n).$$$$.part; \
said=$$($(CITYMERGE) merge $(1) -- $^ 2>&1 >"$$part") && mv "$$part" $@ || {{ \
    status=$$?; rm -f "$$part"; set -- $^; \
    printf '%s\n' "$@: $${{said:-ended with status $$status}}" >&2; \
    tile=$$(expr "$$said" : 'citymerge: tile \([0-9]*\)'); \
    [ -z "$$tile" ] || {{ shift $$((tile - 1)); printf '%s\n' "$@: tile $$tile is $$(readlink "$$1" || echo "$$1")" >&2; }}; \
    exit $$status; }}
endef
"""
LAST = "merged.city.jsonl"


def in_makefile(words: Sequence[str]) -> str:
    """Words for the shell, as a variable of a Makefile holds them."""
    text = " ".join(map(shlex.quote, words))
    if "\n" in text:
        raise Refusal("--plan: a Makefile cannot hold an option with a newline")
    return re.sub(r"(\\*)#", r"\1\1\\#", text.replace("$", "$$"))


def new_folder(path: str) -> None:
    try:
        if os.path.exists(path) and not os.path.isdir(path):
            raise Refusal(f"{shown(path)}: it is a file; --plan wants a folder, which it makes")
        os.makedirs(path, exist_ok=True)
        if os.listdir(path):
            raise Refusal(f"{shown(path)}: the folder is not empty; a plan that is there goes on with `make -C`")
    except OSError as error:
        raise Refusal(f"{shown(path)}: {error.strerror}") from error


def rules(levels: Sequence[Sequence[Merge]]) -> Iterator[str]:
    """A rule for each merge. Tiles go by the names of links to them, so that no name has to be quoted."""
    targets: dict[int, str] = {}
    tiles = 0
    for height, level in enumerate(levels, 1):
        for number, merge in enumerate(level, 1):
            target = LAST if merge is levels[-1][0] else f"level{height}/{number:05}.city.jsonl"
            targets[id(merge)] = target
            if merge.tiles:
                files = ["header.city.jsonl", *(link_to(tiles + place) for place in range(len(merge.tiles)))]
                tiles += len(merge.tiles)
            else:
                files = [targets[id(part)] for part in merge.parts]
            options = "$(ORDER) $(CHOICE)" if merge.tiles else "$(ORDER)"
            yield f"\n{target}: {' '.join(files)}\n\t$(call merge,{options})\n"


def link_to(place: int) -> str:
    return f"tiles/{place + 1:06}"


def write_plan(program: str, asked: argparse.Namespace, levels: Sequence[Sequence[Merge]], header: bytes) -> None:
    """Fills the folder of a plan, its Makefile last; takes all of it out again where that cannot be finished."""
    makefile = MAKEFILE.format(
        name=NAME, version=VERSION, tiles=len(asked.tiles), merges=sum(map(len, levels)), last=LAST,
        program=in_makefile([program]), choice=in_makefile(asked.choice), order=in_makefile(asked.order))

    def place_of(name: str) -> str:
        return os.path.join(asked.plan, name)

    try:
        with contextlib.ExitStack() as undo:
            for folder in ("tiles", *(f"level{height}" for height in range(1, len(levels)))):
                os.mkdir(place_of(folder))
                undo.callback(os.rmdir, place_of(folder))
            for place, tile in enumerate(asked.tiles):
                os.symlink(os.path.abspath(tile), place_of(link_to(place)))
                undo.callback(os.unlink, place_of(link_to(place)))
            for name, lines in (("header.city.jsonl", [header + b"\n"]),
                                ("Makefile.part", map(os.fsencode, (makefile, *rules(levels))))):
                with open(place_of(name), "xb") as file:
                    undo.callback(os.unlink, place_of(name))
                    file.writelines(lines)
            os.replace(place_of("Makefile.part"), place_of("Makefile"))
            undo.pop_all()
    except OSError as error:
        raise Refusal(f"{shown(asked.plan)}: {NOT_WRITTEN}: {error.strerror}") from error


# The program


def run(words: Sequence[str], terminal: Terminal) -> None:
    asked = parsed(words)
    program = find_program()
    check_options(program, [*asked.choice, *asked.order, *asked.base])
    twice = list(named_twice(asked.tiles))
    if twice:
        raise Refusal(*twice)
    levels = tree(asked.tiles, asked.group)
    if asked.plan is not None:
        new_folder(asked.plan)
        header = compared(program, asked.tiles, bool(asked.base), terminal)
        tell_alike(asked.tiles, terminal)
        write_plan(program, asked, levels, header)
        terminal.tell(f"{shown(asked.plan)}: merges of {len(asked.tiles)} tiles, {sum(map(len, levels))} in all; "
                      f"`make -C {shown(shlex.quote(asked.plan))} -j8` writes {LAST} there")
        return
    check_limits([merge for level in levels for merge in level], bool(asked.order))
    with output_to(asked.output, asked.tiles) as output:
        header = compared(program, asked.tiles, bool(asked.base), terminal)
        tell_alike(asked.tiles, terminal)
        merge_at_once(program, asked, levels, header, output, terminal)


def tell_alike(names: Sequence[str], terminal: Terminal) -> None:
    """Tells of tiles that seem to be given twice; all are written."""
    with contextlib.suppress(OSError):  # what is gone meanwhile is told by its merge
        for line in alike(names):
            terminal.tell(line)


def stop(number: int, _frame: object) -> None:
    raise Stopped(number)


def open_standard_files() -> None:
    """Opens what is closed of standard input, output and error, so that no file of a merge gets their numbers."""
    for descriptor in range(3):
        try:
            os.fstat(descriptor)
        except OSError:
            os.set_inheritable(os.open(os.devnull, os.O_RDWR), True)


def main() -> int:
    open_standard_files()
    for number in ENDING_SIGNALS:
        signal.signal(number, stop)
    terminal = Terminal()
    try:
        run(sys.argv[1:], terminal)
    except Refusal as refusal:
        for line in refusal.lines:
            terminal.tell(line)
        return 1
    except WrongUse as wrong:
        terminal.write(str(wrong))
        return 2
    except Stopped as stopped:
        return stopped.status
    finally:
        terminal.clear()
    return 0


if __name__ == "__main__":
    sys.exit(main())
