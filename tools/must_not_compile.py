#!/usr/bin/env python3
"""What nobody can write with the two ends of a ring: the borrow checker refuses it.

Each case is a function with one place in it. A copy of the crate of tests in which each has the right text
there is built and its tests are run. One in which each has the wrong text must be refused, with
the borrow checker's own error at each of these places, and with no other error. Nothing is proved.
"""

import os
import re
import shutil
import subprocess
import sys
import tempfile
from collections import namedtuple

os.chdir(os.path.dirname(os.path.dirname(os.path.abspath(__file__))))

CRATE = "tile_handoff_tests"
FILE = "crates/tile_handoff_tests/src/rings.rt"
PLACE = "HERE"

# What it shows, the function, the right and the wrong text at its place, and the error that the
# wrong one must get.
Case = namedtuple("Case", "shows function right wrong error")

CASES = [
    Case(
        shows="a put after the end",
        function="""
pub fn puts_after_the_end(sender: Sender, line: byte_streams::Line, end: End) -> (bool, bool) {
    let mut sender = sender;
    let ended = sender.try_end(end).is_ok();
    (ended, HERE)
}
""",
        right="line.items().is_empty()",
        wrong="sender.try_put(line).is_ok()",
        error="borrow-e0382",
    ),
    Case(
        shows="a second end",
        function="""
pub fn ends_twice(sender: Sender, end: End) -> (bool, bool) {
    let ended = sender.try_end(end).is_ok();
    (ended, HERE)
}
""",
        right="end.count == 0",
        wrong="sender.try_end(end).is_ok()",
        error="borrow-e0382",
    ),
    Case(
        shows="a second confirm of a receiver",
        function="""
pub fn confirms_twice(receiver: Receiver, closed: Closed, other: Closed) -> (bool, Option<Closed>) {
    let confirmed = receiver.confirm(closed).is_ok();
    (confirmed, HERE)
}
""",
        right="Some(other)",
        wrong="{ let _ = receiver.confirm(other); None }",
        error="borrow-e0382",
    ),
    Case(
        shows="a second confirm of what a sender has become",
        function="""
pub fn confirms_it_twice(receiver: Receiver, other: Receiver, closed: Closed) -> (bool, bool) {
    let confirmed = receiver.confirm(closed).is_ok();
    (confirmed, HERE)
}
""",
        right="{ drop(other); false }",
        wrong="other.confirm(closed).is_ok()",
        error="borrow-e0382",
    ),
    Case(
        shows="a sender in two threads at once",
        function="""
pub fn puts_in_two_threads<R: std::thread::Threads>(
    rt: &R,
    sender: Sender,
    line: byte_streams::Line,
    other: byte_streams::Line,
) -> (bool, bool) {
    let mut sender = sender;
    std::thread::join(rt, || sender.try_put(line).is_ok(), || HERE)
}
""",
        right="other.items().is_empty()",
        wrong="sender.try_put(other).is_ok()",
        error="borrow-e0499",
    ),
    Case(
        shows="a put by a sender that went to a thread",
        function="""
pub fn puts_beside_its_thread<R: std::thread::Threads>(
    rt: &R,
    sender: Sender,
    line: byte_streams::Line,
    other: byte_streams::Line,
) -> (bool, bool) {
    let mut sender = sender;
    let there = std::thread::spawn(rt, move || sender.try_put(line).is_ok());
    (there.is_ok(), HERE)
}
""",
        right="other.items().is_empty()",
        wrong="sender.try_put(other).is_ok()",
        error="borrow-e0382",
    ),
]


def uses():
    """The crates of this repository, each with those that it uses."""
    with open("crates.txt", encoding="utf-8") as file:
        lines = [line.split("#")[0].strip() for line in file]
    named = [line.split(":") for line in lines if line]
    return {name: libraries.split() for name, libraries in named}


def copy_crates(room):
    """Copies the crate and those of this repository beneath it, without what was proved."""
    crates = uses()
    todo, taken = [CRATE], set()
    while todo:
        name = todo.pop()
        if name in crates and name not in taken:
            taken.add(name)
            todo += crates[name]
            for folder in ("src", "specs", "proofs"):
                path = "crates/%s/%s" % (name, folder)
                if os.path.isdir(path):
                    shutil.copytree(path, "%s/%s" % (room, path))
    shutil.copy("HANDLES", room)
    with open(room + "/crates.txt", "w", encoding="utf-8") as file:
        for name in sorted(taken):
            file.write("%s: %s\n" % (name, " ".join(crates[name])))


def run(room, functions):
    """Builds the crate with these functions at the end of the file, and runs its tests."""
    with open(FILE, encoding="utf-8") as file:
        code = file.read() + "".join(functions)
    with open("%s/%s" % (room, FILE), "w", encoding="utf-8") as file:
        file.write(code)
    folder = "%s/crates/%s" % (room, CRATE)
    done = subprocess.run(["rt", "try", "--test"], cwd=folder, capture_output=True, text=True)
    return code, done.returncode, done.stdout + done.stderr


def line_of(code, case):
    """The line of the file at which the wrong text of a case stands."""
    lines = code[: code.index(case.function.split("(")[0])].count("\n")
    return lines + 1 + case.function[: case.function.index(PLACE)].count("\n")


def wrong_answers(room):
    """What is wrong, a line each."""
    right = [case.function.replace(PLACE, case.right) for case in CASES]
    _, status, told = run(room, right)
    if status != 0 or "test result: ok" not in told:
        yield "the right functions are refused:\n" + told
    code, status, told = run(room, [case.function.replace(PLACE, case.wrong) for case in CASES])
    errors = set(re.findall(r"^src/rings\.rt:(\d+):\d+: error\[([\w-]+)\]", told, re.MULTILINE))
    wanted = {(str(line_of(code, case)), case.error) for case in CASES}
    for case in CASES:
        if (str(line_of(code, case)), case.error) not in errors:
            yield "%s is not refused with %s" % (case.shows, case.error)
    if status == 0 or errors != wanted or len(re.findall(r"error\[", told)) != len(wanted):
        yield "the errors are not those that were wanted:\n" + told


def main():
    with tempfile.TemporaryDirectory() as room:
        copy_crates(room)
        wrong = list(wrong_answers(room))
    for line in wrong:
        print("FAILED: " + line)
    outcome = "wrong" if wrong else "each refused"
    print("What must not compile: %d cases, %s" % (len(CASES), outcome))
    return 1 if wrong else 0


if __name__ == "__main__":
    sys.exit(main())
