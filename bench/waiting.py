"""What does a program cost that waits, when does it end once its output is gone, and when does what has come arrive?"""

import os
import subprocess
import threading
import time

from merges import far, features
from speed import MEGA

# How long a tile gives nothing, and the output is read slowly, in seconds.
SILENT = 5
SLOW = 4
# What the slow reader takes, in bytes a second and at a time.
SPEED = 64 * 1024
PIECE = 4 * 1024
# The most processor time that such a wait may take, in seconds.
MAX_PROCESSOR = 0.2
# How soon a feature of a live tile is to arrive, and a merge of a tile without end to end, in seconds.
SOON = 1
# The most of the time of the whole merge that one may take whose output is gone after a line.
MAX_SHARE = 1 / 3


def ended(child):
    """The processor time of a child that is at its end, in seconds."""
    _, status, usage = os.wait4(child.pid, 0)
    child.returncode = os.waitstatus_to_exitcode(status)
    return usage.ru_utime + usage.ru_stime


def live_pipe(bench, name):
    path = bench.path(name)
    os.mkfifo(path)
    return path


def silent(bench, name, words, is_tile):
    """A tile that gives its features one by one, and then nothing for some seconds."""
    path = live_pipe(bench, "live")
    given = [path] if is_tile else []
    keeper = os.open(path, os.O_RDWR)
    with open(path, "rb") as source, open(path, "wb", buffering=0) as tile:
        os.close(keeper)
        child = subprocess.Popen([*words, *given], stdin=subprocess.DEVNULL if is_tile else source, stdout=subprocess.PIPE)
        feature = next(iter(features(bench, 1, 1000)))
        tile.write(far(1))
        child.stdout.readline()
        source.close()
        slowest = 0
        for _ in range(10):
            began = time.monotonic()
            tile.write(feature)
            child.stdout.readline()
            slowest = max(slowest, time.monotonic() - began)
        time.sleep(SILENT)
    child.stdout.close()
    processor = ended(child)
    os.remove(path)
    bench.say("  %-42s %.2f s of processor time in %d s; a feature took %.3f s" % (name, processor, SILENT, slowest))
    if processor > MAX_PROCESSOR:
        bench.fail("%s: it takes %.2f s of processor time while it waits" % (name, processor))
    if slowest > SOON:
        bench.fail("%s: a feature arrives after %.1f s" % (name, slowest))


def slow_reader(bench, paths):
    child = subprocess.Popen([*bench.merge_threads, *paths], stdout=subprocess.PIPE, stderr=subprocess.DEVNULL)
    began, taken = time.monotonic(), 0
    while time.monotonic() - began < SLOW:
        taken += len(child.stdout.read(PIECE))
        time.sleep(max(0, began + taken / SPEED - time.monotonic()))
    with open("/proc/%d/stat" % child.pid) as line:
        fields = line.read().rsplit(")", 1)[1].split()
    processor = (int(fields[11]) + int(fields[12])) / os.sysconf("SC_CLK_TCK")
    child.stdout.close()
    ended(child)
    bench.say("  %-42s %.2f s of processor time in %d s" % ("8 tiles, read at 64 kB/s", processor, SLOW))
    if processor > MAX_PROCESSOR:
        bench.fail("a slow reader: a merge takes %.2f s of processor time" % processor)


def time_to_end(words, lines):
    """The seconds until a child has ended whose output is closed after some lines, or read to its end."""
    began = time.monotonic()
    child = subprocess.Popen(words, stdout=subprocess.PIPE, stderr=subprocess.DEVNULL)
    if lines is None:
        while child.stdout.read(MEGA):
            pass
    else:
        for _ in range(lines):
            child.stdout.readline()
    child.stdout.close()
    ended(child)
    return time.monotonic() - began


def gone(bench, paths):
    words = [*bench.merge_threads, *paths]
    whole = min(time_to_end(words, None) for _ in range(bench.options.rounds))
    front = min(time_to_end(words, 1) for _ in range(bench.options.rounds))
    bench.say("  %-42s %.3f s, the whole %.3f s" % ("16 tiles, the output gone after a line", front, whole))
    if front > whole * MAX_SHARE:
        bench.fail("a merge whose output is gone takes %.2f of the time of the whole" % (front / whole))


def pour(path, pieces):
    """Writes to a pipe until its reader is gone."""
    try:
        with open(path, "wb", buffering=0) as tile:
            tile.write(pieces[0])
            while True:
                tile.write(pieces[1])
    except BrokenPipeError:
        pass


def endless(bench):
    path = live_pipe(bench, "endless")
    feature = next(iter(features(bench, 1, 1000)))
    threading.Thread(target=pour, args=(path, [far(1), feature * 20]), daemon=True).start()
    seconds = time_to_end([*bench.merge_threads, path], 1)
    os.remove(path)
    bench.say("  %-42s %.3f s" % ("a tile without end, the output gone", seconds))
    if seconds > SOON:
        bench.fail("a merge of a tile without end ends %.1f s after its output is gone" % seconds)


def waiting(bench):
    bench.say("What does it cost to wait, and when does it end?")
    silent(bench, "filter, a tile that gives nothing", bench.filter, False)
    silent(bench, "merge, a tile that gives nothing", bench.merge_threads, True)
    size = bench.options.small * 4 * MEGA
    paths = [bench.write("tile%d" % number, [far(number), *features(bench, number, size)]) for number in range(16)]
    slow_reader(bench, paths[:8])
    gone(bench, paths)
    for path in paths:
        os.remove(path)
    endless(bench)
