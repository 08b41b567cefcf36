#!/usr/bin/env python3
"""Many merges with threads on one, two and four processors: none hangs, each feature comes once and in its tile's order.

The tiles are files and pipes that stall; the output is read at once, slowly, or not to its end. It stands beside the
gate, since it takes some minutes.
Use: tools/stress.py PROGRAM [MERGES]
"""

import os
import random
import subprocess
import sys
import tempfile
import threading
import time

HEADER = (
    b'{"type":"CityJSON","version":"2.0","transform":{"scale":[0.001,0.001,0.001],"translate":[0,0,0]},'
    b'"CityObjects":{},"vertices":[]}\n'
)
# No merge of these takes this long, in seconds, unless it hangs.
LONG = 30


def feature(tile, number):
    name = b"%d-%d" % (tile, number)
    return (
        b'{"type":"CityJSONFeature","id":"%s","CityObjects":{"%s":{"type":"Road"}},"vertices":[[1,2,3]]}\n'
        % (name, name)
    )


def pour(path, lines, rng):
    """Gives the lines through a pipe, and stalls now and then."""
    stall = rng.randrange(len(lines))
    try:
        with open(path, "wb", buffering=0) as pipe:
            pipe.write(b"".join(lines[:stall]))
            time.sleep(rng.choice([0, 0, 0.001, 0.01]))
            pipe.write(b"".join(lines[stall:]))
    except BrokenPipeError:
        pass


def tile(folder, number, rng):
    """The path of a tile, and its lines."""
    lines = [HEADER, *(feature(number, k) for k in range(rng.choice([0, 1, 3, 70, 300])))]
    path = os.path.join(folder, "tile%d" % number)
    if rng.random() < 0.3:
        os.mkfifo(path)
        threading.Thread(target=pour, args=(path, lines, random.Random(rng.random())), daemon=True).start()
    else:
        with open(path, "wb") as file:
            file.writelines(lines)
    return path, lines


def taken(child, rng):
    """What is read of the output, and whether that is all."""
    way = rng.choice(["at once", "slowly", "in part"])
    if way == "at once":
        return child.stdout.read(), True
    if way == "in part":
        front = child.stdout.read(rng.randrange(1, 20000))
        child.stdout.close()
        return front, False
    pieces = []
    while piece := child.stdout.read(4096):
        pieces.append(piece)
        time.sleep(0.0005)
    return b"".join(pieces), True


def wrong(output, is_whole, tiles):
    """What is wrong with the output of a merge of these tiles, or None."""
    lines = output.splitlines(keepends=True)
    if is_whole and sorted(lines) != sorted([HEADER, *(line for tile in tiles for line in tile[1:])]):
        return "the stream has other lines than the tiles"
    for one in tiles:
        own = set(one[1:])
        mine = [line for line in lines[1:] if line in own]
        if mine != one[1 : 1 + len(mine)]:
            return "a tile's features are not in their order"
    return None


def merge(program, rng):
    """What is wrong with one merge, or None."""
    with tempfile.TemporaryDirectory(prefix="citymerge-stress-") as folder:
        tiles = [tile(folder, number, rng) for number in range(rng.choice([1, 2, 3, 8, 16]))]
        child = subprocess.Popen(
            [program, "merge", *(path for path, _ in tiles)], stdout=subprocess.PIPE, stderr=subprocess.DEVNULL
        )
        watch = threading.Timer(LONG, child.kill)
        watch.start()
        output, is_whole = taken(child, rng)
        status = child.wait()
        watch.cancel()
        child.stdout.close()
        if status < 0:
            return "ended by signal %d after %d s" % (-status, LONG)
        if is_whole and status != 0:
            return "status %d" % status
        return wrong(output, is_whole, [lines for _, lines in tiles])


def main():
    program = os.path.abspath(sys.argv[1])
    count = int(sys.argv[2]) if len(sys.argv) > 2 else 2000
    found = 0
    for cores in (1, 2, 4):
        os.sched_setaffinity(0, set(range(min(cores, os.cpu_count()))))
        began = time.monotonic()
        for seed in range(count):
            what = merge(program, random.Random(seed * 10 + cores))
            if what:
                found += 1
                print("%d cores, seed %d: %s" % (cores, seed, what), flush=True)
        print("%d merges on %d cores in %.0f s, %d wrong" % (count, cores, time.monotonic() - began, found), flush=True)
    return 1 if found else 0


if __name__ == "__main__":
    sys.exit(main())
