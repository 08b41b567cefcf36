#!/usr/bin/env python3
"""By how many steps the translations of tiles are off the grid of the first one, and tiles written anew on it.

Use: off_grid.py [--write=FOLDER] TILE TILE...

Told are, of each tile after the first and each axis, what is written, by how many steps it is off, and what would be on
the grid. With --write=FOLDER each tile goes into that folder under its name, the first one as it is. Where it is off by
less than a hundred-thousandth of a step, which is the noise of doubles, the text of that number is exchanged, and no other
byte of the file; this is told, and nothing else. A tile that is off by more, or has another scale, is named and not
written, nor is one whose name is there already, and the status is 1.
"""

import json
import os
import re
import shutil
import sys
from decimal import Decimal, getcontext

NOISE = Decimal("0.00001")
NUMBER = rb"-?[0-9][0-9.eE+-]*"
# the three numbers of a translation, in an object `transform` that holds no other object
TRANSLATE = re.compile(rb'"transform"\s*:\s*\{[^{}]*?"translate"\s*:\s*\[\s*(%s)\s*,\s*(%s)\s*,\s*(%s)\s*\]' % ((NUMBER,) * 3))


def value(line):
    return json.loads(line, parse_float=Decimal, parse_int=Decimal)


def lines(tile):
    """The blank lines before the header, and its line."""
    front = b""
    for line in tile:
        if line.strip(b" \t\r\n"):
            return front, line
        front += line
    sys.exit("%s: the stream has no header line" % tile.name)


def header(name):
    with open(name, "rb") as tile:
        return lines(tile)[1]


def transform(name):
    return value(header(name))["transform"]


def distances(name, grid):
    """Of each axis: what is written, by how many steps it is off, and what would be on the grid."""
    for axis, written, start, scale in zip("xyz", transform(name)["translate"], grid["translate"], grid["scale"]):
        nearest = start + round((written - start) / scale) * scale
        yield axis, written, (written - nearest) / scale, nearest


def snapped(name, grid):
    """The header's line with the texts that are meant, and what changes in it; None where it cannot be said."""
    line = changed = header(name)
    meant, told = value(line), []
    if meant["transform"]["scale"] != grid["scale"]:
        return None
    found = TRANSLATE.search(line)
    for place, (axis, _, steps, nearest) in reversed(list(enumerate(distances(name, grid), 1))):
        if abs(steps) >= NOISE or (steps and not found):
            return None
        if steps:
            text = format(nearest.normalize() if nearest % 1 else nearest.quantize(Decimal(1)) + 0, "f")
            told.append("%s %s %s becomes %s" % (name, axis, found.group(place).decode(), text))
            changed = changed[: found.start(place)] + text.encode() + changed[found.end(place) :]
            meant["transform"]["translate"][place - 1] = nearest
    # another object of that name may stand before the header's own
    return (changed, reversed(told)) if value(changed) == meant else None


def write(name, grid, folder):
    """Whether the tile was written into the folder."""
    path = os.path.join(folder, os.path.basename(name))
    if os.path.exists(path):
        print("%s: %s is there already: not written" % (name, path))
        return False
    made = snapped(name, grid)
    if made is None:
        print("%s: off the grid by more than noise, or its header is written in another way: not written" % name)
        return False
    changed, told = made
    with open(name, "rb") as tile, open(path + ".part", "wb") as new:
        new.write(lines(tile)[0] + changed)
        shutil.copyfileobj(tile, new)
    os.replace(path + ".part", path)
    for change in told:
        print(change)
    return True


def main():
    words = [word for word in sys.argv[1:] if not word.startswith("--write=")]
    folders = [word[len("--write=") :] for word in sys.argv[1:] if word.startswith("--write=")]
    if len(words) < 2 or any(word.startswith("-") for word in words) or len(folders) > 1:
        sys.exit(__doc__)
    getcontext().prec = 100
    grid = transform(words[0])
    if folders:
        os.makedirs(folders[0], exist_ok=True)
        sys.exit(0 if all([write(name, grid, folders[0]) for name in words]) else 1)
    for name in words[1:]:
        for axis, written, steps, nearest in distances(name, grid):
            print(name, axis, written, "%.1e" % steps, nearest)


main()
