"""A selection of its own, to compare the program's output with: it shares nothing with the program.

It takes correct streams only.
"""

import json


def type_of(feature):
    """The type of the city object that the feature's `id` names, or None."""
    named = feature["CityObjects"].get(feature["id"], {})
    return named.get("type")


def meets(feature, box):
    """Whether the extent of the vertices in x and y has a point of the box, if only at its edge."""
    xs, ys = [[vertex[axis] for vertex in feature["vertices"]] for axis in (0, 1)]
    return bool(xs) and min(xs) <= box[2] and max(xs) >= box[0] and min(ys) <= box[3] and max(ys) >= box[1]


def is_chosen(feature, options):
    given = dict(option.split("=") for option in options if "=" in option)
    matches = True
    if "--cotype" in given:
        matches = type_of(feature) in given["--cotype"].split(",")
    if "--bbox" in given:
        matches = matches and meets(feature, [int(steps) for steps in given["--bbox"].split(",")])
    return matches != ("--exclude" in options)


def choose(stream, options):
    """The header's line and those of the chosen features."""
    lines = [line for line in stream.split(b"\n") if line.strip(b" \t\r")]
    chosen = [line for line in lines[1:] if is_chosen(json.loads(line), options)]
    return b"".join([line + b"\n" for line in lines[:1] + chosen])
