"""Streams in the shape of a town model: houses with parts and installations, and entries of a register.

Beside the building tiles of streams.py they have shorter rings, smaller coordinates with some below 0, attributes of
all kinds in many languages, and deeper semantics. Everything is drawn from a seed.
"""

import random

from streams import WORDS, stream

STREETS = (
    "Rue de la Forêt", "Große Bergstraße", "Calle de Alcalá", "北海道札幌市中央区", "Łąkowa", "High Street", "Søndergade",
    "Ὁδὸς Σταδίου", "улица Пушкина", "Church Lane",
)
USES = ("residential", "Wohnen und Gewerbe", "bureaux", "住宅", "storage; loading bay in the yard", "école maternelle")
SURFACES = ("GroundSurface", "RoofSurface", "WallSurface", "OuterCeilingSurface")


def address(rng):
    return "%s %d, %05d" % (rng.choice(STREETS), rng.randint(1, 240), rng.randrange(10**5))


def mixed_value(rng):
    """A text, a truth, a null, a number, or a measure as an object."""
    kind = rng.random()
    if kind < 0.3:
        return '"%s"' % rng.choice(WORDS + USES)
    if kind < 0.4:
        return '"%s"' % address(rng)
    if kind < 0.55:
        return rng.choice(("true", "false", "null"))
    if kind < 0.7:
        return str(rng.choice((rng.randrange(12), rng.randrange(1500, 2025), -rng.randrange(100))))
    if kind < 0.9:
        return "%.*f" % (rng.choice((1, 2, 2, 4, 9)), rng.random() * 900 - 40)
    return '{"value":%.2f,"uom":"m2"}' % (rng.random() * 400)


def mixed_attributes(rng, names):
    return "{%s}" % ",".join(['"%s":%s' % (name, mixed_value(rng)) for name in names])


def shell(rng, first, corners):
    """The surfaces of a prism over so many corners, whose vertices begin at `first`."""
    walls = [
        "[[%d,%d,%d,%d]]" % (first + at, first + (at + 1) % corners, first + (at + 1) % corners + corners, first + at + corners)
        for at in range(corners)
    ]
    ground = "[[%s]]" % ",".join([str(first + at) for at in reversed(range(corners))])
    roof = "[[%s]]" % ",".join([str(first + corners + at) for at in range(corners)])
    return [ground, roof, *walls]


def solid(rng, first, corners):
    surfaces = ",".join(['{"type":"%s","azimuth":%.1f}' % (kind, rng.random() * 360) for kind in SURFACES])
    values = ",".join(["0", "1", *(["2"] * corners)])
    return '{"type":"Solid","lod":"2","boundaries":[[%s]],"semantics":{"surfaces":[%s],"values":[[%s]]}}' % (
        ",".join(shell(rng, first, corners)), surfaces, values,
    )


def prism(rng, corners):
    x, y, z = rng.randrange(-200_000, 800_000), rng.randrange(-200_000, 800_000), rng.randrange(-3000, 90_000)
    floor = [(x + rng.randrange(12_000), y + rng.randrange(12_000)) for _ in range(corners)]
    return ["[%d,%d,%d]" % (*each, top) for top in (z, z + 2800 * rng.randint(1, 6)) for each in floor]


NAMES = (
    "function", "usage", "storeysAboveGround", "measuredHeight", "roofType", "Straße", "année_de_construction", "高さ",
    "heated_area", "owner", "protected", "last_survey", "énergie",
)


def house(rng, number):
    """A building with some parts and installations, each of one solid."""
    name = "UUID_%08x-%04x" % (rng.randrange(2**32), number % 65536)
    children = ["%s_%d" % (name, at) for at in range(rng.randint(1, 5))]
    objects, vertices = [], []
    for child in children:
        corners = rng.randint(4, 14)
        objects.append(
            '"%s":{"type":"%s","parents":["%s"],"attributes":%s,"geometry":[%s]}'
            % (
                child, rng.choice(("BuildingPart", "BuildingPart", "BuildingInstallation")), name,
                mixed_attributes(rng, NAMES[: rng.randint(2, len(NAMES))]), solid(rng, len(vertices), corners),
            )
        )
        vertices += prism(rng, corners)
    root = '"%s":{"type":"Building","attributes":%s,"children":[%s]}' % (
        name, mixed_attributes(rng, NAMES), ",".join(['"%s"' % child for child in children]),
    )
    text = '{"type":"CityJSONFeature","id":"%s","CityObjects":{%s},"vertices":[%s]}\n' % (
        name, ",".join([root, *objects]), ",".join(vertices),
    )
    return text.encode("utf-8")


def houses(seed, size):
    """Houses of 1 to 8 kB, in compact spelling."""
    rng = random.Random(seed)
    return stream(size, lambda number: house(rng, number))


def entry(rng, number):
    """A city object with the attributes of a register, and one vertex."""
    name = "R%07d" % number
    attributes = mixed_attributes(rng, ["%s_%02d" % (rng.choice(NAMES), at) for at in range(60)])
    text = '{"type":"CityJSONFeature","id":"%s","CityObjects":{"%s":{"type":"Building","attributes":%s}},"vertices":[[%d,%d,%d]]}\n' % (
        name, name, attributes, rng.randrange(-(10**6), 10**6), rng.randrange(10**6), rng.randrange(9000),
    )
    return text.encode("utf-8")


def register(seed, size):
    """Features of 60 attributes of all kinds, most of them short, in compact spelling."""
    rng = random.Random(seed)
    return stream(size, lambda number: entry(rng, number))
