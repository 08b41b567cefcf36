"""Streams in the shape of 3D building tiles.

Everything is drawn from a seed, so that two runs with one seed give the same bytes.
"""

import json
import random

HEADER = (
    b'{"type":"CityJSON","version":"2.0","transform":{"scale":[0.001,0.001,0.001],'
    b'"translate":[84710.100,446846.000,-5.300]},"metadata":{"identifier":"8-288-556",'
    b'"referenceDate":"2024-02-28","referenceSystem":"https://www.opengis.net/def/crs/EPSG/0/7415",'
    b'"title":"Buildings of a tile"},"CityObjects":{},"vertices":[]}\n'
)

STATUSES = ("in use", "under construction", "in use, not measured", "demolition permit granted")
ROOFS = ("slanted", "horizontal", "multiple horizontal", "no points")


def stream(size, feature):
    """The header, and the features of 0, 1, 2 and so on up to about `size` bytes."""
    yield HEADER
    done = len(HEADER)
    number = 0
    while done < size:
        line = feature(number)
        number += 1
        done += len(line)
        yield line


def attributes(rng):
    """Some thirty attributes: texts, truths, nulls, whole numbers and numbers with fractions."""
    number = rng.random
    parts = [
        '"status":"%s"' % rng.choice(STATUSES),
        '"year_of_construction":%d' % rng.randint(1620, 2024),
        '"document_date":"%d-%02d-%02d"' % (rng.randint(2010, 2024), rng.randint(1, 12), rng.randint(1, 28)),
        '"document_number":"INT-%06d-%03d"' % (rng.randrange(10**6), rng.randrange(1000)),
        '"registered_at":"%d-%02d-%02dT00:00:00Z"' % (rng.randint(2010, 2024), rng.randint(1, 12), rng.randint(1, 28)),
        '"ended_at":null',
        '"roof_type":"%s"' % rng.choice(ROOFS),
        '"is_glass_house":%s' % ("true" if number() < 0.02 else "false"),
        '"has_basement":%s' % ("true" if number() < 0.3 else "false"),
        '"reconstruction_skipped":false',
        '"floors":%d' % rng.randint(1, 12),
        '"validity_lod_1_2":"[]"',
        '"validity_lod_2_2":"[%s]"' % rng.choice(("", "", "", "203", "306")),
    ]
    for name in ("ground", "roof_min", "roof_max", "roof_50", "roof_70", "ridge"):
        parts.append('"height_%s":%.3f' % (name, number() * 40 - 4))
    for name in ("lod_1_2", "lod_1_3", "lod_2_2"):
        parts.append('"volume_%s":%.13f' % (name, number() * 3000))
        parts.append('"error_%s":%.15f' % (name, number()))
    for name in ("ground", "flat_roof", "sloping_roof", "outer_wall", "shared_wall"):
        parts.append('"area_%s":%.2f' % (name, number() * 500))
    return "{" + ",".join(parts) + "}"


def ring(rng, vertices, length):
    return "[[" + ",".join([str(rng.randrange(vertices)) for _ in range(length)]) + "]]"


def solid(rng, lod, vertices, faces):
    rings = ",".join([ring(rng, vertices, rng.choice((3, 4, 4, 4, 5, 6))) for _ in range(faces)])
    values = ",".join([str(rng.randrange(4)) for _ in range(faces)])
    return (
        '{"type":"Solid","lod":"%s","boundaries":[[%s]],"semantics":{"surfaces":[{"type":"GroundSurface"},'
        '{"type":"RoofSurface"},{"on_footprint_edge":true,"type":"WallSurface"},'
        '{"on_footprint_edge":false,"type":"WallSurface"}],"values":[[%s]]}}' % (lod, rings, values)
    )


def feature(rng, number):
    """One building with one part, of 2 to 30 kB, in compact spelling."""
    name = "NL.IMBAG.Pand.0503100%09d" % number
    count = int(20 + 660 * rng.random() ** 2)
    faces = count // 2 + 3
    footprint = ring(rng, count, min(count, rng.randint(4, 24)))
    origin = (rng.randrange(2_000_000), rng.randrange(2_000_000))
    vertices = ",".join(
        [
            "[%d,%d,%d]" % (origin[0] + rng.randrange(40_000), origin[1] + rng.randrange(40_000), rng.randrange(20_000))
            for _ in range(count)
        ]
    )
    text = (
        '{"type":"CityJSONFeature","id":"%s","CityObjects":{"%s":{"type":"Building","attributes":%s,'
        '"children":["%s-0"],"geometry":[{"type":"MultiSurface","lod":"0","boundaries":[%s]}]},'
        '"%s-0":{"type":"BuildingPart","parents":["%s"],"geometry":[%s,%s]}},"vertices":[%s]}\n'
        % (
            name, name, attributes(rng), name, footprint, name, name,
            solid(rng, "1.2", count, faces // 2), solid(rng, "2.2", count, faces), vertices,
        )
    )
    return text.encode("ascii")


def buildings(seed, size):
    """The lines of a stream of about `size` bytes, each in compact spelling."""
    rng = random.Random(seed)
    return stream(size, lambda number: feature(rng, number))


def spaced(seed, size):
    """The same with a blank after each comma and colon."""
    for line in buildings(seed, size * 6 / 7):
        # No string has an escape, so that every second piece is a string's.
        pieces = line.split(b'"')
        pieces[::2] = [piece.replace(b",", b", ").replace(b":", b": ") for piece in pieces[::2]]
        yield b'"'.join(pieces)


FRONTS = (
    "b", "height_", "area_of_", "energy_performance_", "energy_performance_of_the_", "registered_by_the_office_of_",
    "straße_", "größe_der_fläche_", "année_", "建物高さ_", "構造_",
)
MIDDLES = ("", "", "roof_", "wall_", "north_facade_", "ground_", "installation_", "lod_2_2_")
WORDS = (
    "in use", "", "2024-02-28", "unknown", "measured from the air", "NL.IMBAG.Pand.0503100000012345",
    "Straße der Einheit 17", "木造二階建て", "Łódź", "concrete, brick and timber; insulated in 1998",
)
NOTES = WORDS + (
    "first line\nsecond line", 'the so-called "annex"', "C:\\tiles\\west", "m3/h", "one\ttwo\tthree", "🏠 home",
    "café and crêperie, ground floor", "https://example.org/buildings/0503100000012345",
)


def attribute_names(rng, count):
    """Different names of varied length, many with a shared front, in no order."""
    names = ["%s%s%03d" % (rng.choice(FRONTS), rng.choice(MIDDLES), at) for at in range(count)]
    rng.shuffle(names)
    return names


def attribute_value(rng, texts, spell):
    kind = rng.random()
    if kind < 0.35:
        return spell(rng.choice(texts))
    if kind < 0.55:
        return rng.choice(("true", "false", "false", "null"))
    if kind < 0.75:
        return str(rng.choice((rng.randrange(10), rng.randrange(3000), rng.randrange(-(10**9), 10**9))))
    return "%.*f" % (rng.choice((1, 2, 3, 6, 13)), rng.random() * 4000 - 100)


def small_building(rng, number, names, texts, spell):
    """A box of eight vertices with these attributes."""
    name = "DE.TILE.%08d" % number
    members = ",".join(["%s:%s" % (spell(each), attribute_value(rng, texts, spell)) for each in names])
    x, y, z = rng.randrange(2_000_000), rng.randrange(2_000_000), rng.randrange(20_000)
    vertices = ["[%d,%d,%d]" % (x + 9000 * (at & 1), y + 7000 * (at >> 1 & 1), z + 5000 * (at >> 2)) for at in range(8)]
    text = (
        '{"type":"CityJSONFeature","id":"%s","CityObjects":{"%s":{"type":"Building","attributes":{%s},'
        '"geometry":[{"type":"MultiSurface","lod":"1.2","boundaries":[[[0,2,3,1]],[[4,5,7,6]],[[0,1,5,4]],'
        '[[1,3,7,5]],[[3,2,6,7]],[[2,0,4,6]]]}]}},"vertices":[%s]}\n' % (name, name, members, ",".join(vertices))
    )
    return text.encode("utf-8")


def wide(seed, size):
    """Features with 300 attributes each, in compact spelling."""
    rng = random.Random(seed)
    names = attribute_names(rng, 300)
    return stream(size, lambda number: small_building(rng, number, names, WORDS, lambda text: '"%s"' % text))


TOPICS = (
    ("energy_consumption_", "_kwh_per_m2"), ("gas_consumption_", "_m3_per_year"), ("heat_demand_", "_gj_per_year"),
    ("co2_emission_of_heating_", "_kg_per_m2"), ("assessed_value_", "_euro_per_m2"),
)


def yearly(seed, size):
    """Features with 100 attributes each whose names have more than sixteen bytes and differ between their ends."""
    rng = random.Random(seed)
    names = ["%s%d%s" % (front, year, back) for front, back in TOPICS for year in range(2005, 2025)]
    return stream(size, lambda number: small_building(rng, number, names, WORDS, lambda text: '"%s"' % text))


def escaped(seed, size):
    """Features with 60 attributes each, in whose names and texts all but ASCII is escaped, and so is the slash."""
    rng = random.Random(seed)
    names = attribute_names(rng, 60)
    spell = lambda text: json.dumps(text).replace("/", "\\/")
    return stream(size, lambda number: small_building(rng, number, names, NOTES, spell))


LETTERS = ("caf\u00e9", "stra\u00dfe", "\u5efa\u7269", "\U0001f3e0", "a/b", 'say "so"', "back\\slash", "tab\there", "\x1f\x7f")
WHITE = ("", "", " ", "  ", "\t", " \t ", "\r")
NUMBERS = ("0", "-0", "1.50e+3", "12.30", "1E-24", "0e99999999999999999999", "-7", "3.14159265358979323846264338327950288")


def spelled(rng, text):
    """A string of this text, with some characters as escapes, of which there are several for one character."""
    parts = []
    for c in text:
        code = ord(c)
        short = {8: "b", 9: "t", 10: "n", 12: "f", 13: "r", 34: '"', 47: "/", 92: "\\"}.get(code)
        if code < 32 or c in '"\\' or rng.random() < 0.3:
            if short is not None and rng.random() < 0.7:
                parts.append("\\" + short)
            elif code > 0xFFFF:
                pair = (0xD800 + ((code - 0x10000) >> 10), 0xDC00 + ((code - 0x10000) & 0x3FF))
                parts.append("".join([rng.choice(("\\u%04x", "\\u%04X")) % unit for unit in pair]))
            else:
                parts.append(rng.choice(("\\u%04x", "\\u%04X")) % code)
        else:
            parts.append(c)
    return '"' + "".join(parts) + '"'


def loose_value(rng, levels):
    """A value, and white space wherever some may stand."""
    white = lambda: rng.choice(WHITE)
    kind = rng.random()
    if levels == 0 or kind < 0.5:
        return rng.choice(
            (
                lambda: rng.choice(("null", "true", "false")),
                lambda: rng.choice(NUMBERS),
                lambda: str(rng.randrange(-(10**9), 10**9)),
                lambda: spelled(rng, rng.choice(LETTERS)),
            )
        )()
    count = rng.randrange(6)
    if kind < 0.75:
        items = [white() + loose_value(rng, levels - 1) + white() for _ in range(count)]
        return "[" + (",".join(items) if items else white()) + "]"
    members = [
        white() + spelled(rng, "%s %d" % (rng.choice(LETTERS), at)) + white() + ":" + white()
        + loose_value(rng, levels - 1) + white()
        for at in range(count)
    ]
    return "{" + (",".join(members) if members else white()) + "}"


def loose(seed, size):
    """Features with one member of any kind, much white space, escapes and blank lines."""
    rng = random.Random(seed)
    white = lambda: rng.choice(WHITE)
    yield b" \t\r\n"
    yield HEADER.replace(b":", b" :\t").replace(b"https :\t", b"https:").replace(b",", b" , ")
    done = 0
    while done < size:
        members = [
            '"type"%s:%s"CityJSONFeature"' % (white(), white()),
            '"id":%s' % spelled(rng, "caf\u00e9"),
            '"CityObjects":{%s:{"type":"Building"}}' % spelled(rng, "caf\u00e9"),
            '"vertices":[%s[1%s,-2,3]]' % (white(), white()),
            '"of_any_kind"%s:%s' % (white(), loose_value(rng, 6)),
        ]
        rng.shuffle(members)
        text = white() + "{" + white() + (white() + "," + white()).join(members) + "}" + white()
        line = text.encode("utf-8") + rng.choice((b"\n", b"\n", b"\r\n", b"\n \n"))
        done += len(line)
        yield line


TYPES = ("Building", "Building", "Building", "Bridge", "Road", "SolitaryVegetationObject")


def tiny_feature(rng, number):
    """One city object with two vertices, in some 200 bytes."""
    name = "T%07d" % number
    x, y, z = rng.randrange(2_000_000), rng.randrange(2_000_000), rng.randrange(20_000)
    text = (
        '{"type":"CityJSONFeature","id":"%s","CityObjects":{"%s":{"type":"%s","attributes":{"height":%.2f,"use":"%s"}}},'
        '"vertices":[[%d,%d,%d],[%d,%d,%d]]}\n'
        % (name, name, rng.choice(TYPES), rng.random() * 40, rng.choice(STATUSES), x, y, z, x + 4000, y + 3000, z + 2500)
    )
    return text.encode("ascii")


def tiny(seed, size):
    """Features of some 200 bytes, of several types, in compact spelling."""
    rng = random.Random(seed)
    return stream(size, lambda number: tiny_feature(rng, number))


def one_line(seed, size):
    """One building whose line has about `size` bytes, most of them of its vertices."""
    rng = random.Random(seed)
    yield HEADER
    yield b'{"type":"CityJSONFeature","id":"a","CityObjects":{"a":{"type":"Building"}},"vertices":[[0,0,0]'
    done = 0
    while done < size:
        some = ["[%d,%d,%d]" % (rng.randrange(2_000_000), rng.randrange(2_000_000), rng.randrange(20_000)) for _ in range(1000)]
        piece = ("," + ",".join(some)).encode("ascii")
        done += len(piece)
        yield piece
    yield b"]}\n"


def minus_zero(seed, size):
    """Building tiles, each with a vertex at -0, so that the vertices of each line are written anew."""
    for line in buildings(seed, size):
        yield line.replace(b'"vertices":[[', b'"vertices":[[-0,0,0],[')


# How far the origin of the grid of a tile elsewhere is away: a kilometre in x and y, a metre in z.
STEPS_AWAY = (1_000_000, -1_000_000, 1000)


def elsewhere(seed, size):
    """Building tiles on another grid."""
    for line in buildings(seed, size):
        yield line.replace(b"[84710.100,446846.000,-5.300]", b"[85710.100,445846.000,-4.300]")
