"""Worst-case texts, each in the size that is asked for."""

import typing

from streams import HEADER


class Shape(typing.NamedTuple):
    name: str
    # its size in items
    most: int
    # the stream of so many items
    lines: typing.Callable
    # the fault that has to be told of its second line, if any
    fault: str = ""
    # the command that reads it
    command: str = "filter"


def members(count, name, value=str):
    """One feature whose attributes are one object of `count` members."""
    yield HEADER
    yield b'{"type":"CityJSONFeature","id":"a","CityObjects":{"a":{"type":"Building","attributes":{'
    for first in range(0, count, 1000):
        piece = ['"%s":%s' % (name(at), value(at)) for at in range(first, min(first + 1000, count))]
        yield (("," if first else "") + ",".join(piece)).encode("ascii")
    yield b'}}},"vertices":[]}\n'


def feature_with(name, pieces):
    """A feature with a member of that name whose value are these pieces."""
    yield HEADER
    yield b'{"type":"CityJSONFeature","id":"a"'
    for other, value in ((b"CityObjects", b"{}"), (b"vertices", b"[]")):
        if other != name:
            yield b',"' + other + b'":' + value
    yield b',"' + name + b'":'
    yield from pieces
    yield b"}\n"


def holding(text):
    """A feature that holds this text."""
    return feature_with(b"holds", (text,))


def joined(before, piece, count, after):
    """The piece many times over, with a comma between."""
    yield before
    block = b",".join([piece] * 1000)
    for at in range(count // 1000):
        yield (b"," if at else b"") + block
    yield after


def repeated(before, piece, count, after):
    return feature_with(b"holds", joined(before, piece, count, after))


def vertices(count, last=b"]"):
    """A feature of so many vertices."""
    return feature_with(b"vertices", joined(b"[", b"[1204,-3310,2100]", count, last))


def city_objects(count):
    """A feature of so many city objects, of which its identifier names the last."""
    pieces = [('"o%d":{"type":"BuildingPart"},' % at).encode("ascii") for at in range(count)]
    return feature_with(b"CityObjects", (b"{", *pieces, b'"a":{"type":"Building"}}'))


def within(levels, before, inner, after):
    """A text this many times within brackets or braces."""
    return before * levels + inner + after * levels


def mirrored(at):
    """Names of one length which begin and end alike and differ in the middle."""
    return "the_same_first_part_of_a_name_" + "%08d" % at + "_and_the_same_last_part_of_it"


def alike_at_the_ends(at):
    """Names of 24 letters, the first eight and the last eight the same."""
    return "building" + "%08d" % at + "_measure"


def alike_for_long(at):
    return "of_one_front_" * 80 + "%d" % at


def written_with_escapes(at):
    """Names with characters that are written as escapes, the first ones the same."""
    return "\\u00e9\\/\\u5EFA\\ud83c\\udfe0%d\\n" % at


def letters_apart(at):
    """Names of one length that are made of two letters alone."""
    return format(at, "020b").replace("0", "a").replace("1", "b")


# Parts of names that were found to have one hash, whichever of each two is taken, under the hash of fixed
# seed that the standard library's maps have. A reader that kept names in such a map would take time as the square.
FRONT = 'p9r7ko74a5c5ez96'
EITHER = (
    ('QpTfjM-:cKi]SXC>', 'Gkerh)(%uPXIQ<F!'),
    ('KQ ~MAqLpIt($(~B', 'U3/r;/Irn+{$RFF|'),
    ('8[iE)HIq.6>jk(}S', 'n&}Ea!{`xK*j#AOB'),
    ('(lFB-h>x=wIT,V_H', 'P/<V w9DE43@!IXt'),
    ('hAal1OntER6rt|m>', '{Lmb6XDgV_:|skG-'),
    (']@N n?I~&$g,klws', '<RD f#RTG6m,cplY'),
    ('{/fSu}t:D+o-u7ji', 'kR><Kn,;TV7BK$2h'),
    ('y3]&JZ`ZeMtc(CEE', '+$I/6cE?7Z`jTz` '),
    ('5]:vBbqf|>A%!9q0', '2_)6V<Zg{<Re5gZ1'),
    ('B&AtbRW cU{,5Hh:', 'y<UtcrZDXOo,4he^'),
    ('F$C)~SIHI<oe=/@K', 'HZN&:>iCGBbjyB`@'),
    ('v4V[Ht0/VhD`8>h%', 's/LAX,9ySs^z(fas'),
    ('LoM@*I$NsM_=2YlW', 'Sc(JVv2ilA:7Nfzp'),
    ('EIRu|OBThk&D~!HM', 'Bq,d,Jb%oSXU.$h<'),
    ('#c[p$M?rm$5/0B^^', "8`K)At zv'%vU{AV"),
    ('2dv:EbGQK|1@jMlr', 'F,}4OhQJ?4:N`Gzi'),
)


def colliding(at):
    return FRONT + "".join([two[(at >> place) & 1] for place, two in enumerate(EITHER)])


# Shorter names of one hash. Under that hash the first 16 letters of a name of 48 leave a number that is itself written
# with these eight letters, and a block that begins with it is multiplied by 0, whatever its other eight letters are.
ZERO_AFTER = 'of_one_hash_296eG$EoGp5v'


def of_one_hash(at):
    return ZERO_AFTER + "%08d" % at + "_is_of_one_hash_"


# Parts of names that have one print, as they are told apart here, whichever of each two is taken.
EITHER_OF_ONE_PRINT = (
    ('8dGhjk1RDeOYch b', 'XAuVnL5NW10RF1IZ'),
    ('FnuzBP8xAx0QU4u8', 'CfPfwwQuhpytK0wq'),
    ('jSNSDLfTBkNqA0Hk', 'UzEy7hB34RVsdxRH'),
    ('ah5pbu4 3Tn9wGc2', 'QBILZ1xB8BqjjCkR'),
    ('e9da1J2HfGtE63ct', 'XhOikaejWBN2OYyN'),
    ('pGtVAoVZ_opV4op3', '5gkwTaFNs4WE HmE'),
    ('Kfdbb kX 09HWs24', 'IY4pclrdk5Ts1kr_'),
    ('_cdL6Kx0ABJ 8wKl', 'JcSefRYxwdSPxwEU'),
    ('_K6fperfVgMM8 qx', 'zlSqSftItVJbAKaE'),
    ('VjPgQAdXipkA_JRa', 'f814u6bJw2l6jbtV'),
    ('jL9PtAAMAGYjV8nV', 'MI47ms1_066eFW9c'),
    ('xer5cRSTzbV_oIET', 'BRd3b6Wx6T68oq80'),
    ('LNjb5k3LCL4bbzUX', 'tah056Q3ZEe5i z7'),
    ('W3usLXak7Js91vWS', '5xW4A6IZc3wSU598'),
    ('N0GfVvsdQbLxxeJy', 'izyLl5XX5Vr_k8ne'),
    ('b2WY9C8wFVo8Rbcw', 'UD6FDRqg ysSEu8W'),
)


def of_one_print(at):
    return "".join([two[(at >> place) & 1] for place, two in enumerate(EITHER_OF_ONE_PRINT)]) + "oneprint"


def object_of(count):
    """An object of so many members."""
    return ("{" + ",".join(['"name_%d":%d' % (at, at) for at in range(count)]) + "}").encode("ascii")


def whole_numbers_within(count):
    """Arrays within arrays, each with whole numbers in front, and a fraction in the innermost."""
    return holding(within(120, b"[" + b"7," * (count // 120), b"[0.5]", b"]"))


REPEATED = "a name is repeated in an object"
NO_JSON = "the line is not a JSON text"
NOT_WHOLE = "a vertex number is not written as a whole number"

# Each hostile shape. A line that is refused may not take longer than about its size either.
HOSTILE = (
    Shape("members of one object", 200_000, lambda n: members(n, lambda at: "n%d" % at)),
    Shape("members in falling order", 200_000, lambda n: members(n, lambda at: "n%08d" % (n - at))),
    Shape("members whose names begin and end alike", 200_000, lambda n: members(n, mirrored)),
    Shape("members alike at the ends, of one length", 32_000, lambda n: members(n, alike_at_the_ends)),
    Shape("members whose names begin alike for long", 20_000, lambda n: members(n, alike_for_long)),
    Shape("members whose names are of two letters", 200_000, lambda n: members(n, letters_apart)),
    Shape("members whose names have one hash", 64_000, lambda n: members(n, colliding)),
    Shape("members whose names have one print", 64_000, lambda n: members(n, of_one_print)),
    Shape("members whose names have escapes", 100_000, lambda n: members(n, written_with_escapes)),
    Shape("members, the last name as the first", 200_000, lambda n: members(n, lambda at: "n%d" % (at % (n - 1))), REPEATED),
    Shape("members, each with an object", 200_000, lambda n: members(n, lambda at: "n%d" % at, lambda at: '{"a":1}')),
    Shape("objects of one member", 400_000, lambda n: repeated(b"[", b'{"a":1}', n, b"]")),
    Shape("objects of 17 members", 20_000, lambda n: repeated(b"[", object_of(17), n, b"]")),
    Shape("objects of 257 members", 2_000, lambda n: repeated(b"[", object_of(257), n, b"]")),
    Shape("objects 126 deep", 4_000, lambda n: repeated(b"[", within(126, b'{"a":1,"b":', b"2", b',"c":3}'), n, b"]")),
    Shape("brackets 120 deep", 20_000, lambda n: repeated(b"[", within(120, b"[", b"", b"]"), n, b"]")),
    Shape("brackets in strings", 200_000, lambda n: repeated(b"[", b'"[[[[{{{{]]]]}}}}"', n, b"]")),
    Shape("strings of backslashes", 100_000, lambda n: repeated(b"[", b'"' + b"\\\\" * 20 + b'"', n, b"]")),
    Shape("strings whose last letter is escaped", 20_000, lambda n: repeated(b"[", b'"' + b"a" * 500 + b'\\u0061"', n, b"]")),
    Shape("surrogate pairs", 200_000, lambda n: repeated(b"[", b'"\\ud83d\\ude00\\u000a"', n, b"]")),
    Shape("one string of escapes", 2_000_000, lambda n: holding(b'"' + b"\\u00e9" * n + b'"')),
    Shape("digits of one number", 10_000_000, lambda n: holding(b"7" * n)),
    Shape("whole numbers, the last a fraction", 2_000_000, lambda n: repeated(b"[", b"12", n, b",0.5]")),
    Shape("whole numbers, the last with a leading zero", 2_000_000, lambda n: repeated(b"[", b"12", n, b",01]"), NO_JSON),
    Shape("arrays of whole numbers, then a bad one", 400_000, lambda n: repeated(b"[", b"[1,2,3]", n, b",[01]]"), NO_JSON),
    Shape("arrays of whole numbers 120 deep", 2_000_000, whole_numbers_within),
    Shape("blanks between two items", 10_000_000, lambda n: holding(b"[1," + b" " * n + b"2]")),
    Shape("white space around each item", 1_000_000, lambda n: repeated(b"[", b" \t1\r ", n, b"]")),
    Shape("vertices of one feature", 1_000_000, vertices),
    Shape("vertices, the last with a fraction", 1_000_000, lambda n: vertices(n, b",[0.5,0,0]]"), NOT_WHOLE),
    Shape("city objects of one feature", 200_000, city_objects),
    Shape("blank lines", 5_000_000, lambda n: iter((HEADER, b" \n" * n))),
)

# Names of extensions that are hard on a map of them.
EXTENSION_NAMES = (
    ("of one hash", of_one_hash),
    ("of one hash, 272 letters", lambda at: colliding(at % (1 << len(EITHER)))),
    ("of one length", lambda at: "%016d" % at),
    ("of one length, falling", lambda at: "%016d" % (9_999_999_999_999_999 - at)),
    ("of two letters", letters_apart),
    ("of one front", lambda at: "of_one_front_" * 3 + "%08d" % at),
    ("of one long front", alike_for_long),
)
