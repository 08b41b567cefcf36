"""The streams whose speed and instructions are measured, and what is chosen of them."""

from streams import buildings, escaped, minus_zero, one_line, spaced, tiny, wide, yearly
from town import houses, register

BUILDINGS, TINY, HOUSES = "building tiles", "tiny features, 200 bytes a line", "town houses, mixed attributes"
WIDE, REGISTER = "300 attributes", "60 mixed attributes"
YEARLY = "100 attributes, a year in each name"
SPACED, ESCAPED = "a blank after each comma and colon", "names and texts with escapes"
MINUS_ZERO, ONE_LINE = "building tiles, a -0 in each", "one long line"
MEASURED = {
    BUILDINGS: buildings,
    HOUSES: houses,
    TINY: tiny,
    WIDE: wide,
    REGISTER: register,
    YEARLY: yearly,
    SPACED: spaced,
    ESCAPED: escaped,
    MINUS_ZERO: minus_zero,
    ONE_LINE: one_line,
}
# Building tiles whose vertices a merge moves.
MOVED = "building tiles, each vertex moved"
# Options of `filter`; the box holds about a quarter of the features of buildings and of tiny ones, and some of the
# houses; the types are those of all buildings and houses, and of two thirds of the tiny features.
BY_TYPE, BY_BOX = ("--cotype=Building",), ("--bbox=0,0,1000000,1000000",)
BY_TYPES = ("--cotype=Bridge,Building",)
# The streams of which a part is chosen, too.
CHOSEN = (BUILDINGS, HOUSES, TINY)
