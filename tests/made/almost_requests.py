"""Requests for the kits that a bin almost fills: every limit, two outputs, and ones by chance.

Argument A is d, the most that a kit may lack; the tags go to P and the shortfalls to Q.
"""

from itertools import product

from run.frame import ROOM
from second import calls
from second.kits import MOST_QUANTITY, MOST_UNITS, lines_of, lines_of_words, units, words_of
from second.lent import Request
from second.nodes import MOST_NODES
from second.refusals import NO_ROOM
from second.sheet import BYTE_PLACES

from .index_requests import BEFORE, LONGEST_LIST, SECOND_BEFORE, pairs_of_tables, some_list
from .short_cases import ALMOST_CASES
from .tables import LARGE_KINDS, Stock, large_table, parts_register, some_tables, table

# Values of d around its limits, and those that a byte or a sign would fold onto good ones.
GOOD_D = [0, 1, 2, 63, 64]
BAD_D = [65, 66, 127, 128, 255, 256, 257, 320, 32767, 32768, 65472, 65535]

# Six kits and an empty one; beside two of part 1 and five of part 3 the six lack 0, 0, 2, 1, 0 and
# 0 units.
SIX_KITS = [((), 5), ((1,), 65535), ((1, 1), 9), ((1, 1, 1, 2), 1), ((2, 3), 300), ((3,), 7),
            ((3, 3, 3), 2)]
BIN = [1, 2, 3, 5]

# Lists that are at fault, by 4, 5 and 6.
FAULTY_LISTS = [[1], [0, 1], [2, 1, 1, 1], [4, 1], [1, 0], [1, 16]]

LONGEST_ROW = units(lines_of_words(LONGEST_LIST))


def asking(d, listed, rooms, note, parts=3, words=None):
    """A request on these kits, or the six, with outputs of so many places."""
    first, second = rooms
    return Request("a", d, R=parts_register(parts), N=table(12, *SIX_KITS) if words is None
                   else words, L=listed, P=BEFORE[:first], Q=SECOND_BEFORE[:second], note=note)


def limits():
    """Every limit of d, of the two outputs and of what a kit may lack."""
    yield from worked_cases()
    yield from values_of_d()
    yield from longest_kit()
    yield from outputs()
    yield from empty_outputs()
    yield from quantities()
    yield from in_order()


def worked_cases():
    """The cases worked out by hand; tags fall while the rows rise."""
    for held, row, d, _ in ALMOST_CASES:
        words = table(12, *((kit, 30 - at) for at, kit in enumerate(held)))
        yield asking(d, words_of(lines_of(row)), (4, 5),
                     "%s short by at most %d of %s" % (held, d, row), words=words)


def values_of_d():
    """Values of d on six kits, and 14 before an output that is too short."""
    for d in GOOD_D + BAD_D:
        for rooms in ((6, 6), (8, 7), (0, 0), (6, 0), (0, 6)):
            yield asking(d, BIN, rooms, "d %d" % d)
        yield asking(d, [], (8, 8), "d %d" % d)


def longest_kit():
    """A kit of 64 units, and one less, beside bins of nothing and of one unit."""
    words = table(66, (LONGEST_ROW, 7), (LONGEST_ROW[:-1], 8))
    for d in (0, 62, 63, 64, 65):
        for listed in ([], [1, 1], [5, 3], LONGEST_LIST):
            yield asking(d, listed, (3, 3), "64 units, d %d" % d, parts=5, words=words)


def room_text(room, needed):
    """How an output stands to the places that an answer needs."""
    if room >= needed:
        return "exactly full" if room == needed else "longer"
    return "one short" if room == needed - 1 else "shorter"


def outputs():
    """Both outputs shorter, one short, exactly full and longer, each beside each."""
    for d, listed, needed in ((0, [1, 1], 1), (1, [], 2), (0, BIN, 4), (1, BIN, 5), (64, [], 6)):
        rooms = sorted({0, max(0, needed - 2), needed - 1, needed, needed + 1, needed + 5})
        for first, second in product(rooms, rooms):
            yield asking(d, listed, (first, second), "tags' output %s, shortfalls' output %s" % (
                room_text(first, needed), room_text(second, needed)))


def empty_outputs():
    """No kit is held, none lacks so little, or an empty kit alone: into empty outputs."""
    empty, one, nothing = table(2), table(2, ((1,), 4)), table(2, ((), 4))
    for rooms in ((0, 0), (0, 3), (3, 0), (3, 3)):
        into = "into %d and %d places" % rooms
        for d, listed in ((0, []), (0, [2, 1]), (64, [])):
            yield asking(d, listed, rooms, "no kit " + into, words=empty)
            yield asking(d, listed, rooms, "the empty kit " + into, words=nothing)
        for d in (0, 1):
            yield asking(d, [2, 15], rooms, "one kit, d %d, %s" % (d, into), words=one)


def quantities():
    """Quantities around what long kits need, where another part has a surplus."""
    held = [((1,) * 15 + (2,) * 15, 1), ((1,) * 14, 2), ((2,) * 15, 3), ((1, 2), 4)]
    words = table(50, *held)
    bins = ([], [1, 14], [1, 15], [2, 15], [1, 1, 2, 1], [1, 13, 2, 14, 3, 15], [1, 15, 2, 12])
    for d in (0, 1, 2, 3, 13, 14, 15, 16, 29, 30):
        for listed in bins:
            yield asking(d, listed, (5, 6), "long kits, bin %s" % listed, words=words)


def in_order():
    """1 and 2, then a list at fault, then 14, then 12."""
    for d in (65, 65535):
        for register, words, note in pairs_of_tables():
            for listed in ([], [1, 1], [1], [3, 1]):
                yield Request("a", d, R=register, N=words, L=listed, P=BEFORE[:1],
                              note=note + ", d above 64")
    for listed in FAULTY_LISTS:
        for d in (0, 64, 65, 65535):
            for rooms in ((0, 0), (6, 6)):
                yield asking(d, listed, rooms, "list %s and any d" % listed)


def sweeps():
    """Every d, every quantity, and every small bin."""
    yield from every_d()
    yield from every_quantity()
    yield from every_small_bin()


def every_d():
    """Each d up to 70 where the kits of a path lack from one unit to 64, below an empty kit."""
    words = table(70, *((LONGEST_ROW[:length], 100 + length) for length in range(MOST_UNITS + 1)))
    five = parts_register(5)
    for d in range(71):
        for listed in ([], [1, 7, 5, 1]):
            for first, second in ((65, 65), (d, max(0, d - 1)), (max(0, d - 1), d)):
                yield Request("a", d, R=five, N=words, L=listed, P=[9] * first, Q=[8] * second,
                              note="a kit for each beginning, d %d" % d)


def every_quantity():
    """Kits of each quantity of a part beside each quantity of the bin, for each d."""
    amounts = range(MOST_QUANTITY + 1)
    words = table(len(amounts), *(((1,) * needed, 50 - needed) for needed in amounts))
    for d, had in product(amounts, amounts):
        yield Request("a", d, R=parts_register(2), N=words, L=([1, had] if had else []) + [2, 15],
                      P=[9] * len(amounts), Q=[8] * len(amounts),
                      note="d %d, %d in the bin" % (d, had))


def every_small_bin():
    """All kits of up to three units of three parts beside all bins of up to three of each."""
    places = range(1, 4)
    rows = sorted({tuple(sorted(row))
                   for count in range(4) for row in product(places, repeat=count)})
    words = table(len(rows), *((row, 200 - at) for at, row in enumerate(rows)))
    for amounts in product(range(4), repeat=3):
        listed = words_of(line for line in zip(places, amounts) if line[1] > 0)
        for d in range(4):
            yield Request("a", d, R=parts_register(3), N=words, L=listed, P=[9] * 21, Q=[8] * 21,
                          note="all small kits, d %d, bin %s" % (d, listed))


def large():
    """Tables of 4,096 nodes, each of them a kit or on long paths, with room for all or less."""
    full = parts_register(BYTE_PLACES, BYTE_PLACES)
    every = large_table("every node a kit")
    # All nodes but the root, whose kit is the empty one.
    all_listed = MOST_NODES - 1
    for first, second in ((all_listed, all_listed), (all_listed - 1, all_listed),
                          (all_listed, all_listed - 1), (all_listed - 1, all_listed - 1),
                          (ROOM["P"], all_listed), (all_listed, ROOM["Q"]), (0, 0),
                          (ROOM["P"], ROOM["Q"])):
        for d, listed in ((2, []), (64, []), (64, [16, 1, 100, 1])):
            yield Request("a", d, R=full, N=every, L=listed, P=[9] * first, Q=[8] * second,
                          note="4096 kits into %d and %d places" % (first, second))
    most = [word for place in range(1, BYTE_PLACES + 1) for word in (place, MOST_QUANTITY)]
    ones = [word for place in range(1, BYTE_PLACES + 1) for word in (place, 1)]
    for kind in LARGE_KINDS:
        for listed in ([], ones, most, [1, 15, 2, 3, 40, 2, 255, 15]):
            for d in (0, 1, 2, 20, 40, 63, 64, 65):
                yield Request("a", d, R=full, N=large_table(kind), L=listed, P=[9] * ROOM["P"],
                              Q=[8] * ROOM["Q"], note="4096 nodes, %s, d %d" % (kind, d))


def some_d(chance):
    """A d: mostly a few units, sometimes about 64, sometimes any 16-bit number."""
    return chance.pick((chance.below(7),) * 5 + (chance.between(60, 70), chance.below(65536)))


def places_needed(d, register, words, listed):
    """The places that the answer needs: a call without outputs tells them by 12, or needs none."""
    came = calls.answer(Request("a", d, R=register, N=words, L=listed))
    return came.value if came.number == NO_ROOM else 0


def some_rooms(chance, needed):
    """How long the two outputs are: each about as long as is needed, or of any length."""
    return [min(ROOM["P"], max(0, chance.pick((
        needed - 1, needed, needed, needed, needed + 1, needed + 4, 0,
        chance.below(needed + 3))))) for _ in range(2)]


def some_question(chance, register, words, kits, parts):
    """The d, the bin and the outputs of a request on these tables, as argument and blocks."""
    d, listed = some_d(chance), some_list(chance, kits, parts)
    first, second = some_rooms(chance, places_needed(d, register, words, listed))
    return d, {"L": listed, "P": chance.some_words(first), "Q": chance.some_words(second)}


class Maker:
    """Makes requests by chance on catalogues that it keeps."""

    def __init__(self, chance):
        self.chance = chance
        self.stock = Stock(chance)

    def by_chance(self, letter):
        """A request for this call."""
        register, words, kits, parts = some_tables(self.chance, self.stock)
        d, lent = some_question(self.chance, register, words, kits, parts)
        return Request(letter, d, R=register, N=words, **lent)
